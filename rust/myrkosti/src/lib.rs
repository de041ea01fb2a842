//! The control side of link aggregation (LACP and Marker, IEEE Std 802.3ad-2000, Clause 43) for an access switch: a safe
//! interface to `libmyrkosti`, whose calls are proved to meet their contracts.
//!
//! A [`Table`] is one Aggregation System of 1 to 32 ports. You tell it what happens (frames, ticks, link and
//! duplex, settings), send what it gives you to send, and read from its reports which ports form one trunk:
//!
//! ```
//! use myrkosti::{Block, Counters, Refusal, Settings, SystemId, Table, FRAME};
//!
//! # fn main() -> Result<(), Refusal> {
//! let ours = SystemId { priority: 0x8000, address: [0x02, 0, 0, 0, 0, 9] };
//! let settings = Settings {
//!     address: [0x02, 0, 0, 0, 0, 1],
//!     key: 1,
//!     port_priority: 0x8000,
//!     activity: true,
//!     short_timeout: true,
//!     aggregation: true,
//!     default_partner: Block::default(),
//! };
//! let mut table = Table::start(2, ours, 0, &settings)?;
//! let mut counters = [Counters::default(); 2]; // of port 1, of port 2
//! table.line(1, true, true)?; // up, at full duplex
//!
//! let mut out = [0; FRAME];
//! assert_eq!(table.due()?.iter().collect::<Vec<_>>(), [1]);
//! assert_eq!(table.fetch(1, &mut out, &mut counters[0])?.len(), FRAME); // send it on port 1
//! assert_eq!(table.fetch(1, &mut out, &mut counters[0]), Err(Refusal::NothingToSend));
//! assert_eq!(table.receive(1, b"no frame of ours", &mut out, &mut counters[0]), Err(Refusal::Foreign));
//!
//! for _ in 0..20 {
//!     table.tick()?; // ten times a second
//!     for port in table.due()?.iter() {
//!         table.fetch(port, &mut out, &mut counters[port as usize - 1])?; // send it on that port
//!     }
//! }
//! assert!(table.port(1)?.mux.attached());
//! assert_eq!(table.aggregator(1)?.distributing.iter().count(), 0);
//! assert_eq!(counters.map(|port| port.lacpdus_sent), [3, 0]);
//! # Ok(())
//! # }
//! ```
//!
//! No call panics, whatever it is given. After a refused call, table and outgoing buffer hold what they held before.
//!
//! [`Counters`] of each port are the caller's: what the support desk reads of received and sent frames. They stand outside the table, are
//! lent to each [`Table::receive`] and [`Table::fetch`] on that port, and may hold any numbers then. Who keeps none lends some that nobody
//! reads.
//!
//! Before a conversation is moved to another link, the one that it leaves must have drained. [`Table::ask`] gives a Marker to be sent
//! behind it, and the port's [`Record`] then says whether its Response came: [`Asked`].
//!
//! Why a port does not carry, and why two ports are in no common trunk, [`Table::why`] and [`Table::apart`] say in one sentence each:
//! [`Why`], [`Apart`].
//!
//! Before churn was watched for, a table had another form. [`Table::from_old`] and [`Table::to_old`] move one from either form into the
//! other while its trunks carry: for firmware that is changed between two calls.
//!
//! The library is an archive, which is linked, and a call is a call. For tests the same interface can hand each call to a small program
//! that links an archive, of this machine or of another, which an emulator then runs (`build.rs`): too slow for a switch. Should that
//! program not run, calls are refused with [`Refusal::Unreachable`].
//!
//! [`raw`] has the calls as in `include/myrkosti.h`, with numbers and lent octets, and a way to perform many at once.

mod answer;
mod apart;
mod asked;
mod churn;
pub mod raw;
mod record;
mod table;
mod why;

pub use answer::{Answer, Refusal};
pub use apart::{Apart, Reasons};
pub use asked::{AskOutcome, Asked};
#[doc(inline)]
pub use calls::{Counters, BLOCK};
pub use churn::{Churn, ChurnMonitor, ChurnSince, ChurnState};
pub use record::{Block, MuxState, PeriodicState, PortState, ReceiveState, Record, Settings, SystemId};
pub use table::{AggregatorReport, PortSet, Received, Table, TableRef};
pub use why::{Cause, Why};

/// The version of the library's interface that this crate was written for.
pub const VERSION: u32 = 0x0202;
/// The most ports that a table has.
pub const PORTS: u32 = 32;
/// Octets of a port's record.
pub const RECORD: usize = 78;
/// Ticks for which a link is watched before it is said to churn (Churn_Detection_Time, 43.4.4).
pub const CHURN_DETECTION_TIME: u16 = 600;
/// The most ticks for which a Marker's Response is awaited; the least is 1.
pub const LONGEST_WAIT: u32 = 600;
/// Octets of every frame that the library writes, without FCS; an outgoing buffer has at least as many.
pub const FRAME: usize = 124;

/// The version of the library's interface. Its high octet changes when a program that was compiled for an earlier one no longer fits,
/// its low octet when something is added: this crate fits a library whose high octet is that of [`VERSION`] and whose low octet is not
/// lower.
///
/// ```
/// # fn main() -> Result<(), myrkosti::Refusal> {
/// let version = myrkosti::version()?;
/// assert!(version >> 8 == myrkosti::VERSION >> 8 && version >= myrkosti::VERSION);
/// # Ok(())
/// # }
/// ```
///
/// # Errors
/// [`Refusal::Unreachable`].
pub fn version() -> Result<u32, Refusal> {
    match raw::report(raw::Report::Version, &[], &mut []).answer {
        raw::UNREACHABLE => Err(Refusal::Unreachable),
        version => Ok(version),
    }
}
