//! Two switches of ours, A and B, joined by cables: a plain-text list of events is played on two tables of the library, and
//! what becomes of the trunk, why a port does not carry, which links never settle, and which drain, is shown as a timeline in text and as a
//! picture. The text ends with a page for each trunk, of who carries and who does not and why, and with what each port has counted.
//!
//! ```
//! let script = demo::parse("switches 2\nup 1\nup 2\ntick 30\n").unwrap();
//! let story = demo::play(&script).unwrap();
//! assert!(demo::text(&story).contains("A and B: aggregator 1 carries on ports 1 2 after 21 ticks."));
//! assert!(demo::svg(&story).starts_with("<svg"));
//! assert_eq!(demo::parse("tick x").unwrap_err(), "line 1: 'tick' wants a number from 1 to 100000, found 'x'");
//! ```

mod cabling;
mod network;
mod outcome;
mod page;
mod picture;
mod script;
mod story;
mod timeline;
mod trunk;

pub use picture::svg;
pub use script::{parse, Script, BUILT_IN};
pub use story::{play, Story};
pub use timeline::{text, LINE};
