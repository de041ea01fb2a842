//! The calls of `include/myrkosti.h`: numbers and lent octets, slices for pointers and lengths.
//!
//! They answer the number that the library answers. What the header says of each holds here too: an answer other than 0 leaves the
//! table, the outgoing buffer and the memory for a moved table as they came, and `sent`, as much of a record as fits, the five numbers of
//! an aggregator, the set of what is due, the three numbers of why and the set of reasons are written by every call that has them. Counters
//! may be moved by a refused frame too.
//!
//! [`perform`] takes one call, [`report`] one that only reads the table. [`perform_all`] takes many calls at once, each with its own
//! memory, which is much faster where the library is in a process of its own.

use std::error::Error;
use std::fmt;

#[cfg(not(direct))]
#[path = "bridge.rs"]
mod machine;

#[cfg(direct)]
#[path = "direct.rs"]
#[allow(unsafe_code)]
mod machine;

#[doc(inline)]
pub use calls::{Call, Counters, Outcome, Reply, Report, Request, SettingsArguments};
pub use machine::{perform, report};

/// Answered where the library could not be reached, which happens only if it is in a process of its own. Nothing that was lent is changed
/// then, and the numbers beside the answer are zero.
pub const UNREACHABLE: u32 = u32::MAX;

/// The library could not be reached.
#[derive(Debug)]
pub struct Unreachable(String);

impl fmt::Display for Unreachable {
    fn fmt(&self, f: &mut fmt::Formatter<'_>) -> fmt::Result {
        write!(f, "the library could not be reached: {}", self.0)
    }
}

impl Error for Unreachable {}

/// Performs each request in turn, each on its own memory, and gives their replies.
///
/// # Errors
/// Only where the library is in a process of its own, which did not start or ended.
pub fn perform_all(requests: &[Request]) -> Result<Vec<Reply>, Unreachable> {
    machine::perform_all(requests)
}
