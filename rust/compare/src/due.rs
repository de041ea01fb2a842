//! What the library said is due, held against what it then answers to a fetch.

use crate::world::FRAME;
use calls::{Call, Reply, Report, Request};
use std::fmt;

/// What was said last, of which table, and how many fetches were held against what was said.
#[derive(Default)]
pub struct Said {
    table: Vec<u8>,
    /// The answer and the set.
    due: Option<(u32, u32)>,
    /// Fetches on a port that was in the set.
    pub sent: u64,
    /// Fetches on another port, or with a short buffer, or of memory that is no table.
    pub refused: u64,
}

impl Said {
    /// Takes note of a reply of the library's: what is due, and a fetch on the same table, which must be answered accordingly. What is
    /// wrong with it, if anything is.
    pub fn hold(&mut self, request: &Request, reply: &Reply) -> Option<String> {
        let answer = reply.outcome.answer;
        match (&request.call, self.due) {
            (Call::Report(Report::Due), _) => {
                self.table.clone_from(&request.table);
                self.due = Some((answer, reply.outcome.due));
            }
            (Call::Fetch { port }, Some((0, ports))) if request.table == self.table => {
                let is_due = contains(ports, *port) && request.out.len() >= FRAME;
                if is_due != (answer == 0) {
                    return Some(format!("  due are {ports:#b}, and a fetch on port {port} is answered {answer}"));
                }
                if is_due {
                    self.sent += 1;
                    // The rest of the set is still due: a fetch on one port changes nothing for another.
                    self.due = Some((0, ports & !(1 << (port - 1))));
                    self.table.clone_from(&reply.table);
                } else {
                    self.refused += 1;
                }
            }
            (Call::Fetch { .. }, Some((refusal, _))) if request.table == self.table => {
                if answer != refusal {
                    return Some(format!("  due is answered {refusal}, and a fetch {answer}"));
                }
                self.refused += 1;
            }
            _ => {}
        }
        None
    }
}

/// Whether the port, numbered from 1, is in the set.
fn contains(ports: u32, port: u32) -> bool {
    port.checked_sub(1).and_then(|bit| ports.checked_shr(bit)).is_some_and(|rest| rest & 1 == 1)
}

impl fmt::Display for Said {
    fn fmt(&self, f: &mut fmt::Formatter<'_>) -> fmt::Result {
        write!(f, "fetches as `due` had said: {} that sent, {} that were refused", self.sent, self.refused)
    }
}

#[cfg(test)]
mod tests {
    use super::*;
    use calls::{Counters, Outcome};

    /// Whether what is said, `due`, and then a fetch on port 2 with that answer go together.
    fn agree(due: Outcome, fetched: u32, out: usize) -> bool {
        let counters = Counters::default();
        let ask = |call, out| Request { call, table: vec![1], out: vec![0; out], counters };
        let tell = |outcome| Reply { outcome, table: vec![2], out: Vec::new(), counters };
        let mut said = Said::default();
        assert_eq!(said.hold(&ask(Report::Due.into(), 0), &tell(due)), None);
        said.hold(&ask(Call::Fetch { port: 2 }, out), &tell(Outcome::refused(fetched))).is_none()
    }

    #[test]
    fn a_wrong_set_is_seen() {
        let due = |due| Outcome { due, ..Outcome::refused(0) };
        assert!(agree(due(0b010), 0, FRAME) && !agree(due(0b010), 10, FRAME) && !agree(due(0b010), 11, FRAME));
        assert!(agree(due(0b101), 10, FRAME) && agree(due(0b101), 11, FRAME) && !agree(due(0b101), 0, FRAME));
        assert!(agree(due(0b010), 3, FRAME - 1) && !agree(due(0b010), 0, FRAME - 1));
        assert!(agree(Outcome::refused(1), 1, FRAME) && !agree(Outcome::refused(1), 10, FRAME));
    }

    #[test]
    fn a_set_holds_until_the_table_changes() {
        let mut said = Said::default();
        let mut hold = |call, table: u8, outcome, after: u8| {
            let counters = Counters::default();
            let request = Request { call, table: vec![table], out: vec![0; FRAME], counters };
            said.hold(&request, &Reply { outcome, table: vec![after], out: Vec::new(), counters })
        };
        let fetch = |port| Call::Fetch { port };
        assert_eq!(hold(Report::Due.into(), 1, Outcome { due: 0b11, ..Outcome::refused(0) }, 1), None);
        assert_eq!(hold(fetch(1), 1, Outcome::refused(0), 2), None);
        assert!(hold(fetch(1), 2, Outcome::refused(0), 3).is_some());
        assert_eq!(hold(fetch(2), 2, Outcome::refused(0), 3), None);
        assert_eq!(hold(fetch(33), 3, Outcome::refused(2), 3), None);
        assert_eq!(hold(Call::Tick, 3, Outcome::refused(0), 4), None);
        assert_eq!(hold(fetch(1), 4, Outcome::refused(0), 5), None);
        assert_eq!((said.sent, said.refused), (2, 1));
    }
}
