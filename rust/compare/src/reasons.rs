//! What the library says of why a port carries or not and of why two are apart, held against the octets of the table, whatever the model
//! says.

use crate::scenario::Kind;
use crate::world;
use calls::{Call, Reply, Report, Request};
use model::record::Table;
use std::fmt;

/// How many reports were held so.
#[derive(Default)]
pub struct Reasons {
    /// Reports of why.
    pub whys: u64,
    /// Reports of two ports that share a group.
    pub together: u64,
    /// Reports of two that are apart.
    pub apart: u64,
}

impl Reasons {
    /// Takes note of a reply of the library's in a run of that kind. What is wrong with it, if anything is.
    pub fn hold(&mut self, kind: Kind, request: &Request, reply: &Reply) -> Option<String> {
        let made = kind != Kind::AnyMemory;
        match (&request.call, reply.outcome.answer) {
            (Call::Report(Report::Why { port }), 0) => {
                self.whys += 1;
                wrong_why(made, &request.table, *port, reply.outcome.why)
            }
            (Call::Report(Report::Apart { first, second }), 0) => {
                let none = reply.outcome.apart == 0;
                *if none { &mut self.together } else { &mut self.apart } += 1;
                wrong_apart(made, &request.table, *first, *second, none)
            }
            _ => None,
        }
    }
}

/// A port carries exactly if it distributes; another port is named where it is held back, and ticks stand where it waits. A table that a run
/// made gives a cause.
fn wrong_why(made: bool, table: &[u8], port: u32, [cause, holder, ticks]: [u32; 3]) -> Option<String> {
    let distributes = world::distributes(table, port);
    let waits = cause == 7 || cause == 8;
    let right = distributes == (cause == 1 || cause == 2)
        && cause <= 10
        && (cause != 0 || !made)
        && (holder != 0) == (cause == 8)
        && (ticks != 0) == waits
        && holder != port;
    (!right).then(|| {
        format!(
            "  port {port} distributes: {distributes}; cause {cause}, holder {holder}, {ticks} ticks; made by a run: {made}"
        )
    })
}

/// Two ports are apart exactly if the rule gives them different aggregators; in a table that a run made, exactly if they hold such.
fn wrong_apart(made: bool, table: &[u8], first: u32, second: u32, none: bool) -> Option<String> {
    let rule = Table::read(table).map_or_else(Vec::new, |table| table.rule());
    let given = |port: u32| rule.get((port as usize).wrapping_sub(1));
    let (by_rule, held) = (
        given(first).is_some() && given(first) == given(second),
        world::held_by(table, first) == world::held_by(table, second),
    );
    (none != by_rule || made && none != held).then(|| {
        format!(
            "  ports {first} and {second} share a group: {none}; by the rule: {by_rule}; hold one aggregator: {held}"
        )
    })
}

impl fmt::Display for Reasons {
    fn fmt(&self, f: &mut fmt::Formatter<'_>) -> fmt::Result {
        write!(
            f,
            "reports as the table has it: {} of why, {} of ports that share a group, {} of ports apart",
            self.whys, self.together, self.apart
        )
    }
}

#[cfg(test)]
mod tests {
    use super::*;
    use calls::SettingsArguments;

    /// Two ports, the first of which distributes if `mux` is 4. Both are individual: their default says so.
    fn two(mux: u8) -> Vec<u8> {
        let mut table = vec![0; model::table_size(2) as usize];
        let (system, settings) = ([0, 0, 0, 0, 0, 9], SettingsArguments::default());
        let start = Call::Start { ports: 2, system_priority: 1, system, collector_max_delay: 0, settings };
        assert_eq!(model::perform(&start, &mut table, &mut [], &mut calls::Counters::default()).answer, 0);
        table[world::HEADER + 2] = mux;
        table
    }

    #[test]
    fn a_wrong_cause_is_seen() {
        let wrong = |mux, why| wrong_why(true, &two(mux), 1, why).is_some();
        assert!(!wrong(4, [1, 0, 0]) && !wrong(4, [2, 0, 0]) && !wrong(1, [3, 0, 0]) && !wrong(1, [10, 0, 0]));
        assert!(wrong(4, [3, 0, 0]) && wrong(3, [1, 0, 0]) && wrong(3, [2, 0, 0]));
        assert!(!wrong(1, [7, 0, 5]) && wrong(1, [7, 0, 0]) && wrong(1, [7, 2, 5]) && wrong(1, [9, 0, 5]));
        assert!(!wrong(1, [8, 2, 5]) && wrong(1, [8, 1, 5]) && wrong(1, [8, 0, 5]) && wrong(1, [9, 2, 0]));
        assert!(wrong(1, [0, 0, 0]) && wrong_why(false, &two(1), 1, [0, 0, 0]).is_none() && wrong(1, [11, 0, 0]));
    }

    #[test]
    fn a_wrong_set_is_seen() {
        let wrong = |made, table: &[u8], second, none| wrong_apart(made, table, 1, second, none).is_some();
        let mut table = two(2);
        assert!(!wrong(true, &table, 2, false) && wrong(true, &table, 2, true) && wrong(true, &table, 1, false));
        table[world::HEADER + 4] = 2;
        assert!(wrong(true, &table, 2, false) && !wrong(false, &table, 2, false));
    }
}
