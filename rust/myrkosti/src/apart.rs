//! Why two ports are in no common group.

use std::fmt;

/// Why two ports are in no common group, and so never in one trunk; or that they share one. Prints as one sentence with all reasons.
///
/// ```
/// # use myrkosti::{Block, PortState, Reasons, Refusal, Settings, SystemId, Table};
/// # fn main() -> Result<(), Refusal> {
/// # let default_partner = Block { key: 1, state: PortState::AGGREGATION, ..Block::default() };
/// # let ours = SystemId { priority: 1, address: [0, 0, 0, 0, 0, 9] };
/// # let settings = Settings { address: [0; 6], key: 1, port_priority: 1, activity: true, short_timeout: true,
/// #     aggregation: true, default_partner };
/// # let mut table = Table::start(5, ours, 0, &settings)?;
/// assert!(table.apart(3, 5)?.is_empty());
/// table.settings(5, &Settings { key: 2, ..settings })?;
/// assert_eq!(table.apart(3, 5)?.reasons, Reasons::KEYS_DIFFER);
/// assert_eq!(table.apart(3, 5)?.to_string(), "Ports 3 and 5 are apart: their own keys differ.");
/// # Ok(())
/// # }
/// ```
#[derive(Clone, Copy, Debug, PartialEq, Eq, Hash)]
pub struct Apart {
    /// The first port, from 1.
    pub first: u32,
    /// The second.
    pub second: u32,
    /// By what they are apart.
    pub reasons: Reasons,
}

/// A set of reasons for which two ports are apart: what the selection rule compares, each for itself.
#[derive(Clone, Copy, Debug, Default, PartialEq, Eq, Hash)]
pub struct Reasons(pub u32);

impl Reasons {
    /// The first port's own Aggregation is clear.
    pub const FIRST_INDIVIDUAL: Reasons = Reasons(0x001);
    /// The Aggregation of the first port's partner is clear.
    pub const FIRST_PARTNER_INDIVIDUAL: Reasons = Reasons(0x002);
    /// The first port's partner is our own system.
    pub const FIRST_LOOPED: Reasons = Reasons(0x004);
    /// The second port's own Aggregation is clear.
    pub const SECOND_INDIVIDUAL: Reasons = Reasons(0x008);
    /// The Aggregation of the second port's partner is clear.
    pub const SECOND_PARTNER_INDIVIDUAL: Reasons = Reasons(0x010);
    /// The second port's partner is our own system.
    pub const SECOND_LOOPED: Reasons = Reasons(0x020);
    /// Their own keys differ.
    pub const KEYS_DIFFER: Reasons = Reasons(0x040);
    /// The system priorities of their partners differ.
    pub const PARTNER_PRIORITIES_DIFFER: Reasons = Reasons(0x080);
    /// The system addresses of their partners differ.
    pub const PARTNER_SYSTEMS_DIFFER: Reasons = Reasons(0x100);
    /// The keys of their partners differ.
    pub const PARTNER_KEYS_DIFFER: Reasons = Reasons(0x200);

    /// The reasons that have a name here.
    const NAMED: u32 = 0x3FF;

    /// Whether all reasons of `reasons` are in this set.
    pub const fn has(self, reasons: Reasons) -> bool {
        self.0 & reasons.0 == reasons.0
    }

    /// This set with the reasons of `reasons` too.
    #[must_use]
    pub const fn with(self, reasons: Reasons) -> Reasons {
        Reasons(self.0 | reasons.0)
    }

    /// Whether there is none: the two ports share a group.
    pub const fn is_empty(self) -> bool {
        self.0 == 0
    }
}

impl Apart {
    /// Whether there is no reason: the two ports share a group.
    pub const fn is_empty(self) -> bool {
        self.reasons.is_empty()
    }

    /// Each reason in words, in the order of the set.
    fn words(self) -> Vec<String> {
        let Apart { first, second, reasons } = self;
        let of_port = |port: u32, own, partners, looped| {
            [
                (own, format!("port {port} is set to stay alone")),
                (partners, format!("the partner of port {port} stays alone")),
                (looped, format!("the partner of port {port} is this switch itself")),
            ]
        };
        let of_both = [
            (Reasons::KEYS_DIFFER, "their own keys differ"),
            (Reasons::PARTNER_PRIORITIES_DIFFER, "the system priorities of their partners differ"),
            (Reasons::PARTNER_SYSTEMS_DIFFER, "the system addresses of their partners differ"),
            (Reasons::PARTNER_KEYS_DIFFER, "the keys of their partners differ"),
            (Reasons(reasons.0 & !Reasons::NAMED), "there are reasons that have no name here"),
        ];
        let first = of_port(first, Reasons::FIRST_INDIVIDUAL, Reasons::FIRST_PARTNER_INDIVIDUAL, Reasons::FIRST_LOOPED);
        let second =
            of_port(second, Reasons::SECOND_INDIVIDUAL, Reasons::SECOND_PARTNER_INDIVIDUAL, Reasons::SECOND_LOOPED);
        let of_both = of_both.map(|(reason, words)| (reason, words.to_string()));
        let all = first.into_iter().chain(second).chain(of_both);
        all.filter(|(reason, _)| !reason.is_empty() && reasons.has(*reason)).map(|(_, words)| words).collect()
    }
}

impl fmt::Display for Apart {
    fn fmt(&self, f: &mut fmt::Formatter<'_>) -> fmt::Result {
        write!(f, "Ports {} and {} ", self.first, self.second)?;
        match self.words().as_slice() {
            [] => f.write_str("share a group."),
            [only] => write!(f, "are apart: {only}."),
            [rest @ .., last] => write!(f, "are apart: {}, and {last}.", rest.join(", ")),
        }
    }
}

#[cfg(test)]
mod tests {
    use super::*;

    fn sentence(reasons: u32) -> String {
        Apart { first: 3, second: 5, reasons: Reasons(reasons) }.to_string()
    }

    #[test]
    fn sentences() {
        assert_eq!(sentence(0), "Ports 3 and 5 share a group.");
        let said = [
            "port 3 is set to stay alone",
            "the partner of port 3 stays alone",
            "the partner of port 3 is this switch itself",
            "port 5 is set to stay alone",
            "the partner of port 5 stays alone",
            "the partner of port 5 is this switch itself",
            "their own keys differ",
            "the system priorities of their partners differ",
            "the system addresses of their partners differ",
            "the keys of their partners differ",
            "there are reasons that have no name here",
            "there are reasons that have no name here",
        ];
        for (bit, said) in said.iter().enumerate() {
            assert_eq!(sentence(1 << bit), format!("Ports 3 and 5 are apart: {said}."));
        }
        assert_eq!(
            sentence(0x240),
            "Ports 3 and 5 are apart: their own keys differ, and the keys of their partners differ."
        );
        let (named, last) = (said[..10].join(", "), said[10]);
        assert_eq!(sentence(u32::MAX), format!("Ports 3 and 5 are apart: {named}, and {last}."));
    }

    #[test]
    fn sets() {
        let both = Reasons::FIRST_LOOPED.with(Reasons::PARTNER_KEYS_DIFFER);
        assert_eq!((both, both.is_empty(), Reasons::default().is_empty()), (Reasons(0x204), false, true));
        assert!(both.has(Reasons::FIRST_LOOPED) && !both.has(Reasons(0x205)) && both.has(Reasons(0)));
        assert!(Apart { first: 1, second: 1, reasons: Reasons(0) }.is_empty());
    }
}
