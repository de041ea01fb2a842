//! Switches, their ports, and which port is joined to which.

use std::fmt;

#[derive(Clone, Copy, Debug, PartialEq, Eq)]
pub enum Switch {
    A,
    B,
}

impl Switch {
    pub const BOTH: [Switch; 2] = [Switch::A, Switch::B];

    /// Its place in a pair of things that the two switches have.
    pub fn index(self) -> usize {
        self as usize
    }
}

/// A port, numbered from 1. Prints as `A1`.
#[derive(Clone, Copy, Debug, PartialEq, Eq)]
pub struct Port {
    pub switch: Switch,
    pub number: u32,
}

impl Port {
    pub fn a(number: u32) -> Port {
        Port { switch: Switch::A, number }
    }

    pub fn b(number: u32) -> Port {
        Port { switch: Switch::B, number }
    }

    /// Its place among the ports of its switch, from 0.
    pub fn index(self) -> usize {
        self.number as usize - 1
    }

    /// The port of that number of the other switch.
    pub fn opposite(self, number: u32) -> Port {
        match self.switch {
            Switch::A => Port::b(number),
            Switch::B => Port::a(number),
        }
    }

    /// The ends, A's and B's, of a cable from this port to port `to` of the other switch.
    pub fn cable_to(self, to: u32) -> (Port, Port) {
        match self.switch {
            Switch::A => (self, self.opposite(to)),
            Switch::B => (self.opposite(to), self),
        }
    }
}

impl fmt::Display for Port {
    fn fmt(&self, f: &mut fmt::Formatter<'_>) -> fmt::Result {
        write!(f, "{:?}{}", self.switch, self.number)
    }
}

/// All ports of both switches, A's first.
pub fn all_ports(ports: u32) -> impl Iterator<Item = Port> {
    (1..=ports).map(Port::a).chain((1..=ports).map(Port::b))
}

/// Where the cables are: for each port of A, the port of B that it is joined to.
pub struct Cabling(Vec<Option<u32>>);

impl Cabling {
    /// Port n of A is joined to port n of B.
    pub fn straight(ports: u32) -> Cabling {
        Cabling((1..=ports).map(Some).collect())
    }

    /// The port at the other end of the cable of this port.
    pub fn far(&self, port: Port) -> Option<Port> {
        match port.switch {
            Switch::A => self.0[port.index()].map(Port::b),
            Switch::B => (1..).map(Port::a).zip(&self.0).find(|(_, b)| **b == Some(port.number)).map(|(a, _)| a),
        }
    }

    /// Joins a port of A to a port of B. Cables that were there before are pulled out.
    pub fn join(&mut self, a: Port, b: Port) {
        for end in self.0.iter_mut().filter(|end| **end == Some(b.number)) {
            *end = None;
        }
        self.0[a.index()] = Some(b.number);
    }
}

#[cfg(test)]
mod tests {
    use super::*;

    #[test]
    fn a_moved_cable_leaves_two_ports_bare() {
        let mut cabling = Cabling::straight(3);
        let (a, b) = Port::b(1).cable_to(2);
        cabling.join(a, b);
        assert_eq!(cabling.far(Port::a(2)), Some(Port::b(1)));
        assert_eq!(cabling.far(Port::b(1)), Some(Port::a(2)));
        assert_eq!((cabling.far(Port::a(1)), cabling.far(Port::b(2))), (None, None));
        assert_eq!(cabling.far(Port::b(3)), Some(Port::a(3)));
    }
}
