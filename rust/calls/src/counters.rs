//! The counters of a port.

use std::fmt;

/// The counters of a port (30.7.3), for the page on which the support desk reads them. They stand outside the table, with the caller,
/// who lends them to every receive and fetch on that port; each wraps at 2^32. Prints on one line, in words.
#[derive(Clone, Copy, Debug, Default, PartialEq, Eq, Hash)]
#[repr(C)] // the record of the C interface
pub struct Counters {
    /// LACPDUs received, accepted or not.
    pub lacpdus_received: u32,
    /// Markers received, accepted or not.
    pub markers_received: u32,
    /// Marker Responses received.
    pub marker_responses_received: u32,
    /// Frames received that are of another type or of an unknown Slow Protocol.
    pub unknown_received: u32,
    /// Frames received that break the rules of their subtype.
    pub illegal_received: u32,
    /// LACPDUs sent.
    pub lacpdus_sent: u32,
    /// Marker Responses sent.
    pub marker_responses_sent: u32,
}

impl Counters {
    /// The counters in words, in the order of the record.
    pub const NAMES: [&'static str; 7] = [
        "LACPDUs received",
        "Markers received",
        "Marker Responses received",
        "unknown frames received",
        "illegal frames received",
        "LACPDUs sent",
        "Marker Responses sent",
    ];

    /// The counters, in the order of the record.
    pub fn numbers(&self) -> [u32; 7] {
        [
            self.lacpdus_received,
            self.markers_received,
            self.marker_responses_received,
            self.unknown_received,
            self.illegal_received,
            self.lacpdus_sent,
            self.marker_responses_sent,
        ]
    }
}

impl From<[u32; 7]> for Counters {
    /// The counters that [`Counters::numbers`] are these.
    fn from(numbers: [u32; 7]) -> Counters {
        let [lacpdus_received, markers_received, marker_responses_received, unknown_received, illegal_received, lacpdus_sent, marker_responses_sent] =
            numbers;
        Counters {
            lacpdus_received,
            markers_received,
            marker_responses_received,
            unknown_received,
            illegal_received,
            lacpdus_sent,
            marker_responses_sent,
        }
    }
}

impl fmt::Display for Counters {
    fn fmt(&self, f: &mut fmt::Formatter<'_>) -> fmt::Result {
        let words = Counters::NAMES.iter().zip(self.numbers()).map(|(name, number)| format!("{name} {number}"));
        f.write_str(&words.collect::<Vec<_>>().join(", "))
    }
}

#[cfg(test)]
mod tests {
    use super::Counters;

    #[test]
    fn in_words() {
        let numbers = [u32::MAX, 1, 2, 3, 4, 5, 6];
        let counters = Counters::from(numbers);
        assert_eq!((counters.numbers(), Counters::default().numbers()), (numbers, [0; 7]));
        assert_eq!((counters.lacpdus_received, counters.marker_responses_sent), (u32::MAX, 6));
        assert_eq!(
            counters.to_string(),
            "LACPDUs received 4294967295, Markers received 1, Marker Responses received 2, unknown frames received 3, \
             illegal frames received 4, LACPDUs sent 5, Marker Responses sent 6"
        );
    }
}
