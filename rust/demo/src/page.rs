//! The port page of a switch: what its ports received and sent, and what came of their Markers, as the support desk reads it.

use crate::cabling::{Port, Switch};
use crate::timeline::wrap;
use myrkosti::{Asked, Counters};

const LABEL: usize = 9;
/// Leaves a space before the highest number.
const COLUMN: usize = 11;
/// The name of the column behind the counters.
const ASKED: &str = "last Marker asked for";

/// A heading, the names of the counters over their columns, and a row for each port; behind them what came of its last Marker.
pub fn page(switch: Switch, ports: &[Counters], asked: &[Asked]) -> Vec<String> {
    let rows = (1..).zip(ports.iter().zip(asked)).map(|(number, (counters, asked))| {
        let numbers = counters.numbers().map(|number| number.to_string());
        row(&Port { switch, number }.to_string(), numbers.into_iter().chain([asked.outcome.to_string()]))
    });
    let heading = format!("Port page of {switch:?}: what has come in and gone out on each port");
    [String::new(), heading, String::new()].into_iter().chain(names()).chain(rows).collect()
}

/// The names, a word or a few above the other, so that they end just over the numbers.
fn names() -> Vec<String> {
    let names: Vec<_> = Counters::NAMES.into_iter().chain([ASKED]).map(|name| wrap(name, COLUMN - 1)).collect();
    let height = names.iter().map(Vec::len).max().unwrap_or(0);
    let words = |line: usize, name: &Vec<String>| {
        (line + name.len()).checked_sub(height).map_or_else(String::new, |at| name[at].clone())
    };
    (0..height).map(|line| row("", names.iter().map(|name| words(line, name)))).collect()
}

fn row(label: &str, columns: impl IntoIterator<Item = String>) -> String {
    columns.into_iter().fold(format!("{label:<LABEL$}"), |row, column| format!("{row}{column:>COLUMN$}"))
}

#[cfg(test)]
mod tests {
    use super::*;
    use myrkosti::AskOutcome;

    #[test]
    fn the_highest_numbers_stay_apart() {
        let asked = [AskOutcome::None, AskOutcome::TimedOut].map(|outcome| Asked {
            outcome,
            ticks_left: 0,
            next_transaction: 0,
        });
        let page = page(Switch::B, &[Counters::from([1, 2, 3, 4, 5, 6, 7]), Counters::from([u32::MAX; 7])], &asked);
        assert_eq!(
            page[2..].join("\n"),
            "
                                    Marker    unknown    illegal                Marker       last
             LACPDUs    Markers  Responses     frames     frames    LACPDUs  Responses     Marker
            received   received   received   received   received       sent       sent  asked for
B1                 1          2          3          4          5          6          7       none
B2        4294967295 4294967295 4294967295 4294967295 4294967295 4294967295 4294967295  timed out"
        );
    }
}
