//! The page of a trunk: who carries, who does not and why, and who is apart and by what, as the support desk reads it.

use crate::cabling::Switch;
use crate::timeline::{wrap, LINE};
use myrkosti::{Apart, Refusal, Table, Why};

const LABEL: usize = 9;

/// A trunk of a switch: an aggregator on which some port carries.
pub struct TrunkPage {
    /// The aggregator; none of the page of a switch on which no port carries.
    aggregator: Option<u32>,
    /// Its ports: those that carry, and those that do not.
    ports: Vec<Why>,
    /// The other ports of the switch, and by what each is apart from the first that carries.
    others: Vec<(Why, Apart)>,
}

impl TrunkPage {
    /// The pages of a switch: one for each trunk, or one that tells why no port carries.
    pub fn all(table: &Table, ports: u32) -> Result<Vec<TrunkPage>, Refusal> {
        let mut pages = Vec::new();
        for aggregator in 1..=ports {
            if let Some(lowest) = table.aggregator(aggregator)?.lowest {
                pages.push(TrunkPage::of(table, ports, aggregator, lowest)?);
            }
        }
        if pages.is_empty() {
            let ports = (1..=ports).map(|port| table.why(port)).collect::<Result<_, _>>()?;
            pages.push(TrunkPage { aggregator: None, ports, others: Vec::new() });
        }
        Ok(pages)
    }

    fn of(table: &Table, ports: u32, aggregator: u32, lowest: u32) -> Result<TrunkPage, Refusal> {
        let holding = table.aggregator(aggregator)?.holding;
        let mut page = TrunkPage { aggregator: Some(aggregator), ports: Vec::new(), others: Vec::new() };
        for port in 1..=ports {
            let why = table.why(port)?;
            if holding.contains(port) {
                page.ports.push(why);
            } else {
                page.others.push((why, table.apart(lowest.min(port), lowest.max(port))?));
            }
        }
        Ok(page)
    }

    /// A heading, and a line or a few for each port.
    pub fn lines(&self, switch: Switch) -> Vec<String> {
        let heading = match self.aggregator {
            Some(aggregator) => format!("Trunk page of {switch:?}, aggregator {aggregator}"),
            None => format!("Trunk page of {switch:?}: no port carries"),
        };
        let said = |carry: bool| self.ports.iter().filter(move |why| why.carries() == carry).map(Why::to_string);
        let apart = self.others.iter().map(|(why, apart)| format!("{why} {apart}"));
        let parts: [(&str, Vec<String>); 3] =
            [("carry", said(true).collect()), ("do not", said(false).collect()), ("apart", apart.collect())];
        let lines = parts.iter().flat_map(|(label, said)| part(label, said));
        [String::new(), heading, String::new()].into_iter().chain(lines).collect()
    }
}

/// Sentences behind a label, which stands before the first of them alone.
fn part(label: &str, said: &[String]) -> Vec<String> {
    let lines = said.iter().flat_map(|sentence| wrap(sentence, LINE - LABEL));
    let labels = std::iter::once(label).chain(std::iter::repeat(""));
    lines.zip(labels).map(|(line, label)| format!("{label:<LABEL$}{line}")).collect()
}
