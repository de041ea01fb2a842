//! Moves of a table from one form into the other (request M-106). The source is only read, and what the target held does not matter.

use crate::asks::Asked;
use crate::breakage::{self, Breakage};
use crate::calls::Refusal;
use crate::churn::{Churn, ChurnState, Monitor};
use crate::record::{Form, Table, ASKED, BASE, CHURN, HEADER};

/// Moves the table in the source, of the other form, into the target, in the form `to`. Refused, the target is as it was.
pub fn perform(to: Form, source: &[u8], target: &mut [u8]) -> Result<(), Refusal> {
    let moved = match to {
        Form::New => forward(source),
        Form::Old => back(source),
    };
    let moved = moved.or_else(|| taken_wrongly(to, source));
    let Some(mut moved) = moved.filter(|moved| fits(moved.len(), target.len())) else {
        if breakage::is(Breakage::RefusedMoveWritesTarget) {
            target.fill(0);
        }
        return Err(Refusal::TableWrong);
    };
    if to == Form::New && breakage::is(Breakage::ForwardKeepsTargetsCounts) {
        keep_counts(&mut moved, target);
    }
    for (place, octet) in target.iter_mut().zip(moved) {
        *place = octet;
    }
    Ok(())
}

/// A table of the old form in the new: both Churn Detection machines of every port have begun, and run once as after step 6. All else
/// is as it was, its Markers among that.
fn forward(source: &[u8]) -> Option<Vec<u8>> {
    let mut table = Table::read_in(Form::Old, source)?;
    if !begin_wrongly(&mut table) {
        table.watch();
    }
    let moved = table.octets(Form::New);
    Some(if breakage::is(Breakage::ForwardInterleavesChurn) { interleaved(&moved)? } else { moved })
}

/// A table of the new form in the old: without its churn.
fn back(source: &[u8]) -> Option<Vec<u8>> {
    let mut table = Table::read_in(Form::New, source)?;
    if breakage::is(Breakage::BackForgetsAsks) {
        table.ports.iter_mut().for_each(|port| port.asked = Asked::begun());
    }
    let moved = table.octets(Form::Old);
    Some(if breakage::is(Breakage::BackDropsInterleavedChurn) { without_interleaved(source)? } else { moved })
}

/// The target has just the size of what is moved.
fn fits(moved: usize, lent: usize) -> bool {
    lent == moved
        || lent > moved && breakage::is(Breakage::LongTargetAccepted)
        || lent < moved && breakage::is(Breakage::ShortTargetAccepted)
}

// From here on: what the breakages do.

/// A wrong beginning of the churn of a table that goes forward; false if no breakage has one.
fn begin_wrongly(table: &mut Table) -> bool {
    let ports = table.ports.iter_mut();
    match breakage::in_force() {
        Some(Breakage::ForwardRunsNoMonitors) => {}
        Some(Breakage::ForwardFillsZeros) => {
            let zeros = Monitor { state: ChurnState::NoChurn, timer: 0, count: 0 };
            ports.for_each(|port| port.churn = Churn { actor: zeros, partner: zeros });
        }
        Some(Breakage::ForwardTimersAtZero) => {
            ports.for_each(|port| (port.churn.actor.timer, port.churn.partner.timer) = (0, 0));
            table.watch();
        }
        Some(Breakage::ForwardForgetsSends) => {
            ports.for_each(|port| port.ages = [None; 3]);
            table.watch();
        }
        Some(Breakage::ForwardForgetsAsks) => {
            ports.for_each(|port| port.asked = Asked::begun());
            table.watch();
        }
        Some(Breakage::ForwardSetsNtt) => {
            ports.for_each(|port| port.ntt = true);
            table.watch();
        }
        Some(Breakage::ForwardSettles) => table.settle(),
        _ => return false,
    }
    true
}

/// The parts of a table of that form: header and records, churn, and Markers.
fn parts(form: Form, table: &[u8]) -> Option<[&[u8]; 3]> {
    let count = usize::from(*table.first()?);
    if form.size(count as u32) != Some(table.len()) {
        return None;
    }
    let (base, groups) = table.split_at_checked(HEADER + BASE * count)?;
    let (churn, asked) = groups.split_at_checked(groups.len().checked_sub(ASKED * count)?)?;
    Some([base, churn, asked])
}

/// What is made of a source that is to be refused.
fn taken_wrongly(to: Form, source: &[u8]) -> Option<Vec<u8>> {
    let breakage = breakage::in_force()?;
    let [base, churn, asked] = parts(Form::New, source).or_else(|| parts(Form::Old, source))?;
    let churn_in_range = || churn.chunks_exact(CHURN).all(|group| Churn::read(group).is_some());
    let asked_in_range = || asked.chunks_exact(ASKED).all(|group| Asked::read(group).is_some());
    let records_in_range = || {
        let unasked: Vec<u8> = base.iter().copied().chain(asked.iter().map(|_| 0)).collect();
        Table::read_in(Form::Old, &unasked).is_some()
    };
    let old = || [base, asked].concat();
    let begun = || {
        let mut begun = base.to_vec();
        asked.chunks_exact(ASKED).for_each(|_| Churn::begun().write(&mut begun));
        begun.extend(asked);
        begun
    };
    match (to, breakage, churn.is_empty()) {
        (Form::New, Breakage::ForwardTakesTheNewForm, false) => forward(&old()),
        (Form::New, Breakage::ForwardSkipsRecords, true) if asked_in_range() => Some(begun()),
        (Form::New, Breakage::ForwardSkipsAsks, true) if records_in_range() => Some(begun()),
        (Form::Old, Breakage::BackTakesTheOldForm, true) => Some(source.to_vec()),
        (Form::Old, Breakage::BackSkipsMonitors, false) if records_in_range() && asked_in_range() => Some(old()),
        (Form::Old, Breakage::BackSkipsRecords, false) if churn_in_range() && asked_in_range() => Some(old()),
        (Form::Old, Breakage::BackSkipsAsks, false) if records_in_range() && churn_in_range() => Some(old()),
        _ => None,
    }
}

/// The counts in a moved table stay what stands in their places in the target, as far as that goes.
fn keep_counts(moved: &mut [u8], target: &[u8]) {
    let ports = usize::from(moved[0]);
    let groups = HEADER + BASE * ports;
    for count in (groups..groups + CHURN * ports).step_by(CHURN).map(|group| group + 6..group + CHURN) {
        if let Some(kept) = target.get(count.clone()) {
            moved[count].copy_from_slice(kept);
        }
    }
}

/// A table of the new form with the churn of each port behind its record.
fn interleaved(table: &[u8]) -> Option<Vec<u8>> {
    let [base, churn, asked] = parts(Form::New, table)?;
    let (header, records) = base.split_at(HEADER);
    let ports = records.chunks_exact(BASE).zip(churn.chunks_exact(CHURN));
    let ports = ports.flat_map(|(base, churn)| base.iter().chain(churn));
    Some(header.iter().chain(ports).chain(asked).copied().collect())
}

/// The old form of a table whose churn stands so.
fn without_interleaved(table: &[u8]) -> Option<Vec<u8>> {
    let [base, churn, asked] = parts(Form::New, table)?;
    let (header, records) = table[..base.len() + churn.len()].split_at(HEADER);
    let records = records.chunks_exact(BASE + CHURN).flat_map(|record| &record[..BASE]);
    Some(header.iter().chain(records).chain(asked).copied().collect())
}
