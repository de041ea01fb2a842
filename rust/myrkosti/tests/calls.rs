//! Every method of a table, with its refusals, and the version.

use myrkosti::{
    raw, version, AskOutcome, Asked, Block, Cause, Churn, ChurnMonitor, ChurnState, Counters, MuxState, PortState,
    Reasons, ReceiveState, Received, Refusal, Settings, SystemId, Table, TableRef, Why, FRAME, LONGEST_WAIT, RECORD,
    VERSION,
};

const OURS: SystemId = SystemId { priority: 1, address: [0, 0, 0, 0, 0, 9] };
const THEIRS: SystemId = SystemId { priority: 1, address: [0, 0, 0, 0, 0, 5] };

fn settings() -> Settings {
    Settings {
        address: [0x02, 0x00, 0x5E, 0x10, 0x20, 0x30],
        key: 1,
        port_priority: 1,
        activity: true,
        short_timeout: true,
        aggregation: true,
        default_partner: Block::default(),
    }
}

fn wrong_default() -> Settings {
    Settings { default_partner: Block { state: PortState::COLLECTING, ..Block::default() }, ..settings() }
}

fn lacpdu(port: u16, partner: &Block) -> [u8; FRAME] {
    lacpdu_of(&theirs(port), partner)
}

/// What their port of that number says of itself.
fn theirs(port: u16) -> Block {
    Block { system: THEIRS, key: 1, port_priority: 1, port, state: PortState(0x3F) }
}

fn lacpdu_of(actor: &Block, partner: &Block) -> [u8; FRAME] {
    let mut frame = [0; FRAME];
    frame[..18].copy_from_slice(&[1, 0x80, 0xC2, 0, 0, 2, 2, 0, 0, 0, 0, 5, 0x88, 9, 1, 1, 1, 20]);
    frame[18..33].copy_from_slice(&actor.to_octets());
    frame[36..38].copy_from_slice(&[2, 20]);
    frame[38..53].copy_from_slice(&partner.to_octets());
    frame[56..58].copy_from_slice(&[3, 16]);
    frame
}

fn marker(kind: u8) -> [u8; FRAME] {
    let mut frame = [0; FRAME];
    frame[..18].copy_from_slice(&[1, 0x80, 0xC2, 0, 0, 2, 2, 0, 0, 0, 0, 5, 0x88, 9, 2, 1, kind, 16]);
    frame[29] = 7;
    frame
}

/// Counters that nobody reads.
fn unread() -> Counters {
    Counters::default()
}

/// What a port says of itself.
fn actor(table: &Table, port: u32) -> Block {
    let record = table.port(port).unwrap();
    Block { system: OURS, key: 1, port_priority: 1, port: port as u16, state: record.actor_state }
}

#[test]
fn the_version_is_the_one_written_for() {
    assert_eq!((version(), VERSION), (Ok(0x0202), 0x0202));
}

#[test]
fn two_links_become_a_trunk() {
    let mut table = Table::start(2, OURS, 0, &settings()).unwrap();
    let mut out = [0xFF; FRAME + 1];
    for port in [1, 2] {
        table.line(port, true, true).unwrap();
        let frame = lacpdu(port as u16, &actor(&table, port));
        assert_eq!(table.receive(port, &frame, &mut out, &mut unread()), Ok(Received::Lacpdu));
        assert_eq!(out, [0xFF; FRAME + 1]);
    }
    for _ in 0..20 {
        assert_eq!(table.port(2).unwrap().mux, MuxState::Waiting);
        table.tick().unwrap();
    }
    let report = table.aggregator(1).unwrap();
    assert_eq!(report.distributing.iter().collect::<Vec<_>>(), [1, 2]);
    assert_eq!((report.count, report.lowest, report.holding.0, report.attached.0), (2, Some(1), 3, 3));
    assert_eq!(table.port(1).unwrap().actor_state, PortState(0x3F));

    let Ok(Received::Marker(response)) = table.receive(1, &marker(1), &mut out, &mut unread()) else {
        panic!("no Response")
    };
    assert_eq!((response.len(), response[16], response[29]), (FRAME, 2, 7));
    assert_eq!(table.receive(1, &marker(2), &mut out, &mut unread()), Err(Refusal::Response));

    for key in 2..5 {
        table.settings(2, &Settings { key, ..settings() }).unwrap();
        assert_eq!(table.fetch(2, &mut out, &mut unread()).unwrap()[26..28], key.to_be_bytes());
    }
    assert_eq!(table.fetch(2, &mut out, &mut unread()), Err(Refusal::NothingToSend));
    table.settings(2, &settings()).unwrap();
    assert_eq!(table.fetch(2, &mut out, &mut unread()), Err(Refusal::TooManySends));
    table.line(1, true, false).unwrap();
    let record = table.port(1).unwrap();
    assert_eq!((record.receive, record.full_duplex), (ReceiveState::LacpDisabled, false));
    assert_eq!(table.aggregator(1).unwrap().lowest, None);
    assert_eq!(table.port(2).unwrap().settings, settings());
}

#[test]
fn a_fourth_lacpdu_goes_once_eleven_ticks_came_after_the_first() {
    let mut table = Table::start(1, OURS, 0, &settings()).unwrap();
    let mut out = [0; FRAME];
    table.line(1, true, true).unwrap();
    for key in 2..5 {
        table.settings(1, &Settings { key, ..settings() }).unwrap();
        assert_eq!(table.fetch(1, &mut out, &mut unread()).map(<[u8]>::len), Ok(FRAME));
    }
    table.settings(1, &settings()).unwrap();
    for age in 0..=10 {
        assert_eq!(table.port(1).unwrap().sends, [Some(age); 3]);
        assert_eq!(table.fetch(1, &mut out, &mut unread()), Err(Refusal::TooManySends));
        table.tick().unwrap();
    }
    assert_eq!(table.fetch(1, &mut out, &mut unread()).map(<[u8]>::len), Ok(FRAME));
    assert_eq!(table.port(1).unwrap().sends, [Some(0), None, None]);
}

#[test]
fn one_call_carries_link_and_duplex() {
    let mut table = Table::start(1, OURS, 0, &settings()).unwrap();
    let mut out = [0; FRAME];
    table.line(1, true, false).unwrap();
    assert_eq!(table.fetch(1, &mut out, &mut unread()), Err(Refusal::NothingToSend));
    table.line(1, true, true).unwrap();
    let frame = lacpdu(1, &actor(&table, 1));
    table.receive(1, &frame, &mut out, &mut unread()).unwrap();
    for _ in 0..20 {
        table.tick().unwrap();
    }
    let trunk = table.clone();
    table.line(1, true, true).unwrap();
    assert_eq!(table, trunk);
    table.line(1, false, false).unwrap();
    let record = table.port(1).unwrap();
    assert_eq!((record.link_up, record.full_duplex, record.receive), (false, false, ReceiveState::PortDisabled));
    assert_eq!((record.mux, record.partner.system), (MuxState::Attached, THEIRS));
}

fn monitor(state: ChurnState, ticks_left: u16, count: u32) -> ChurnMonitor {
    ChurnMonitor { state, ticks_left, count }
}

#[test]
fn a_link_that_never_settles_churns() {
    let mut table = Table::start(2, OURS, 0, &settings()).unwrap();
    let ticks = |table: &mut Table, count| (0..count).for_each(|_| table.tick().unwrap());
    let held = monitor(ChurnState::Monitor, 600, 0);
    ticks(&mut table, 50);
    assert_eq!(table.port(2).unwrap().churn, Churn { actor: held, partner: held });
    table.line(2, true, true).unwrap();
    let settled = monitor(ChurnState::NoChurn, 0, 0);
    assert_eq!(table.port(2).unwrap().churn, Churn { actor: settled, partner: held });
    ticks(&mut table, 599);
    let churn = table.port(2).unwrap().churn;
    assert_eq!(churn, Churn { actor: settled, partner: monitor(ChurnState::Monitor, 1, 0) });
    assert_eq!((churn.churns(), churn.to_string()), (false, "this end settled; far end watched, 1 tick left".into()));
    ticks(&mut table, 1);
    let churn = table.port(2).unwrap().churn;
    assert_eq!(churn, Churn { actor: settled, partner: monitor(ChurnState::Churn, 0, 1) });
    let words = "this end settled; far end churning, out of sync for 600 ticks or more, churned once";
    assert_eq!((churn.churns(), churn.to_string()), (true, words.into()));
    assert_eq!(table.port(1).unwrap().churn, Churn { actor: held, partner: held });

    let mut fallen = table.clone();
    fallen.line(2, false, true).unwrap();
    ticks(&mut fallen, 3);
    let again = monitor(ChurnState::Monitor, 600, 1);
    assert_eq!(fallen.port(2).unwrap().churn, Churn { actor: held, partner: again });

    let frame = lacpdu(2, &actor(&table, 2));
    table.receive(2, &frame, &mut [0; FRAME], &mut unread()).unwrap();
    assert_eq!(table.port(2).unwrap().churn.partner, monitor(ChurnState::NoChurn, 0, 1));
    assert_eq!(table.port(2).unwrap().churn.partner.to_string(), "settled, churned once");
}

#[test]
fn a_table_without_monitors_is_no_table() {
    let table = Table::start(3, OURS, 0, &settings()).unwrap().into_memory();
    assert_eq!((Table::size(3), table.len()), (Some(11 + 78 * 3), 11 + 78 * 3));
    assert!(Table::from_memory(table.clone()).port(3).is_ok());
    for shorter in [unwatched(&table), table[..11 + 71 * 3].to_vec(), table[..11 + 57 * 3].to_vec()] {
        assert_eq!(Table::from_memory(shorter).port(3), Err(Refusal::TableWrong));
    }
}

/// The octets of a table without its monitors.
fn unwatched(table: &[u8]) -> Vec<u8> {
    let ports = usize::from(table[0]);
    [&table[..11 + 57 * ports], &table[11 + 71 * ports..]].concat()
}

/// Two ports: the first carries, the second has churned for a minute.
fn one_carries() -> Table {
    let mut table = Table::start(2, OURS, 0, &settings()).unwrap();
    table.line(1, true, true).unwrap();
    table.line(2, true, true).unwrap();
    for tick in 0..600 {
        if tick % 10 == 0 {
            let frame = lacpdu(1, &actor(&table, 1));
            table.receive(1, &frame, &mut [0; FRAME], &mut unread()).unwrap();
        }
        table.tick().unwrap();
    }
    assert_eq!(table.port(2).unwrap().churn.partner, monitor(ChurnState::Churn, 0, 1));
    table
}

#[test]
fn a_table_moves_into_the_old_form_and_back() {
    let table = one_carries();
    let old = table.to_old().unwrap();
    assert_eq!((&old, Table::old_size(2)), (&unwatched(table.as_octets()), Some(old.len())));
    let mut moved = Table::from_old(&old).unwrap();
    assert_eq!((unwatched(moved.as_octets()), moved.to_old()), (old.clone(), Ok(old.clone())));
    assert_eq!((moved.aggregator(1), moved.due()), (table.aggregator(1), table.due()));
    let (settled, watched) = (monitor(ChurnState::NoChurn, 0, 0), monitor(ChurnState::Monitor, 600, 0));
    let churns = [1, 2].map(|port| moved.port(port).unwrap().churn);
    assert_eq!(churns, [settled, watched].map(|partner| Churn { actor: settled, partner }));
    let mut unmoved = table;
    for _ in 0..40 {
        unmoved.tick().unwrap();
        moved.tick().unwrap();
        assert_eq!((moved.aggregator(1), moved.due()), (unmoved.aggregator(1), unmoved.due()));
        assert_eq!(moved.to_old(), unmoved.to_old());
    }
}

#[test]
fn a_move_in_lent_memory() {
    let table = one_carries();
    let (mut old, mut new) = ([0xA5; 139], [0xA5; 167]);
    table.to_old_in(&mut old).unwrap();
    assert_eq!(table.to_old(), Ok(old.to_vec()));
    let moved = TableRef::from_old_in(&mut new[..], &old).unwrap();
    assert!(moved.port(1).unwrap().mux.attached());
    assert_eq!(Table::from_old(&old).unwrap().as_octets(), moved.as_octets());
}

#[test]
fn a_move_is_refused() {
    assert_eq!([0, 33, u32::MAX].map(Table::old_size), [None; 3]);
    assert_eq!((Table::old_size(1), Table::old_size(32)), (Some(75), Some(2059)));
    let table = one_carries();
    let old = table.to_old().unwrap();
    for octets in (0..400).filter(|octets| *octets != old.len()) {
        let mut lent = vec![0xA5; octets];
        assert_eq!(table.to_old_in(&mut lent), Err(Refusal::TableWrong));
        assert_eq!(lent, vec![0xA5; octets]);
        let mut other = old.clone();
        other.resize(octets, 0);
        assert_eq!(Table::from_old(&other), Err(Refusal::TableWrong));
        let mut other = table.as_octets().to_vec();
        other.resize(octets, 0);
        assert_eq!(Table::from_memory(other).to_old().is_ok(), octets == table.as_octets().len());
    }
    for octets in (0..400).filter(|octets| Some(*octets) != Table::size(2)) {
        let mut lent = vec![0xA5; octets];
        assert!(TableRef::from_old_in(&mut lent[..], &old).is_err());
        assert_eq!(lent, vec![0xA5; octets]);
    }
    assert_eq!(Table::from_old(table.as_octets()), Err(Refusal::TableWrong));
    let (churn, asked) = (11 + 57 * 2, 11 + 71 * 2);
    let wrong =
        [(0, 1), (0, 33), (11, 6), (11 + 57 + 13, 21), (churn, 3), (churn + 4, 3), (asked + 7, 5), (asked + 1, 3)];
    for (at, octet) in wrong {
        let mut wrong = table.as_octets().to_vec();
        wrong[at] = octet;
        let wrong_old = [&wrong[..churn], &wrong[asked..]].concat();
        assert!((churn..asked).contains(&at) || Table::from_old(&wrong_old) == Err(Refusal::TableWrong));
        assert_eq!(Table::from_memory(wrong).to_old(), Err(Refusal::TableWrong));
    }
}

/// The ports that [`Table::due`] gives, which must be those on which a fetch, tried on a copy, is not refused.
fn due(table: &Table) -> Vec<u32> {
    let due = table.due().unwrap();
    for port in 0..=33 {
        assert_eq!(
            table.clone().fetch(port, &mut [0; FRAME], &mut unread()).is_ok(),
            due.contains(port),
            "port {port} of {due:?}"
        );
    }
    due.iter().collect()
}

#[test]
fn what_is_due_is_fetched() {
    let mut table = Table::start(32, OURS, 0, &settings()).unwrap();
    let mut out = [0; FRAME];
    assert_eq!(due(&table), []);
    for port in [1, 2, 32] {
        table.line(port, true, true).unwrap();
    }
    assert_eq!(due(&table), [1, 2, 32]);
    table.line(2, true, false).unwrap();
    assert_eq!(due(&table), [1, 32]);
    for port in due(&table) {
        assert_eq!(table.fetch(port, &mut out, &mut unread()).map(<[u8]>::len), Ok(FRAME));
    }
    assert_eq!(due(&table), []);
    for key in 2..4 {
        table.settings(32, &Settings { key, ..settings() }).unwrap();
        assert_eq!(due(&table), [32]);
        table.fetch(32, &mut out, &mut unread()).unwrap();
    }
    table.settings(32, &settings()).unwrap();
    assert_eq!(due(&table), []);
    assert_eq!(table.fetch(32, &mut out, &mut unread()), Err(Refusal::TooManySends));
}

#[test]
fn refusals() {
    assert_eq!(Table::start(0, OURS, 0, &settings()), Err(Refusal::TableWrong));
    assert_eq!(Table::start(33, OURS, 0, &settings()), Err(Refusal::TableWrong));
    assert_eq!(Table::start(1, OURS, 0, &wrong_default()), Err(Refusal::DefaultWrong));
    let mut table = Table::start(2, OURS, 0, &settings()).unwrap();
    let before = table.clone();
    let mut out = [0xFF; FRAME];
    let frame = lacpdu(1, &Block::default());
    for port in [0, 3, u32::MAX] {
        assert_eq!(table.line(port, true, false), Err(Refusal::NoSuchPort));
        assert_eq!(table.settings(port, &wrong_default()), Err(Refusal::NoSuchPort));
        assert_eq!(table.fetch(port, &mut out, &mut unread()), Err(Refusal::NoSuchPort));
        assert_eq!(table.receive(port, &frame, &mut out, &mut unread()), Err(Refusal::NoSuchPort));
        assert_eq!(table.port(port), Err(Refusal::NoSuchPort));
        assert_eq!(table.aggregator(port), Err(Refusal::NoSuchPort));
        assert_eq!(table.why(port), Err(Refusal::NoSuchPort));
        assert_eq!(
            [(port, 1), (1, port), (port, port)].map(|(p, q)| table.apart(p, q).err()),
            [Some(Refusal::NoSuchPort); 3]
        );
    }
    assert_eq!(table.settings(1, &wrong_default()), Err(Refusal::DefaultWrong));
    assert_eq!(table.fetch(1, &mut out[1..], &mut unread()), Err(Refusal::BufferShort));
    assert_eq!(table.fetch(1, &mut [], &mut unread()), Err(Refusal::BufferShort));
    assert_eq!(table.fetch(1, &mut out, &mut unread()), Err(Refusal::NothingToSend));
    assert_eq!([0, 30].map(|ticks| table.ask(3, ticks, &mut []).err()), [Some(Refusal::NoSuchPort); 2]);
    assert_eq!([0, 30].map(|ticks| table.ask(1, ticks, &mut out[1..]).err()), [Some(Refusal::BufferShort); 2]);
    assert_eq!([0, 601].map(|ticks| table.ask(1, ticks, &mut out).err()), [Some(Refusal::DefaultWrong); 2]);
    assert_eq!([1, 600].map(|ticks| table.ask(1, ticks, &mut out).err()), [Some(Refusal::NotDistributing); 2]);
    assert_eq!(table.receive(1, &[], &mut [], &mut unread()), Err(Refusal::BufferShort));
    assert_eq!(table.receive(1, &[], &mut out, &mut unread()), Err(Refusal::Foreign));
    assert_eq!(table.receive(1, &frame[..123], &mut out, &mut unread()), Err(Refusal::Illegal));
    assert_eq!(table.receive(1, &frame, &mut out, &mut unread()), Err(Refusal::LacpOff));
    assert_eq!(table.receive(1, &marker(1), &mut out, &mut unread()), Err(Refusal::NotCollecting));
    let mut other = frame;
    other[14] = 3;
    assert_eq!(table.receive(1, &other, &mut out, &mut unread()), Err(Refusal::Unknown));
    assert_eq!(table.restart(3, OURS, 0, &settings()), Err(Refusal::TableWrong));
    assert_eq!((table, out), (before, [0xFF; FRAME]));
}

/// Counters that all hold this number, and the same with these added, in the order of the record.
fn counted(number: u32, added: [u32; 7]) -> [Counters; 2] {
    [[number; 7], added.map(|one| number.wrapping_add(one))].map(Counters::from)
}

#[test]
fn a_frame_is_counted_by_what_it_is() {
    let mut table = one_carries();
    table.line(2, false, true).unwrap();
    let (lacpdu, marker, response) = (lacpdu(1, &actor(&table, 1)), marker(1), marker(2));
    let [mut unknown, mut foreign] = [lacpdu; 2];
    (unknown[14], foreign[5]) = (3, 3);
    for (port, frame, out, answer, added) in [
        (1, &lacpdu[..], FRAME, Ok(()), [1, 0, 0, 0, 0, 0, 0]),
        (1, &marker, FRAME, Ok(()), [0, 1, 0, 0, 0, 0, 1]),
        (2, &lacpdu, FRAME, Err(Refusal::LacpOff), [1, 0, 0, 0, 0, 0, 0]),
        (2, &marker, FRAME, Err(Refusal::NotCollecting), [0, 1, 0, 0, 0, 0, 0]),
        (1, &response, FRAME, Err(Refusal::Response), [0, 0, 1, 0, 0, 0, 0]),
        (2, &unknown, FRAME, Err(Refusal::Unknown), [0, 0, 0, 1, 0, 0, 0]),
        (1, &lacpdu[..123], FRAME, Err(Refusal::Illegal), [0, 0, 0, 0, 1, 0, 0]),
        (1, &foreign, FRAME, Err(Refusal::Foreign), [0; 7]),
        (1, &marker, FRAME - 1, Err(Refusal::BufferShort), [0; 7]),
        (3, &lacpdu, FRAME, Err(Refusal::NoSuchPort), [0; 7]),
    ] {
        for number in [0, 41, u32::MAX] {
            let [mut counters, after] = counted(number, added);
            let before = table.clone();
            assert_eq!(table.receive(port, frame, &mut vec![0; out], &mut counters).map(|_| ()), answer);
            assert_eq!(counters, after, "{answer:?}");
            assert!(answer.is_ok() || table == before);
        }
    }
}

#[test]
fn a_fetch_that_is_not_refused_is_counted() {
    let mut table = Table::start(1, OURS, 0, &settings()).unwrap();
    table.line(1, true, true).unwrap();
    let mut counters = Counters::from([7; 7]);
    let mut fetch = |table: &mut Table, port, out: &mut [u8]| {
        let answer = table.fetch(port, out, &mut counters).map(<[u8]>::len);
        assert_eq!(counters, Counters { lacpdus_sent: counters.lacpdus_sent, ..Counters::from([7; 7]) });
        (answer, counters.lacpdus_sent)
    };
    for (key, sent) in (2..5).zip(8..) {
        table.settings(1, &Settings { key, ..settings() }).unwrap();
        assert_eq!(fetch(&mut table, 2, &mut [0; FRAME]), (Err(Refusal::NoSuchPort), sent - 1));
        assert_eq!(fetch(&mut table, 1, &mut [0; FRAME - 1]), (Err(Refusal::BufferShort), sent - 1));
        assert_eq!(fetch(&mut table, 1, &mut [0; FRAME]), (Ok(FRAME), sent));
        assert_eq!(fetch(&mut table, 1, &mut [0; FRAME]), (Err(Refusal::NothingToSend), sent));
    }
    table.settings(1, &settings()).unwrap();
    assert_eq!(fetch(&mut table, 1, &mut [0; FRAME]), (Err(Refusal::TooManySends), 10));
    let mut no_table = Table::from_memory(Box::default());
    assert_eq!(fetch(&mut no_table, 1, &mut [0; FRAME]), (Err(Refusal::TableWrong), 10));
}

/// The Marker that a port is asked for.
fn ask(table: &mut Table, port: u32, ticks: u32) -> Result<[u8; FRAME], Refusal> {
    let (before, mut out) = (table.clone(), [0xFF; FRAME + 1]);
    let asked = table.ask(port, ticks, &mut out).map(|marker| <[u8; FRAME]>::try_from(marker).unwrap());
    assert_eq!(out[FRAME], 0xFF);
    assert!(asked.is_ok() || (&*table, out) == (&before, [0xFF; FRAME + 1]));
    asked
}

fn response_to(marker: &[u8; FRAME]) -> [u8; FRAME] {
    let mut response = *marker;
    (response[11], response[16]) = (5, 2);
    response
}

/// What the table makes of a Response to that Marker on a port.
fn answered(table: &mut Table, port: u32, marker: &[u8; FRAME]) -> Result<(), Refusal> {
    let (mut out, mut counters) = ([0xFF; FRAME], unread());
    let received = table.receive(port, &response_to(marker), &mut out, &mut counters);
    assert!(matches!(received, Ok(Received::Response) | Err(Refusal::Response)), "{received:?}");
    let accepted = received.map(|_| ());
    assert_eq!((out, counters), ([0xFF; FRAME], Counters { marker_responses_received: 1, ..unread() }));
    accepted
}

fn outcome(table: &Table, port: u32) -> (AskOutcome, u16, u32) {
    let Asked { outcome, ticks_left, next_transaction } = table.port(port).unwrap().asked;
    (outcome, ticks_left, next_transaction)
}

#[test]
fn a_marker_is_asked_for_and_answered() {
    let mut table = one_carries();
    assert_eq!(outcome(&table, 1), (AskOutcome::None, 0, 0));
    for transaction in 0..3 {
        let marker = ask(&mut table, 1, LONGEST_WAIT).unwrap();
        let mut laid_out = [0; FRAME];
        laid_out[..6].copy_from_slice(&[0x01, 0x80, 0xC2, 0, 0, 2]);
        laid_out[6..12].copy_from_slice(&settings().address);
        laid_out[12..20].copy_from_slice(&[0x88, 0x09, 2, 1, 1, 16, 0, 1]);
        laid_out[20..26].copy_from_slice(&OURS.address);
        laid_out[29] = transaction;
        assert_eq!(marker, laid_out);
        let next = u32::from(transaction) + 1;
        assert_eq!(outcome(&table, 1), (AskOutcome::Awaiting, 600, next));
        assert_eq!(ask(&mut table, 1, 1), Err(Refusal::AlreadyAwaiting));
        for at in 18..30 {
            let mut other = marker;
            other[at] ^= 0x80;
            assert_eq!(answered(&mut table, 1, &other), Err(Refusal::Response));
        }
        assert_eq!(answered(&mut table, 2, &marker), Err(Refusal::Response));
        assert_eq!(outcome(&table, 1), (AskOutcome::Awaiting, 600, next));
        assert_eq!(answered(&mut table, 1, &marker), Ok(()));
        assert_eq!(outcome(&table, 1), (AskOutcome::Answered, 0, next));
        assert_eq!(answered(&mut table, 1, &marker), Err(Refusal::Response));
    }
    assert_eq!(table.port(1).unwrap().asked.to_string(), "Marker 2 answered");
    assert_eq!((ask(&mut table, 2, 1), outcome(&table, 2)), (Err(Refusal::NotDistributing), (AskOutcome::None, 0, 0)));
}

#[test]
fn a_marker_times_out() {
    let mut table = one_carries();
    let marker = ask(&mut table, 1, 3).unwrap();
    for left in [3, 2, 1] {
        assert_eq!(outcome(&table, 1), (AskOutcome::Awaiting, left, 1));
        assert_eq!(answered(&mut table.clone(), 1, &marker), Ok(()));
        table.tick().unwrap();
    }
    assert_eq!(outcome(&table, 1), (AskOutcome::TimedOut, 0, 1));
    assert_eq!(answered(&mut table, 1, &marker), Err(Refusal::Response));
}

#[test]
fn a_marker_is_cancelled() {
    for (up, full) in [(false, true), (false, false), (true, false)] {
        let mut table = one_carries();
        let marker = ask(&mut table, 1, 30).unwrap();
        table.line(1, true, true).unwrap();
        table.line(2, false, true).unwrap();
        table.settings(1, &Settings { key: 7, ..settings() }).unwrap();
        assert_eq!(outcome(&table, 1), (AskOutcome::Awaiting, 30, 1));
        table.line(1, up, full).unwrap();
        assert_eq!(outcome(&table, 1), (AskOutcome::Cancelled, 0, 1));
        assert_eq!(answered(&mut table, 1, &marker), Err(Refusal::Response));
    }
}

#[test]
fn moves_carry_markers_and_starts_forget_them() {
    let mut table = one_carries();
    let marker = ask(&mut table, 1, 30).unwrap();
    table.tick().unwrap();
    let mut moved = Table::from_old(&table.to_old().unwrap()).unwrap();
    assert_eq!((outcome(&moved, 1), outcome(&moved, 2)), ((AskOutcome::Awaiting, 29, 1), (AskOutcome::None, 0, 0)));
    assert_eq!(answered(&mut moved, 1, &marker), Ok(()));
    table.restart(2, OURS, 0, &settings()).unwrap();
    assert_eq!(outcome(&table, 1), (AskOutcome::None, 0, 0));
    assert_eq!(answered(&mut table, 1, &marker), Err(Refusal::Response));
}

/// Firmware from before Markers were asked for has tables that end before them.
#[test]
fn a_table_from_before_markers_becomes_one_of_today() {
    let table = one_carries();
    let before = &table.as_octets()[..11 + 71 * 2];
    let today = Table::from_memory([before, &[0; 7 * 2]].concat());
    assert_eq!(today.as_octets(), table.as_octets());
    let old = table.to_old().unwrap();
    let before = &old[..11 + 57 * 2];
    assert_eq!(Table::from_old(before), Err(Refusal::TableWrong));
    assert!(Table::from_old(&[before, &[0; 7 * 2]].concat()).is_ok());
}

/// A table of three ports whose links are up, and which have this default.
fn three_up(default_partner: Block) -> Table {
    let mut table = Table::start(3, OURS, 0, &Settings { default_partner, ..settings() }).unwrap();
    (1..=3).for_each(|port| table.line(port, true, true).unwrap());
    table
}

/// A port hears this far end, which repeats what the port says of itself.
fn hear(table: &mut Table, port: u32, far: Block) {
    let ours = Block { key: table.port(port).unwrap().settings.key, ..actor(table, port) };
    table.receive(port, &lacpdu_of(&far, &ours), &mut [0; FRAME], &mut unread()).unwrap();
}

fn ticks(table: &mut Table, count: u32) {
    (0..count).for_each(|_| table.tick().unwrap());
}

/// Why a port carries or does not. A port carries exactly if its aggregator's report has it.
fn cause(table: &Table, port: u32) -> Cause {
    let why = table.why(port).unwrap();
    let aggregator = table.port(port).unwrap().aggregator.into();
    assert_eq!(why.carries(), table.aggregator(aggregator).unwrap().distributing.contains(port));
    assert_eq!(why, Why { port, cause: why.cause });
    why.cause
}

#[test]
fn every_cause_by_calls() {
    let mut table = Table::start(3, OURS, 0, &settings()).unwrap();
    assert_eq!(cause(&table, 1), Cause::LinkDown);
    table.line(1, false, false).unwrap();
    assert_eq!(cause(&table, 1), Cause::LinkDown);
    table.line(1, true, false).unwrap();
    assert_eq!(cause(&table, 1), Cause::HalfDuplex);
    table.line(1, true, true).unwrap();
    assert_eq!(cause(&table, 1), Cause::Expired);
    ticks(&mut table, 29);
    assert_eq!(cause(&table, 1), Cause::Expired);
    ticks(&mut table, 1);
    assert_eq!(cause(&table, 1), Cause::Defaulted);

    hear(&mut table, 1, theirs(1));
    assert_eq!(cause(&table, 1), Cause::Waits { ticks: 20 });
    ticks(&mut table, 8);
    assert_eq!(table.why(1).unwrap().to_string(), "Port 1 waits, 12 ticks more.");
    for port in [2, 3] {
        table.line(port, true, true).unwrap();
        hear(&mut table, port, theirs(port as u16));
    }
    ticks(&mut table, 11);
    assert_eq!([1, 2, 3].map(|port| cause(&table, port)), [1, 9, 9].map(|ticks| Cause::Waits { ticks }));
    ticks(&mut table, 1);
    assert_eq!(cause(&table, 1), Cause::HeldBack { by: 2, ticks: 8 });
    assert_eq!(table.why(1).unwrap().to_string(), "Port 1 waits for port 2, 8 ticks more.");
    let mut later = table.clone();
    hear(&mut later, 3, Block { port_priority: 2, ..theirs(3) });
    assert_eq!(cause(&later, 1), Cause::HeldBack { by: 3, ticks: 20 });
    ticks(&mut table, 7);
    assert_eq!(cause(&table, 1), Cause::HeldBack { by: 2, ticks: 1 });
    ticks(&mut table, 1);
    assert_eq!([1, 2, 3].map(|port| cause(&table, port)), [Cause::Carries; 3]);

    hear(&mut table, 1, Block { state: PortState(0x37), ..theirs(1) });
    assert_eq!(cause(&table, 1), Cause::OutOfSync);
    hear(&mut table, 1, Block { state: PortState(0x2F), ..theirs(1) });
    assert_eq!(cause(&table, 1), Cause::NotCollecting);
    hear(&mut table, 1, Block { state: PortState(0x27), ..theirs(1) });
    assert_eq!(cause(&table, 1), Cause::OutOfSync);
    hear(&mut table, 1, theirs(1));
    assert_eq!(cause(&table, 1), Cause::Carries);
    ticks(&mut table, 30);
    assert_eq!(cause(&table, 1), Cause::Expired);
    table.line(1, false, true).unwrap();
    assert_eq!(cause(&table, 1), Cause::LinkDown);
}

#[test]
fn a_port_that_carries_on_its_settings_alone_says_so() {
    let mut table = three_up(Block { state: PortState(0x1C), ..Block::default() });
    table.line(2, true, false).unwrap();
    assert_eq!(cause(&table, 1), Cause::Expired);
    assert_eq!(cause(&table, 2), Cause::HalfDuplex);
    ticks(&mut table, 50);
    assert_eq!(
        [1, 2].map(|port| table.port(port).unwrap().receive),
        [ReceiveState::Defaulted, ReceiveState::LacpDisabled]
    );
    assert_eq!([1, 2].map(|port| cause(&table, port)), [Cause::CarriesByDefault; 2]);
    let said = table.why(2).unwrap().to_string();
    assert_eq!(said, "Port 2 carries on its settings alone: no partner is heard to agree.");
    hear(&mut table, 1, theirs(1));
    ticks(&mut table, 20);
    assert_eq!(cause(&table, 1), Cause::Carries);
}

/// The incident: once a new default was written over a partner that had introduced itself, and the port went to an aggregator by itself.
/// Here the partner stays while it is heard, and so does the trunk. When it falls silent the default counts, and the reports say so.
#[test]
fn a_new_default_leaves_a_partner_that_is_heard() {
    let mut table = three_up(Block::default());
    (1..=3).for_each(|port| hear(&mut table, port, theirs(port as u16)));
    ticks(&mut table, 20);
    let default_partner = Block { key: 7, state: PortState(0x1C), ..Block::default() };
    let before = table.port(2).unwrap();
    table.settings(2, &Settings { default_partner, ..settings() }).unwrap();
    let record = table.port(2).unwrap();
    assert_eq!((record.partner, record.mux, record.aggregator), (before.partner, before.mux, before.aggregator));
    assert_eq!((record.settings.default_partner, cause(&table, 2)), (default_partner, Cause::Carries));
    assert!(table.apart(1, 2).unwrap().is_empty());
    let mut causes = Vec::new();
    for tick in 0..60 {
        if tick % 10 == 0 {
            [1, 3].into_iter().for_each(|port| hear(&mut table, port, theirs(port as u16)));
        }
        causes.push(cause(&table, 2));
        table.tick().unwrap();
    }
    causes.dedup();
    assert_eq!(causes, [Cause::Carries, Cause::Expired, Cause::Defaulted]);
    assert_eq!((table.port(2).unwrap().partner, cause(&table, 2)), (default_partner, Cause::CarriesByDefault));
    assert_eq!([1, 3].map(|port| cause(&table, port)), [Cause::Carries; 2]);
    let said = "Ports 1 and 2 are apart: the system priorities of their partners differ, \
                the system addresses of their partners differ, and the keys of their partners differ.";
    assert_eq!(table.apart(1, 2).unwrap().to_string(), said);
}

/// In memory that no calls made a port may have nothing in its way and not carry: attached, with a partner that is in sync and collects.
#[test]
fn no_cause_in_memory_that_no_calls_made() {
    let mut table = three_up(Block::default());
    hear(&mut table, 2, theirs(2));
    ticks(&mut table, 20);
    assert_eq!(cause(&table, 2), Cause::Carries);
    let mut memory = table.into_memory();
    memory[11 + 57 + 2] = 2;
    let table = Table::from_memory(memory);
    assert_eq!(cause(&table, 2), Cause::NoCause);
    let said = table.why(2).unwrap().to_string();
    assert_eq!(said, "Port 2 does not carry, and nothing says why.");
}

#[test]
fn every_reason_by_calls() {
    let apart = |change: &dyn Fn(&mut Table), reasons: Reasons, swapped: Reasons| {
        let mut table = three_up(Block::default());
        (1..=3).for_each(|port| hear(&mut table, port, theirs(port as u16)));
        assert!(table.apart(1, 3).unwrap().is_empty());
        change(&mut table);
        let (there, back) = (table.apart(1, 3).unwrap(), table.apart(3, 1).unwrap());
        assert_eq!((there.reasons, back.reasons), (reasons, swapped));
        assert_eq!((there.first, there.second, back.first, back.second), (1, 3, 3, 1));
        assert_eq!([1, 2, 3].map(|port| table.apart(port, port).unwrap().reasons), [Reasons::default(); 3]);
        let held = |port| table.port(port).unwrap().aggregator;
        assert_eq!((held(1) == held(3), held(2) == held(3)), (there.is_empty(), table.apart(2, 3).unwrap().is_empty()));
        there.to_string()
    };
    let set = |settings: Settings| move |table: &mut Table| table.settings(1, &settings).unwrap();
    let far = |far: Block| move |table: &mut Table| hear(table, 1, far);
    let same = |change: &dyn Fn(&mut Table), reasons: Reasons| apart(change, reasons, reasons);
    assert_eq!(same(&|_| (), Reasons::default()), "Ports 1 and 3 share a group.");
    assert_eq!(
        apart(
            &set(Settings { aggregation: false, ..settings() }),
            Reasons::FIRST_INDIVIDUAL,
            Reasons::SECOND_INDIVIDUAL
        ),
        "Ports 1 and 3 are apart: port 1 is set to stay alone."
    );
    assert_eq!(
        apart(
            &far(Block { state: PortState(0x3B), ..theirs(1) }),
            Reasons::FIRST_PARTNER_INDIVIDUAL,
            Reasons::SECOND_PARTNER_INDIVIDUAL
        ),
        "Ports 1 and 3 are apart: the partner of port 1 stays alone."
    );
    let looped = |reason: Reasons| reason.with(Reasons::PARTNER_SYSTEMS_DIFFER);
    assert_eq!(
        apart(&far(Block { system: OURS, ..theirs(2) }), looped(Reasons::FIRST_LOOPED), looped(Reasons::SECOND_LOOPED)),
        "Ports 1 and 3 are apart: the partner of port 1 is this switch itself, \
         and the system addresses of their partners differ."
    );
    same(&set(Settings { key: 2, ..settings() }), Reasons::KEYS_DIFFER);
    let system = SystemId { priority: 2, ..THEIRS };
    same(&far(Block { system, ..theirs(1) }), Reasons::PARTNER_PRIORITIES_DIFFER);
    let system = SystemId { address: [1, 0, 0, 0, 0, 5], ..THEIRS };
    same(&far(Block { system, ..theirs(1) }), Reasons::PARTNER_SYSTEMS_DIFFER);
    assert_eq!(
        same(&far(Block { key: 0x0101, ..theirs(1) }), Reasons::PARTNER_KEYS_DIFFER),
        "Ports 1 and 3 are apart: the keys of their partners differ."
    );
    // what the selection rule does not read is no reason
    let ones_own = Settings { port_priority: 7, short_timeout: false, activity: false, ..settings() };
    same(&set(ones_own), Reasons::default());
    same(&far(Block { port_priority: 9, port: 9, state: PortState(0x04), ..theirs(1) }), Reasons::default());
    same(&|table| table.line(1, false, false).unwrap(), Reasons::default());
}

/// What comes of a report, which must leave the table as it was.
fn reported(report: raw::Report, table: &[u8]) -> raw::Outcome {
    let request = raw::Request { call: report.into(), table: table.into(), out: vec![0xEE; 9], counters: unread() };
    let reply = raw::perform_all(&[request]).unwrap().pop().unwrap();
    assert_eq!((&reply.table[..], reply.out, reply.counters), (table, vec![0xEE; 9], unread()));
    assert_eq!(raw::report(report, table, &mut []), reply.outcome);
    reply.outcome
}

#[test]
fn why_and_apart_only_read_and_write_every_number() {
    let mut table = three_up(Block::default());
    hear(&mut table, 1, theirs(1));
    let table = table.as_octets();
    let untouched = raw::Outcome::UNTOUCHED;
    let why = |port| raw::Report::Why { port };
    let apart = |first, second| raw::Report::Apart { first, second };
    assert_eq!(reported(why(1), table), raw::Outcome { answer: 0, why: [7, 0, 20], ..untouched });
    assert_eq!(reported(why(2), table), raw::Outcome { answer: 0, why: [6, 0, 0], ..untouched });
    assert_eq!(reported(apart(1, 2), table), raw::Outcome { answer: 0, apart: 0x390, ..untouched });
    assert_eq!(reported(apart(2, 2), table), raw::Outcome { answer: 0, apart: 0, ..untouched });
    for port in [0, 4, 33, 257, 65_537, u32::MAX] {
        assert_eq!(reported(why(port), table), raw::Outcome { answer: 2, why: [0; 3], ..untouched });
        for report in [apart(port, 1), apart(1, port), apart(port, port), apart(0, port)] {
            assert_eq!(reported(report, table), raw::Outcome { answer: 2, apart: 0, ..untouched });
        }
    }
    let old = Table::from_memory(table.to_vec()).to_old().unwrap();
    for wrong in [&[][..], &table[1..], &old] {
        for port in [0, 1, 33] {
            assert_eq!(reported(why(port), wrong), raw::Outcome { answer: 1, why: [0; 3], ..untouched });
            for report in [apart(port, 1), apart(1, port)] {
                assert_eq!(reported(report, wrong), raw::Outcome { answer: 1, apart: 0, ..untouched });
            }
        }
    }
}

#[test]
fn any_memory() {
    for length in [0, 1, 10, 11, 12, 68, 75, 82, 88, 89, 90, 2059, 2507, 2508, 32_768, 300_000] {
        for octet in [0, 1, 255] {
            let mut memory = vec![octet; length];
            let mut table: TableRef<'_> = Table::from_memory(&mut memory[..]);
            let (mut out, mut counters) = ([0; FRAME], Counters::default());
            let all_ones = length == 89 && octet == 1;
            let wrong = |result: Result<(), Refusal>| {
                assert!(all_ones || result == Err(Refusal::TableWrong), "{length} of {octet}: {result:?}");
            };
            wrong(table.tick());
            wrong(table.line(1, true, true));
            wrong(table.settings(1, &settings()));
            wrong(table.fetch(1, &mut out, &mut counters).map(|_| ()));
            wrong(table.receive(1, &[], &mut out, &mut counters).map(|_| ()));
            wrong(table.ask(1, 1, &mut out).map(|_| ()));
            assert!(all_ones || counters == Counters::default());
            wrong(table.port(1).map(|_| ()));
            wrong(table.aggregator(1).map(|_| ()));
            wrong(table.due().map(|_| ()));
            wrong(table.why(1).map(|_| ()));
            wrong(table.apart(1, 1).map(|_| ()));
            wrong(table.to_old().map(|_| ()));
            let of_old_form = length == 75 && octet == 1;
            assert!(of_old_form || Table::from_old(table.as_octets()) == Err(Refusal::TableWrong));
            assert!(all_ones || table.as_octets().iter().all(|at| *at == octet));
        }
    }
}

#[test]
fn lent_memory() {
    let mut memory = [0xA5; 89];
    assert_eq!(Table::size(1), Some(memory.len()));
    let mut table = TableRef::start_in(&mut memory[..], 1, OURS, 0, &settings()).unwrap();
    table.lend().line(1, true, true).unwrap();
    assert!(table.port(1).unwrap().link_up);
    let memory = table.into_memory();
    assert_eq!(memory.len(), 89);
    let again = Table::from_memory(memory);
    assert!(again.port(1).unwrap().link_up);
}

/// The record of a port from its three places in the table.
fn octets(table: &[u8], port: usize) -> Vec<u8> {
    let ports = usize::from(table[0]);
    let place = |before: usize, length: usize| &table[11 + before * ports + length * (port - 1)..][..length];
    [place(0, 57), place(57, 14), place(71, 7)].concat()
}

#[test]
fn a_record_goes_as_far_as_it_fits() {
    let mut table = Table::start(2, OURS, 0, &settings()).unwrap();
    table.line(2, true, true).unwrap();
    let table = table.as_octets();
    let (whole, zeros) = (octets(table, 2), vec![0; RECORD]);
    for lent in 0..=90 {
        for (table, port, answer, record) in [(table, 2, 0, &whole), (table, 3, 2, &zeros), (&table[1..], 2, 1, &zeros)]
        {
            let mut memory = [0xEE; 160];
            assert_eq!(raw::report(raw::Report::Port { port }, table, &mut memory[..lent]).answer, answer);
            let (written, kept) = memory.split_at(lent.min(RECORD));
            assert_eq!(written, &record[..written.len()]);
            assert!(kept.iter().all(|octet| *octet == 0xEE), "{lent} octets lent");
        }
    }
}

#[test]
fn long_areas() {
    let mut table = Table::start(1, OURS, 0, &settings()).unwrap();
    table.line(1, true, true).unwrap();
    let mut out = vec![0xFF; 1_000_000];
    assert_eq!(table.fetch(1, &mut out, &mut unread()).map(<[u8]>::len), Ok(FRAME));
    assert!(out[FRAME..].iter().all(|octet| *octet == 0xFF));
    let mut frame = lacpdu(1, &actor(&table, 1)).to_vec();
    frame.resize(1_000_000, 0xAA);
    assert_eq!(table.receive(1, &frame, &mut out, &mut unread()), Ok(Received::Lacpdu));
    let report = raw::Report::Port { port: 1 };
    assert_eq!(raw::report(report, table.as_octets(), &mut out).answer, 0);
    assert_eq!(out[..RECORD], octets(table.as_octets(), 1));
    assert!(out[FRAME..].iter().all(|octet| *octet == 0xFF));
}

#[test]
fn many_at_once_and_from_many_threads() {
    let table = Table::start(4, OURS, 0, &settings()).unwrap().into_memory().into_vec();
    let counters = Counters::from([1, 2, 3, 4, 5, 6, 7]);
    let request = raw::Request { call: raw::Call::Tick, table, out: Vec::new(), counters };
    std::thread::scope(|scope| {
        for _ in 0..4 {
            scope.spawn(|| {
                let replies = raw::perform_all(&vec![request.clone(); 5000]).unwrap();
                assert_eq!(replies.len(), 5000);
                assert!(replies.iter().all(|reply| reply.outcome.answer == 0 && *reply == replies[0]));
                assert_eq!(replies[0].counters, counters);
            });
        }
    });
}
