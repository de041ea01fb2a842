//! The stories that come with the program.

use demo::{parse, play, svg, text, Story, BUILT_IN, LINE};

fn story(script: &str) -> Story {
    play(&parse(script).unwrap()).unwrap()
}

fn row<'a>(text: &'a str, label: &str) -> &'a str {
    text.lines().find_map(|line| line.strip_prefix(label)).unwrap()
}

#[test]
fn the_trunk_is_whole_and_broken() {
    let text = text(&story(BUILT_IN));
    let mut widths = row(&text, "width A").chars().zip(row(&text, "width B").chars());
    assert!(widths.clone().any(|both| both == ('4', '4')) && widths.any(|both| both == ('0', '0')));
    assert!(text.contains("A and B: aggregator 2 carries on ports 2 3 4 after "));
    assert!(text.contains("B4 forgets its partner A4, which B5 hears now."));
    assert!(text.lines().all(|line| line.chars().count() <= LINE));
}

/// A text without its line breaks.
fn words(text: &str) -> String {
    text.split_whitespace().collect::<Vec<_>>().join(" ")
}

/// Stripes of a picture.
fn stripes(svg: &str) -> usize {
    svg.matches("fill='black' stroke='white'").count()
}

#[test]
fn a_link_that_never_settles() {
    let story = story(include_str!("../stories/never-settles.txt"));
    let (text, said) = (text(&story), words(&text(&story)));
    assert!(said.contains("[B2 deaf; link 1, link 2 up]"));
    assert!(said.contains("A2, B2 churn since tick 600 (60 s): the far end is out of sync."), "{said}");
    assert!(said.contains("A2, B2 churned from tick 600 (60 s) to tick 650 (65 s): the far end was out of sync."));
    assert!(said.contains("A2, B2 churn since tick 1270 (127 s): the far end is out of sync."));
    assert!(said.contains("A2 churned from tick 1270 (127 s) to tick 1331 (133.1 s): the far end was out of sync."));
    assert!(said.contains("B2 churned from tick 1270 (127 s) to tick 1311 (131.1 s): the far end was out of sync."));
    let columns = row(&text, "A2 churn").char_indices().filter(|(_, shown)| *shown != ' ');
    assert_eq!(columns.map(|(at, _)| at).collect::<Vec<_>>(), [31, 32, 64, 65, 66]);
    assert!(!text.contains("A1 churn") && row(&text, "width A").ends_with("222"));
    assert!(text.lines().all(|line| line.chars().count() <= LINE));
    assert_eq!(stripes(&svg(&story)), 2 + 4);
}

/// Both stories have the same ports in the same aggregators, and the same LACPDUs sent, in every tick, and the same port pages and
/// Markers.
fn carry_alike(one: &Story, other: &Story) {
    assert_eq!(one.held(), other.held());
    assert_eq!(one.sent(), other.sent());
    assert_eq!(one.counters(), other.counters());
    assert_eq!(one.asked(), other.asked());
}

#[test]
fn a_trunk_carries_on_while_its_table_is_moved() {
    let script = include_str!("../stories/new-firmware.txt");
    let unmoved: Vec<&str> = script.lines().filter(|line| !line.starts_with("reload")).collect();
    let (story, unmoved) = (story(script), story(&unmoved.join("\n")));
    carry_alike(&story, &unmoved);
    let (told, unmoved) = (text(&story), text(&unmoved));
    for port in ["A1", "A2", "A3", "B1", "B2", "B3", "width A", "width B"] {
        assert_eq!(row(&told, port), row(&unmoved, port));
    }
    let said = words(&told);
    let moved = "moved into the old form and into the new again, churn counts begin at 0]";
    assert!(
        said.contains(&format!("[table of A {moved}")) && said.contains(&format!("[table of A, table of B {moved}"))
    );
    assert_eq!(said.matches("A and B: aggregator 1 carries on ports 1 2 all the while.").count(), 2, "{said}");
    assert!(said.contains("A3 churned from tick 600 (60 s) to tick 650 (65 s): the far end was out of sync."));
    assert!(said.contains("A3 churns since tick 1250 (125 s): the far end is out of sync."));
    assert!(said.contains("B3 churned from tick 600 (60 s) to tick 1290 (129 s): the far end was out of sync."));
    assert!(words(&svg(&story)).contains("table of A"));
}

#[test]
fn a_table_may_be_moved_in_every_tick() {
    let every_tick = |line: &str| match line.strip_prefix("tick ") {
        Some(ticks) => "reload A\nreload B\ntick 1\n".repeat(ticks.parse().unwrap()),
        None => format!("{line}\n"),
    };
    for script in [BUILT_IN, include_str!("../stories/silent-first-link.txt"), include_str!("../stories/drained.txt")] {
        carry_alike(&story(script), &story(&script.lines().map(every_tick).collect::<String>()));
    }
}

#[test]
fn both_ends_churn_where_a_key_is_changed_again_and_again() {
    let story = story(&format!("switches 1\nup 1\n{}tick 40", "key A 1 2\ntick 10\nkey A 1 1\ntick 10\n".repeat(32)));
    let text = text(&story);
    assert!(row(&text, "A1 churn").contains('b') && row(&text, "B1 churn").contains('b'), "{text}");
    assert!(words(&text).contains("A1, B1 churn since tick 600 (60 s): this end is out of sync."), "{text}");
    assert_eq!(stripes(&svg(&story)), 2 + 4);
}

#[test]
fn what_settles_shows_nothing_of_churn() {
    for script in [BUILT_IN, include_str!("../stories/silent-first-link.txt")] {
        let story = story(script);
        assert!(!text(&story).contains("churn") && !svg(&story).contains("churn"));
        assert_eq!(stripes(&svg(&story)), 0);
    }
}

/// The LACPDUs that the ports of A, and those of B, received and sent.
fn lacpdus(story: &Story) -> [Vec<(u32, u32)>; 2] {
    story.counters().each_ref().map(|ports| {
        let counted = ports.iter().map(|port| (port.lacpdus_received, port.lacpdus_sent));
        counted.collect()
    })
}

#[test]
fn what_one_end_sends_the_other_counts() {
    let [a, b] = lacpdus(&story("switches 2\nup 1\ntick 35\nhalf A 1\ntick 20"));
    assert_eq!((a[0], a[1], b[1]), ((b[0].1, b[0].0), (0, 0), (0, 0)));
    assert!(a[0].0 > a[0].1, "LACPDUs count while LACP is off too: {a:?}");
    let [a, b] = lacpdus(&story("switches 1\nsilence 1\nup 1\ntick 35"));
    assert!((a[0].0, b[0].0) == (0, 0) && a[0].1 > 2 && b[0].1 > 2);
}

#[test]
fn the_text_ends_with_the_port_pages() {
    let story = story(BUILT_IN);
    let text = text(&story);
    let pages: Vec<&str> = text.split("\nPort page of ").skip(1).collect();
    assert_eq!(pages.len(), 2);
    for ((switch, page), (counters, asked)) in
        ["A", "B"].iter().zip(pages).zip(story.counters().iter().zip(story.asked()))
    {
        assert!(page.starts_with(&format!("{switch}: what has come in and gone out on each port\n")));
        let rows = page.lines().filter(|line| line.starts_with(*switch)).skip(1);
        let expected = (1..).zip(counters.iter().zip(asked)).map(|(number, (port, asked))| {
            let numbers = port.numbers().map(|number| number.to_string());
            format!("{switch}{number} {} {}", numbers.join(" "), asked.outcome)
        });
        assert_eq!(rows.map(words).collect::<Vec<_>>(), expected.collect::<Vec<_>>());
    }
}

#[test]
fn a_link_drains_or_not() {
    let story = story(include_str!("../stories/drained.txt"));
    let (text, said) = (text(&story), words(&text(&story)));
    for told in [
        "[link 1, link 2 up; A1 asked for a Marker, to be awaited for 30 ticks]",
        "No traffic for 21 ticks. A1: no Marker, for it does not distribute.",
        "[A1, A2 asked for a Marker, to be awaited for 30 ticks]",
        "all the while. A1: Marker 0 answered at once. A2: Marker 0 answered at once.",
        "A1: Marker 1 timed out at tick 70 (7 s). B1: Marker 0 awaited.",
        "A and B: aggregator 1 carries on ports 1 2 after 11 ticks. B1: Marker 0 timed out at tick 110 (11 s).",
        "A2: Marker 1 awaited.",
        "A2: Marker 1 cancelled at once.",
    ] {
        assert!(said.contains(told), "{said}");
    }
    assert_eq!(row(&text, "A1 asked").trim(), format!("{}{}{}", "+".repeat(5), "o".repeat(10), "x".repeat(48)));
    assert!(row(&text, "A2 asked").trim_end().ends_with("++oo///////////") && !text.contains("B2 asked"));
    assert!(text.contains("o awaited, + answered, x timed out, / cancelled"));
    assert!(text.lines().all(|line| line.chars().count() <= LINE));
    assert!(words(&svg(&story)).contains("A2: Marker 1 cancelled at once."));
    let asked = story.asked().each_ref().map(|ports| ports.iter().map(ToString::to_string).collect::<Vec<_>>());
    assert_eq!(asked[0], ["Marker 1 timed out", "Marker 1 cancelled"]);
    assert_eq!(asked[1], ["Marker 0 timed out", "no Marker asked for"]);
    let [a, b] = story.counters();
    assert_eq!([a, b].map(|ports| ports[1].marker_responses_received), [1, 0]);
    assert_eq!((b[1].markers_received, b[1].marker_responses_sent), (2, 2));
}

/// The incident: every lamp is green, and the trunk runs at half rate. Each way into it has its sentence.
#[test]
fn a_trunk_at_half_rate_says_why() {
    let story = story(include_str!("../stories/half-rate.txt"));
    let (text, said) = (text(&story), words(&text(&story)));
    let events: Vec<String> = text.split("\n\n").filter(|part| part.contains("  tick ")).map(words).collect();
    assert_eq!(events.len(), 5, "{text}");
    // new settings do not reach a partner that is heard: the trunk stays, and nothing is said
    assert!(events[1].contains("[A2, A4 with a default partner of key 7, in sync and collecting]"));
    assert!(events[1].ends_with("A and B: aggregator 1 carries on ports 1 2 3 4 all the while."), "{}", events[1]);
    for (event, told) in [
        (2, "A at once: Ports 1 and 2 are apart: the keys of their partners differ. Port 2 waits, 20 ticks more."),
        (2, "B at once: Ports 1 and 2 are apart: their own keys differ. Port 2 waits, 20 ticks more."),
        (3, "A at once: Ports 1 and 3 are apart: port 3 is set to stay alone. Port 3 waits, 20 ticks more."),
        (3, "B at once: Ports 1 and 3 are apart: the partner of port 3 stays alone. Port 3 waits, 20 ticks more."),
        (4, "A and B at tick 190 (19 s): Port 4 does not carry: its partner is silent."),
        (4, "A at tick 220 (22 s): Ports 1 and 4 are apart: the system priorities of their partners differ, the system \
             addresses of their partners differ, and the keys of their partners differ."),
        (4, "differ. Port 4 does not carry: no partner is heard on it."),
        (4, "A at tick 240 (24 s): Port 4 carries on its settings alone: no partner is heard to agree."),
    ] {
        assert!(events[event].contains(told), "{told}: {}", events[event]);
    }
    let trunk = |of: &str| words(text.split(of).nth(1).unwrap().split("\nTrunk page").next().unwrap());
    let first = trunk("Trunk page of A, aggregator 1");
    assert!(first.starts_with(
        "carry Port 1 carries. apart Port 2 carries. Ports 1 and 2 are apart: the keys of their partners differ. \
         Port 3 carries. Ports 1 and 3 are apart: port 3 is set to stay alone. \
         Port 4 carries on its settings alone: no partner is heard to agree. Ports 1 and 4 are apart: "
    ));
    let first = trunk("Trunk page of B, aggregator 1");
    assert!(first
        .contains("Port 4 does not carry: no partner is heard on it. Ports 1 and 4 are apart: the partner of port 4 "));
    assert_eq!((said.matches("Trunk page of A, ").count(), said.matches("Trunk page of B, ").count()), (4, 3));
    assert!(row(&text, "width A").trim().starts_with("0000444444444444333") && row(&text, "width A").ends_with('1'));
    assert!(text.lines().all(|line| line.chars().count() <= LINE));
    assert!(words(&svg(&story)).contains("Ports 1 and 2 are apart: the keys of their partners differ."));
}

#[test]
fn a_port_that_does_not_start_to_carry_says_why() {
    let said = |script: &str| words(&text(&story(script)));
    let waits = said("switches 2\nup 1\ntick 8\nup 2\ntick 13\nnote x\ntick 4\nnote y\ntick 20");
    assert!(waits.contains("A and B at once: Port 1 waits, 20 ticks more."), "{waits}");
    assert!(waits.contains("A and B at tick 20 (2 s): Port 1 waits for port 2, 8 ticks more."), "{waits}");
    let unheard = said("switches 2\nsilence 1\nup 1\ntick 20\nnote x\ntick 40\nhalf A 1\ntick 5\ndown 1\ntick 5");
    assert!(unheard.contains("A and B at once: Port 1 does not carry: its partner is silent."), "{unheard}");
    assert!(unheard.contains("A and B at tick 30 (3 s): Port 1 does not carry: no partner is heard on it."));
    assert!(unheard.contains("A at once: Port 1 does not carry: its link is at half duplex, so LACP is off."));
    assert!(unheard.contains("A and B at once: Port 1 does not carry: its link is down."));
    assert!(unheard.contains("Trunk page of A: no port carries do not Port 1 does not carry: its link is down. Port 2"));
    // one fibre is broken: one end hears that the other does not know of it
    let deaf = said("switches 2\nup 1\nup 2\ndeaf B 2\ntick 60");
    assert!(deaf.contains("Port 2 does not carry: its partner is not in sync with it."), "{deaf}");
    // a port that is set up to carry by itself is told when it begins to; one without a cable is not told of
    let alone = said("switches 2\ndefault A 1 7\nhalf A 1\nup 1\ntick 60");
    assert!(
        alone.contains("A at tick 20 (2 s): Port 1 carries on its settings alone: no partner is heard to agree."),
        "{alone}"
    );
    let told = alone.split("Trunk page").next().unwrap();
    assert!(!told.contains("Port 2"), "{told}");
}

/// Up to where both links carry.
const CARRYING: &str = "switches 2\nup 1\nup 2\ntick 40\n";

#[test]
fn a_marker_is_told_where_it_ends() {
    let said = |script: &str| words(&text(&story(&format!("{CARRYING}{script}"))));
    let twice = said("silence 1\nask A 1 5\nask A 1 5\ntick 3\nask A 1 600\ntick 10");
    assert_eq!(twice.matches("A1: no further Marker while one is awaited.").count(), 2, "{twice}");
    assert!(twice.contains("A1: no further Marker while one is awaited. A1: Marker 0 awaited."), "{twice}");
    assert!(twice.contains("A1: no further Marker while one is awaited. A1: Marker 0 timed out at tick 45 (4.5 s)."));
    // at the last tick, which no column shows
    let last = said("silence 1\nask A 1 5\ntick 5");
    assert!(last.contains("A1: Marker 0 timed out at tick 45 (4.5 s).") && !last.contains("awaited."), "{last}");
    // several between two ticks, the last of which is lost
    let many = said("ask B 2 5\nask B 2 5\nsilence 2\nask B 2 7\ntick 1");
    assert!(many.contains("B2: Marker 0 answered at once. B2: Marker 1 answered at once. B2: Marker 2 awaited."));
    // the far end left the trunk and says so; or A does not hear it, and the Marker finds no port that collects
    let left = said("key B 1 2\nask A 1 9\ntick 15");
    assert!(left.contains("A1: no Marker, for it does not distribute."), "{left}");
    let unheard = story(&format!("{CARRYING}deaf A 1\nkey B 1 2\nask A 1 9\ntick 15"));
    assert!(words(&text(&unheard)).contains("A1: Marker 0 timed out at tick 49 (4.9 s)."));
    let b = unheard.counters()[1][0];
    assert_eq!((b.markers_received, b.marker_responses_sent), (1, 0));
    for (cut, what) in [("down 1", "link 1 down"), ("half A 1", "A1 at half duplex"), ("move A 1 2", "cable of A1")] {
        let said = said(&format!("deaf A 1\nask A 1 99\ntick 2\n{cut}\ntick 20"));
        assert!(said.contains(what) && said.contains("A1: Marker 0 cancelled at once."), "{said}");
    }
    for change in ["up 1", "full A 1", "key A 1 2", "long A 1", "down 2", "reload A", "half B 1"] {
        let said = said(&format!("deaf A 1\nask A 1 29\ntick 2\n{change}\ntick 30"));
        assert!(said.contains("A1: Marker 0 timed out at tick 69 (6.9 s)."), "{change}: {said}");
    }
}

#[test]
fn a_story_without_markers_shows_nothing_of_them() {
    let text = text(&story(BUILT_IN));
    assert!(!text.contains("asked for:") && !text.contains("1 asked") && !text.contains("Marker 0"));
}

#[test]
fn a_deaf_port_is_heard() {
    let text = text(&story("switches 1\nup 1\ntick 40\ndeaf A 1\ntick 80\nspeak 1\ntick 40"));
    let last = |label| row(&text, label).trim_end().to_string();
    assert!(last("A1").contains('?') && !last("B1").contains('?'), "{text}");
    assert!(last("A1").ends_with('#') && last("B1").ends_with('#'));
}

#[test]
fn two_runs_show_the_same() {
    let [one, other] = [story(BUILT_IN), story(BUILT_IN)];
    assert_eq!(text(&one), text(&other));
    assert_eq!(svg(&one), svg(&other));
}

#[test]
fn odd_scripts_are_shown_too() {
    let many = "switches 8\nup 8\ntick 1\nkey A 8 2\nmove B 8 1\ntick 201\nlong A 1\npassive B 8\ndown 1";
    let asked = "ask B 4 600\nmove A 4 1\nask A 4 1\ntick 30\nask A 4 1\nask A 4 1\nask B 1 1\nmove B 1 4\nask B 1 1";
    let silent = "switches 8\nup 1\nup 8\nsilence 1\nsilence 8\nnote x\ntick 700\nmove A 1 8\nhalf B 8\ntick 5000";
    let notes = "note x\ntick 1\n".repeat(120);
    for script in ["", "note <&>", &format!("note {}", "long".repeat(99)), many, asked, silent, &notes] {
        let story = story(script);
        assert!(text(&story).lines().all(|line| line.chars().count() <= LINE), "{}", text(&story));
        assert!(!svg(&story).contains("<&"));
    }
}
