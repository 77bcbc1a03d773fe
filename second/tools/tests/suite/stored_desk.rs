//! The stored lines of the proved desk, `crates/desk/stdin`, and what is printed for them, `stdout`.

use std::collections::{BTreeMap, BTreeSet};

use kit::files::stored;
use kit::{read, set, subscribe, Bench};
use port::table::TABLE;
use tools::traffic::{stream, Kind};

use crate::process::{text, DESK};
use crate::shapes::{assert_often, names, prints, shown, Shown, FORMS, PRINTED, SHAPES};
use crate::stored::assert_prints;

/// What the part by chance follows from, and its lines.
const SEED: u64 = 2_589;
const LINES: u64 = 200;

fn lines() -> Vec<Shown> {
    shown(&stored("desk", "stdin"))
}

#[test]
fn the_second_desk_prints_the_stored_lines() {
    assert_prints(*DESK, "desk");
}

/// The README has the command line that made it. Where `traffic` changes, both files are made anew.
#[test]
fn the_stored_lines_follow_from_their_seed() {
    let edges = stream(Kind::CaptureEdges, 0, u64::MAX);
    let stdin = stored("desk", "stdin");
    assert!(stdin == [edges, stream(Kind::Captures, SEED, LINES)].concat());
    assert!(stdin.len() < 150_000, "{} octets", stdin.len());
    // The last line is read without its line feed.
    assert!(!stdin.ends_with(b"\n"));
    let last = lines().pop().unwrap();
    assert!(!last.printed.is_empty());
    let stdout = stored("desk", "stdout");
    assert!(text(&stdout).ends_with(&format!("{}\n", last.printed.join("\n"))));
}

#[test]
fn the_stored_lines_have_every_form_shape_and_number() {
    let (mut found, mut printed) = (BTreeMap::new(), BTreeMap::new());
    for shown in lines() {
        for name in names(&shown) {
            *found.entry(name).or_insert(0) += 1;
        }
        for name in prints(&shown) {
            *printed.entry(name).or_insert(0) += 1;
        }
    }
    assert_often(&found, FORMS, 1);
    assert_often(&found, SHAPES, 1);
    assert_often(&printed, PRINTED, 1);
    // Numbers of one and of two digits, and with a zero in front.
    let numbers = ["0 -", "1 -", "2 -", "7 -", "9 -", "10 -", "21 -", "99 -"];
    assert_often(&printed, &numbers, 1);
}

#[test]
fn the_stored_lines_have_every_name_in_every_kind() {
    let stdout = stored("desk", "stdout");
    let records = text(&stdout)
        .lines()
        .filter_map(|line| line.strip_prefix("  "));
    let words: BTreeSet<Vec<&str>> = records.map(|r| r.split(' ').take(3).collect()).collect();
    let kinds = [
        "name",
        "value",
        "read-error",
        "update",
        "update-error",
        "long-update",
    ];
    let mut seen = BTreeSet::new();
    for kind in kinds {
        for parameter in &TABLE {
            let name = format!("{:04x}", parameter.name);
            let mut found = words.iter().filter(|w| w[0] == kind && w[1] == name);
            let word = found.next().unwrap_or_else(|| panic!("{kind} {name}"))[2];
            assert!(found.next().is_none() && word != "unknown", "{kind} {name}");
            seen.insert(word);
        }
        assert!(words.contains(&vec![kind, "0002", "unknown"]), "{kind}");
        assert!(words.contains(&vec![kind, "ffff", "unknown"]), "{kind}");
    }
    // Nineteen words, each for one name.
    assert_eq!(seen.len(), TABLE.len());
}

/// What a port of profile 03 writes where one of profile 02 would write something else.
#[test]
fn the_edges_have_what_a_port_of_profile_03_writes() {
    let mut bench = Bench::fresh_of(3);
    let sets = [
        set(0x0005, &[0, 36]),
        set(0x0006, &[0; 259]),
        set(0x000B, &[]),
        set(0x0042, &[0; 256]),
    ];
    let reads = [0x0005, 0x0004, 0x8001, 0x000B].map(read);
    let names = bench.done(&[1]);
    let records = bench.done(&[sets.concat(), reads.concat()].concat());
    bench.done(&[subscribe(0x00A1), subscribe(0x00A4)].concat());
    for (name, value) in [(0x00A4, &[0, 0x78][..]), (0x00A1, &[1]), (0x00A1, &[])] {
        assert_eq!(bench.local(name, value), 0);
    }
    let (number, notification) = bench.build();
    assert_eq!(number, 0);
    let edges = stream(Kind::CaptureEdges, 0, u64::MAX);
    let lines: BTreeSet<&[u8]> = edges.split(|character| *character == b'\n').collect();
    for written in [names, records, notification] {
        let digits: String = written.iter().map(|octet| format!("{octet:02x}")).collect();
        assert!(lines.contains(format!("0 {digits}").as_bytes()), "{digits}");
    }
}

#[test]
fn the_stored_lines_have_what_a_port_writes() {
    let lines = lines();
    let as_printed = |shown: &&Shown| shown.line.starts_with(b"0 02");
    let replies = lines
        .iter()
        .filter(as_printed)
        .filter(|shown| shown.printed.len() > 1);
    assert!(replies.count() >= 20);
    let notifications = lines
        .iter()
        .filter(|shown| shown.printed.first().is_some_and(|p| p == "notify"));
    assert!(notifications.count() >= 20);
}
