//! What `traffic captures` is made of: every form of a line, and every shape of a message.

use std::collections::BTreeMap;
use std::io::{self, Read};
use std::sync::LazyLock;

use kit::Chance;
use tools::traffic::{least_lines, stream, Kind};

use crate::shapes::{assert_often, names, prints, shown, FORMS, PRINTED, SHAPES};

const STREAMS: u64 = 160;
const LINES: u64 = 200;
/// The kinds of record that stand behind a count.
const COUNTED: [&str; 4] = ["value", "read-error", "update", "update-error"];

/// How often some streams have each thing.
#[derive(Default)]
struct Seen {
    named: BTreeMap<&'static str, usize>,
    printed: BTreeMap<String, usize>,
    records: BTreeMap<(&'static str, usize), usize>,
    without_end: usize,
}

static SEEN: LazyLock<Seen> = LazyLock::new(|| {
    let mut seen = Seen::default();
    for seed in 1..=STREAMS {
        let stream = stream(Kind::Captures, seed, LINES);
        seen.without_end += usize::from(!stream.ends_with(b"\n"));
        for shown in shown(&stream) {
            for name in names(&shown) {
                *seen.named.entry(name).or_default() += 1;
            }
            for name in prints(&shown) {
                *seen.printed.entry(name).or_default() += 1;
            }
            for kind in COUNTED {
                let records = (kind, shown.records(kind));
                *seen.records.entry(records).or_default() += 1;
            }
        }
    }
    seen
});

#[test]
fn captures_have_every_form_and_shape() {
    assert_often(&SEEN.named, FORMS, 15);
    assert_often(&SEEN.named, SHAPES, 10);
    let long = [
        "very long octets",
        "very long blanks",
        "very long, no message",
    ];
    assert_often(&SEEN.named, &long, 5);
    let without_end = SEEN.without_end;
    assert!((15..60).contains(&without_end), "{without_end} streams");
}

#[test]
fn captures_print_everything() {
    let printed = &SEEN.printed;
    assert_often(printed, PRINTED, 100);
    // Numbers as the port returns them.
    let numbers = ["0 -", "2 -", "4 -", "5 -", "6 -", "7 -", "8 -"];
    assert_often(printed, &numbers, 20);
    for kind in COUNTED {
        let most = SEEN.records.get(&(kind, 255)).copied().unwrap_or(0);
        assert!(most >= 20, "{most} messages with 255 of {kind}");
    }
    // Most of what is read is accepted.
    let [accepted, refused] = [["complete", "notify"], ["13 -", "14 -"]]
        .map(|words| words.iter().map(|word| printed[*word]).sum::<usize>());
    assert!(accepted > refused, "{accepted} and {refused}");
}

/// Ports of both profiles write: lengths of two octets and of four, and both causes of what is absent.
#[test]
fn captures_have_what_ports_of_both_profiles_write() {
    let mut seen: BTreeMap<&str, usize> = BTreeMap::new();
    for seed in 1..=20 {
        let lines = shown(&stream(Kind::Captures, seed, LINES)).into_iter();
        for line in lines.flat_map(|shown| shown.printed) {
            let words: Vec<&str> = line.split_whitespace().collect();
            let case = match words[..] {
                ["value" | "update", "0005", _, value] if value.len() == 4 => "two octets",
                ["value" | "update", "0005", _, value] if value.len() == 8 => "four octets",
                ["read-error", "00a1" | "00a3", _, "03", _] => "absent, 03",
                ["read-error", "00a1" | "00a3", _, "6f", _] => "absent, 6f",
                _ => continue,
            };
            *seen.entry(case).or_default() += 1;
        }
    }
    assert_eq!(seen.len(), 4);
    assert!(seen.values().all(|count| *count >= 20), "{seen:?}");
}

#[test]
fn streams_have_the_lines_that_are_asked_for() {
    for kind in [Kind::Captures, Kind::CaptureEdges] {
        for count in [0, 1, 7, 200] {
            let stream = stream(kind, 5, count);
            let ended = stream.ends_with(b"\n");
            let feeds = stream.iter().filter(|c| **c == b'\n').count() as u64;
            assert_eq!(feeds, count - u64::from(count > 0 && !ended), "{kind:?}");
        }
    }
    let edges = stream(Kind::CaptureEdges, 1, u64::MAX);
    assert!(edges == stream(Kind::CaptureEdges, 2, u64::MAX));
    assert!(edges.starts_with(&stream(Kind::CaptureEdges, 1, 100)));
    assert!(edges.ends_with(b"\n"));
}

#[test]
fn each_line_that_holds_something_prints_a_line() {
    for seed in 1..=20 {
        let stream = stream(Kind::Captures, seed, LINES);
        let printing = shown(&stream)
            .iter()
            .filter(|s| !s.printed.is_empty())
            .count();
        assert_eq!(least_lines(Kind::Captures, &stream, LINES), printing as u64);
        assert!((150..200).contains(&printing), "{printing}");
    }
    assert_eq!(least_lines(Kind::Script, &[], 7), 7);
}

/// Hands out octets, a few at a time.
struct Few<'a>(&'a [u8], Chance);

impl Read for Few<'_> {
    fn read(&mut self, room: &mut [u8]) -> io::Result<usize> {
        let count = (1 + self.1.below(300)).min(self.0.len());
        let (given, rest) = self.0.split_at(count);
        room[..count].copy_from_slice(given);
        self.0 = rest;
        Ok(count)
    }
}

#[test]
fn a_line_is_read_the_same_however_it_comes() {
    for seed in 1..=20 {
        let stream = stream(Kind::Captures, seed, LINES);
        let [mut whole, mut parted] = [Vec::new(), Vec::new()];
        programs::desk::run(stream.as_slice(), &mut whole).unwrap();
        programs::desk::run(Few(&stream, Chance::new(seed)), &mut parted).unwrap();
        assert!(whole == parted, "seed {seed}");
        let lines = shown(&stream).into_iter().flat_map(|shown| shown.printed);
        let lines: String = lines.map(|line| line + "\n").collect();
        assert!(lines.as_bytes() == whole, "seed {seed}");
    }
}
