//! What streams have of both profiles: memory made fresh for each and lent at their bounds, what is answered
//! otherwise, and schedules that run.

use std::collections::BTreeMap;

use kit::files::stored;
use kit::{operations_by_clauses, Bench, Reply};
use tools::traffic::{stream, Kind};

use crate::breaks::{break_of, list};
use crate::shapes::assert_often;
use crate::traffic::{pieces, play_all, profile};

/// What a stream has shown.
#[derive(Default)]
struct Seen {
    cases: BTreeMap<String, usize>,
    calls: [usize; 2],
}

/// The octets of the value of a cell.
fn length(memory: &[u8], place: usize) -> usize {
    usize::from(memory[6 * place + 4]) * 256 + usize::from(memory[6 * place + 5])
}

impl Seen {
    fn count(&mut self, case: String) {
        *self.cases.entry(case).or_default() += 1;
    }

    /// A message that is carried out or breaks.
    fn message(&mut self, bench: &Bench, message: &[u8], room: usize) {
        let (number, written) = bench.clone().send_into(message, room);
        let of = profile(bench);
        if number == 6 {
            let code = break_of(of, message).map(|how| message[how.position]);
            if let Some(code @ 6..=9) = code {
                self.count(format!("{of}: broken at code {code}"));
            }
        }
        let Some(list) = list(message).filter(|_| number == 0) else {
            return;
        };
        let reply = Reply::parse(&written);
        for operation in operations_by_clauses(of, list) {
            self.operation(of, operation);
        }
        for (name, value) in &reply.updates {
            match (name, value.len()) {
                (0x0005, length) => self.count(format!("{of}: length set, {length} octets")),
                (0x8001, _) => self.count(format!("{of}: committed")),
                (_, 252..) => self.count(format!("{of}: set, 252 octets or more")),
                _ => {}
            }
        }
        for (name, cause) in &reply.update_errors {
            if [0x0005, 0x0006, 0x000B, 0x0042, 0x8001].contains(name) {
                self.count(format!("{of}: {name:04x} not set, {cause:02x}"));
            }
        }
        for (_, cause) in &reply.read_errors {
            self.count(format!("{of}: not read, {cause:02x}"));
        }
        let values = reply.values.iter().filter(|(name, _)| *name == 0x0005);
        values.for_each(|(_, value)| self.count(format!("{of}: length read, {}", value.len())));
        if let Some(names) = reply.capabilities {
            self.count(format!("{of}: {} names", names.len() / 2));
        }
    }

    /// An operation with the name that one profile does not list.
    fn operation(&mut self, of: u8, operation: &[u8]) {
        if let [code @ 2..=5, 0, 0x0B, ..] = operation {
            self.count(format!("{of}: 000b in code {code}"));
        }
    }

    /// A notification that is built.
    fn built(&mut self, bench: &Bench) {
        let (number, written) = bench.clone().build();
        if number == 0 {
            let report = Reply::parse(&[&[2, 0x71], &written[1..]].concat());
            let of = profile(bench);
            for (_, cause) in report.read_errors {
                self.count(format!("{of}: told absent, {cause:02x}"));
            }
        }
    }

    /// Memory that is lent with the octet of a profile.
    fn lent(&mut self, octets: &[u8]) {
        let [of @ (2 | 3), memory @ ..] = octets else {
            return;
        };
        if memory.len() != 2_100 {
            return;
        }
        let bench = Bench::lend(octets);
        let sound = bench.is_sound();
        self.count(format!("{of}: lent, sound {sound}"));
        if *of == 3 && sound != bench.with_profile(2).is_sound() {
            self.count("lent, sound in profile 02 alone".to_string());
        }
        let [list, block] = [4, 18].map(|place| length(memory, place));
        let marked = memory[6 * 7 + 2] & !1 != 0;
        for (what, holds) in [
            ("a list of 36", list == 252),
            ("a list of 37", list == 259),
            ("a block of 36", block == 274),
            ("a block of 37", block == 281),
            ("a mark on 000b", marked),
        ] {
            if holds {
                self.count(format!("{of}: lent, {what}, sound {sound}"));
            }
        }
    }

    fn take(&mut self, script: &[u8]) {
        play_all(script, |bench, code, body| {
            let of = profile(bench);
            self.calls[usize::from(of == 3)] += 1;
            match (code, body) {
                (0, [] | [_]) => {
                    let octet = body.first().copied().unwrap_or(2);
                    let number = bench.clone().make_fresh_of(octet);
                    let known = if octet == 2 || octet == 3 { octet } else { 0 };
                    self.count(format!("{of}: fresh for {known}, number {number}"));
                }
                (1 | 9, [high, low, message @ ..]) => {
                    self.message(bench, message, u16::from_be_bytes([*high, *low]).into());
                }
                (3, [_, _]) => self.built(bench),
                (5, _) => self.lent(body),
                (10, instant) if instant.len() == 8 => {
                    let instant = i64::from_be_bytes(instant.try_into().unwrap());
                    let (number, told) = bench.gates(instant);
                    let open = if told.is_some() { ", open" } else { "" };
                    self.count(format!("{of}: gates, number {number}{open}"));
                }
                (12, [8, 52]) => {
                    let number = bench.back(2_100).0;
                    self.count(format!("{of}: back, number {number}"));
                }
                _ => {}
            }
        });
    }
}

/// All that scripts and edges have, at least.
const CASES: &[&str] = &[
    "2: fresh for 2, number 0",
    "2: fresh for 3, number 0",
    "2: fresh for 0, number 18",
    "3: fresh for 2, number 0",
    "3: fresh for 3, number 0",
    "3: fresh for 0, number 18",
    "3: broken at code 6",
    "3: broken at code 7",
    "3: broken at code 8",
    "3: broken at code 9",
    "2: length set, 4 octets",
    "3: length set, 2 octets",
    "2: length read, 4",
    "3: length read, 2",
    "2: 0005 not set, 02",
    "3: 0005 not set, 02",
    "3: 0005 not set, 6f",
    "2: 0006 not set, 02",
    "3: 0006 not set, 02",
    "3: 0006 not set, 6f",
    "3: set, 252 octets or more",
    "2: 000b not set, 6f",
    "3: 000b not set, 01",
    "2: 0042 not set, 02",
    "3: 0042 not set, 6f",
    "3: 8001 not set, 02",
    "3: 8001 not set, 6f",
    "3: 000b in code 2",
    "3: 000b in code 3",
    "3: 000b in code 4",
    "3: 000b in code 5",
    "2: not read, 03",
    "3: not read, 01",
    "3: not read, 6f",
    "2: told absent, 03",
    "3: told absent, 6f",
    "2: 19 names",
    "3: 18 names",
    "2: committed",
    "3: committed",
    "2: gates, number 0, open",
    "3: gates, number 0, open",
    "3: gates, number 0",
    "3: gates, number 1",
    "3: gates, number 15",
    "2: back, number 0",
    "2: back, number 17",
    "3: back, number 1",
    "3: back, number 19",
    "3: lent, sound true",
    "3: lent, sound false",
    "lent, sound in profile 02 alone",
    "3: lent, a list of 36, sound true",
    "3: lent, a list of 37, sound false",
    "3: lent, a block of 36, sound true",
    "3: lent, a block of 37, sound false",
    "3: lent, a mark on 000b, sound false",
];

#[test]
fn scripts_have_both_profiles_in_every_case() {
    for kind in [Kind::Script, Kind::Calls] {
        let mut seen = Seen::default();
        (1..=1_200).for_each(|seed| seen.take(&stream(kind, seed, 200)));
        assert_often(&seen.cases, CASES, 6);
        // About as many calls in one as in the other, and schedules are committed in both.
        let [usual, other] = seen.calls;
        assert!(
            other * 3 > usual * 2 && other < usual * 2,
            "{kind:?}: {usual}, {other}"
        );
        let committed = ["2: committed", "3: committed"].map(|case| seen.cases[case]);
        assert!(committed.iter().all(|n| n * 150 > usual), "{committed:?}");
        let open = ["2: gates, number 0, open", "3: gates, number 0, open"];
        let open = open.map(|case| seen.cases[case]);
        assert!(open.iter().all(|n| n * 50 > usual), "{open:?}");
    }
}

#[test]
fn the_edges_have_both_profiles_in_every_case() {
    let mut seen = Seen::default();
    seen.take(&stream(Kind::Edges, 0, u64::MAX));
    assert_often(&seen.cases, CASES, 1);
    let octets: BTreeMap<Vec<u8>, usize> = pieces(&stream(Kind::Edges, 0, u64::MAX), 3)
        .into_iter()
        .filter(|(head, _)| head[0] == 0)
        .fold(BTreeMap::new(), |mut octets, (_, body)| {
            *octets.entry(body).or_default() += 1;
            octets
        });
    // Each profile that there could be, and none.
    assert_eq!(octets.len(), 257);
}

#[test]
fn the_stored_script_has_both_profiles_in_every_case() {
    let mut seen = Seen::default();
    seen.take(&stored("rig", "stdin"));
    assert_often(&seen.cases, CASES, 1);
    assert_often(&seen.cases, &["3: committed"], 20);
    assert_often(&seen.cases, &["3: gates, number 0, open"], 100);
}

/// The bridge, which has profile 02, is sent what controllers of Release 16 send.
#[test]
fn frames_have_commands_of_controllers_of_release_16() {
    let mut sent: BTreeMap<&str, usize> = BTreeMap::new();
    for seed in 1..=100 {
        for (_, message) in pieces(&stream(Kind::Frames, seed, 200), 2) {
            let operations = list(&message).map(|list| operations_by_clauses(2, list));
            for operation in operations.unwrap_or_default() {
                let case = match operation {
                    [3, 0, 5, 0, 2, ..] => "a length of two octets",
                    [3, 0, 5, 0, 4, ..] => "a length of four octets",
                    [3, 0, 0x42, 1, ..] => "an id that is too long",
                    [3, 0, 6, 0, 252, ..] => "a list of 36",
                    [3, 0, 6, 1, 3, ..] => "a list of 37",
                    [2..=5, 0, 0x0B, ..] => "000b",
                    _ => continue,
                };
                *sent.entry(case).or_default() += 1;
            }
        }
    }
    assert_eq!(sent.len(), 6);
    assert!(sent.values().all(|count| *count >= 60), "{sent:?}");
}
