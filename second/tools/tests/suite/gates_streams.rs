//! What is asked about gates in streams: instants at each edge, in each cycle, of each sort of schedule,
//! and where there is no answer.

use std::collections::BTreeMap;

use kit::{Bench, Running};
use tools::traffic::{stream, Kind};

use crate::shapes::assert_often;
use crate::traffic::{codes, play_all};

/// The instruction that asks.
const GATES: u8 = 10;

/// What a stream asks, and what has led to it.
#[derive(Default)]
pub struct Seen {
    pub cases: BTreeMap<String, usize>,
    /// The answers, as the rig prints them, by the clauses.
    pub lines: Vec<String>,
    /// Memory before the last one was lent, if that has just been done.
    lent: Option<Vec<u8>>,
    /// The block before the message that has just been sent.
    ran: Option<Vec<u8>>,
}

/// The octets of the running block and of the four values, of memory that is sound.
fn blocks(memory: &[u8]) -> [Vec<u8>; 2] {
    let value = |cell: usize, room: usize| {
        let length = usize::from(memory[cell + 4]) * 256 + usize::from(memory[cell + 5]);
        &memory[room..room + length]
    };
    let values = [(12, 125), (18, 135), (24, 139), (30, 587)];
    let values = values.map(|(cell, room)| value(cell, room));
    [value(108, 1_630).to_vec(), values.concat()]
}

/// The sorts of a schedule.
fn sorts(running: &Running) -> Vec<&'static str> {
    let (count, cycle, total) = (running.entries.len(), running.cycle, running.total());
    let any = |holds: fn(i128) -> bool| running.entries.iter().any(|entry| holds(entry.1));
    let alike = running
        .entries
        .windows(2)
        .any(|pair| pair[0].0 == pair[1].0);
    let longest = i128::from(u32::MAX) * 1_000_000_000;
    let sorts = [
        ("1 entry", count == 1),
        ("2 entries", count == 2),
        ("64 entries", count == 64),
        ("neighbours alike", alike),
        ("an interval of 1 ns", any(|interval| interval == 1)),
        ("an interval over 2^31", any(|interval| interval > 1 << 31)),
        ("an interval of 2^32 - 1", any(|i| i == u32::MAX.into())),
        ("a cycle that is filled", cycle == total),
        ("a cycle far longer", cycle > 1_000 * total),
        ("a cycle with a remainder", running.dropped > 0),
        ("a cycle over 2^32", cycle > 1 << 32),
        ("the longest cycle", cycle == longest),
    ];
    let held = sorts.into_iter().filter(|(_, holds)| *holds);
    held.map(|(sort, _)| sort).collect()
}

/// What an instant from 0 on is to a schedule.
fn places(running: &Running, instant: i128) -> Vec<String> {
    let (time, round) = (instant % running.cycle, instant / running.cycle);
    let begins = running.begins();
    let inner = &begins[1..begins.len() - 1];
    let total = running.total();
    let edges = [
        ("at the beginning of an entry", inner.contains(&time)),
        (
            "before the beginning of an entry",
            inner.contains(&(time + 1)),
        ),
        (
            "after the beginning of an entry",
            inner.contains(&(time - 1)),
        ),
        ("at the beginning of the cycle", time == 0),
        ("before the end of the cycle", time == running.cycle - 1),
        ("after the beginning of the cycle", time == 1),
        ("at the end of the last interval", time == total),
        ("before the end of the last interval", time == total - 1),
        ("after the end of the last interval", time == total + 1),
        ("past the last interval", time > total),
    ];
    let round = match round {
        0 => "first",
        1 => "second",
        2..=1_000 => "later",
        _ => "far",
    };
    let held = edges.into_iter().filter(|(_, holds)| *holds);
    held.map(|(edge, _)| format!("{edge}, {round}")).collect()
}

/// Instants that are asked about for themselves.
fn ends(instant: i64) -> Option<&'static str> {
    match instant {
        0 => Some("instant 0"),
        -1 => Some("instant -1"),
        i64::MIN => Some("instant -2^63"),
        i64::MAX => Some("instant 2^63 - 1"),
        _ if instant > i64::MAX - 100 => Some("instant near 2^63"),
        _ if instant < 0 => Some("instant below 0"),
        _ => None,
    }
}

impl Seen {
    fn count(&mut self, case: impl Into<String>) {
        *self.cases.entry(case.into()).or_default() += 1;
    }

    fn ask(&mut self, bench: &Bench, instant: i64) {
        let sound = bench.is_sound();
        let running = sound.then(|| Running::of(&bench.memory)).flatten();
        let told = running.as_ref().and_then(|running| running.told(instant));
        let number = match (sound, &running) {
            (false, _) => 1,
            (true, None) => 15,
            (true, Some(_)) => 0,
        };
        assert_eq!(bench.gates(instant), (number, told), "{instant}");
        self.lines.push(match told {
            None => format!("{number} -"),
            Some((states, entry, left)) => format!("0 {states:02x} {entry} {left}"),
        });
        self.number(bench, number, instant);
        if let Some(running) = running {
            self.running(bench, &running, instant);
        }
    }

    /// Numbers, and what they are given for.
    fn number(&mut self, bench: &Bench, number: u8, instant: i64) {
        let below = if instant < 0 { ", below 0" } else { "" };
        self.count(format!("number {number}{below}"));
        if let Some(end) = ends(instant) {
            self.count(format!("{end}, number {number}"));
        }
        match number {
            1 if bench.memory.len() != 2_100 => self.count("wrong length"),
            1 if bench.first != Some(2) => self.count("another first octet"),
            1 => self.count("unsound"),
            15 if bench.memory == Bench::fresh().memory => self.count("fresh memory"),
            15 if blocks(&bench.memory)[1].len() > 22 => self.count("not committed"),
            _ => {}
        }
        let asked = bench.lent();
        let lent = self.lent.take().filter(|lent| lent.len() == asked.len());
        let pairs = lent.iter().flatten().zip(&asked);
        if pairs.filter(|(a, b)| a != b).count() == 1 {
            self.count(format!("one octet changed, number {number}"));
        }
    }

    fn running(&mut self, bench: &Bench, running: &Running, instant: i64) {
        let [block, values] = blocks(&bench.memory);
        if block != values {
            self.count("a block that is not made of the values");
        }
        if self.ran.take().is_some_and(|before| before != block) {
            self.count("right behind a commit");
        }
        if instant >= 0 {
            let sorts = sorts(running).into_iter().map(String::from);
            let places = places(running, instant.into());
            sorts.chain(places).for_each(|case| self.count(case));
        }
    }

    /// Takes what is asked in a script.
    pub fn take(&mut self, script: &[u8]) {
        play_all(script, |bench, code, body| {
            match (code, <[u8; 8]>::try_from(body)) {
                (GATES, Ok(octets)) => self.ask(bench, i64::from_be_bytes(octets)),
                (5, _) => self.lent = Some(bench.lent()),
                (1 | 9, _) if bench.is_sound() => self.ran = Some(blocks(&bench.memory)[0].clone()),
                _ => {}
            }
        });
    }
}

/// All that scripts are asked for.
pub const CASES: &[&str] = &[
    "number 0",
    "number 0, below 0",
    "number 1",
    "number 1, below 0",
    "number 15",
    "number 15, below 0",
    "unsound",
    "wrong length",
    "another first octet",
    "fresh memory",
    "not committed",
    "one octet changed, number 0",
    "one octet changed, number 1",
    "instant 0, number 0",
    "instant -1, number 0",
    "instant -1, number 15",
    "instant -2^63, number 0",
    "instant below 0, number 0",
    "instant 2^63 - 1, number 0",
    "instant near 2^63, number 0",
    "a block that is not made of the values",
    "right behind a commit",
    "1 entry",
    "2 entries",
    "64 entries",
    "neighbours alike",
    "an interval of 1 ns",
    "an interval over 2^31",
    "an interval of 2^32 - 1",
    "a cycle that is filled",
    "a cycle far longer",
    "a cycle with a remainder",
    "a cycle over 2^32",
    "the longest cycle",
];

/// Edges, each of which is asked about in every cycle.
pub const EDGES: &[&str] = &[
    "at the beginning of an entry",
    "before the beginning of an entry",
    "after the beginning of an entry",
    "at the beginning of the cycle",
    "before the end of the cycle",
    "after the beginning of the cycle",
    "at the end of the last interval",
    "before the end of the last interval",
    "after the end of the last interval",
    "past the last interval",
];

/// Asserts that each case is seen so often, and each edge in each of some cycles.
pub fn assert_cases(seen: &Seen, rounds: &[&str], least: usize) {
    assert_often(&seen.cases, CASES, least);
    for round in rounds {
        let edges = EDGES.iter().map(|edge| format!("{edge}, {round}"));
        let edges: Vec<String> = edges.collect();
        let edges: Vec<&str> = edges.iter().map(String::as_str).collect();
        assert_often(&seen.cases, &edges, least);
    }
}

#[test]
fn scripts_ask_about_every_edge() {
    for kind in [Kind::Script, Kind::Calls] {
        let mut seen = Seen::default();
        (1..=600).for_each(|seed| seen.take(&stream(kind, seed, 200)));
        assert_cases(&seen, &["first", "second", "later", "far"], 10);
    }
}

#[test]
fn the_edges_ask_about_every_edge() {
    let mut seen = Seen::default();
    seen.take(&stream(Kind::Edges, 0, u64::MAX));
    assert_cases(&seen, &["first", "second", "far"], 3);
}

/// About one instruction in eight asks, and the others are as often as before among themselves.
#[test]
fn scripts_ask_often() {
    for kind in [Kind::Script, Kind::Calls] {
        let codes = codes(kind);
        let all: usize = codes.iter().sum();
        let asked = codes[usize::from(GATES)];
        assert!((all / 9..all / 7).contains(&asked), "{asked} of {all}");
    }
}
