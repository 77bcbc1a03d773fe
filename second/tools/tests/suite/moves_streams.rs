//! What streams lend and move between the old form and form B: each form sound and damaged, idle, waiting
//! and with names in flight, rooms right and wrong, and what is done with what a move wrote.

use std::collections::BTreeMap;

use kit::files::stored;
use kit::Bench;
use tools::traffic::{stream, Kind};

use crate::shapes::assert_often;
use crate::traffic::play_all;

const FORWARD: u8 = 0x0B;
const BACK: u8 = 0x0C;

/// What a stream lends and moves.
#[derive(Default)]
struct Seen {
    cases: BTreeMap<String, usize>,
    /// The last move that was done since memory was lent, and what it wrote.
    written: Option<(u8, Vec<u8>)>,
    /// Which moves led to what is lent, if it is what they wrote.
    way: Vec<u8>,
    /// Whether what forward wrote is lent, and waits since before it was moved.
    waits: bool,
}

/// Memory of 2,100 octets in words: whether it is sound, waits, and has something in flight.
fn state(profile: u8, memory: &[u8]) -> &'static str {
    let sound = Bench::of(memory.to_vec()).with_profile(profile).is_sound();
    let out = (0..19).any(|place| memory[6 * place + 2] & 8 != 0);
    match (sound, memory[114], out) {
        (false, 0, true) => "not sound, in flight while idle",
        (false, ..) => "not sound",
        (true, _, true) => "in flight",
        (true, 1, false) => "waiting",
        (true, ..) => "idle",
    }
}

/// What is lent in words: its form and its state.
fn lent(octets: &[u8]) -> String {
    match (octets.len(), octets.first()) {
        (2_100, _) if ![2, 3].contains(&octets[0]) => format!("old form, {}", state(2, octets)),
        (2_101, Some(2)) => format!("form B, {}", state(2, &octets[1..])),
        (2_101, Some(3)) => format!("profile 03, {}", state(3, &octets[1..])),
        (2_101, Some(first @ (0 | 1 | 4 | 0xFF))) => format!("first octet {first:02x}"),
        (2_101, _) => "first octet of another kind".to_string(),
        (length @ (2_099 | 2_100 | 2_102), _) => format!("{length} octets"),
        _ => "another length".to_string(),
    }
}

/// A room in words, by the length that is right.
fn room(room: usize, right: usize) -> &'static str {
    match room {
        0 => "no room",
        8_192.. => "the largest room",
        _ if room == right => "right room",
        _ if room + 1 == right => "one too short",
        _ if room == right + 1 => "one too long",
        _ => "another room",
    }
}

impl Seen {
    fn count(&mut self, case: String) {
        *self.cases.entry(case).or_default() += 1;
    }

    fn moved(&mut self, bench: &Bench, code: u8, length: usize) {
        let kept = length.min(8_192);
        let (word, right, (number, written)) = match code {
            FORWARD => ("forward", 2_101, bench.forward(kept)),
            _ => ("back", 2_100, bench.back(kept)),
        };
        self.count(format!("{word} of {}", lent(&bench.lent())));
        self.count(format!("{word}, {}, number {number}", room(length, right)));
        if number == 0 {
            self.written = Some((code, written));
        }
    }

    /// What is lent: what a move wrote, or something else.
    fn lend(&mut self, octets: &[u8]) {
        match self.written.take() {
            Some((code, written)) if written == octets => {
                self.way.push(code);
                let way: Vec<&str> = self
                    .way
                    .iter()
                    .rev()
                    .take(3)
                    .rev()
                    .map(|code| if *code == FORWARD { "forward" } else { "back" })
                    .collect();
                self.count(format!("lent what {} wrote", way.join(", ")));
            }
            _ => self.way.clear(),
        }
        self.waits = self.way.last() == Some(&FORWARD) && octets[115] == 1;
    }

    /// A call on what forward wrote while it waited.
    fn called(&mut self, bench: &Bench, code: u8, body: &[u8]) {
        if !self.waits {
            return;
        }
        let mut after = bench.clone();
        let case = match code {
            1 | 9 if after.send(&body[2..]) == (0, vec![5]) => "acknowledged",
            4 => match after.expire() {
                21 => "given up",
                _ => "sent again",
            },
            2 if after.local(u16::from_be_bytes([body[0], body[1]]), &body[2..]) == 0 => {
                "told anew"
            }
            _ => return,
        };
        self.count(format!("moved while waiting, {case}"));
        self.waits = after.memory[114] == 1;
    }

    fn take(&mut self, script: &[u8]) {
        (self.written, self.waits) = Default::default();
        self.way.clear();
        play_all(script, |bench, code, body| match (code, body) {
            (FORWARD | BACK, [high, low]) => {
                self.moved(bench, code, u16::from_be_bytes([*high, *low]).into());
            }
            (5, _) => self.lend(body),
            (0, _) => self.waits = false,
            (1 | 2 | 9, [_, _, ..]) | (4, []) => {
                self.refused(bench, code);
                self.called(bench, code, body);
            }
            (3 | 10, _) => self.refused(bench, code),
            _ => {}
        });
    }

    /// Calls that old memory is lent to, which is in no form for them.
    fn refused(&mut self, bench: &Bench, code: u8) {
        let octets = bench.lent();
        if octets.len() == 2_100 && octets[0] == 0 {
            self.count(format!("call {code} on the old form"));
        }
    }
}

/// All that scripts and edges have, at least.
const CASES: &[&str] = &[
    "forward of old form, idle",
    "forward of old form, waiting",
    "forward of old form, in flight",
    "forward of old form, not sound",
    "forward of old form, not sound, in flight while idle",
    "forward of form B, idle",
    "back of old form, idle",
    "back of form B, idle",
    "back of form B, waiting",
    "back of form B, in flight",
    "back of form B, not sound",
    "back of form B, not sound, in flight while idle",
    "back of first octet 00",
    "back of first octet 01",
    "back of first octet 04",
    "forward of profile 03, idle",
    "back of profile 03, idle",
    "back of profile 03, waiting",
    "back of profile 03, in flight",
    "back of profile 03, not sound",
    "back of first octet ff",
    "forward of 2099 octets",
    "back of 2102 octets",
    "forward, right room, number 0",
    "forward, right room, number 1",
    "forward, one too short, number 16",
    "forward, one too long, number 16",
    "forward, no room, number 16",
    "forward, the largest room, number 16",
    "back, right room, number 0",
    "back, right room, number 1",
    "back, right room, number 17",
    "back, right room, number 19",
    "back, one too short, number 16",
    "back, one too long, number 16",
    "back, no room, number 16",
    "back, the largest room, number 16",
    "lent what forward wrote",
    "lent what forward, back wrote",
    "lent what forward, back, forward wrote",
    "moved while waiting, acknowledged",
    "moved while waiting, sent again",
    "moved while waiting, given up",
    "moved while waiting, told anew",
    "call 1 on the old form",
    "call 2 on the old form",
    "call 3 on the old form",
    "call 4 on the old form",
    "call 9 on the old form",
    "call 10 on the old form",
];

#[test]
fn scripts_lend_and_move_both_forms() {
    for kind in [Kind::Script, Kind::Calls] {
        let mut seen = Seen::default();
        (1..=1_200).for_each(|seed| seen.take(&stream(kind, seed, 200)));
        assert_often(&seen.cases, CASES, 3);
    }
}

#[test]
fn the_edges_lend_and_move_both_forms() {
    let mut seen = Seen::default();
    seen.take(&stream(Kind::Edges, 0, u64::MAX));
    assert_often(&seen.cases, CASES, 1);
}

#[test]
fn the_stored_script_lends_and_moves_both_forms() {
    let mut seen = Seen::default();
    seen.take(&stored("rig", "stdin"));
    assert_often(&seen.cases, CASES, 1);
}
