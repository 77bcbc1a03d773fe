//! What is in flight in streams: each thing that can come to it, and memory that is lent with it where
//! it may stand and where not. The stored script has all of it too.

use std::collections::{BTreeMap, BTreeSet};

use kit::files::stored;
use kit::Bench;
use port::table::{SetBy, TABLE};
use tools::traffic::{stream, Kind};

use crate::traffic::play_all;

const PENDING: u8 = 4;
const IN_FLIGHT: u8 = 8;
const BOTH: u8 = PENDING | IN_FLIGHT;

/// What a stream does to names in flight.
#[derive(Default)]
struct Seen {
    cases: BTreeMap<&'static str, usize>,
    calls: usize,
    /// Names that were turned back to pending by the last expiry of a notification.
    turned_back: BTreeSet<usize>,
    /// Names that were pending beside in flight when they were acknowledged.
    kept: BTreeSet<usize>,
    /// What the last call did that changed a mark in flight.
    last: Option<&'static str>,
}

/// The flags of all cells; none where memory is not sound.
fn flags(bench: &Bench) -> Option<Vec<u8>> {
    let cells = bench.memory.get(..114).filter(|_| bench.is_sound())?;
    Some(cells.iter().skip(2).step_by(6).copied().collect())
}

/// The places whose flags hold all of some.
fn with(flags: &[u8], wanted: u8) -> BTreeSet<usize> {
    let places = flags.iter().enumerate();
    let held = places.filter(|(_, flags)| *flags & wanted == wanted);
    held.map(|(place, _)| place).collect()
}

/// The number of a call, and memory after it.
fn called(before: &Bench, code: u8, body: &[u8]) -> Option<(u8, Bench)> {
    let mut bench = before.clone();
    let first = |body: &[u8]| u16::from_be_bytes([body[0], body[1]]);
    let number = match (code, body.len()) {
        (0, 0..=1) => bench.make_fresh_of(body.first().copied().unwrap_or(2)),
        (1 | 9, 2..) => bench.send_into(&body[2..], first(body).into()).0,
        (2, 2..) => bench.local(first(body), &body[2..]),
        (3, 2) => bench.build_into(first(body).into()).0,
        (4, 0) => bench.expire(),
        _ => return None,
    };
    Some((number, bench))
}

/// Memory in which the flags of each place are others.
fn mended(memory: &[u8], mend: &dyn Fn(usize, u8) -> u8) -> Vec<u8> {
    let mut memory = memory.to_vec();
    for place in 0..19 {
        memory[6 * place + 2] = mend(place, memory[6 * place + 2]);
    }
    memory
}

impl Seen {
    fn take(&mut self, script: &[u8]) {
        (self.turned_back, self.kept) = Default::default();
        self.last = None;
        play_all(script, |bench, code, body| match code {
            5 => self.lent(body),
            6 => self.shown(bench),
            _ => self.call(bench, code, body),
        });
    }

    fn count(&mut self, case: &'static str, holds: bool) {
        *self.cases.entry(case).or_default() += usize::from(holds);
    }

    fn shown(&mut self, bench: &Bench) {
        let in_flight = flags(bench).is_some_and(|flags| !with(&flags, IN_FLIGHT).is_empty());
        self.count("shown with something in flight", in_flight);
        let shown = self.last.take();
        self.count("shown behind a build", shown == Some("built"));
        self.count(
            "shown behind an acknowledgement",
            shown == Some("acknowledged"),
        );
        self.count("shown behind the fifth expiry", shown == Some("given up"));
        self.count(
            "shown behind a change or a command",
            shown == Some("changed"),
        );
    }

    fn call(&mut self, bench: &Bench, code: u8, body: &[u8]) {
        let Some((number, after)) = called(bench, code, body) else {
            return;
        };
        self.calls += 1;
        let (Some(before), Some(after)) = (flags(bench), flags(&after)) else {
            return;
        };
        let changed = before.iter().zip(&after).any(|(b, a)| (b ^ a) & BOTH != 0);
        let out = with(&before, IN_FLIGHT);
        let done = number == 0 || number >= 20;
        self.last = None;
        if !done {
            self.count("refused while something is in flight", !out.is_empty());
            return;
        }
        match code {
            0 => {
                self.count("made fresh while something is in flight", !out.is_empty());
                (self.turned_back, self.kept) = Default::default();
            }
            1 | 9 if body[2] == 4 => self.acknowledged(&before, &after),
            1 | 9 => self.commanded(&before, &after),
            2 => self.local(&before, &after, body),
            3 => self.built(&after),
            _ => self.expired(number, &before, &after),
        }
        if changed && self.last.is_none() && !out.is_empty() {
            self.last = Some("changed");
        }
    }

    fn acknowledged(&mut self, before: &[u8], after: &[u8]) {
        let (out, both) = (with(before, IN_FLIGHT), with(before, BOTH));
        self.count("acknowledged", !out.is_empty());
        self.count("acknowledged with pending beside it", !both.is_empty());
        let others = with(after, PENDING).len() > both.len();
        self.count(
            "acknowledged with others pending",
            !out.is_empty() && others,
        );
        self.count("acknowledged with nothing in flight", out.is_empty());
        self.kept = both;
        self.turned_back.clear();
        self.last = Some("acknowledged");
    }

    fn commanded(&mut self, before: &[u8], after: &[u8]) {
        let out = with(before, IN_FLIGHT);
        let cleared: Vec<usize> = out.difference(&with(after, IN_FLIGHT)).copied().collect();
        let both = cleared.iter().any(|place| before[*place] & PENDING != 0);
        let again = cleared.iter().any(|place| after[*place] & 2 != 0);
        self.count("unsubscribed in flight", !cleared.is_empty());
        self.count("unsubscribed in flight with pending beside it", both);
        self.count("unsubscribed in flight and subscribed again", again);
        let untouched = !out.is_empty() && before == after;
        self.count("a command that leaves what is in flight", untouched);
    }

    fn local(&mut self, before: &[u8], after: &[u8], body: &[u8]) {
        let name = u16::from_be_bytes([body[0], body[1]]);
        let place = TABLE.iter().position(|row| row.name == name).unwrap();
        if before[place] & IN_FLIGHT == 0 {
            return;
        }
        let changed = before[place] & PENDING == 0 && after[place] & PENDING != 0;
        self.count("changed in flight", changed);
        let absent = before[place] & 1 == 1 && after[place] & 1 == 0;
        self.count("made absent in flight", absent);
        let equal = before[place] & PENDING == 0 && after[place] & PENDING == 0;
        self.count("an equal value in flight", equal);
    }

    fn built(&mut self, after: &[u8]) {
        let out = with(after, IN_FLIGHT);
        self.count("built", true);
        let again = !out.is_disjoint(&self.turned_back);
        self.count("told again behind the fifth expiry", again);
        let kept = !out.is_disjoint(&self.kept);
        self.count("told again behind an acknowledgement", kept);
        (self.turned_back, self.kept) = Default::default();
        self.last = Some("built");
    }

    fn expired(&mut self, number: u8, before: &[u8], after: &[u8]) {
        let (out, both) = (with(before, IN_FLIGHT), with(before, BOTH));
        if number == 20 {
            self.count("sent again", !out.is_empty());
            return;
        }
        self.count("given up", !out.is_empty());
        self.count("given up with pending beside it", !both.is_empty());
        let others = with(after, PENDING).len() > out.len();
        self.count("given up with others pending", !out.is_empty() && others);
        self.count("given up with nothing in flight", out.is_empty());
        self.turned_back = out;
        self.kept.clear();
        self.last = Some("given up");
    }

    /// Memory that is lent. What is wrong with it is found by setting that one thing right.
    fn lent(&mut self, lent: &[u8]) {
        (self.turned_back, self.kept) = Default::default();
        self.last = None;
        if let ([profile @ (2 | 3), memory @ ..], 2_101) = (lent, lent.len()) {
            self.lent_in_form_b(*profile, memory);
        }
    }

    fn lent_in_form_b(&mut self, profile: u8, memory: &[u8]) {
        let is_sound = |memory: Vec<u8>| Bench::of(memory).with_profile(profile).is_sound();
        let mended = |mend: &dyn Fn(usize, u8) -> u8| is_sound(mended(memory, mend));
        let mut cells = memory[..114].iter().skip(2).step_by(6);
        let out = cells.any(|flags| flags & IN_FLIGHT != 0);
        let sound = is_sound(memory.to_vec());
        self.count("lent with something in flight, sound", out && sound);
        if sound {
            return;
        }
        let mut waiting = memory.to_vec();
        waiting[114] = 1;
        let idle = out && memory[114] == 0 && is_sound(waiting);
        self.count("lent in flight while idle", idle);
        let of = |setter: SetBy| {
            mended(&|place, flags| match TABLE[place].set_by == setter {
                // A name that is not listed is not subscribed either.
                true if flags & IN_FLIGHT != 0 && setter == SetBy::Nobody && profile == 3 => 1,
                true if flags & IN_FLIGHT != 0 => flags & 3,
                _ => flags,
            })
        };
        self.count(
            "lent in flight of a controller's name",
            of(SetBy::Controller),
        );
        self.count("lent in flight of nobody's name", of(SetBy::Nobody));
        let subscribed = mended(&|_, flags| flags | (flags & IN_FLIGHT) >> 2);
        self.count("lent in flight, not subscribed", subscribed);
        let low = mended(&|_, flags| flags & 15);
        self.count("lent with flags over 15", low);
    }

    /// Asserts that each is seen so often at least.
    fn assert_seen(&self, least: usize) {
        assert_eq!(self.cases.len(), 32, "{:?}", self.cases);
        for (case, count) in &self.cases {
            assert!(*count >= least, "{case}: {count} of {} calls", self.calls);
        }
    }
}

/// What makes the most of it, and among how many calls there is one.
const SHARES: [(&str, usize); 10] = [
    ("built", 40),
    ("changed in flight", 75),
    ("made absent in flight", 250),
    ("unsubscribed in flight", 200),
    ("unsubscribed in flight and subscribed again", 600),
    ("acknowledged with pending beside it", 300),
    ("told again behind an acknowledgement", 600),
    ("given up with pending beside it", 200),
    ("told again behind the fifth expiry", 200),
    ("shown with something in flight", 17),
];

#[test]
fn scripts_have_all_that_comes_to_what_is_in_flight() {
    for kind in [Kind::Script, Kind::Calls] {
        let mut seen = Seen::default();
        (1..=600).for_each(|seed| seen.take(&stream(kind, seed, 200)));
        seen.assert_seen(12);
        for (case, calls) in SHARES {
            let count = seen.cases[case];
            assert!(
                count * calls > seen.calls,
                "{case}: {count} of {}",
                seen.calls
            );
        }
    }
}

#[test]
fn the_edges_have_all_that_comes_to_what_is_in_flight() {
    let mut seen = Seen::default();
    seen.take(&stream(Kind::Edges, 0, u64::MAX));
    seen.assert_seen(2);
}

#[test]
fn the_stored_script_has_all_that_comes_to_what_is_in_flight() {
    let mut seen = Seen::default();
    seen.take(&stored("rig", "stdin"));
    seen.assert_seen(5);
}
