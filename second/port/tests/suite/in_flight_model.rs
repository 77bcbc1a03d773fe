//! Marks by the clauses alone, held against the port over calls by chance: nothing told is lost.

use std::collections::BTreeSet;

use crate::sound::{self, place};
use kit::{command, read, set, subscribe, unsubscribe, Bench, Chance};

/// The names that the port sets, and some that it does not.
const NAMES: [u16; 11] = [
    0x0001, 0x0008, 0x00A0, 0x00A1, 0x00A2, 0x00A3, 0x00A4, 0x0003, 0x000B, 0x8001, 0x0002,
];
const OWN: usize = 7;

/// What is marked, name by name, and since when a name is told and not acknowledged.
#[derive(Default)]
struct Marks {
    subscribed: BTreeSet<u16>,
    pending: BTreeSet<u16>,
    in_flight: BTreeSet<u16>,
    /// Told by some notification; neither acknowledged nor unsubscribed since.
    told: BTreeSet<u16>,
    waiting: bool,
}

/// How often what matters has come.
#[derive(Default, Debug)]
struct Seen {
    built: usize,
    acknowledged: usize,
    acknowledged_beside_pending: usize,
    given_up: usize,
    given_up_beside_pending: usize,
    told_again: usize,
    changed_in_flight: usize,
    unsubscribed_in_flight: usize,
}

impl Marks {
    /// The flags of a name, but for the one of its value.
    fn flags(&self, name: u16) -> u8 {
        let marks = [&self.subscribed, &self.pending, &self.in_flight];
        let worth = [2, 4, 8].into_iter().zip(marks);
        worth
            .filter(|(_, names)| names.contains(&name))
            .map(|(bit, _)| bit)
            .sum()
    }

    fn unsubscribe(&mut self, name: u16, seen: &mut Seen) {
        seen.unsubscribed_in_flight += usize::from(self.in_flight.contains(&name));
        self.subscribed.remove(&name);
        self.pending.remove(&name);
        self.in_flight.remove(&name);
        self.told.remove(&name);
    }

    fn built(&mut self, seen: &mut Seen) {
        seen.built += 1;
        seen.told_again += self.told.intersection(&self.pending).count();
        self.in_flight = std::mem::take(&mut self.pending);
        self.told.extend(&self.in_flight);
        self.waiting = true;
    }

    fn acknowledged(&mut self, seen: &mut Seen) {
        seen.acknowledged += 1;
        seen.acknowledged_beside_pending += self.in_flight.intersection(&self.pending).count();
        self.in_flight.clear();
        self.told.clear();
        self.waiting = false;
    }

    fn given_up(&mut self, seen: &mut Seen) {
        seen.given_up += 1;
        seen.given_up_beside_pending += self.in_flight.intersection(&self.pending).count();
        self.pending.append(&mut self.in_flight);
        self.waiting = false;
    }
}

fn random_command(chance: &mut Chance, bench: &mut Bench, marks: &mut Marks, seen: &mut Seen) {
    let mut operations = Vec::new();
    let mut subscribed = Vec::new();
    for _ in 0..=chance.below(3) {
        let name = NAMES[chance.below(NAMES.len())];
        match chance.below(7) {
            0..=2 => {
                operations.extend(subscribe(name));
                subscribed.push((name, true));
            }
            3 => {
                operations.extend(unsubscribe(name));
                subscribed.push((name, false));
            }
            4 => operations.extend(read(name)),
            5 => operations.extend(set(0x0003, &[chance.below(3) as u8])),
            _ => operations.extend(set(name, &[1])),
        }
    }
    let room = [0, 1, 4_096, 4_096, 4_096][chance.below(5)];
    if bench.send_into(&command(&operations), room).0 != 0 {
        return;
    }
    for (name, on) in subscribed.into_iter().filter(|(name, _)| *name != 0x0002) {
        if on {
            marks.subscribed.insert(name);
        } else {
            marks.unsubscribe(name, seen);
        }
    }
}

fn random_local(chance: &mut Chance, bench: &mut Bench, marks: &mut Marks, seen: &mut Seen) {
    let name = NAMES[chance.below(OWN)];
    let length = [0, 1, 2, 4, 8][chance.below(5)];
    let value = vec![1 + chance.below(2) as u8; length];
    let (start, size) = sound::room(place(name));
    let before = bench.memory[start..start + size].to_vec();
    // No value here ends in 00, so a room tells its value.
    if bench.local(name, &value) == 0 && bench.memory[start..start + size] != before {
        if marks.subscribed.contains(&name) {
            marks.pending.insert(name);
        }
        seen.changed_in_flight += usize::from(marks.in_flight.contains(&name));
    }
}

/// One call by chance, and what the clauses say that it does to the marks.
fn random_call(chance: &mut Chance, bench: &mut Bench, marks: &mut Marks, seen: &mut Seen) {
    match chance.below(16) {
        0..=3 => random_command(chance, bench, marks, seen),
        4..=8 => random_local(chance, bench, marks, seen),
        9..=11 => match bench.build_into([0, 1_600, 4_096][chance.below(3)]).0 {
            0 => marks.built(seen),
            number => assert!([9, 10, 11].contains(&number)),
        },
        12 => match bench.send_into(&[4], chance.below(2)).0 {
            0 => marks.acknowledged(seen),
            number => assert!([7, 8].contains(&number)),
        },
        13 if chance.below(40) == 0 => {
            bench.make_fresh_of(bench.first.unwrap());
            *marks = Marks::default();
        }
        _ => match bench.expire() {
            21 => marks.given_up(seen),
            number => assert_eq!(number, if marks.waiting { 20 } else { 8 }),
        },
    }
}

#[test]
fn nothing_told_is_lost() {
    for profile in [2, 3] {
        none_lost(profile);
    }
}

/// In both profiles marks are the same, but for those of the name that one does not list.
fn none_lost(profile: u8) {
    let mut chance = Chance::new(86);
    let mut bench = Bench::fresh_of(profile);
    let (mut marks, mut seen) = (Marks::default(), Seen::default());
    for _ in 0..60_000 {
        random_call(&mut chance, &mut bench, &mut marks, &mut seen);
        for name in NAMES.into_iter().filter(|name| *name != 0x0002) {
            let flags = bench.memory[6 * place(name) + 2] & !1;
            let unlisted = profile == 3 && name == 0x000B;
            let expected = if unlisted { 0 } else { marks.flags(name) };
            assert_eq!(flags, expected, "{name:04x}");
            // What is told is in flight or pending, and while idle it is pending.
            assert!(!marks.told.contains(&name) || flags & 12 != 0, "{name:04x}");
            assert!(marks.waiting || flags & 8 == 0, "{name:04x}");
        }
        assert_eq!(bench.memory[114], u8::from(marks.waiting));
        assert!(sound::is_sound_of(profile, &bench.memory) && bench.is_sound());
    }
    let counts = [
        seen.built,
        seen.acknowledged,
        seen.acknowledged_beside_pending,
        seen.given_up,
        seen.given_up_beside_pending,
        seen.told_again,
        seen.changed_in_flight,
        seen.unsubscribed_in_flight,
    ];
    assert!(counts.iter().all(|count| *count > 200), "{seen:?}");
}
