//! What is not served in streams: each code with every sort of name and value, carried out and cut
//! short, by chance and in what is stored with the proved programs.

use std::collections::{BTreeMap, BTreeSet};

use kit::files::stored;
use kit::{operations_by_clauses, Bench};
use port::table::find;
use tools::traffic::{stream, Kind};

use crate::breaks::{break_of, list, Sort, SORTS};
use crate::traffic::{pieces, play, profile};

/// The codes of what is not served.
const CODES: [u8; 4] = [6, 7, 8, 9];
/// The first code behind them, which is unknown.
const UNKNOWN: u8 = 10;

/// How long a value is: whether one octet can tell it.
#[derive(Clone, Copy, Debug, PartialEq, Eq, PartialOrd, Ord)]
enum Size {
    Empty,
    Short,
    Long,
}

const SIZES: [Size; 3] = [Size::Empty, Size::Short, Size::Long];

/// What messages have of it.
#[derive(Default)]
struct Seen {
    /// Operations that were carried out: their code, whether the name is listed, the value's size.
    done: BTreeMap<(u8, bool, Size), usize>,
    /// Commands that break at an operation with one of the codes, or with the unknown one.
    broken: BTreeMap<(u8, Sort), usize>,
    /// Commands carried out that are one such operation, by its code.
    alone: BTreeMap<u8, usize>,
    /// Commands that break in profile 03 at one of the codes: they are unknown there.
    unknown: BTreeMap<u8, usize>,
}

impl Seen {
    fn take(&mut self, profile: u8, (number, reply): (u8, Vec<u8>), message: &[u8]) {
        if let Some(how) = break_of(profile, message).filter(|_| number == 6) {
            let code = message[how.position];
            if profile == 3 && CODES.contains(&code) {
                assert_eq!(how.sort, Sort::Code);
                *self.unknown.entry(code).or_default() += 1;
                return;
            }
            *self.broken.entry((code, how.sort)).or_default() += 1;
        }
        let Some(list) = list(message).filter(|_| number == 0) else {
            return;
        };
        let operations = operations_by_clauses(profile, list);
        for operation in &operations {
            let [code @ 6..=9, high, low, _, _, value @ ..] = operation else {
                continue;
            };
            let size = match value.len() {
                0 => Size::Empty,
                1..=255 => Size::Short,
                _ => Size::Long,
            };
            let listed = find(u16::from_be_bytes([*high, *low])).is_some();
            *self.done.entry((*code, listed, size)).or_default() += 1;
        }
        if operations.len() == 1 && (6..=9).contains(&list[0]) {
            assert_eq!(reply.len(), [9, 1, 1, 9][usize::from(list[0]) - 6]);
            *self.alone.entry(list[0]).or_default() += 1;
        }
    }

    fn take_script(&mut self, script: &[u8]) {
        play(script, |before, message, room| {
            let answer = before.clone().send_into(message, room);
            self.take(profile(before), answer, message);
        });
    }

    fn take_frames(&mut self, frames: &[u8]) {
        let mut bench = Bench::fresh();
        for (_, message) in pieces(frames, 2) {
            let answer = bench.send(&message);
            self.take(2, answer, &message);
        }
    }

    /// Asserts that each code was carried out with every sort of name and value.
    fn assert_done(&self, least: usize) {
        for code in CODES {
            for (listed, size) in SIZES.iter().flat_map(|s| [true, false].map(|l| (l, *s))) {
                let count = self.done.get(&(code, listed, size)).copied().unwrap_or(0);
                assert!(count >= least, "{code}, {listed}, {size:?}: {count}");
            }
        }
    }

    /// Asserts that each code was cut short in each of its parts, and that 0A was malformed.
    fn assert_broken(&self, least: usize) {
        let parts = CODES
            .iter()
            .flat_map(|c| SORTS[1..].iter().map(|s| (*c, *s)));
        for part in parts.chain([(UNKNOWN, Sort::Code)]) {
            let count = self.broken.get(&part).copied().unwrap_or(0);
            assert!(count >= least, "{part:?}: {count}");
        }
        let known = CODES.iter().map(|code| (*code, Sort::Code));
        assert!(known.into_iter().all(|how| !self.broken.contains_key(&how)));
        for code in CODES {
            let count = self.unknown.get(&code).copied().unwrap_or(0);
            assert!(count >= least, "{code} in profile 03: {count}");
        }
    }
}

#[test]
fn streams_have_each_code_with_each_name_and_value() {
    let mut seen = Seen::default();
    (1..=100).for_each(|seed| seen.take_frames(&stream(Kind::Frames, seed, 200)));
    seen.assert_done(10);
    for kind in [Kind::Script, Kind::Calls] {
        let mut seen = Seen::default();
        (1..=600).for_each(|seed| seen.take_script(&stream(kind, seed, 200)));
        seen.assert_done(10);
        seen.assert_broken(4);
    }
}

#[test]
fn the_edges_have_each_code_with_each_name_and_value() {
    let mut seen = Seen::default();
    seen.take_script(&stream(Kind::Edges, 0, u64::MAX));
    seen.assert_done(3);
    seen.assert_broken(4);
    assert!(CODES.iter().all(|code| seen.alone[code] >= 40));
}

#[test]
fn the_stored_script_has_each_code_with_each_name_and_value() {
    let mut seen = Seen::default();
    seen.take_script(&stored("rig", "stdin"));
    seen.assert_done(4);
    seen.assert_broken(4);
}

#[test]
fn the_stored_script_has_as_many_as_can_be_counted() {
    let mut seen = BTreeSet::new();
    play(&stored("rig", "stdin"), |before, message, room| {
        for (code, count) in CODES.iter().flat_map(|c| [255, 256, 409].map(|n| (*c, n))) {
            let alike = list(message).is_some_and(|list| {
                let operations = list.chunks(5).filter(|o| o[0] == code && o[3..] == [0, 0]);
                list.len() == 5 * count && operations.count() == count
            });
            if alike {
                let (number, reply) = before.clone().send_into(message, room);
                seen.insert((code, count, number, reply.len()));
            }
        }
    });
    let expected = [
        (6, 255, 0, 6 + 255 * 3),
        (6, 256, 7, 0),
        (7, 409, 0, 1),
        (8, 409, 0, 1),
        (9, 255, 0, 6 + 255 * 3),
        (9, 256, 7, 0),
    ];
    assert!(seen.is_superset(&BTreeSet::from(expected)), "{seen:?}");
}

/// The bridge has them by chance alone, and so fewer of them together.
#[test]
fn the_stored_frames_have_each_code_with_some_names_and_values() {
    let mut seen = Seen::default();
    seen.take_frames(&stored("bridge", "stdin"));
    for code in CODES {
        let done = seen.done.keys().filter(|(of, _, _)| *of == code);
        let names: BTreeSet<bool> = done.clone().map(|(_, listed, _)| *listed).collect();
        let sizes: BTreeSet<Size> = done.map(|(_, _, size)| *size).collect();
        assert!(names.len() == 2 && sizes.len() >= 2, "{code}: {sizes:?}");
    }
    let cut = |sorts: &[Sort]| {
        let broken = seen.broken.keys();
        let mut broken = broken.filter(|(code, sort)| CODES.contains(code) && sorts.contains(sort));
        broken.next().is_some()
    };
    for sorts in [
        [Sort::Name, Sort::HalfName],
        [Sort::Length, Sort::HalfLength],
        [Sort::Value; 2],
    ] {
        assert!(cut(&sorts), "{sorts:?}");
    }
    assert!(seen.broken.contains_key(&(UNKNOWN, Sort::Code)));
}
