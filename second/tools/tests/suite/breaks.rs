//! Commands that break in scripts: each sort of break at each place, in full as often as in short.

use std::collections::BTreeMap;
use std::sync::LazyLock;

use kit::{command, position_by_clauses};
use tools::traffic::{stream, Kind};

use crate::traffic::{pieces, play_all, printed, profile, profiles};

/// What of an operation is unknown or lacking.
#[derive(Clone, Copy, Debug, PartialEq, Eq, PartialOrd, Ord)]
pub enum Sort {
    Code,
    Name,
    HalfName,
    Length,
    HalfLength,
    Value,
}

/// Where an operation stands among those of a message, octets behind the list included.
#[derive(Clone, Copy, Debug, PartialEq, Eq, PartialOrd, Ord)]
pub enum Place {
    First,
    Middle,
    Last,
}

pub const SORTS: [Sort; 6] = [
    Sort::Code,
    Sort::Name,
    Sort::HalfName,
    Sort::Length,
    Sort::HalfLength,
    Sort::Value,
];
pub const PLACES: [Place; 3] = [Place::First, Place::Middle, Place::Last];

/// The list of a command whose L octets are there, and which is not too long.
pub fn list(message: &[u8]) -> Option<&[u8]> {
    let [1, high, low, rest @ ..] = message else {
        return None;
    };
    let list = rest.get(..usize::from(*high) * 256 + usize::from(*low))?;
    (message.len() <= 2_048).then_some(list)
}

/// How a message breaks, and where.
#[derive(Clone, Copy, Debug, PartialEq, Eq)]
pub struct Break {
    pub position: usize,
    pub sort: Sort,
    pub place: Place,
}

/// The break of a message in a profile; none if it does not break.
pub fn break_of(profile: u8, message: &[u8]) -> Option<Break> {
    let list = list(message)?;
    let position = position_by_clauses(profile, list)?;
    let sort = match list[position - 3..] {
        [0 | 10..=255, ..] => Sort::Code,
        [6..=9, ..] if profile == 3 => Sort::Code,
        [_] => Sort::Name,
        [_, _] => Sort::HalfName,
        [_, _, _] => Sort::Length,
        [_, _, _, _] => Sort::HalfLength,
        _ => Sort::Value,
    };
    let place = match position + whole(&message[position..]) {
        _ if position == 3 => Place::First,
        end if end < message.len() => Place::Middle,
        _ => Place::Last,
    };
    Some(Break {
        position,
        sort,
        place,
    })
}

/// How many octets the operation at the front has, if octets behind the list count.
fn whole(octets: &[u8]) -> usize {
    match octets {
        [3 | 6..=9, _, _, high, low, ..] => 5 + usize::from(*high) * 256 + usize::from(*low),
        [3 | 6..=9, ..] => 5,
        [1, ..] => 1,
        _ => 3,
    }
}

/// A message of a script, the code of its instruction, and how it breaks.
struct Sent {
    profile: u8,
    code: u8,
    message: Vec<u8>,
    broken: Option<Break>,
}

/// The messages of some scripts of each kind.
static SENT: LazyLock<[(Kind, Vec<Sent>); 2]> =
    LazyLock::new(|| [Kind::Script, Kind::Calls].map(|kind| (kind, sent(kind))));

fn sent(kind: Kind) -> Vec<Sent> {
    let mut sent = Vec::new();
    for seed in 1..=600 {
        play_all(&stream(kind, seed, 200), |bench, code, body| {
            if let (1 | 9, [_, _, message @ ..]) = (code, body) {
                let profile = profile(bench);
                sent.push(Sent {
                    profile,
                    code,
                    message: message.to_vec(),
                    broken: break_of(profile, message),
                });
            }
        });
    }
    sent
}

/// The messages that break, and how.
fn broken(sent: &[Sent]) -> impl Iterator<Item = (&Sent, Break)> {
    sent.iter().filter_map(|sent| Some((sent, sent.broken?)))
}

#[test]
fn each_sort_of_break_is_at_each_place() {
    for (kind, sent) in &*SENT {
        let mut seen: BTreeMap<(u8, Sort, Place), usize> = BTreeMap::new();
        for (sent, how) in broken(sent) {
            *seen.entry((sent.code, how.sort, how.place)).or_default() += 1;
        }
        for (sort, place) in SORTS.iter().flat_map(|s| PLACES.map(|p| (*s, p))) {
            for code in [1, 9] {
                let count = seen.get(&(code, sort, place)).copied().unwrap_or(0);
                assert!(count >= 6, "{kind:?} {code}: {count} {sort:?} {place:?}");
            }
        }
    }
}

#[test]
fn some_commands_break_far_from_their_start() {
    for (kind, sent) in &*SENT {
        let far = broken(sent).filter(|(_, how)| how.position > 255).count();
        assert!(far >= 100, "{kind:?}: {far}");
    }
}

#[test]
fn some_commands_break_twice() {
    for (kind, sent) in &*SENT {
        let (mut twice, mut swallowed) = (0, 0);
        for (sent, Break { position, sort, .. }) in broken(sent) {
            let list = list(&sent.message).unwrap();
            // Behind an unknown code and the name that is beside it.
            let behind = list.get(position..).unwrap_or(&[]);
            let again = position_by_clauses(sent.profile, behind).is_some();
            twice += usize::from(sort == Sort::Code && again);
            // A value that is told to have more octets than can follow, and some do.
            let told = whole(&sent.message[position..]);
            let long = told > 2_048 && list.len() > position + 10;
            swallowed += usize::from(sort == Sort::Value && long);
        }
        assert!(twice >= 40, "{kind:?}: {twice}");
        assert!(swallowed >= 20, "{kind:?}: {swallowed}");
    }
}

/// What is cut short by the end of the list goes on behind it: with a larger L it could be read.
#[test]
fn some_octets_behind_the_list_would_complete_an_operation() {
    for (kind, sent) in &*SENT {
        let mut completed: BTreeMap<Sort, usize> = BTreeMap::new();
        for (sent, how) in broken(sent) {
            let end = how.position + whole(&sent.message[how.position..]);
            let longer = sent.message.get(3..end);
            if longer.map(|list| position_by_clauses(sent.profile, list)) == Some(None) {
                *completed.entry(how.sort).or_default() += 1;
            }
        }
        let sorts: Vec<Sort> = completed.keys().copied().collect();
        assert_eq!(sorts, SORTS[1..], "{kind:?}");
        assert!(completed.values().all(|n| *n >= 10), "{completed:?}");
    }
}

#[test]
fn messages_are_sent_in_full_as_often_as_in_short() {
    type Kinds = [(&'static str, fn(&Sent) -> bool); 8];
    let kinds: Kinds = [
        ("all", |_| true),
        ("empty", |sent| sent.message.is_empty()),
        ("too long", |sent| sent.message.len() > 2_048),
        ("acknowledgements", |sent| sent.message.first() == Some(&4)),
        ("of a wrong type", |sent| {
            let kind = sent.message.first();
            kind.is_some_and(|kind| ![1, 4].contains(kind))
        }),
        ("with a wrong L", |sent| {
            sent.message.first() == Some(&1) && list(&sent.message).is_none()
        }),
        ("that break", |sent| sent.broken.is_some()),
        ("that do not break", |sent| {
            list(&sent.message).is_some() && sent.broken.is_none()
        }),
    ];
    for (kind, sent) in &*SENT {
        for (what, chosen) in kinds {
            let of = |code| sent.iter().filter(|s| s.code == code && chosen(s)).count();
            let [short, full] = [1, 9].map(of);
            let most = short.max(full);
            let alike = short.min(full) * 3 > most * 2;
            assert!(most >= 30 && alike, "{kind:?}, {what}: {short} and {full}");
        }
    }
}

/// With 01 for each 09 a script prints the same lines, but for the positions, and these are those of
/// the clauses.
#[test]
fn scripts_in_full_differ_by_their_positions_alone() {
    let (mut in_full, mut breaks) = (0, 0);
    for (seed, kind) in (1..=40).flat_map(|seed| [(seed, Kind::Script), (seed, Kind::Calls)]) {
        let stream = stream(kind, seed, 200);
        let (mut instructions, profiles) = (pieces(&stream, 3), profiles(&stream));
        // The last one may be faulty.
        instructions.truncate(199);
        let [full, short] = [9, 1].map(|code| {
            let codes = |head: &[u8]| [if head[0] == 9 { code } else { head[0] }, head[1], head[2]];
            let joined = instructions
                .iter()
                .map(|(head, body)| [&codes(head), &body[..]].concat());
            printed(&joined.collect::<Vec<_>>().concat())
        });
        assert_eq!((full.len(), short.len()), (199, 199));
        let lines = full.iter().zip(&short).zip(profiles);
        for ((head, body), ((full, short), profile)) in instructions.iter().zip(lines) {
            if head[0] != 9 {
                assert_eq!(full, short, "seed {seed}");
                continue;
            }
            let (number, written) = short.split_once(' ').unwrap();
            let broken = break_of(profile, &body[2..]).filter(|_| number == "6");
            let position = broken.map_or(0, |how| how.position);
            assert_eq!(*full, format!("{number} {position} {written}"));
            assert_eq!(number == "6", broken.is_some(), "seed {seed}");
            in_full += 1;
            breaks += usize::from(broken.is_some());
        }
    }
    assert!(in_full > 1_500 && breaks > 200, "{breaks} of {in_full}");
}

#[test]
fn sorts_and_places_are_told_apart() {
    use {Place::*, Sort::*};
    let at = |operations: &[u8], behind: &[u8]| {
        let how = break_of(2, &[&command(operations), behind].concat())?;
        Some((how.sort, how.place))
    };
    assert_eq!(at(&[1, 2, 0, 3], &[10]), None);
    assert_eq!(at(&[10], &[]), Some((Code, First)));
    assert_eq!(at(&[1, 10, 0, 3], &[]), Some((Code, Last)));
    assert_eq!(at(&[1, 10, 0, 3, 1], &[]), Some((Code, Middle)));
    assert_eq!(at(&[1, 2], &[]), Some((Name, Last)));
    assert_eq!(at(&[1, 2], &[0, 3]), Some((Name, Last)));
    assert_eq!(at(&[1, 2, 0], &[3, 1]), Some((HalfName, Middle)));
    assert_eq!(at(&[1, 3, 0, 3], &[0, 0]), Some((Length, Last)));
    assert_eq!(at(&[3, 0, 3, 0], &[0]), Some((HalfLength, First)));
    assert_eq!(at(&[1, 3, 0, 3, 0, 2, 1], &[1]), Some((Value, Last)));
    assert_eq!(at(&[1, 3, 0, 3, 0, 2, 1], &[1, 1]), Some((Value, Middle)));
    assert_eq!(at(&[6, 0, 3, 0, 1, 1, 9], &[]), Some((Name, Last)));
    assert_eq!(at(&[1, 7, 0, 3], &[0, 0]), Some((Length, Last)));
    assert_eq!(at(&[8, 0, 3, 0], &[0]), Some((HalfLength, First)));
    assert_eq!(at(&[1, 9, 0, 3, 0, 2, 1], &[1, 1]), Some((Value, Middle)));
    assert_eq!(break_of(2, &[1, 0, 2, 10]), None);
    // What is not served in one profile is unknown in the other.
    let served = command(&[1, 6, 0, 3, 0, 0]);
    assert_eq!(break_of(2, &served), None);
    let how = break_of(3, &served).unwrap();
    assert_eq!((how.position, how.sort, how.place), (4, Code, Last));
}
