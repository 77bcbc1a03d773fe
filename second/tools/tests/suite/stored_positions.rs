//! The positions in the stored lines of the proved rig: that of each message in full.

use std::collections::{BTreeMap, BTreeSet};

use kit::{hex, position_by_clauses};
use programs::rig::code;

use crate::breaks::{break_of, PLACES, SORTS};
use crate::stored_script::{assert_seen, script, Answered};

/// The messages in full, and the position that each is answered with.
fn positions() -> Vec<(Answered, usize)> {
    let in_full = script().into_iter();
    let in_full = in_full.filter(|r| r.code == code::MESSAGE_IN_FULL);
    let told = in_full.map(|r| {
        let fields: Vec<&str> = r.line.split(' ').collect();
        assert_eq!(fields.len(), 3, "{}", r.line);
        let position = fields[1].parse().unwrap();
        (r, position)
    });
    told.collect()
}

/// The message of an instruction.
fn message(instruction: &Answered) -> &[u8] {
    &instruction.body[2..]
}

#[test]
fn the_stored_positions_are_those_of_the_clauses() {
    let mut seen: BTreeMap<u8, usize> = BTreeMap::new();
    for (instruction, position) in positions() {
        let (number, message) = (instruction.number(), message(&instruction));
        *seen.entry(number).or_default() += 1;
        if [0, 6, 7].contains(&number) && message[0] == 1 {
            let end = 3 + usize::from(message[1]) * 256 + usize::from(message[2]);
            let expected = position_by_clauses(instruction.profile, &message[3..end]);
            assert_eq!(number == 6, expected.is_some(), "{message:02x?}");
            assert_eq!(position, expected.unwrap_or(0), "{message:02x?}");
        } else {
            assert_eq!(position, 0, "{}", instruction.line);
        }
    }
    // Every number of a message is told with its position, 0 or not.
    let numbers: Vec<u8> = seen.keys().copied().collect();
    assert_eq!(numbers, [0, 1, 2, 3, 4, 5, 6, 7, 8]);
    assert!(seen.values().all(|count| *count >= 3), "{seen:?}");
    assert!(seen[&6] > 400 && seen[&0] > 200, "{seen:?}");
}

#[test]
fn the_stored_commands_break_in_each_way_at_each_place() {
    let mut seen = BTreeMap::new();
    for (instruction, _) in positions() {
        if let Some(how) = break_of(instruction.profile, message(&instruction)) {
            *seen.entry((how.sort, how.place)).or_insert(0) += 1;
        }
    }
    for (sort, place) in SORTS.iter().flat_map(|s| PLACES.map(|p| (*s, p))) {
        let count = seen.get(&(sort, place)).copied().unwrap_or(0);
        assert!(count >= 3, "{count} {sort:?} {place:?}");
    }
}

#[test]
fn the_stored_positions_are_near_and_far() {
    let told: Vec<usize> = positions().into_iter().map(|(_, at)| at).collect();
    let between = |least, most| told.iter().filter(|p| (least..=most).contains(*p)).count();
    assert_seen(&[
        ("first", between(3, 3), 50),
        ("of one octet", between(4, 255), 200),
        ("of two octets", between(256, 2_047), 40),
        (
            "the last octet of the longest message",
            between(2_047, 2_047),
            3,
        ),
    ]);
    let told: BTreeSet<usize> = told.into_iter().collect();
    for edge in [128, 256, 512, 1_024].map(|power| [power - 1, power, power + 1]) {
        assert!(edge.iter().all(|p| told.contains(p)), "{edge:?}");
    }
    // Neither the type nor L has a place of an operation.
    assert!(!told.contains(&1) && !told.contains(&2));
    assert_eq!(told.last(), Some(&2_047));
}

/// Each such room was made anew.
#[test]
fn the_stored_script_shows_rooms_behind_messages_in_full() {
    let script = script();
    let pairs = script.windows(2).filter(|pair| {
        let [sent, shown] = [&pair[0], &pair[1]].map(|r| r.code);
        sent == code::MESSAGE_IN_FULL && shown == code::SHOW_ROOM
    });
    let mut shown: BTreeMap<u8, BTreeSet<usize>> = BTreeMap::new();
    for pair in pairs {
        let room = hex(&pair[1].line);
        let asked = usize::from(pair[0].body[0]) * 256 + usize::from(pair[0].body[1]);
        assert_eq!(room.len(), asked.min(8_192));
        if pair[0].number() != 0 {
            assert!(room.iter().all(|octet| *octet == 0xA5), "{}", pair[0].line);
        }
        shown
            .entry(pair[0].number())
            .or_default()
            .insert(room.len());
    }
    assert!(shown[&6].contains(&0) && shown[&6].contains(&8_192));
    assert!(shown[&0].len() >= 4 && shown[&6].len() >= 4, "{shown:?}");
    assert!(shown[&7].len() >= 2, "{shown:?}");
}
