//! What is answered otherwise to controllers of Release 16, for traffic: the length of the control list,
//! the name that they do not list, and values too long for them.

use port::table::{find, COUNT, LIST, LIST_LENGTH, LIST_MAX, TABLE};

use super::dice::Dice;
use super::operations::{Operations, BEFORE_LIST, BEFORE_VALUE, SET};
use super::values;

/// Lengths of values around the longest that may be set.
const LENGTHS: [usize; 8] = [254, 255, 255, 256, 256, 257, 300, 512];
/// Numbers of list entries around the most that may be set.
const ENTRIES: [usize; 5] = [35, 36, 37, 37, 64];

/// Adds any of these.
pub fn add(dice: &mut Dice, operations: &mut Operations) {
    match dice.below(8) {
        0..=2 => unlisted(dice, operations),
        3..=4 => list_length(dice, operations),
        _ => {
            let name = values::name(dice);
            operations.valued(SET, name, &long(dice, name));
        }
    }
}

/// The name that is not listed there, in each operation that has one.
fn unlisted(dice: &mut Dice, operations: &mut Operations) {
    let name = TABLE[LIST_MAX].name;
    let length = dice.pick(&[0, 4, 4, 256]);
    match dice.below(4) {
        0 => operations.set(name, &vec![64; length]),
        1 => operations.subscribe(name),
        2 => operations.unsubscribe(name),
        _ => operations.read(name),
    }
}

/// A length of the control list in as many octets as it may have, or in more or fewer.
fn list_length(dice: &mut Dice, operations: &mut Operations) {
    let name = TABLE[LIST_LENGTH].name;
    let number = dice.pick(&[0, 1, 36, 37, 64, 64, 65, 256, 0x4000]) as u32;
    let length = dice.pick(&[2, 2, 2, 4, 4, 0, 1, 3]);
    let octets = number.to_be_bytes();
    operations.valued(SET, name, &octets[octets.len() - length..]);
}

/// A value about as long as the longest that may be set, with a rule that it mostly keeps but for that.
fn long(dice: &mut Dice, name: u16) -> Vec<u8> {
    if find(name) == Some(LIST) || dice.one_in(8) {
        let entries = dice.pick(&ENTRIES);
        values::list(dice, entries)
    } else {
        let length = dice.pick(&LENGTHS);
        dice.octets(length)
    }
}

/// Long values beside others of the same name, so that it is seen what has come of each.
pub fn beside_others(dice: &mut Dice, mut operations: Operations) -> Operations {
    for _ in 0..dice.between(1, 3) {
        let place = [LIST, LIST_LENGTH, LIST_MAX, dice.below(COUNT)][dice.below(4)];
        let name = TABLE[place].name;
        if dice.one_in(2) {
            operations.set(name, &values::permitted(dice, &TABLE[place]));
        }
        if dice.one_in(2) {
            operations.valued(SET, name, &long(dice, name));
        }
        match dice.below(4) {
            0 => operations.subscribe(name),
            1 => operations.unsubscribe(name),
            _ => add(dice, &mut operations),
        }
        operations.read(name);
    }
    operations
}

/// A command of `length` octets, filled by the value of its last set.
pub fn filled(dice: &mut Dice, mut operations: Operations, length: usize) -> Operations {
    for _ in 0..dice.below(3) {
        operations.read(values::name(dice));
    }
    let before = BEFORE_LIST + operations.length() + BEFORE_VALUE;
    let name = values::name(dice);
    operations.valued(SET, name, &vec![dice.octet(); length - before]);
    operations
}
