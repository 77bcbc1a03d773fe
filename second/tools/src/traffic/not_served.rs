//! Operations that are not served, for traffic: with any name and any value, beside those that are
//! served, and with a value that fills the message.

use port::table::{find, TABLE};
use port::Profile;

use super::dice::Dice;
use super::operations::{Operations, BEFORE_LIST, BEFORE_VALUE};
use super::values;

/// The code of a selective read.
pub const SELECTIVE_READ: u8 = 6;
/// The code of a selective subscribe.
pub const SELECTIVE_SUBSCRIBE: u8 = 7;
/// The code of a selective unsubscribe.
pub const SELECTIVE_UNSUBSCRIBE: u8 = 8;
/// The code of a delete of an entry.
pub const DELETE_ENTRY: u8 = 9;

/// Their codes.
pub const CODES: [u8; 4] = [
    SELECTIVE_READ,
    SELECTIVE_SUBSCRIBE,
    SELECTIVE_UNSUBSCRIBE,
    DELETE_ENTRY,
];

/// Whether controllers of a profile have these codes.
pub fn is_known_to(controller: &Profile) -> bool {
    CODES.iter().all(|code| *code <= controller.last_code)
}

/// Lengths of values around the largest that one octet tells.
const LENGTHS: [usize; 4] = [255, 256, 257, 300];

/// Adds any of them.
pub fn add(dice: &mut Dice, operations: &mut Operations) {
    let code = dice.pick(&CODES);
    let name = name(dice);
    let value = value(dice, name);
    operations.valued(code, name, &value);
}

/// A name, more often than elsewhere an unlisted one, since these fail alike.
pub fn name(dice: &mut Dice) -> u16 {
    if dice.one_in(3) {
        values::unlisted(dice)
    } else {
        values::name(dice)
    }
}

/// A value for a name: mostly none, a short one, or one that the name's rule permits.
pub fn value(dice: &mut Dice, name: u16) -> Vec<u8> {
    let length = match dice.below(9) {
        0..=2 => 0,
        3..=4 => dice.between(1, 9),
        5..=7 => {
            // What has no rule gets a value that is one for many names.
            let permitted = find(name).map(|place| values::permitted(dice, &TABLE[place]));
            return permitted.unwrap_or_else(|| vec![1]);
        }
        _ => dice.pick(&LENGTHS),
    };
    dice.octets(length)
}

/// Some of them, each before or behind operations with the same name that are served.
pub fn beside_others(dice: &mut Dice, mut operations: Operations) -> Operations {
    for _ in 0..dice.between(1, 3) {
        let name = name(dice);
        let codes = [dice.pick(&CODES), dice.pick(&CODES)];
        let value = value(dice, name);
        operations.valued(codes[0], name, &value);
        match dice.below(4) {
            0 => operations.subscribe(name),
            1 => operations.unsubscribe(name),
            _ => operations.set(name, &value),
        }
        if dice.one_in(2) {
            operations.valued(codes[1], name, &[]);
        }
        operations.read(name);
    }
    operations
}

/// A command of `length` octets, filled by the value of its last operation.
pub fn filled(dice: &mut Dice, mut operations: Operations, length: usize) -> Operations {
    for _ in 0..dice.below(3) {
        operations.read(values::name(dice));
    }
    let (code, name) = (dice.pick(&CODES), name(dice));
    let before = BEFORE_LIST + operations.length() + BEFORE_VALUE;
    operations.valued(code, name, &vec![dice.octet(); length - before]);
    operations
}
