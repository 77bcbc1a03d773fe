//! Commands that break: one or two of their operations are malformed or cut short, at any place.

use port::table::{SetBy, TABLE};
use port::Profile;

use super::commands::add_any;
use super::dice::Dice;
use super::operations::{Operations, BEFORE_LIST, BEFORE_VALUE, SET};
use super::{not_served, values};

/// Codes that no operation has, some of them with the low bits of one that has.
const UNKNOWN: [u8; 8] = [0x00, 0x0A, 0x0A, 0x0B, 0x16, 0x81, 0x89, 0xFF];
/// Codes that no operation of Release 16 has: those of Release 18 most of all.
const UNKNOWN_16: [u8; 8] = [0x00, 0x06, 0x06, 0x07, 0x08, 0x09, 0x09, 0x0A];
/// Codes of the operations that are a code and a name.
const NAMED: [u8; 3] = [2, 4, 5];
/// How many octets more than it has a value is told to have.
const MORE: [usize; 7] = [0, 0, 1, 9, 300, 60_000, 60_000];

/// A command that breaks in this profile at its first operation, at its last, or in between. Where it is
/// cut short, the octets that it lacks often follow.
pub fn command(dice: &mut Dice, profile: &'static Profile) -> Vec<u8> {
    let mut operations = Operations::by(profile);
    let mut end = usize::MAX;
    for _ in 0..dice.pick(&[1, 1, 2]) {
        add_some(dice, &mut operations);
        end = end.min(add_broken(dice, &mut operations));
    }
    add_some(dice, &mut operations);
    let length = end.min(operations.length());
    let mut message = operations.command_telling(length);
    if dice.one_in(2) {
        message.truncate(BEFORE_LIST + length);
    }
    message
}

fn add_some(dice: &mut Dice, operations: &mut Operations) {
    for _ in 0..dice.pick(&[0, 0, 1, 2, 4]) {
        add_any(dice, operations);
    }
}

/// Adds an operation that cannot be read, if the list ends no later than is returned.
fn add_broken(dice: &mut Dice, operations: &mut Operations) -> usize {
    let at = operations.length();
    let name = values::name(dice);
    match dice.below(7) {
        0..=1 => {
            let code = match not_served::is_known_to(operations.by) {
                true => dice.pick(&UNKNOWN),
                false => dice.pick(&UNKNOWN_16),
            };
            match dice.one_in(2) {
                true => operations.named(code, name),
                false => operations.valued(code, name, &not_served::value(dice, name)),
            }
            // It cannot be read with its name and value nor without.
            dice.pick(&[usize::MAX, usize::MAX, at + 1])
        }
        2 => {
            operations.named(dice.pick(&NAMED), name);
            at + dice.between(1, 2)
        }
        3 => {
            add_valued(dice, operations, 0);
            at + dice.between(1, 2)
        }
        4 => {
            add_valued(dice, operations, 0);
            at + dice.between(3, 4)
        }
        _ => {
            let more = dice.pick(&MORE);
            let told = add_valued(dice, operations, more);
            let there = dice.below(told);
            at + BEFORE_VALUE + dice.pick(&[there, told - 1])
        }
    }
}

/// Adds a set, or what is laid out as one, that tells so many octets more than its value has; all
/// that it tells, which is one or more, so that one can be lacking.
fn add_valued(dice: &mut Dice, operations: &mut Operations, more: usize) -> usize {
    let (code, name, value) = if dice.one_in(2) || !not_served::is_known_to(operations.by) {
        let parameter = &TABLE[values::place(dice, SetBy::Controller)];
        (SET, parameter.name, values::permitted(dice, parameter))
    } else {
        let name = not_served::name(dice);
        let value = not_served::value(dice, name);
        (dice.pick(&not_served::CODES), name, value)
    };
    let told = (value.len() + more).max(1);
    operations.valued_telling(code, name, told, &value);
    told
}
