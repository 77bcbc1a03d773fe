//! What comes while a notification is out: local values and commands with the names that it tells.

use port::table::{SetBy, COUNT, ENTRY, TABLE};
use port::{sound_in_form_b, IN_FLIGHT};

use super::dice::Dice;
use super::forms::{held, profile};
use super::operations::Operations;
use super::values;

/// The places of what is in flight; none where memory is not sound.
fn places(lent: &[u8]) -> Vec<usize> {
    let Some((_, memory)) = sound_in_form_b(lent) else {
        return Vec::new();
    };
    let in_flight = |place: &usize| memory[place * ENTRY + 2] & IN_FLIGHT != 0;
    (0..COUNT).filter(in_flight).collect()
}

/// Any name in flight; none where there is none.
pub fn place(dice: &mut Dice, lent: &[u8]) -> Option<usize> {
    let places = places(lent);
    (!places.is_empty()).then(|| dice.pick(&places))
}

/// A value for a name in flight: mostly another one, else none, or the one that it has.
pub fn value(dice: &mut Dice, lent: &[u8], place: usize) -> Vec<u8> {
    match dice.below(5) {
        0 => Vec::new(),
        1 => held(lent, place).unwrap_or_default().to_vec(),
        _ => values::permitted(dice, &TABLE[place]),
    }
}

/// A command with what does something to a name in flight, and with what does nothing.
pub fn command(dice: &mut Dice, lent: &[u8], place: usize) -> Vec<u8> {
    let mut operations = Operations::by(profile(lent));
    let name = TABLE[place].name;
    match dice.below(8) {
        0..=1 => operations.unsubscribe(name),
        2..=3 => {
            operations.unsubscribe(name);
            operations.subscribe(name);
        }
        4 => {
            operations.subscribe(name);
            operations.read(name);
        }
        5 => {
            operations.set(name, &values::permitted(dice, &TABLE[place]));
            let other = &TABLE[values::place(dice, SetBy::Controller)];
            operations.set(other.name, &values::permitted(dice, other));
        }
        6 => places(lent)
            .iter()
            .for_each(|place| operations.unsubscribe(TABLE[*place].name)),
        _ => {
            operations.subscribe(name);
            operations.unsubscribe(name);
        }
    }
    operations.command()
}
