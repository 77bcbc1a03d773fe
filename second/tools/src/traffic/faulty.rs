//! The instruction that ends a run: cut short, with an unknown code, or with a body of the wrong length.

use programs::rig::{code, HEAD, MOST_LENT};

use super::dice::Dice;
use super::pieces::{self, shorten};

/// Codes that no instruction has.
const UNKNOWN: [u8; 4] = [0x0D, 0x0E, 0x10, 0xFF];
/// Codes with lengths that their bodies cannot have.
const WRONG: [(u8, usize); 20] = [
    (code::MAKE_FRESH, 2),
    (code::MESSAGE, 1),
    (code::LOCAL_VALUE, 1),
    (code::BUILD, 1),
    (code::BUILD, 3),
    (code::EXPIRY, 1),
    (code::LEND, MOST_LENT + 1),
    (code::SHOW_MEMORY, 1),
    (code::SHOW_ROOM, 1),
    (code::DELAY, 7),
    (code::DELAY, 9),
    (code::MESSAGE_IN_FULL, 0),
    (code::MESSAGE_IN_FULL, 1),
    (code::GATES, 0),
    (code::GATES, 7),
    (code::GATES, 9),
    (code::FORWARD, 1),
    (code::FORWARD, 3),
    (code::BACK, 0),
    (code::BACK, 3),
];

/// Makes an instruction faulty, or puts a faulty one in its place.
pub fn instruction(dice: &mut Dice, mut instruction: Vec<u8>) -> Vec<u8> {
    match dice.below(3) {
        0 => shorten(dice, &mut instruction, HEAD),
        1 => instruction[0] = dice.pick(&UNKNOWN),
        _ => {
            let (code, length) = dice.pick(&WRONG);
            instruction = pieces::instruction(code, &vec![0; length]);
        }
    }
    instruction
}
