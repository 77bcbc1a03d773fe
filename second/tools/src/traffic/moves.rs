//! What is lent to be moved between its forms, and the rooms that it is moved to.

use port::table::{COUNT, ENTRY, EXPIRIES, SIZE, TIMER};
use port::{move_back, move_forward, IN_FLIGHT, LENT};
use programs::rig::{code, MOST_ROOM};

use super::dice::Dice;
use super::forms::{behind, form_b, form_b_of, profile};
use super::memories;

/// Memory to be moved, made of sound memory in form B: mostly of the old form, as an old bridge has it,
/// or with a change; else of form B, often with marks or with a change, or of neither.
pub fn lent(dice: &mut Dice, sound: &[u8]) -> Vec<u8> {
    match dice.below(14) {
        0..=4 => old(dice, behind(sound)),
        5..=6 => {
            let old = form_b_of(profile(sound), &old(dice, behind(sound)));
            behind(&memories::changed(dice, &old)).to_vec()
        }
        7 => behind(sound).to_vec(),
        8..=9 => memories::marked(dice, sound),
        10 => memories::changed(dice, sound),
        // What profile 03 takes profile 02 does, and there it can be moved back.
        11..=12 => memories::marked(dice, &form_b(behind(sound))),
        _ => memories::in_no_form(dice, sound),
    }
}

/// Memory of the old form: nothing is in flight, and it waits as often as not.
fn old(dice: &mut Dice, sound: &[u8]) -> Vec<u8> {
    let mut memory = sound.to_vec();
    for place in 0..COUNT {
        memory[place * ENTRY + 2] &= !IN_FLIGHT;
    }
    if dice.one_in(2) {
        memory[TIMER] = 1;
        memory[EXPIRIES] = dice.pick(&[0, 0, 1, 2, 3, 4, 4]);
    }
    memory
}

/// A move of what is lent: mostly the one from the form that is nearest.
pub fn code(dice: &mut Dice, lent: &[u8]) -> u8 {
    let [suits, other] = match lent.len() {
        LENT.. => [code::BACK, code::FORWARD],
        _ => [code::FORWARD, code::BACK],
    };
    dice.pick(&[suits, suits, suits, suits, other])
}

/// The length of a room for a move: mostly the right one, else one beside it or far from it.
pub fn room(dice: &mut Dice, code: u8) -> usize {
    let right = if code == code::FORWARD { LENT } else { SIZE };
    match dice.below(12) {
        0 => right - 1,
        1 => right + 1,
        2 => dice.pick(&[0, MOST_ROOM, MOST_ROOM + 1, 1, 1_600, 4_096]),
        _ => right,
    }
}

/// What a move of what is lent writes, if it is done.
pub fn written(code: u8, lent: &[u8], room: usize) -> Option<Vec<u8>> {
    let mut room = vec![0; room.min(MOST_ROOM)];
    let answer = match code {
        code::FORWARD => move_forward(lent, &mut room),
        _ => move_back(lent, &mut room),
    };
    (answer.length > 0).then_some(room)
}
