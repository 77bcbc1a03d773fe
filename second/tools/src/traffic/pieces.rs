//! The pieces that streams are made of: frames, instructions, and the cut piece that some streams end with.

use super::dice::Dice;

/// One stream in this many ends with a piece that is cut.
const CUT_STREAMS: usize = 4;

/// Whether a stream ends with a piece that is cut.
pub fn is_cut(dice: &mut Dice) -> bool {
    dice.one_in(CUT_STREAMS)
}

/// The frame of a message.
pub fn frame(message: &[u8]) -> Vec<u8> {
    [&(message.len() as u16).to_be_bytes(), message].concat()
}

/// The instruction of a code and a body.
pub fn instruction(code: u8, body: &[u8]) -> Vec<u8> {
    let [high, low] = (body.len() as u16).to_be_bytes();
    [&[code, high, low], body].concat()
}

/// Cuts a piece within its head, right after it, or within its body.
pub fn shorten(dice: &mut Dice, piece: &mut Vec<u8>, head: usize) {
    let last = piece.len() - 1;
    let within_head = dice.between(1, head - 1);
    let kept = [within_head, head, last, dice.between(1, last)];
    piece.truncate(dice.pick(&kept).min(last));
}
