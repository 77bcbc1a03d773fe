//! Streams of frames for `bridge`, played beside it to know the memory that takes the next one.

use std::io::{self, Write};

use port::{take_message, FRESH};

use super::commands;
use super::dice::Dice;
use super::pieces::{frame, is_cut, shorten};

/// Octets of the room that `bridge` has for a reply.
const ROOM: usize = 4_096;

/// Writes a stream of `count` frames.
pub fn write<W: Write>(dice: &mut Dice, count: u64, sink: &mut W) -> io::Result<()> {
    let mut memory = FRESH;
    let mut room = [0; ROOM];
    let cut = is_cut(dice);
    for left in (0..count).rev() {
        let message = commands::message(dice, &memory);
        take_message(&mut memory, &message, &mut room);
        let mut frame = frame(&message);
        if cut && left == 0 {
            shorten(dice, &mut frame, 2);
        }
        sink.write_all(&frame)?;
    }
    Ok(())
}
