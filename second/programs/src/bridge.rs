//! The program `bridge`: frames in, one line a frame out, over one memory.

use std::io::{self, Read, Write};

use port::{take_message, FRESH};

use crate::stream::{Lines, Piece, Pieces};

/// Octets of the reply room.
const ROOM: usize = 4_096;
/// A frame's head is its length.
const HEAD: usize = 2;

/// Answers all frames of `input` on `output`.
pub fn run<R: Read, W: Write>(input: R, output: W) -> io::Result<()> {
    let mut memory = FRESH;
    let mut room = [0; ROOM];
    let mut frames = Pieces::new(input, HEAD);
    let mut lines = Lines::new(output);
    loop {
        match frames.next(&mut lines)? {
            Piece::Whole(_, message) => {
                let answer = take_message(&mut memory, message, &mut room);
                lines.numbered(answer.number as u8, &room[..answer.length])?;
            }
            Piece::Cut => {
                lines.text("cut")?;
                return lines.write_out();
            }
            Piece::End => return lines.write_out(),
        }
    }
}
