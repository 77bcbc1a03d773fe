//! The program `rig`: drives all calls from a script of instructions, one line an instruction.

use std::io::{self, Read, Write};

use port::{
    build_notification, gates, make_fresh, move_back, move_forward, take_expiry, take_local_value,
    take_message, Answer, DelayUnits, Gates, Nanoseconds, FRESH, RELEASE_18,
};

use crate::stream::{Lines, Piece, Pieces};

/// Record codes.
pub mod code {
    /// Make the lent memory fresh: nothing, or a profile (1).
    pub const MAKE_FRESH: u8 = 0x00;
    /// Message: room length (2), message.
    pub const MESSAGE: u8 = 0x01;
    /// Local value: name (2), value.
    pub const LOCAL_VALUE: u8 = 0x02;
    /// Build a notification: room length (2).
    pub const BUILD: u8 = 0x03;
    /// Timer expiry.
    pub const EXPIRY: u8 = 0x04;
    /// Lend other memory: 0 to 2,200 octets.
    pub const LEND: u8 = 0x05;
    /// Show memory.
    pub const SHOW_MEMORY: u8 = 0x06;
    /// Show the room of the last instruction that made one (RULES 17.11).
    pub const SHOW_ROOM: u8 = 0x07;
    /// Delay conversion: nanoseconds (8).
    pub const DELAY: u8 = 0x08;
    /// Message, as 01, with its position in the line: room length (2), message (RULES 17.18).
    pub const MESSAGE_IN_FULL: u8 = 0x09;
    /// Which gates are open: instant (8), in two's complement (RULES 17.19 and 17.20).
    pub const GATES: u8 = 0x0A;
    /// Move the lent memory forward, into the room: room length (2) (RULES 17.22).
    pub const FORWARD: u8 = 0x0B;
    /// Move the lent memory back, into the room: room length (2) (RULES 17.23).
    pub const BACK: u8 = 0x0C;
}

/// An instruction's head: code, length (2).
pub const HEAD: usize = 3;
/// Most octets that can be lent as memory.
pub const MOST_LENT: usize = 2_200;
/// Most octets of a room; a larger length counts as this.
pub const MOST_ROOM: usize = 8_192;
/// What a room made anew holds.
pub const ROOM_FILL: u8 = 0xA5;

/// Carries out the script on `input` and prints its lines on `output`.
pub fn run<R: Read, W: Write>(input: R, output: W) -> io::Result<()> {
    let mut rig = Rig::new(Lines::new(output));
    let mut instructions = Pieces::new(input, HEAD);
    loop {
        match instructions.next(&mut rig.lines)? {
            Piece::Whole(head, body) => {
                if rig.instruction(head[0], body)? {
                    continue;
                }
                rig.lines.text("cut")?;
            }
            Piece::Cut => rig.lines.text("cut")?,
            Piece::End => {}
        }
        return rig.lines.write_out();
    }
}

/// What a script is carried out on.
pub struct Rig<W> {
    /// The lent memory.
    pub memory: Vec<u8>,
    room: Vec<u8>,
    lines: Lines<W>,
}

impl<W: Write> Rig<W> {
    /// Fresh memory, an empty room, and where the lines go.
    pub fn new(lines: Lines<W>) -> Rig<W> {
        Rig {
            memory: FRESH.to_vec(),
            room: Vec::with_capacity(MOST_ROOM),
            lines,
        }
    }

    /// Carries out one instruction; false for an unknown code or a body of the wrong length.
    pub fn instruction(&mut self, code: u8, body: &[u8]) -> io::Result<bool> {
        let answer = match (code, body) {
            (code::MAKE_FRESH, []) => make_fresh(&mut self.memory, RELEASE_18.octet),
            (code::MAKE_FRESH, [profile]) => make_fresh(&mut self.memory, *profile),
            (code::MESSAGE | code::MESSAGE_IN_FULL, [high, low, message @ ..]) => {
                self.make_room([*high, *low]);
                take_message(&mut self.memory, message, &mut self.room)
            }
            (code::LOCAL_VALUE, [high, low, value @ ..]) => {
                let name = u16::from_be_bytes([*high, *low]);
                take_local_value(&mut self.memory, name, value)
            }
            (code::BUILD, [high, low]) => {
                self.make_room([*high, *low]);
                build_notification(&mut self.memory, &mut self.room)
            }
            (code::EXPIRY, []) => take_expiry(&mut self.memory),
            (code::FORWARD, [high, low]) => {
                self.make_room([*high, *low]);
                move_forward(&self.memory, &mut self.room)
            }
            (code::BACK, [high, low]) => {
                self.make_room([*high, *low]);
                move_back(&self.memory, &mut self.room)
            }
            _ => return self.other(code, body),
        };
        self.answered(answer, code == code::MESSAGE_IN_FULL)?;
        Ok(true)
    }

    /// The line of a call, in full with its position.
    fn answered(&mut self, answer: Answer, in_full: bool) -> io::Result<()> {
        let (number, written) = (answer.number as u8, &self.room[..answer.length]);
        if in_full {
            let position = answer.position;
            self.lines.part(&format!("{number} {position} "));
            self.lines.octets(written)
        } else {
            self.lines.numbered(number, written)
        }
    }

    /// The instructions that are no calls over memory.
    fn other(&mut self, code: u8, body: &[u8]) -> io::Result<bool> {
        match (code, body) {
            (code::LEND, memory) if memory.len() <= MOST_LENT => {
                self.memory.clear();
                self.memory.extend_from_slice(memory);
                self.lines.text(&format!("lent {}", memory.len()))?;
            }
            (code::SHOW_MEMORY, []) => self.lines.octets(&self.memory)?,
            (code::SHOW_ROOM, []) => self.lines.octets(&self.room)?,
            (code::DELAY, nanoseconds) => {
                let Ok(octets) = nanoseconds.try_into() else {
                    return Ok(false);
                };
                let delay = Nanoseconds(u64::from_be_bytes(octets));
                self.lines.octets(&DelayUnits::from(delay).octets())?;
            }
            (code::GATES, instant) => {
                let Ok(octets) = instant.try_into() else {
                    return Ok(false);
                };
                self.gates(gates(&self.memory, i64::from_be_bytes(octets)))?;
            }
            _ => return Ok(false),
        }
        Ok(true)
    }

    /// The line of what gates are open (RULES 17.21).
    fn gates(&mut self, gates: Gates) -> io::Result<()> {
        let number = gates.number() as u8;
        let Gates::Open {
            states,
            entry,
            nanoseconds: Nanoseconds(nanoseconds),
        } = gates
        else {
            return self.lines.numbered(number, &[]);
        };
        let line = format_args!("{number} {states:02x} {entry} {nanoseconds}");
        self.lines.formatted(line)
    }

    fn make_room(&mut self, length: [u8; 2]) {
        let length = usize::from(u16::from_be_bytes(length)).min(MOST_ROOM);
        self.room.clear();
        self.room.resize(length, ROOM_FILL);
    }
}
