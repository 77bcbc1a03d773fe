//! A script for `rig` under way: the calls that it makes, played on a rig beside it to know its state.

use std::io::{self, Sink, Write};

use port::table::{SetBy, TABLE, TIMER};
use port::{sound_in_form_b, take_message, FRESH, RELEASE_16, RELEASE_18};
use programs::rig::{code, Rig, MOST_ROOM};

use super::dice::Dice;
use super::forms::{behind, form_b_of, profile};
use super::gated::{self, Running};
use super::pace::Pace;
use super::{breaks, commands, faulty, in_flight, moves, pieces, values};

/// A room that is large enough for every reply.
const AMPLE: usize = 4_096;
/// Longest message that an instruction can carry beside the room length.
const LONGEST_MESSAGE: usize = 65_533;
/// Least room for a notification.
const LEAST_NOTIFICATION_ROOM: usize = 1_600;
/// One message in so many is a command that breaks, beside those among all other messages.
const BREAKS: usize = 9;

/// Any message, fit for the sound memory that will take it.
pub fn drawn(dice: &mut Dice, memory: &[u8]) -> Vec<u8> {
    if dice.one_in(BREAKS) {
        breaks::command(dice, profile(memory))
    } else {
        commands::message(dice, memory)
    }
}

/// A script under way.
pub struct Script<'a, W> {
    pub dice: &'a mut Dice,
    pub pace: Pace,
    /// The rig that has played it so far.
    pub rig: Rig<Sink>,
    pub sink: &'a mut W,
    /// Instructions that are still to come.
    pub left: u64,
    /// Whether the last one is faulty.
    pub cut: bool,
}

impl<W: Write> Script<'_, W> {
    /// Any call, on any memory. Where nothing runs in it, gates are asked for what ran before.
    pub fn call(&mut self, before: Option<&Running>) -> io::Result<()> {
        if self.dice.one_in(4) {
            let running = Running::of(&self.rig.memory);
            return self.ask(running.as_ref().or(before));
        }
        match self.dice.below(12) {
            0..=2 => {
                let fresh = form_b_of(profile(&self.rig.memory), behind(&FRESH));
                let message = drawn(self.dice, &fresh);
                self.send(&message)
            }
            3..=4 => self.local_value(),
            5..=6 => self.build(),
            7 => self.acknowledge(),
            8 => self.meanwhile(),
            9 => self.make_move().map(drop),
            _ => self.expiry(),
        }
    }

    /// Sends a message, as often to be told in full as not. Of what runs anew the gates are asked.
    pub fn send(&mut self, message: &[u8]) -> io::Result<()> {
        let message = &message[..message.len().min(LONGEST_MESSAGE)];
        let room = self.room_for(message);
        let body = [&(room as u16).to_be_bytes(), message].concat();
        let code = self.dice.pick(&[code::MESSAGE, code::MESSAGE_IN_FULL]);
        let before = Running::of(&self.rig.memory);
        self.instruction(code, &body)?;
        self.show()?;
        match Running::of(&self.rig.memory) {
            running if running == before => Ok(()),
            running => self.ask(running.as_ref()),
        }
    }

    /// A room size, often one around the length of the reply.
    fn room_for(&mut self, message: &[u8]) -> usize {
        if self.dice.one_in(self.pace.ample) {
            return AMPLE;
        }
        let mut room = [0; AMPLE];
        let reply = take_message(&mut self.rig.memory.clone(), message, &mut room).length;
        match self.dice.below(12) {
            0 => self.dice.below(reply + 1),
            1 => self.dice.between(AMPLE - 1, AMPLE + 1),
            2 => self.dice.between(MOST_ROOM - 1, MOST_ROOM + 1),
            3 => usize::from(u16::MAX),
            _ => (reply + self.dice.below(5)).saturating_sub(2),
        }
    }

    /// A local value, mostly one that is permitted.
    pub fn local_value(&mut self) -> io::Result<()> {
        let index = values::place(self.dice, SetBy::Port);
        let mut name = TABLE[index].name;
        let value = match self.dice.below(10) {
            0 => Vec::new(),
            1 => values::off(self.dice, &TABLE[index]),
            2 => {
                name = values::name(self.dice);
                vec![1]
            }
            _ => values::permitted(self.dice, &TABLE[index]),
        };
        let body = [&name.to_be_bytes(), value.as_slice()].concat();
        self.instruction(code::LOCAL_VALUE, &body)?;
        self.show()
    }

    /// An acknowledgement.
    pub fn acknowledge(&mut self) -> io::Result<()> {
        let message = commands::acknowledgement(self.dice);
        self.send(&message)
    }

    /// What comes while a notification is out, if one is: changes of what it tells, and commands.
    pub fn meanwhile(&mut self) -> io::Result<()> {
        let Some(place) = in_flight::place(self.dice, &self.rig.memory) else {
            return Ok(());
        };
        match self.dice.below(5) {
            0..=1 => {
                let value = in_flight::value(self.dice, &self.rig.memory, place);
                let body = [&TABLE[place].name.to_be_bytes(), value.as_slice()].concat();
                self.instruction(code::LOCAL_VALUE, &body)?;
                self.show()
            }
            2 => {
                let message = in_flight::command(self.dice, &self.rig.memory, place);
                self.send(&message)
            }
            3 => self.local_value(),
            _ => Ok(()),
        }
    }

    /// Whether a notification is out.
    pub fn is_waiting(&self) -> bool {
        behind(&self.rig.memory).get(TIMER) == Some(&1)
    }

    /// A notification, in a room that is mostly large enough.
    pub fn build(&mut self) -> io::Result<()> {
        let under = LEAST_NOTIFICATION_ROOM - 1;
        let rooms = [AMPLE, AMPLE, LEAST_NOTIFICATION_ROOM, 1_601, 65_535];
        let room = if self.dice.one_in(5) {
            self.dice.pick(&[under, under, 0])
        } else {
            self.dice.pick(&rooms)
        };
        self.instruction(code::BUILD, &(room as u16).to_be_bytes())?;
        self.show()
    }

    /// An expiry.
    pub fn expiry(&mut self) -> io::Result<()> {
        self.instruction(code::EXPIRY, &[])?;
        self.show()
    }

    /// Asks which gates are open at instants that suit a running block.
    pub fn ask(&mut self, running: Option<&Running>) -> io::Result<()> {
        for _ in 0..self.dice.between(1, 3) {
            let instant = gated::instant(self.dice, running);
            self.instruction(code::GATES, &instant.to_be_bytes())?;
        }
        self.show()
    }

    /// A move of what is lent, and what it wrote.
    pub fn make_move(&mut self) -> io::Result<Option<Vec<u8>>> {
        let code = moves::code(self.dice, &self.rig.memory);
        let room = moves::room(self.dice, code);
        self.instruction(code, &(room as u16).to_be_bytes())?;
        self.show()?;
        Ok(moves::written(code, &self.rig.memory, room))
    }

    /// Makes memory fresh: half of the time for profile 03, now and then for one that there is not.
    pub fn fresh(&mut self) -> io::Result<()> {
        let [usual, other, any] = [RELEASE_18.octet, RELEASE_16.octet, self.dice.octet()];
        match self.dice.below(12) {
            0..=2 => self.instruction(code::MAKE_FRESH, &[]),
            3..=4 => self.instruction(code::MAKE_FRESH, &[usual]),
            5..=10 => self.instruction(code::MAKE_FRESH, &[other]),
            _ => {
                let none = self.dice.pick(&[0x00, 0x01, 0x04, 0xFF, any]);
                self.instruction(code::MAKE_FRESH, &[none])
            }
        }
    }

    /// Lends sound memory unless what is lent is sound.
    pub fn sound_again(&mut self, sound: &[u8]) -> io::Result<()> {
        match sound_in_form_b(&self.rig.memory) {
            Some(_) => Ok(()),
            None => self.instruction(code::LEND, sound),
        }
    }

    /// Shows memory and room, as often as the pace has it.
    pub fn show(&mut self) -> io::Result<()> {
        let often = [
            (code::SHOW_MEMORY, self.pace.memory),
            (code::SHOW_ROOM, self.pace.room),
        ];
        for (code, calls) in often {
            if self.dice.one_in(calls) {
                self.instruction(code, &[])?;
            }
        }
        Ok(())
    }

    /// Writes an instruction and plays it, unless the script is full.
    pub fn instruction(&mut self, code: u8, body: &[u8]) -> io::Result<()> {
        if self.left == 0 {
            return Ok(());
        }
        self.left -= 1;
        self.rig.instruction(code, body)?;
        let mut instruction = pieces::instruction(code, body);
        if self.cut && self.left == 0 {
            instruction = faulty::instruction(self.dice, instruction);
        }
        self.sink.write_all(&instruction)
    }
}
