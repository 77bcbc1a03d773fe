//! What a port writes: its answers to random commands, and its notifications.

use port::table::{SetBy, TABLE};
use port::{build_notification, make_fresh, take_local_value, take_message, Profile, FRESH};

use crate::traffic::commands;
use crate::traffic::dice::Dice;
use crate::traffic::values;

/// Octets of the room for a reply.
const ROOM: usize = 4_096;
/// Names whose values are told at most in one notification.
const MOST_CHANGES: usize = 7;

/// What the port has answered: the number, and what was written.
pub struct Answer {
    pub number: u8,
    pub written: Vec<u8>,
}

/// A port that is played, and what it has written last.
pub struct Port {
    memory: Vec<u8>,
    room: Vec<u8>,
}

impl Port {
    pub fn fresh(profile: &Profile) -> Port {
        let mut memory = FRESH.to_vec();
        make_fresh(&mut memory, profile.octet);
        Port {
            memory,
            room: vec![0; ROOM],
        }
    }

    /// The answer to any message.
    pub fn reply(&mut self, dice: &mut Dice) -> Answer {
        let message = commands::message(dice, &self.memory);
        self.send(&message)
    }

    /// A notification of some values that the port sets, which is then acknowledged.
    pub fn notification(&mut self, dice: &mut Dice) -> Answer {
        let message = commands::subscriptions(dice);
        self.send(&message);
        for _ in 0..dice.between(1, MOST_CHANGES) {
            let parameter = &TABLE[values::place(dice, SetBy::Port)];
            let absent = dice.one_in(4);
            let value = values::permitted(dice, parameter);
            let value = if absent { &[] } else { value.as_slice() };
            take_local_value(&mut self.memory, parameter.name, value);
        }
        let answer = build_notification(&mut self.memory, &mut self.room);
        let built = self.answer(answer);
        let message = commands::acknowledgement(dice);
        self.send(&message);
        built
    }

    fn send(&mut self, message: &[u8]) -> Answer {
        let answer = take_message(&mut self.memory, message, &mut self.room);
        self.answer(answer)
    }

    fn answer(&self, answer: port::Answer) -> Answer {
        Answer {
            number: answer.number as u8,
            written: self.room[..answer.length].to_vec(),
        }
    }
}
