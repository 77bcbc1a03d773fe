//! The streams for measuring rigs: memory is made full, and then asked which gates are open.

use std::io::{self, Write};
use std::iter;

use port::{take_message, FRESH};
use programs::rig::code;

use super::acts::{Memory, Scene};
use super::dice::Dice;
use super::gated::Running;
use super::pieces::instruction;

/// Octets of the room that a message has.
const ROOM: u16 = 4_096;

/// A stream: after the instructions that prepare memory, one question after another.
#[derive(Debug, PartialEq, Eq)]
pub struct Asked {
    /// Its word for `traffic`.
    pub word: &'static str,
    /// What it asks about.
    pub what: &'static str,
    entries: Entries,
}

/// Which entries are asked about.
#[derive(Clone, Copy, Debug, PartialEq, Eq)]
enum Entries {
    /// Each as often as every other, by chance.
    All,
    /// The last, to which the way is the longest.
    Last,
}

/// All of them.
pub static ASKED: [Asked; 2] = [
    Asked {
        word: "gates",
        what: "gates, each of 64 entries as often as every other",
        entries: Entries::All,
    },
    Asked {
        word: "gates-last",
        what: "gates, the last of 64 entries",
        entries: Entries::Last,
    },
];

impl Asked {
    /// The stream of a word.
    pub fn named(word: &str) -> Option<&'static Asked> {
        ASKED.iter().find(|stream| stream.word == word)
    }

    /// How many of its instructions prepare memory.
    pub fn before(&self) -> u64 {
        Scene::new(0, Memory::Full).1.len() as u64
    }

    /// Writes the first `count` instructions that belong to `seed`.
    pub fn write<W: Write>(&self, seed: u64, count: u64, sink: &mut W) -> io::Result<()> {
        let (_, before) = Scene::new(seed, Memory::Full);
        let mut memory = FRESH;
        for message in &before {
            take_message(&mut memory, message, &mut [0; ROOM as usize]);
        }
        let running = Running::of(&memory);
        let mut dice = Dice::new(seed);
        let before = before.iter().map(|message| {
            let body = [&ROOM.to_be_bytes(), &message[..]].concat();
            instruction(code::MESSAGE, &body)
        });
        // Full memory has a schedule that runs; without one any instant would do.
        let instant = || running.as_ref().map_or(0, |r| self.instant(&mut dice, r));
        let asked = iter::repeat_with(instant);
        let asked = asked.map(|instant| instruction(code::GATES, &instant.to_be_bytes()));
        for (instruction, _) in before.chain(asked).zip(0..count) {
            sink.write_all(&instruction)?;
        }
        Ok(())
    }

    fn instant(&self, dice: &mut Dice, running: &Running) -> i64 {
        let entry = match self.entries {
            Entries::All => dice.below(running.entries()),
            Entries::Last => running.entries() - 1,
        };
        running.within(dice, entry)
    }
}
