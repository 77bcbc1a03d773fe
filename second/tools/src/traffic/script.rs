//! Scripts for `rig`: scenes of calls, with memory that is lent, made fresh or moved between them.

use std::io::{self, Write};

use port::{LENT, RELEASE_16};
use programs::rig::{code, Rig};
use programs::stream::Lines;

use super::dice::Dice;
use super::forms::{behind, form_b_of, other, profile};
use super::gated::{self, Running};
use super::operations::Operations;
use super::pace::Pace;
use super::pieces::is_cut;
use super::stage::{drawn, Script};
use super::{commands, memories, moves, schedules};

/// One scene in so many asks which gates are open, beside what is asked in all others.
const GATES: usize = 10;
/// One scene in so many of those that lend memory moves it between its forms.
const MOVES: usize = 3;
/// One scene in so many makes memory fresh for a profile, or lends it with the octet of the other one.
const PROFILES: usize = 25;
/// Nanoseconds around the edges of the delay conversion.
const DELAYS: [u64; 8] = [
    0,
    1,
    (1 << 47) - 2,
    (1 << 47) - 1,
    1 << 47,
    1 << 48,
    i64::MAX as u64,
    u64::MAX,
];

/// Writes a script of `count` instructions.
pub fn write<W: Write>(dice: &mut Dice, pace: Pace, count: u64, sink: &mut W) -> io::Result<()> {
    let cut = is_cut(dice);
    let mut script = Script {
        dice,
        pace,
        rig: Rig::new(Lines::new(io::sink())),
        sink,
        left: count,
        cut,
    };
    if script.dice.one_in(2) {
        script.instruction(code::MAKE_FRESH, &[RELEASE_16.octet])?;
    }
    while script.left > 0 {
        script.scene()?;
    }
    Ok(())
}

impl<W: Write> Script<'_, W> {
    /// One scene. Memory is sound before it and after it.
    fn scene(&mut self) -> io::Result<()> {
        if self.dice.one_in(GATES) {
            return self.gates();
        }
        if self.dice.one_in(PROFILES) {
            return self.profiles();
        }
        match self.dice.below(self.pace.scenes) {
            0..=12 => self.message(),
            13..=14 => self.local_value(),
            15..=17 => self.report(),
            18 => self.build(),
            19 => self.expiry(),
            20 => self.delay(),
            21..=23 if self.dice.one_in(MOVES) => self.moves(),
            21..=23 => self.change_memory(),
            _ if self.dice.one_in(4) => self.fresh(),
            _ => self.change_memory(),
        }
    }

    fn message(&mut self) -> io::Result<()> {
        let message = drawn(self.dice, &self.rig.memory);
        self.send(&message)
    }

    /// Subscriptions, local changes, a notification, what comes while it is out, expiries or an
    /// acknowledgement, and often the notification of what is pending then.
    fn report(&mut self) -> io::Result<()> {
        if self.dice.one_in(2) {
            let message = commands::subscriptions(self.dice);
            self.send(&message)?;
        }
        for _ in 0..self.dice.below(4) {
            self.local_value()?;
        }
        self.build()?;
        self.meanwhile()?;
        let mut expiries = self.dice.pick(&[0, 0, 1, 2, 4, 5, 5, 6]);
        while expiries > 0 && (self.is_waiting() || self.dice.one_in(8)) {
            if self.dice.one_in(5) {
                self.meanwhile()?;
            }
            self.expiry()?;
            expiries -= 1;
        }
        if self.is_waiting() && self.dice.one_in(2) {
            self.acknowledge()?;
        }
        if !self.is_waiting() && self.dice.one_in(3) {
            self.build()?;
        }
        Ok(())
    }

    /// Which gates are open: of what runs, of a schedule that is committed for it, or of one in memory
    /// that is lent, with an octet changed or not.
    fn gates(&mut self) -> io::Result<()> {
        match self.dice.below(8) {
            0..=3 => {}
            4..=6 => {
                let profile = profile(&self.rig.memory);
                let mut operations = Operations::by(profile);
                schedules::commit_all(&gated::schedule(self.dice, profile), &mut operations);
                return self.send(&operations.command());
            }
            _ => {
                let lent = memories::running(self.dice, &self.rig.memory);
                self.instruction(code::LEND, &lent)?;
            }
        }
        let running = Running::of(&self.rig.memory);
        self.ask(running.as_ref())?;
        if self.dice.one_in(8) {
            let sound = self.rig.memory.clone();
            let damaged = memories::damaged(self.dice, &sound);
            self.instruction(code::LEND, &damaged)?;
            self.ask(running.as_ref())?;
            self.instruction(code::LEND, &sound)?;
        }
        Ok(())
    }

    fn delay(&mut self) -> io::Result<()> {
        let any = self.dice.bits() >> self.dice.below(64);
        let nanoseconds = match self.dice.below(DELAYS.len() + 4) {
            edge if edge < DELAYS.len() => DELAYS[edge],
            _ => any,
        };
        self.instruction(code::DELAY, &nanoseconds.to_be_bytes())
    }

    /// Lends other memory, calls on it, and lends sound memory again.
    fn change_memory(&mut self) -> io::Result<()> {
        let sound = self.rig.memory.clone();
        let before = Running::of(&sound);
        let changed = memories::changed(self.dice, &sound);
        self.instruction(code::LEND, &changed)?;
        for _ in 0..self.dice.between(1, 3) {
            self.call(before.as_ref())?;
        }
        if self.rig.memory.len() == LENT && self.dice.one_in(4) {
            self.fresh()?;
            return self.sound_again(&sound);
        }
        if self.dice.one_in(4) {
            self.fresh()?;
            self.ask(before.as_ref())?;
        }
        self.instruction(code::LEND, &sound)
    }

    /// Another profile: memory made fresh for one, or what is lent with the octet of the other, which the
    /// port then goes on with, if it is sound there.
    fn profiles(&mut self) -> io::Result<()> {
        if !self.dice.one_in(self.pace.exchanged) {
            return self.fresh();
        }
        let sound = self.rig.memory.clone();
        let before = Running::of(&sound);
        let exchanged = form_b_of(other(profile(&sound)), behind(&sound));
        self.instruction(code::LEND, &exchanged)?;
        for _ in 0..self.dice.between(1, 3) {
            self.call(before.as_ref())?;
        }
        self.sound_again(&sound)
    }

    /// Memory moved between its forms, often there and back, with calls on what a move wrote.
    fn moves(&mut self) -> io::Result<()> {
        let sound = self.rig.memory.clone();
        let before = Running::of(&sound);
        if !self.dice.one_in(4) {
            let lent = moves::lent(self.dice, &sound);
            self.instruction(code::LEND, &lent)?;
        }
        for _ in 0..self.dice.between(1, 3) {
            if self.dice.one_in(3) {
                self.call(before.as_ref())?;
            }
            let Some(written) = self.make_move()? else {
                continue;
            };
            if !self.dice.one_in(3) {
                self.instruction(code::LEND, &written)?;
                self.call(before.as_ref())?;
            }
        }
        if self.rig.memory.len() == LENT && self.dice.one_in(3) {
            self.fresh()?;
        }
        self.sound_again(&sound)
    }
}
