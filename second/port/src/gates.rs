//! Which gates are open: the entry of the running block's list that an instant falls on, and how long
//! it lasts from there.

use crate::block::{cycle_nanoseconds, interval, Block, LIST_ENTRY};
use crate::delay::Nanoseconds;
use crate::endpoint::Number;
use crate::memory::{sound_in_form_b, value_in};
use crate::table::COMMIT;

/// What is answered of an instant.
#[derive(Clone, Copy, Debug, PartialEq, Eq)]
pub enum Gates {
    /// Nothing, with number 1 or 15 (RULES 22.4).
    Refused(Number),
    /// Number 0, for an instant before the base time (RULES 22.5).
    NotStarted,
    /// Number 0, and an entry of the running block's list.
    Open {
        /// Its gate states.
        states: u8,
        /// Its number, counted from 0 (RULES 22.7).
        entry: usize,
        /// How long it is to the next change (RULES 22.9).
        nanoseconds: Nanoseconds,
    },
}

impl Gates {
    /// The number (RULES 22.3).
    pub fn number(&self) -> Number {
        match *self {
            Gates::Refused(number) => number,
            Gates::NotStarted | Gates::Open { .. } => Number::Done,
        }
    }
}

/// Tells which gates are open at an instant, in nanoseconds since the base time. Memory is only read.
pub fn gates(memory: &[u8], instant: i64) -> Gates {
    let Some((_, octets)) = sound_in_form_b(memory) else {
        return Gates::Refused(Number::MemoryUnsound);
    };
    let Some(running) = value_in(octets, COMMIT) else {
        return Gates::Refused(Number::NothingRunning);
    };
    let Ok(instant) = u64::try_from(instant) else {
        return Gates::NotStarted;
    };
    // A sound block has an entry and a cycle, so there always is an answer.
    open(running, instant).unwrap_or(Gates::Refused(Number::MemoryUnsound))
}

/// The entry of a block with form and fit that an instant falls on.
fn open(block: &[u8], instant: u64) -> Option<Gates> {
    let Block([_, _, list, cycle_time]) = Block::split(block)?;
    let cycle = cycle_nanoseconds(cycle_time)?;
    let time = instant.checked_rem(cycle)?;
    let (entries, _) = list.as_chunks();
    let (last, before) = entries.split_last()?;
    let mut end = 0;
    for (entry, octets) in before.iter().enumerate() {
        end += u64::from(interval(octets));
        if time < end {
            return Some(answer(octets, entry, end - time));
        }
    }
    // The last entry holds until the cycle ends, wherever its own interval does.
    Some(answer(last, before.len(), cycle - time))
}

fn answer(octets: &[u8; LIST_ENTRY], entry: usize, nanoseconds: u64) -> Gates {
    Gates::Open {
        states: octets[2],
        entry,
        nanoseconds: Nanoseconds(nanoseconds),
    }
}
