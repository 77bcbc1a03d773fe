//! Schedules to be asked which gates are open, and the instants to ask about.

use port::table::{COMMIT, PARTS, TABLE};
use port::{sound_in_form_b, value_in, Block, Profile};

use super::dice::Dice;
use super::schedules::{cycle_nanoseconds, intervals, Values, BILLION};
use super::values;

/// Numbers of entries: as few as can be, and as many.
const ENTRIES: [usize; 8] = [1, 1, 2, 2, 3, 5, 9, 64];
/// Longest intervals of a list: the shortest that there is, short ones, and up to every bit.
const LONGEST: [u32; 8] = [1, 2, 9, 1_000, 0x1_0000, 1 << 31, u32::MAX, u32::MAX];
/// Instants around the base time and at the ends of their range.
const ENDS: [i64; 9] = [
    0,
    1,
    -1,
    -1,
    -2,
    i64::MIN,
    i64::MIN + 1,
    i64::MAX - 1,
    i64::MAX,
];

/// A schedule that has form and fit, of as many entries at most as a profile permits.
pub fn schedule(dice: &mut Dice, profile: &Profile) -> Values {
    let count = dice.pick(&ENTRIES).min(profile.most_entries);
    schedule_of(dice, count)
}

/// A schedule of so many entries that has form and fit.
pub fn schedule_of(dice: &mut Dice, count: usize) -> Values {
    let base_time = values::permitted(dice, &TABLE[PARTS[0]]);
    let list = list(dice, count);
    let cycle = cycle(dice, &list);
    [base_time, (count as u32).to_be_bytes().into(), list, cycle]
}

/// A list of which neighbours often have the same states.
fn list(dice: &mut Dice, count: usize) -> Vec<u8> {
    let longest = dice.pick(&LONGEST);
    let mut states = dice.octet();
    let mut list = Vec::new();
    for _ in 0..count {
        let other = dice.octet();
        states = dice.pick(&[states, other, other]);
        let any = dice.between(1, longest as usize) as u32;
        let interval = dice.pick(&[1, longest, any, any]);
        list.extend([dice.below(3) as u8, 5, states]);
        list.extend(interval.to_be_bytes());
    }
    list
}

/// A cycle that the list fills, or one that is longer, by little, by far, or as long as can be. The
/// nanoseconds of most have a remainder, which is dropped.
fn cycle(dice: &mut Dice, list: &[u8]) -> Vec<u8> {
    let total: u128 = intervals(list).map(u128::from).sum();
    let most = u128::from(u32::MAX);
    // With a higher denominator no numerator would be high enough.
    let highest = (most * BILLION / total).min(most) as usize;
    let denominator = match dice.below(5) {
        0 => 1,
        1 => highest.min(BILLION as usize),
        2 => dice.between(1, highest.min(2_000)),
        _ => dice.between(1, highest),
    };
    let needed = (total * denominator as u128).div_ceil(BILLION);
    let numerator = match dice.below(6) {
        0 => most,
        1 => needed + dice.below(1_000) as u128,
        2 => needed + 1,
        3 => dice.between(needed as usize, u32::MAX as usize) as u128,
        _ => needed,
    };
    let numerator = numerator.min(most) as u32;
    [numerator.to_be_bytes(), (denominator as u32).to_be_bytes()].concat()
}

/// The edges of a block that runs: where its intervals begin and end, and its cycle.
#[derive(Debug, PartialEq, Eq)]
pub struct Running {
    edges: Vec<i128>,
    cycle: i128,
}

impl Running {
    /// Those of the block in lent memory; none where nothing runs or memory is not sound.
    pub fn of(lent: &[u8]) -> Option<Running> {
        let (_, memory) = sound_in_form_b(lent)?;
        let Block([_, _, list, cycle_time]) = Block::split(value_in(memory, COMMIT)?)?;
        let mut edges = vec![0];
        for interval in intervals(list) {
            edges.push(edges[edges.len() - 1] + i128::from(interval));
        }
        let cycle = cycle_nanoseconds(cycle_time)? as i128;
        edges.push(cycle);
        Some(Running { edges, cycle })
    }

    /// How many entries it has.
    pub fn entries(&self) -> usize {
        self.edges.len() - 2
    }

    /// An instant at which an entry is told, in any cycle that ends within the range, or in the first.
    pub fn within(&self, dice: &mut Dice, entry: usize) -> i64 {
        let begin = self.edges[entry];
        let end = match entry + 1 {
            next if next < self.entries() => self.edges[next],
            _ => self.cycle,
        };
        let cycles = dice.below((i128::from(i64::MAX) / self.cycle) as usize) as i128;
        let time = begin + dice.below((end - begin) as usize) as i128;
        (cycles * self.cycle + time) as i64
    }

    /// An instant in one of its cycles, mostly at an edge or a nanosecond beside it.
    fn instant(&self, dice: &mut Dice) -> i128 {
        let last = i128::from(i64::MAX) / self.cycle;
        let any = dice.between(0, last as usize) as i128;
        let near = dice.between(0, last.min(9) as usize) as i128;
        let cycles = dice.pick(&[0, 0, 0, 1, near, any, last]);
        // The ends of the last interval and of the cycle come as often as half of the others.
        let others = self.edges.len() - 2;
        let other = dice.below(others);
        let edge = self.edges[dice.pick(&[other, other, other, other, others, others + 1])];
        let time = match dice.below(8) {
            0 => dice.between(0, self.cycle as usize - 1) as i128,
            _ => edge + dice.pick(&[-1, 0, 0, 1]),
        };
        cycles * self.cycle + time
    }
}

/// An instant, one that suits a running block where there is one.
pub fn instant(dice: &mut Dice, running: Option<&Running>) -> i64 {
    let instant = match (dice.below(12), running) {
        (0, _) => dice.pick(&ENDS).into(),
        // As often below 0 as above, and of every size.
        (1, _) | (_, None) => i128::from(dice.bits() as i64 >> dice.below(64)),
        (2, Some(running)) => -running.instant(dice),
        (_, Some(running)) => running.instant(dice),
    };
    instant.clamp(i64::MIN.into(), i64::MAX.into()) as i64
}
