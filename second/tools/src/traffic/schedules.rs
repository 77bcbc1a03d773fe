//! Whole schedules for traffic: cycles that fit or just do not, right and wrong sums.

use port::table::{COMMIT, PARTS, TABLE};
use port::{last_four, Block, Profile, LIST_ENTRY, RELEASE_18};

use super::dice::Dice;
use super::forms::held;
use super::operations::Operations;
use super::values::{self, list};

/// Nanoseconds of a second.
pub const BILLION: u128 = 1_000_000_000;

/// The values of 0004, 0005, 0006 and 0007.
pub type Values = [Vec<u8>; PARTS.len()];

/// A schedule of at most so many entries that mostly has form and fit; otherwise it fails by the smallest
/// step.
pub fn parts(dice: &mut Dice, most: usize) -> Values {
    let count = values::entry_count(dice).min(most);
    let list = list(dice, count);
    let told = match dice.below(16) {
        0 => count + 1,
        1 => count.saturating_sub(1),
        _ => count,
    };
    let cycle = cycle(dice, &list);
    let base_time = values::permitted(dice, &TABLE[PARTS[0]]);
    [base_time, (told as u32).to_be_bytes().into(), list, cycle]
}

/// A cycle time that the list fits: amply or exactly as often as can be; now and then one for
/// which it is too long by less than a nanosecond's worth of the fraction.
fn cycle(dice: &mut Dice, list: &[u8]) -> Vec<u8> {
    let total: u128 = intervals(list).map(u128::from).sum();
    let denominator = match dice.below(4) {
        0 => 1,
        1 => 1_000_000_000,
        2 => dice.between(1, 2_000),
        _ => dice.between(1, u32::MAX as usize),
    } as u32;
    let needed = (total * u128::from(denominator)).div_ceil(BILLION);
    let numerator = match dice.below(6) {
        0 => u128::from(u32::MAX),
        1 => needed + dice.below(1_000) as u128,
        2 => needed.saturating_sub(1),
        _ => needed,
    };
    let numerator = numerator.min(u32::MAX.into()) as u32;
    [numerator.to_be_bytes(), denominator.to_be_bytes()].concat()
}

/// The intervals of a list.
pub fn intervals(list: &[u8]) -> impl Iterator<Item = u32> + '_ {
    let entries = list.chunks_exact(LIST_ENTRY);
    entries.map(|entry| last_four(entry).unwrap_or(0))
}

/// The nanoseconds of a cycle time, the remainder dropped.
pub fn cycle_nanoseconds(cycle_time: &[u8]) -> Option<u128> {
    let numerator = u32::from_be_bytes(*cycle_time.first_chunk()?);
    let denominator = last_four(cycle_time)?;
    (u128::from(numerator) * BILLION).checked_div(denominator.into())
}

/// Operations that set a whole schedule, or part of it, and commit it. It seldom has more entries than the
/// controller's release permits.
pub fn operations(dice: &mut Dice, lent: &[u8], by: &'static Profile) -> Operations {
    let permitted = if dice.one_in(12) { &RELEASE_18 } else { by };
    let mut parts = parts(dice, permitted.most_entries);
    let mut order = PARTS;
    order.swap(dice.below(4), dice.below(4));
    let mut operations = Operations::by(by);
    for part in order {
        let value = &mut parts[part - PARTS[0]];
        match held(lent, part) {
            // Leaving one out keeps the value that memory has; then the commit is over that.
            Some(old) if dice.one_in(8) => *value = old.to_vec(),
            _ => operations.set(TABLE[part].name, value),
        }
    }
    let right = sums(&parts);
    let told = if dice.one_in(4) {
        wrong_sums(dice, right, &parts, lent)
    } else {
        right.to_vec()
    };
    if dice.one_in(4) {
        operations.read(TABLE[COMMIT].name);
    }
    operations.set(TABLE[COMMIT].name, &told);
    if dice.one_in(4) {
        let part = &TABLE[dice.pick(&PARTS)];
        operations.set(part.name, &values::permitted(dice, part));
    }
    if dice.one_in(2) {
        operations.read(TABLE[COMMIT].name);
    }
    operations
}

/// A schedule of `count` entries in the longest cycle, which every list fits.
pub fn roomy(dice: &mut Dice, count: usize) -> Values {
    let base_time = values::permitted(dice, &TABLE[PARTS[0]]);
    let list = list(dice, count);
    let count = (count as u32).to_be_bytes();
    let cycle = [u32::MAX.to_be_bytes(), 1_u32.to_be_bytes()].concat();
    [base_time, count.into(), list, cycle]
}

/// Adds the sets of a whole schedule and its commit.
pub fn commit_all(values: &Values, operations: &mut Operations) {
    for (value, part) in values.iter().zip(PARTS) {
        operations.set(TABLE[part].name, value);
    }
    operations.set(TABLE[COMMIT].name, &sums(values));
}

/// Operations that commit what memory holds.
pub fn recommit(lent: &[u8]) -> Operations {
    let values = PARTS.map(|part| held(lent, part).unwrap_or_default().to_vec());
    let mut operations = Operations::default();
    operations.set(TABLE[COMMIT].name, &sums(&values));
    operations
}

/// The sums of a schedule.
pub fn sums(values: &Values) -> [u8; 4] {
    Block(values.each_ref().map(Vec::as_slice)).sums()
}

/// Sums that come of one plain error.
fn wrong_sums(dice: &mut Dice, right: [u8; 4], values: &Values, lent: &[u8]) -> Vec<u8> {
    let [a, b, c, d] = right;
    match dice.below(7) {
        0 => vec![a, b.wrapping_add(1), c, d],
        1 => vec![a, b, c, d.wrapping_sub(1)],
        2 => vec![c, d, a, b],
        3 => vec![b, a, d, c],
        4 => vec![a, b, c],
        5 => {
            let running = held(lent, COMMIT).unwrap_or_default();
            Block([running, &[], &[], &[]]).sums().to_vec()
        }
        _ => sums(&in_rooms(values)).to_vec(),
    }
}

/// The values with the zero tails of their rooms.
fn in_rooms(values: &Values) -> Values {
    let mut values = values.clone();
    for (value, part) in values.iter_mut().zip(PARTS) {
        value.resize(TABLE[part].most, 0);
    }
    values
}
