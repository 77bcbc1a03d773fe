//! Schedules that just fit or just do not, large sums, and commits that lack one condition.

use port::table::{COMMIT, PARTS, TABLE};

use super::script::Edges;
use crate::traffic::schedules::{sums, Values};

const BILLION: u32 = 1_000_000_000;

pub fn add(edges: &mut Edges) {
    edges.fresh();
    for (intervals, [numerator, denominator]) in fits() {
        for numerator in [numerator, numerator - 1] {
            let values = schedule(&intervals, [numerator, denominator]);
            commit(edges, &values, &sums(&values));
        }
    }
    counts(edges);
    wrong_sums(edges);
    large_sums(edges);
    absent_values(edges);
    running(edges);
}

/// The four values of a schedule.
fn schedule(intervals: &[u32], [numerator, denominator]: [u32; 2]) -> Values {
    let entry = |interval: &u32| [&[2, 5, 0xC3][..], &interval.to_be_bytes()].concat();
    [
        vec![0, 0, 0x65, 0x53, 0xF1, 0, 0, 1, 2, 3],
        (intervals.len() as u32).to_be_bytes().into(),
        intervals.iter().flat_map(entry).collect(),
        [numerator.to_be_bytes(), denominator.to_be_bytes()].concat(),
    ]
}

/// Intervals, and a cycle that they fit; with the numerator less by one they do not.
fn fits() -> Vec<(Vec<u32>, [u32; 2])> {
    let rising: Vec<u32> = (0..64).map(|at| 10 + 3 * at).collect();
    let filled = |intervals: &[u32]| {
        let total = intervals.iter().sum();
        (intervals.to_vec(), [total, BILLION])
    };
    vec![
        filled(&[2]),
        filled(&[2, 3]),
        filled(&[3, 5, 7]),
        filled(&rising[..36]),
        filled(&rising[..37]),
        filled(&rising[..63]),
        filled(&rising),
        // Each octet of an interval counts.
        filled(&[0x0102_0304, 0x0403_0201, 0x1020_3040]),
        filled(&[0x0100_0000, 0x0001_0000, 0x0000_0100, 0x0000_0001]),
        // 2^32 nanoseconds and more in all, and in the cycle.
        (vec![4_000_000_000; 2], [8, 1]),
        (vec![u32::MAX, 5], [43, 10]),
        // A third and a seventh of a second, rounded down.
        (vec![333_333_333], [1, 3]),
        (vec![142_857_142], [1, 7]),
        // Each octet of the cycle counts.
        (vec![16_909_060], [0x0102_0304, BILLION]),
        (vec![0x0400], [0x0000_0400, BILLION]),
        (vec![0x0300_0000], [0x0300_0000, BILLION]),
        (vec![257_000], [0x0101, 1_000_000]),
    ]
}

/// Sets the four values, commits, and reads what runs.
fn commit(edges: &mut Edges, values: &Values, sums: &[u8]) {
    edges.command(|operations| {
        for (value, part) in values.iter().zip(PARTS) {
            operations.set(TABLE[part].name, value);
        }
        operations.set(TABLE[COMMIT].name, sums);
        operations.read(TABLE[COMMIT].name);
    });
}

/// Cycles that are too short by less than a nanosecond, and numbers in 0005 that are not those of
/// the entries.
fn counts(edges: &mut Edges) {
    for interval in [333_333_334, 333_333_333] {
        let values = schedule(&[interval], [1, 3]);
        commit(edges, &values, &sums(&values));
    }
    for (entries, told) in [(2, 1), (2, 3), (1, 0), (0, 0), (0, 1), (64, 63), (63, 64)] {
        let mut values = schedule(&vec![1; entries], [1, 1]);
        values[1] = u32::to_be_bytes(told).into();
        commit(edges, &values, &sums(&values));
    }
}

/// Sums that are wrong in one octet, exchanged, too short and too long.
fn wrong_sums(edges: &mut Edges) {
    let values = schedule(&[100, 200], [1, 1]);
    let right = sums(&values);
    for at in 0..4 {
        for step in [1, 0x80] {
            let mut wrong = right;
            wrong[at] ^= step;
            commit(edges, &values, &wrong);
        }
    }
    let [a, b, c, d] = right;
    for wrong in [
        &[c, d, a, b][..],
        &[b, a, d, c],
        &[a, b, c],
        &[a, b, c, d, 0],
        &[],
    ] {
        commit(edges, &values, wrong);
    }
    commit(edges, &values, &right);
}

/// Blocks whose first sum is over 65,535, or just there.
fn large_sums(edges: &mut Edges) {
    for (base, gate) in [(0xFF, 0xFF), (0, 0xFF), (0, 0), (0x20, 0x31)] {
        let mut values = schedule(&[u32::MAX; 64], [u32::MAX, 1]);
        values[0][..6].fill(base);
        for entry in values[2].chunks_exact_mut(7) {
            entry[2] = gate;
        }
        commit(edges, &values, &sums(&values));
    }
    // Exactly 65,535 and 65,536, by the gate states of the last entries.
    for wanted in [65_535_u32, 65_536] {
        let mut values = schedule(&[0xFFFF_FF00; 64], [u32::MAX, 1]);
        let sum = |values: &Values| {
            values
                .concat()
                .iter()
                .map(|octet| u32::from(*octet))
                .sum::<u32>()
        };
        while sum(&values) != wanted {
            let step = i64::from(wanted) - i64::from(sum(&values));
            let list = &mut values[2];
            let last = list.chunks_exact_mut(7).find(|entry| {
                if step > 0 {
                    entry[2] < 0xFF
                } else {
                    entry[2] > 0
                }
            });
            let Some(entry) = last else { return };
            entry[2] = (i64::from(entry[2]) + step).clamp(0, 0xFF) as u8;
        }
        commit(edges, &values, &sums(&values));
    }
}

/// Commits while one of the four values is absent.
fn absent_values(edges: &mut Edges) {
    for absent in PARTS {
        edges.fresh();
        let mut values = schedule(&[5], [1, 1]);
        values[absent - PARTS[0]].clear();
        edges.command(|operations| {
            for (value, part) in values.iter().zip(PARTS).filter(|(_, part)| *part != absent) {
                operations.set(TABLE[part].name, value);
            }
            operations.set(TABLE[COMMIT].name, &sums(&values));
            operations.read(TABLE[COMMIT].name);
        });
        edges.show();
    }
}

/// What is set beside a running block, before and behind a commit; a shorter block in the place of
/// a longer one.
fn running(edges: &mut Edges) {
    let [long, short] = [schedule(&[7; 64], [1, 1]), schedule(&[8, 9], [2, 3])];
    commit(edges, &long, &sums(&long));
    edges.command(|operations| {
        for (value, part) in short.iter().zip(PARTS) {
            operations.set(TABLE[part].name, value);
            operations.read(TABLE[COMMIT].name);
        }
        operations.set(TABLE[COMMIT].name, &sums(&long));
    });
    edges.command(|operations| operations.read(TABLE[COMMIT].name));
    edges.command(|operations| {
        operations.read(TABLE[COMMIT].name);
        operations.set(TABLE[COMMIT].name, &sums(&short));
        operations.read(TABLE[COMMIT].name);
        for (value, part) in long.iter().zip(PARTS) {
            operations.set(TABLE[part].name, value);
        }
        operations.read(TABLE[COMMIT].name);
    });
    edges.show();
    edges.command(|operations| operations.read(TABLE[COMMIT].name));
}
