//! Which gates are open: at the edges of intervals, of cycles and of the range, while nothing runs, and
//! on memory that is lent.

use port::table::{COMMIT, ENTRY, PARTS, SIZE, TABLE, TIMER};
use port::{PENDING, SUBSCRIBED};
use programs::rig::code;

use super::script::{Edges, AMPLE};
use crate::traffic::forms::form_b;
use crate::traffic::memories::install;
use crate::traffic::schedules::{commit_all, cycle_nanoseconds, intervals, Values};

const BILLION: u32 = 1_000_000_000;
/// Instants before the base time and at the ends of the range.
const ENDS: [i64; 9] = [
    0,
    1,
    -1,
    -2,
    i64::MIN,
    i64::MIN + 1,
    -(1 << 32),
    i64::MAX - 1,
    i64::MAX,
];

pub fn add(edges: &mut Edges) {
    nothing_runs(edges);
    for (entries, cycle) in schedules() {
        run(edges, &schedule(&entries, cycle));
    }
    digits(edges);
    entries_64(edges);
    since_the_commit(edges);
    not_committed(edges);
    rooms(edges);
    lent(edges);
}

/// The four values of a schedule, by states and intervals, with a base time of its own.
fn schedule(entries: &[(u8, u32)], [numerator, denominator]: [u32; 2]) -> Values {
    let operations = [1, 0, 2].iter().cycle();
    let list = entries
        .iter()
        .zip(operations)
        .flat_map(|((states, interval), operation)| {
            [&[*operation, 5, *states][..], &interval.to_be_bytes()].concat()
        });
    [
        vec![0, 0, 0x65, 0x53, 0xF1, 0, 0, 1, 2, 3],
        (entries.len() as u32).to_be_bytes().into(),
        list.collect(),
        [numerator.to_be_bytes(), denominator.to_be_bytes()].concat(),
    ]
}

/// Few entries, and cycles.
fn schedules() -> Vec<(Vec<(u8, u32)>, [u32; 2])> {
    let example = vec![(0xFF, 4), (0x01, 3)];
    vec![
        (example.clone(), [1, 100_000_000]),
        // Filled, and filled by entries of a nanosecond.
        (example, [7, BILLION]),
        (vec![(0x0F, 1)], [1, BILLION]),
        (vec![(0xF0, 1), (0x0A, 1), (0xA0, 1)], [3, BILLION]),
        // One entry, that its cycle outlasts.
        (vec![(0x5A, 2)], [9, BILLION]),
        // The same states in neighbours, in the last and the first, and in all.
        (vec![(8, 2), (8, 3), (7, 1), (7, 4), (8, 2)], [15, BILLION]),
        (vec![(0, 2), (0, 2), (0, 2)], [6, BILLION]),
        // Cycles of which less and more than half a nanosecond is dropped.
        (vec![(1, 3), (2, 2)], [13, 1_200_000_000]),
        (vec![(1, 3), (2, 2)], [7, 600_000_000]),
        (vec![(3, 1)], [7, 4_000_000_000]),
        (vec![(1, 100), (2, 333_333_233)], [1, 3]),
        (vec![(1, 100), (2, 50)], [2, 3]),
        // A second, of which two nanoseconds are used.
        (vec![(0x10, 1), (0x20, 1)], [1, 1]),
        // Each octet of an interval counts, and every bit of 32 and more.
        (vec![(4, 0x0102_0304), (5, 0x0403_0201)], [1, 1]),
        (vec![(4, 0x0001_0000), (5, 0x0100_0000)], [1, 1]),
        (vec![(6, 1 << 31), (7, (1 << 31) + 1), (9, 5)], [5, 1]),
        (vec![(6, u32::MAX), (7, 1), (9, u32::MAX), (2, 3)], [9, 1]),
        // 2^32 nanoseconds, just filled, and a little more.
        (vec![(6, u32::MAX), (7, 1)], [8_388_608, 1_953_125]),
        (vec![(6, 3), (7, u32::MAX)], [8_388_609, 1_953_125]),
        // The longest cycle, in whose third round the range ends, and one of half its length.
        (vec![(1, 1), (2, u32::MAX), (3, 7)], [u32::MAX, 1]),
        (vec![(0xEE, 1)], [u32::MAX, 1]),
        (vec![(1, 5), (2, 6)], [u32::MAX, 2]),
    ]
}

fn ask(edges: &mut Edges, instant: i128) {
    if let Ok(instant) = i64::try_from(instant) {
        edges.instruction(code::GATES, &instant.to_be_bytes());
    }
}

fn ask_all(edges: &mut Edges, instants: &[i64]) {
    instants.iter().for_each(|at| ask(edges, (*at).into()));
}

fn ask_ends(edges: &mut Edges) {
    ask_all(edges, &ENDS);
}

fn commit(edges: &mut Edges, values: &Values) {
    edges.command(|operations| commit_all(values, operations));
}

/// Where the intervals of a schedule begin, the last one's end, and the cycle.
fn marks(values: &Values) -> (Vec<i128>, i128) {
    let mut marks = vec![0];
    for interval in intervals(&values[2]) {
        marks.push(marks[marks.len() - 1] + i128::from(interval));
    }
    let cycle = cycle_nanoseconds(&values[3]).unwrap_or_default() as i128;
    (marks, cycle)
}

/// Each edge and a nanosecond before and after it, in the first cycle, the second, the sixth and the last
/// that ends within the range, and as far below 0.
fn run(edges: &mut Edges, values: &Values) {
    commit(edges, values);
    ask_ends(edges);
    let (marks, cycle) = marks(values);
    let last = i128::from(i64::MAX) / cycle * cycle;
    for mark in marks.iter().chain([&cycle]) {
        for begin in [0, cycle, 5 * cycle, last - cycle] {
            [-1, 0, 1]
                .iter()
                .for_each(|by| ask(edges, begin + mark + by));
        }
        ask(edges, -mark);
    }
    ask(edges, cycle / 2);
    ask(edges, 1_000 * cycle + cycle / 3);
    ask(edges, last);
}

/// Nanoseconds of every number of digits.
fn digits(edges: &mut Edges) {
    let values = schedule(&[(0x80, 1), (0x7F, 1)], [u32::MAX, 1]);
    commit(edges, &values);
    let (_, cycle) = marks(&values);
    for power in 1..19 {
        ask(edges, cycle - 10_i128.pow(power));
        ask(edges, cycle - 10_i128.pow(power) + 1);
    }
}

/// 64 entries, each of its own: where they begin and the nanosecond before.
fn entries_64(edges: &mut Edges) {
    let rising: Vec<(u8, u32)> = (0..64)
        .map(|k| (255 - 3 * k, 1 + u32::from(k) * 5))
        .collect();
    let longest: Vec<(u8, u32)> = (0..64)
        .map(|k| (k * 4 + 1, u32::MAX - u32::from(k)))
        .collect();
    let ones: Vec<(u8, u32)> = (0..64).map(|k| (k ^ 0x55, 1)).collect();
    for (entries, cycle) in [
        (rising, [20_000, BILLION]),
        (longest, [300, 1]),
        (ones, [64, BILLION]),
    ] {
        let values = schedule(&entries, cycle);
        commit(edges, &values);
        let (marks, cycle) = marks(&values);
        for mark in marks.iter().chain([&cycle]) {
            ask(edges, mark - 1);
            ask(edges, *mark);
            ask(edges, 3 * cycle + mark);
        }
        ask_ends(edges);
    }
}

/// Nothing runs: memory is fresh, then has values, and then a commit that fails.
fn nothing_runs(edges: &mut Edges) {
    edges.fresh();
    ask_ends(edges);
    let values = schedule(&[(0xC3, 9), (0x3C, 9)], [1, 1]);
    edges.command(|operations| {
        for (value, part) in values.iter().zip(PARTS) {
            operations.set(TABLE[part].name, value);
        }
        operations.subscribe(TABLE[COMMIT].name);
    });
    ask_ends(edges);
    edges.command(|operations| operations.set(TABLE[COMMIT].name, &[0; 4]));
    ask_ends(edges);
}

/// What is set and marked beside a running block, and notified.
fn since_the_commit(edges: &mut Edges) {
    let values = schedule(&[(0xFF, 4), (0x01, 3)], [1, 100_000_000]);
    let other = schedule(&[(0x77, 1), (0x66, 1), (0x55, 1)], [5, BILLION]);
    for gate_enabled in [0, 1] {
        edges.fresh();
        commit(edges, &values);
        edges.command(|operations| operations.set(0x0003, &[gate_enabled]));
        ask_all(edges, &[3, 4, 19, 20, -1]);
        for (value, part) in other.iter().zip(PARTS).rev() {
            edges.command(|operations| operations.set(TABLE[part].name, value));
            ask_all(edges, &[3, 4, 19, 20, -1]);
        }
    }
    edges.command(|operations| {
        operations.set(0x0006, &[]);
        TABLE.iter().for_each(|row| operations.subscribe(row.name));
    });
    ask(edges, 4);
    edges.local(0x00A4, &[1, 2]);
    edges.build();
    edges.expiry();
    edges.local(0x00A4, &[1, 3]);
    ask(edges, 4);
    edges.acknowledge();
    ask(edges, 4);
}

/// Commits that leave what runs as it is, and one behind which the values change in one command.
fn not_committed(edges: &mut Edges) {
    let [old, new] = [[(0xAA, 6), (0xBB, 6)], [(0xCC, 2), (0xDD, 2)]];
    let [old, new] = [old, new].map(|entries| schedule(&entries, [12, BILLION]));
    edges.fresh();
    commit(edges, &old);
    // No room for the reply, an operation that cannot be read, and sums that are wrong.
    edges.command_into(20, |operations| commit_all(&new, operations));
    ask_all(edges, &[2, 6]);
    edges.command(|operations| {
        commit_all(&new, operations);
        operations.named(0x0A, 0);
    });
    ask_all(edges, &[2, 6]);
    edges.command(|operations| {
        for (value, part) in new.iter().zip(PARTS) {
            operations.set(TABLE[part].name, value);
        }
        operations.set(TABLE[COMMIT].name, &[1, 2, 3, 4]);
    });
    ask_all(edges, &[2, 6]);
    edges.command(|operations| {
        commit_all(&new, operations);
        operations.set(TABLE[PARTS[2]].name, &old[2]);
    });
    ask_all(edges, &[2, 6]);
    edges.fresh();
    ask_all(edges, &[-1, 2]);
}

/// The room and the memory are what they were before, whatever is answered.
fn rooms(edges: &mut Edges) {
    for room in [0, 5, 40] {
        edges.message_in_full(room, &[1, 0, 3, 2, 0, 3]);
        ask_all(edges, &[-1, 0]);
        edges.show_room();
    }
    edges.show();
    commit(edges, &schedule(&[(0xFF, 4), (0x01, 3)], [1, 100_000_000]));
    edges.message(12, &[1, 0, 3, 2, 0, 3]);
    ask_all(edges, &[-1, 0, i64::MAX]);
    edges.show_room();
    edges.show();
    let sound = edges.rig.memory.clone();
    edges.lend_octets(&[0xEE; 9]);
    ask_all(edges, &[-1, 0]);
    edges.show_room();
    edges.show();
    edges.lend_octets(&sound);
}

/// Memory that is lent: a block that is not made of the values beside it, marks and a timer, and then
/// octets and lengths that make it unsound, with a block that runs and with none.
fn lent(edges: &mut Edges) {
    edges.fresh();
    let fresh = edges.memory();
    commit(edges, &schedule(&[(0x11, 50), (0x22, 50)], [1, 1]));
    let mut running = edges.memory();
    let other = schedule(&[(0x33, 3), (0x44, 2), (0x55, 1)], [8, BILLION]);
    install(&mut running, COMMIT, Some(&other.concat()));
    for part in PARTS {
        running[part * ENTRY + 2] |= SUBSCRIBED;
    }
    running[2] = SUBSCRIBED | PENDING;
    running[TIMER] = 1;
    lend(edges, &running);
    // The octet behind flags, the expiries, and the last octet of memory.
    for (sound, at) in [
        (&fresh, 3),
        (&running, 3),
        (&running, TIMER + 1),
        (&running, SIZE - 1),
    ] {
        let mut memory = sound.clone();
        memory[at] |= 0x81;
        lend(edges, &memory);
    }
    for (sound, length) in [(&fresh, 0), (&fresh, SIZE + 1), (&running, SIZE - 1)] {
        let mut memory = sound.clone();
        memory.resize(length, 0);
        lend(edges, &memory);
    }
    in_the_block(edges, &running);
}

/// One octet of a running block changed: some are no matter, some change the answer, and some make it
/// unsound.
fn in_the_block(edges: &mut Edges, running: &[u8]) {
    let start = TABLE[COMMIT].start;
    // Base time, number of entries, operation, states, interval, numerator.
    for (at, octet) in [
        (0, 0xFF),
        (13, 2),
        (14, 3),
        (16, 0x99),
        (20, 0),
        (20, 5),
        (20, 6),
        (38, 9),
        (38, 5),
    ] {
        let mut memory = running.to_vec();
        memory[start + at] = octet;
        lend(edges, &memory);
    }
}

/// Lends memory, and asks around the base time and in the first cycle.
fn lend(edges: &mut Edges, memory: &[u8]) {
    edges.lend_octets(&form_b(memory));
    ask_all(edges, &[i64::MIN, -1, 0, 2, 3, 5, 7, 8]);
    edges.message_in_full(AMPLE, &[]);
}
