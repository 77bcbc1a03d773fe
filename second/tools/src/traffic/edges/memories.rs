//! Memory that is lent with one thing changed, for each clause of soundness: mostly not sound then.

use port::table::{
    SetBy, COMMIT, ENTRY, EXPIRIES, GATE_ENABLED, LIST_MAX, PARTS, SIZE, TABLE, TIMER,
};
use port::{value_in, PENDING, PRESENT, SUBSCRIBED};

use super::script::Edges;
use crate::traffic::memories::install;
use crate::traffic::schedules::sums;

/// Values by their places, around the rules that they keep or break.
const VALUES: [(usize, &[u8]); 30] = [
    (0, &[1; 7]),
    (1, &[2]),
    (2, &[0, 0, 0, 0, 0, 0, 0x3B, 0x9A, 0xCA, 0]),
    (2, &[0, 0, 0, 0, 0, 0, 0x3B, 0x9A, 0xC9, 0xFF]),
    (2, &[0; 9]),
    (3, &[0, 0, 0, 65]),
    (3, &[0, 0, 1, 0]),
    (3, &[1, 0, 0, 0]),
    (3, &[0; 3]),
    (4, &[3, 5, 0, 0, 0, 0, 1]),
    (4, &[2, 4, 0, 0, 0, 0, 1]),
    (4, &[2, 5, 0, 0, 0, 0, 0]),
    (4, &[2, 5, 0, 0, 0, 0, 1, 2]),
    (5, &[0, 0, 0, 1, 0, 0, 0, 0]),
    (5, &[0, 0, 0, 1, 1, 0, 0, 0]),
    (6, &[1; 3]),
    (7, &[0, 0, 0, 63]),
    (7, &[0, 0, 1, 64]),
    (7, &[0, 1, 0, 64]),
    (7, &[1, 0, 0, 64]),
    (7, &[0, 0, 64]),
    (8, &[5]),
    (9, &[0]),
    (11, &[8]),
    (13, &[0]),
    (15, &[8]),
    (17, &[1]),
    (4, &[]),
    (10, &[1; 255]),
    (12, &[1; 3]),
];
/// Changes of a block of two entries.
const BLOCKS: [&[(usize, u8)]; 22] = [
    &[(0, 9)],
    &[(6, 0x3B), (7, 0x9A), (8, 0xC9), (9, 0xFF)],
    &[(6, 0x3B), (7, 0x9A), (8, 0xCA)],
    &[(6, 0xFF)],
    &[(13, 1)],
    &[(13, 3)],
    &[(12, 1)],
    &[(10, 1)],
    &[(14, 3)],
    &[(21, 3)],
    &[(15, 4)],
    &[(22, 6)],
    &[(16, 0xFF)],
    &[(20, 0)],
    &[(27, 0)],
    &[(24, 0xFF)],
    &[(17, 0xFF)],
    &[(35, 0)],
    &[(31, 0)],
    &[(34, 1)],
    &[(32, 0xFF)],
    &[(31, 0), (30, 1)],
];

pub fn add(edges: &mut Edges) {
    let [fresh, full] = bases(edges);
    edges.lend(&fresh);
    edges.lend(&full);
    cells(edges, &full);
    rooms(edges, &fresh, &full);
    values(edges, &full);
    absent(edges, &fresh, &full);
    blocks(edges, &full);
    timers(edges, &full);
    // What follows finds memory that can be made fresh.
    edges.lend(&fresh);
}

/// Fresh memory, and memory in which every parameter is present, with a block that runs.
pub fn bases(edges: &mut Edges) -> [Vec<u8>; 2] {
    edges.fresh();
    let fresh = edges.memory();
    let parts = [
        vec![0; 10],
        vec![0, 0, 0, 2],
        [2, 5, 0x0F, 0, 0, 0, 9].repeat(2),
        vec![0, 0, 0, 1, 0, 0, 0, 1],
    ];
    edges.command(|operations| {
        for (value, part) in parts.iter().zip(PARTS) {
            operations.set(TABLE[part].name, value);
        }
        operations.set(TABLE[COMMIT].name, &sums(&parts));
        operations.set(0x0007, &[0, 0, 0, 2, 0, 0, 0, 3]);
        for name in [0x0040, 0x0041, 0x0042, 0x0060, 0x0061] {
            operations.set(name, &[1]);
        }
        TABLE.iter().for_each(|row| operations.subscribe(row.name));
    });
    for name in [0x0001_u16, 0x0008, 0x00A0, 0x00A1, 0x00A2, 0x00A3, 0x00A4] {
        let length = TABLE
            .iter()
            .find(|row| row.name == name)
            .map_or(0, |row| row.least);
        edges.local(name, &vec![1; length]);
    }
    [fresh, edges.memory()]
}

/// Lends memory in which octets are changed.
fn with(edges: &mut Edges, memory: &[u8], changes: &[(usize, u8)]) {
    let mut memory = memory.to_vec();
    changes.iter().for_each(|(at, octet)| memory[*at] = *octet);
    edges.lend(&memory);
}

/// Names, the octet behind the flags, and flags.
fn cells(edges: &mut Edges, full: &[u8]) {
    for index in [0, 2, 7, 18] {
        let cell = index * ENTRY;
        with(edges, full, &[(cell, full[cell] ^ 0x40)]);
        with(edges, full, &[(cell + 1, full[cell + 1] ^ 2)]);
        with(edges, full, &[(cell + 3, 1)]);
        with(edges, full, &[(cell + 3, 0x80)]);
        for bit in [8, 0x80] {
            with(edges, full, &[(cell + 2, full[cell + 2] | bit)]);
        }
    }
    for (index, row) in TABLE.iter().enumerate() {
        let flags = index * ENTRY + 2;
        if row.set_by == SetBy::Port {
            with(edges, full, &[(flags, PRESENT | PENDING)]);
        } else {
            with(edges, full, &[(flags, PRESENT | SUBSCRIBED | PENDING)]);
        }
    }
}

/// The octets behind values, and the rooms of what is absent: their last octets, and of large ones
/// the first.
fn rooms(edges: &mut Edges, fresh: &[u8], full: &[u8]) {
    for (index, row) in TABLE.iter().enumerate() {
        for base in [fresh, full] {
            let length = value_in(base, index).map_or(0, <[u8]>::len);
            let tail = row.start + length..row.start + row.most;
            if !tail.is_empty() {
                with(edges, base, &[(tail.end - 1, 1)]);
            }
            if tail.len() > 200 {
                with(edges, base, &[(tail.start, 1)]);
            }
        }
    }
    // A length for what is absent, and one that its room does not hold.
    for index in [0, 2, 10, 18] {
        let [high, low] = [4, 5].map(|octet| index * ENTRY + octet);
        with(edges, fresh, &[(low, 1)]);
        with(edges, full, &[(high, 2)]);
    }
}

/// Values that their rooms hold and their rules do not permit, and some that they do.
fn values(edges: &mut Edges, full: &[u8]) {
    for (index, value) in VALUES {
        let mut memory = full.to_vec();
        install(&mut memory, index, Some(value));
        edges.lend(&memory);
    }
    for index in [10, 12, 14, 16] {
        let mut memory = full.to_vec();
        install(&mut memory, index, Some(&[]));
        edges.lend(&memory);
    }
}

/// What is absent: alone, pending, and while a block runs.
fn absent(edges: &mut Edges, fresh: &[u8], full: &[u8]) {
    for index in [GATE_ENABLED, LIST_MAX] {
        let mut memory = fresh.to_vec();
        install(&mut memory, index, None);
        edges.lend(&memory);
    }
    for index in [0, 2, 3, 4, 5, 8, 10, 13, 18] {
        let mut memory = full.to_vec();
        install(&mut memory, index, None);
        edges.lend(&memory);
        // Sound or not, what a message then finds.
        edges.command(|operations| operations.read(TABLE[index].name));
    }
}

/// Blocks that run and have not form or not fit, or are others than the values would make.
fn blocks(edges: &mut Edges, full: &[u8]) {
    let right = value_in(full, COMMIT).unwrap_or_default().to_vec();
    for change in BLOCKS {
        let mut block = right.clone();
        change.iter().for_each(|(at, octet)| block[*at] = *octet);
        run(edges, full, &block);
    }
    for length in [21, 22, 28, 29, 35] {
        run(edges, full, &right[..length]);
    }
    // As long as it can be, by itself and with an entry that is too long.
    for interval in [1, 0xFF] {
        let mut list = [1, 5, 0, 0, 0, 0, 1].repeat(64);
        list[441 + 3] = interval;
        let block = [
            &[0; 10][..],
            &[0, 0, 0, 64],
            &list,
            &[0, 0, 0, 1, 0, 0, 0, 1],
        ]
        .concat();
        run(edges, full, &block);
    }
}

/// Lends memory in which these octets run, and reads their sums.
fn run(edges: &mut Edges, full: &[u8], block: &[u8]) {
    let mut memory = full.to_vec();
    install(&mut memory, COMMIT, Some(block));
    edges.lend(&memory);
    edges.command(|operations| operations.read(TABLE[COMMIT].name));
}

/// The timer, with cells pending and without, and memory of other lengths.
fn timers(edges: &mut Edges, full: &[u8]) {
    for (state, expiries) in [
        (0, 1),
        (0, 0x80),
        (1, 0),
        (1, 3),
        (1, 4),
        (1, 5),
        (1, 0x80),
        (2, 0),
        (2, 1),
        (0x81, 0),
    ] {
        with(edges, full, &[(TIMER, state), (EXPIRIES, expiries)]);
    }
    for length in [0, TIMER, SIZE - 1, SIZE + 1] {
        let mut memory = full.to_vec();
        memory.resize(length, 0);
        edges.lend(&memory);
    }
}
