//! Memory that is sound by one profile and not by the other, and memory that is sound by neither, lent
//! with the octets of both.

use port::table::{COMMIT, COUNT, ENTRY, LIST, LIST_LENGTH, LIST_MAX, SIZE, TABLE, TIMER};
use port::{IN_FLIGHT, PENDING, PRESENT, RELEASE_16, RELEASE_18, SUBSCRIBED};

use super::script::{Edges, AMPLE};
use crate::traffic::memories::install;
use crate::traffic::operations::Operations;
use crate::traffic::schedules::{commit_all, Values};

pub fn add(edges: &mut Edges) {
    let full = base(edges);
    edges.lend(&full);
    // With a first octet of no profile, and with its own.
    edges.lend_octets(&[&[4], &full[..]].concat());
    edges.asked();
    edges.lend_of(&RELEASE_16, &full);
    lists(edges, &full);
    marks(edges, &full);
    damaged(edges, &full);
    edges.fresh();
}

/// A schedule of so many entries.
fn schedule(count: usize) -> Values {
    [
        vec![0; 10],
        (count as u32).to_be_bytes().into(),
        [0, 5, 0xAA, 0, 0, 0, 7].repeat(count),
        vec![0, 0, 0, 3, 0, 0, 0, 2],
    ]
}

/// Memory of profile 03 with as much as it can have: 36 entries in its list and in the block that runs.
fn base(edges: &mut Edges) -> Vec<u8> {
    edges.fresh_of(RELEASE_16.octet);
    let mut operations = Operations::by(&RELEASE_16);
    commit_all(&schedule(36), &mut operations);
    operations.subscribe(0x00A4);
    edges.message(AMPLE, &operations.command());
    edges.local(0x00A4, &[1, 1]);
    edges.build();
    edges.memory()
}

/// Lists and blocks at the bound and past it, each beside one within it.
fn lists(edges: &mut Edges, full: &[u8]) {
    for (list, block) in [(36, 37), (37, 36), (1, 64), (64, 1)] {
        let mut memory = full.to_vec();
        install(&mut memory, LIST, Some(&schedule(list)[2]));
        install(&mut memory, COMMIT, Some(&schedule(block).concat()));
        edges.lend_of(&RELEASE_16, &memory);
        edges.command(|operations| operations.read(TABLE[COMMIT].name));
    }
    // With nothing that runs.
    let mut memory = full.to_vec();
    install(&mut memory, COMMIT, None);
    install(&mut memory, LIST, Some(&schedule(37)[2]));
    edges.lend_of(&RELEASE_16, &memory);
    // What is told of the number of entries stays within its own rule.
    for number in [64, 65] {
        let mut memory = full.to_vec();
        install(&mut memory, LIST_LENGTH, Some(&u32::to_be_bytes(number)));
        edges.lend_of(&RELEASE_16, &memory);
        edges.command(|operations| operations.read(TABLE[LIST_LENGTH].name));
    }
}

/// Marks on the entry whose name is not listed, and on all others.
fn marks(edges: &mut Edges, full: &[u8]) {
    let flags = LIST_MAX * ENTRY + 2;
    for octet in [
        PRESENT | SUBSCRIBED,
        PRESENT | PENDING,
        PRESENT | SUBSCRIBED | IN_FLIGHT,
        0,
    ] {
        let mut memory = full.to_vec();
        memory[flags] = octet;
        edges.lend_of(&RELEASE_16, &memory);
        edges.back(SIZE);
    }
    let mut memory = full.to_vec();
    memory[flags] |= SUBSCRIBED;
    edges.lend_of(&RELEASE_18, &memory);
    let mut memory = full.to_vec();
    for place in (0..COUNT).filter(|place| *place != LIST_MAX) {
        memory[place * ENTRY + 2] |= SUBSCRIBED;
    }
    edges.lend_of(&RELEASE_16, &memory);
}

/// What is unsound by every profile.
fn damaged(edges: &mut Edges, full: &[u8]) {
    for (at, octet) in [
        (LIST_MAX * ENTRY + 1, 0x0A),
        (TABLE[LIST_MAX].start + 3, 36),
        (TABLE[COMMIT].start + 13, 35),
        (TIMER, 0),
    ] {
        let mut memory = full.to_vec();
        memory[at] = octet;
        edges.lend_of(&RELEASE_16, &memory);
    }
}
