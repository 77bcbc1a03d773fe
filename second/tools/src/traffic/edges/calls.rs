//! Calls at an edge: memory made fresh, delays, and messages by type, length and code.

use port::table::SIZE;
use programs::rig::code;

use super::script::{Edges, AMPLE};
use crate::traffic::operations::Operations;

/// Nanoseconds around the largest that is converted, and with one octet each.
const DELAYS: [u64; 10] = [
    0,
    1,
    0x0102_0304_0506,
    (1 << 47) - 2,
    (1 << 47) - 1,
    1 << 47,
    (1 << 47) + 1,
    1 << 48,
    1 << 63,
    u64::MAX,
];

pub fn add(edges: &mut Edges) {
    fresh(edges);
    for nanoseconds in DELAYS {
        edges.instruction(code::DELAY, &nanoseconds.to_be_bytes());
    }
    messages(edges);
    half_done(edges);
}

/// Memory that is sound and in use, and memory that is not sound, made fresh.
fn fresh(edges: &mut Edges) {
    edges.command(|operations| {
        operations.subscribe(0x00A4);
        operations.subscribe(0x0040);
        operations.set(0x0003, &[1]);
        operations.set(0x0042, b"in use");
    });
    edges.local(0x00A4, &[1, 2]);
    edges.build();
    edges.expiry();
    edges.local(0x00A4, &[3, 4]);
    edges.fresh();
    edges.show();
    for memory in [
        vec![0xEE; SIZE],
        vec![0; SIZE],
        vec![0; SIZE - 1],
        vec![0; SIZE + 1],
    ] {
        edges.lend(&memory);
        edges.fresh();
        edges.expiry();
    }
    edges.lend(&vec![0; SIZE]);
    edges.fresh();
}

/// Types, lengths of the operations, codes, and octets behind the operations.
fn messages(edges: &mut Edges) {
    for kind in [0, 1, 2, 3, 4, 5, 0x81, 0xFF] {
        edges.message(AMPLE, &[kind]);
        edges.message(0, &[kind, 0, 1, 1]);
        edges.message(AMPLE, &[kind, 0, 3, 2, 0, 3]);
    }
    for length in [0, 2, 3, 4, 5, 0x0103, 0x0300] {
        let mut read = Operations::default();
        read.read(0x0003);
        edges.message(AMPLE, &read.command_telling(length));
        edges.message(
            AMPLE,
            &[&read.command_telling(length)[..], &[1, 0]].concat(),
        );
    }
    for code in (0..=0x0A).chain([0x81, 0xFF]) {
        edges.message(AMPLE, &[1, 0, 1, code]);
        edges.message(AMPLE, &[1, 0, 3, code, 0, 3]);
        edges.message(AMPLE, &[1, 0, 6, code, 0, 3, 0, 1, 1]);
    }
    for (kind, length) in [(1, 2_047), (1, 2_048), (1, 2_049), (0, 2_049), (4, 2_049)] {
        let mut message = vec![kind, 0, 3, 2, 0, 3];
        message.resize(length, 0xFF);
        edges.message(AMPLE, &message);
    }
}

/// Commands that are refused behind a set, and commands in which a set fails.
fn half_done(edges: &mut Edges) {
    for last in [&[0x0A][..], &[3, 0, 3, 0, 2, 1], &[2, 0]] {
        let list = [&[3, 0, 3, 0, 1, 1, 4, 0, 0xA4], last].concat();
        let [high, low] = (list.len() as u16).to_be_bytes();
        edges.message(AMPLE, &[&[1, high, low], &list[..]].concat());
    }
    for room in [0, 1, 7, 8, 9, 10] {
        edges.command_into(room, |operations| {
            operations.set(0x0003, &[1]);
            operations.subscribe(0x00A4);
        });
        edges.show();
        edges.fresh();
    }
    for values in [[1, 9], [9, 1], [9, 9], [1, 2]] {
        edges.command(|operations| values.iter().for_each(|v| operations.set(0x0040, &[*v])));
        edges.command(|operations| operations.read(0x0040));
        edges.fresh();
    }
}
