//! Replies at their limits: counts, lengths, long updates, and many operations.

use super::script::{Edges, AMPLE};
use crate::traffic::operations::Operations;

/// The longest room that is lent.
const LARGEST: u16 = 8_192;

pub fn add(edges: &mut Edges) {
    edges.fresh();
    counts(edges);
    lengths(edges);
    updates(edges);
    many(edges);
}

/// Records of one kind, as many as a count can tell and one more.
fn counts(edges: &mut Edges) {
    let kinds: [fn(&mut Operations); 4] = [
        |operations| operations.read(0x0003),
        |operations| operations.read(0x0002),
        |operations| operations.set(0x0003, &[1]),
        |operations| operations.set(0x0002, &[]),
    ];
    for kind in kinds {
        for count in [254, 255, 256] {
            edges.command_into(LARGEST, |operations| {
                (0..count).for_each(|_| kind(operations))
            });
        }
    }
    edges.command_into(LARGEST, |operations| {
        kinds
            .iter()
            .for_each(|kind| (0..100).for_each(|_| kind(operations)));
        operations.get_capabilities();
        operations.get_capabilities();
    });
}

/// Replies of 4,095 to 4,097 octets, in rooms of as many.
fn lengths(edges: &mut Edges) {
    edges.command(|operations| operations.set(0x0042, &[0x42; 255]));
    for octets in [200, 201, 202] {
        edges.command(|operations| operations.set(0x0061, &vec![0x61; octets]));
        // 15 records of 259 octets, one of 4 more than its value, and 6 octets around them.
        for room in [4_095, AMPLE, 4_097, LARGEST] {
            edges.command_into(room, |operations| {
                (0..15).for_each(|_| operations.read(0x0042));
                operations.read(0x0061);
            });
        }
    }
    for room in 0..14 {
        edges.command_into(room, |operations| {
            operations.read(0x0003);
            operations.subscribe(0x0003);
        });
    }
}

/// Updates of 252, 255 and 259 octets, and several long ones.
fn updates(edges: &mut Edges) {
    let list = |count: usize| [0, 5, 0x11, 0, 0, 0, 3].repeat(count);
    for count in [36, 37, 38, 63, 64, 65] {
        edges.command(|operations| operations.set(0x0006, &list(count)));
    }
    edges.command(|operations| {
        operations.set(0x0006, &list(37));
        operations.set(0x0042, &[1; 254]);
        operations.set(0x0042, &[2; 255]);
        operations.set(0x0006, &list(36));
        operations.set(0x0006, &list(64));
        operations.set(0x0006, &list(1));
        operations.read(0x0006);
    });
    for length in [254, 255, 256] {
        for name in [0x0042, 0x0061] {
            edges.command(|operations| operations.set(name, &vec![name as u8; length]));
        }
    }
}

/// Operations far behind the first: what they do is there afterwards.
fn many(edges: &mut Edges) {
    for before in [15, 31, 63, 64, 127, 200] {
        edges.fresh();
        edges.command(|operations| {
            (0..before).for_each(|_| operations.read(0x0003));
            operations.set(0x0041, &[7]);
            operations.subscribe(0x00A0);
            operations.read(0x0041);
        });
        edges.command(|operations| operations.read(0x0041));
        edges.local(0x00A0, &[5]);
        edges.build();
    }
}
