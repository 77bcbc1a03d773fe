//! The two profiles, at the edges of what differs between them: memory made fresh for each, the same
//! commands to both, and what is never sent back.

use port::table::{COMMIT, LIST_LENGTH, LIST_MAX, SIZE, TABLE};
use port::{Profile, LENT, RELEASE_16, RELEASE_18};
use programs::rig::code;

use super::marks::OWN;
use super::memories::bases;
use super::script::{Edges, AMPLE};
use crate::traffic::not_served::CODES;
use crate::traffic::operations::{Operations, SET};
use crate::traffic::schedules::{sums, Values};
use crate::traffic::values::UNLISTED;

/// Both profiles, that of Release 16 first, so that what follows finds the usual one.
const BOTH: [&Profile; 2] = [&RELEASE_16, &RELEASE_18];
/// Octets of AdminControlListLength: of each number that has an edge, and in each length.
const LIST_LENGTHS: [&[u8]; 17] = [
    &[0, 0],
    &[0, 1],
    &[0, 36],
    &[0, 37],
    &[0, 63],
    &[0, 64],
    &[0, 65],
    &[0, 255],
    &[1, 0],
    &[1, 64],
    &[64, 0],
    &[255, 255],
    &[],
    &[7],
    &[0, 0, 7],
    &[0, 0, 0, 7],
    &[0, 0, 0, 0, 7],
];

pub fn add(edges: &mut Edges) {
    fresh(edges);
    for profile in BOTH {
        edges.fresh_of(profile.octet);
        names(edges);
        list_lengths(edges);
        long_values(edges);
        codes(edges);
        schedules(edges);
        absent(edges, profile);
        moved(edges);
    }
}

/// Memory made fresh for each profile that there could be, on memory in use, on memory of another length,
/// and whatever the first octet was.
fn fresh(edges: &mut Edges) {
    let [_, full] = bases(edges);
    for octets in [&full[..LENT - 2], &[3], &[]] {
        edges.lend_octets(octets);
        (2..=4).for_each(|octet| edges.fresh_of(octet));
    }
    for first in [2, 3, 0] {
        edges.lend_octets(&[&[first], &full[..]].concat());
        (4..=255)
            .chain(0..2)
            .for_each(|octet| edges.fresh_of(octet));
        edges.show();
        for octet in [3, 2, 2, 3, 3, 2] {
            edges.fresh_of(octet);
            edges.command(|operations| operations.get_capabilities());
            edges.show();
        }
    }
}

/// Every name in every operation, and all names asked; beside them a local value of the unlisted one.
fn names(edges: &mut Edges) {
    let list_max = TABLE[LIST_MAX].name;
    edges.command(|operations| {
        operations.get_capabilities();
        operations.get_capabilities();
        operations.read(0x0003);
    });
    edges.command_into(38, |operations| operations.get_capabilities());
    edges.command_into(40, |operations| operations.get_capabilities());
    edges.command_into(41, |operations| operations.get_capabilities());
    let table = TABLE.iter().map(|row| row.name);
    for name in table.chain(UNLISTED) {
        edges.command(|operations| {
            operations.read(name);
            operations.subscribe(name);
        });
    }
    edges.show();
    for length in [0, 1, 4, 255, 256, 300] {
        edges.command(|operations| {
            operations.set(list_max, &vec![0; length]);
            operations.set(list_max, &[0, 0, 0, 64]);
            operations.unsubscribe(list_max);
            operations.subscribe(list_max);
            operations.read(list_max);
        });
        edges.local(list_max, &vec![0; length]);
    }
    edges.show();
    edges.command(|operations| {
        TABLE
            .iter()
            .for_each(|row| operations.unsubscribe(row.name))
    });
    edges.show();
}

/// AdminControlListLength in all octets that it may come in, read behind each in the same command and in
/// the next one.
fn list_lengths(edges: &mut Edges) {
    let name = TABLE[LIST_LENGTH].name;
    for value in LIST_LENGTHS {
        edges.command(|operations| {
            operations.valued(SET, name, value);
            operations.read(name);
        });
        edges.command(|operations| operations.read(name));
    }
    edges.show();
    edges.command(|operations| {
        for value in LIST_LENGTHS {
            operations.valued(SET, name, value);
        }
        operations.read(name);
    });
    edges.show();
}

/// Values of 256 octets for every name and of 255 for some, and lists around the longest that may be set.
fn long_values(edges: &mut Edges) {
    let table = TABLE.iter().map(|row| row.name);
    for name in table.chain([0x0002, 0x800B]) {
        edges.command(|operations| operations.set(name, &[1; 256]));
    }
    for name in [0x0001, 0x0003, 0x0005, 0x000B, 0x0042, 0x0061, 0x8001] {
        edges.command(|operations| operations.set(name, &[1; 255]));
    }
    for length in [254, 257, 512, 2_040] {
        edges.command(|operations| operations.set(0x0042, &vec![2; length]));
    }
    edges.command(|operations| operations.read(0x0042));
    let list = [1, 5, 0x3C, 0, 0, 0, 9].repeat(65);
    for length in [245, 251, 252, 253, 255, 256, 258, 259, 448, 455] {
        edges.command(|operations| operations.set(0x0006, &list[..length]));
        edges.command(|operations| operations.read(0x0006));
    }
    // One that is too long and keeps no rule, and one that is both between two that are set.
    edges.command(|operations| operations.set(0x0006, &[3; 259]));
    edges.command(|operations| {
        operations.set(0x0006, &list[..14]);
        operations.set(0x0006, &list[..259]);
        operations.set(0x0003, &[1]);
        operations.read(0x0006);
    });
    edges.show();
}

/// The codes of what is not served, at the front, behind other operations, and cut short.
fn codes(edges: &mut Edges) {
    for code in CODES.into_iter().chain([5, 10]) {
        let mut operations = Operations::default();
        operations.valued(code, 0x0003, &[1, 1]);
        edges.message_in_full(AMPLE, &operations.command());
        let mut operations = Operations::default();
        operations.set(0x0040, &[code % 4 + 1]);
        operations.subscribe(0x00A4);
        operations.valued(code, 0x0002, &[]);
        operations.read(0x0040);
        edges.message_in_full(AMPLE, &operations.command());
        let mut operations = Operations::default();
        operations.valued(code, 0xFFFF, &[3]);
        operations.valued(code, 0x0002, &[3; 256]);
        operations.valued(code, 0x0042, &[3; 256]);
        edges.message_in_full(AMPLE, &operations.command());
        for list in [&[code][..], &[2, 0, 3, code], &[2, 0, 3, code, 0, 3, 0, 1]] {
            edges.message_in_full(AMPLE, &Operations::of(list).command());
        }
        edges.message_in_full(3, &Operations::of(&[2, 0, 3, code, 0, 3, 0, 0]).command());
    }
    edges.command(|operations| operations.read(0x0040));
    edges.show();
}

/// The four values of a schedule of so many entries.
fn schedule(count: usize) -> Values {
    [
        vec![0, 0, 0, 0, 1, 2, 0, 0, 0, 3],
        (count as u32).to_be_bytes().into(),
        [1, 5, count as u8, 0, 0, 0, 9].repeat(count),
        vec![0, 0, 0, 1, 0, 0, 0, 9],
    ]
}

/// Sets a schedule as controllers of a release do.
fn set(edges: &mut Edges, by: &'static Profile, values: &Values, commit: &[u8]) {
    let mut operations = Operations::by(by);
    for (value, row) in values.iter().zip(&TABLE[2..]) {
        operations.set(row.name, value);
    }
    operations.set(TABLE[COMMIT].name, commit);
    operations.read(TABLE[COMMIT].name);
    operations.read(TABLE[LIST_LENGTH].name);
    edges.message(AMPLE, &operations.command());
}

/// Schedules as controllers of either release set them, up to the longest and past it, with the sums over
/// what memory keeps and over what is sent; which gates are open then, and what runs.
fn schedules(edges: &mut Edges) {
    for by in BOTH {
        for count in [1, 35, 36, 37, 64] {
            let values = schedule(count);
            set(edges, by, &values, &sums(&values));
            for instant in [0, 9 * count as i64 - 1, 200, -1] {
                edges.instruction(code::GATES, &instant.to_be_bytes());
            }
        }
        let mut sent = schedule(9);
        sent[1].drain(..2);
        set(edges, by, &schedule(9), &sums(&sent));
        set(edges, by, &schedule(9), &sums(&schedule(9)));
        edges.show();
    }
    // A length beside a list of another, and one that is set behind the commit.
    for (length, count) in [(2, 1), (37, 36), (64, 36), (36, 36)] {
        let mut values = schedule(count);
        values[1] = schedule(length)[1].clone();
        BOTH.iter()
            .for_each(|by| set(edges, by, &values, &sums(&values)));
    }
    edges.show();
}

/// What is absent, read and told, and the profile kept by every call.
fn absent(edges: &mut Edges, profile: &Profile) {
    edges.fresh_of(profile.octet);
    edges.instruction(code::GATES, &[0; 8]);
    edges.command(|operations| {
        TABLE.iter().for_each(|row| operations.read(row.name));
        OWN.iter().for_each(|(name, _)| operations.subscribe(*name));
    });
    for (name, [value, _]) in OWN {
        edges.local(name, value);
    }
    edges.build();
    for (name, _) in &OWN[2..] {
        edges.local(*name, &[]);
        edges.command(|operations| operations.read(*name));
    }
    edges.acknowledge();
    edges.show();
    edges.build();
    for _ in 0..5 {
        edges.expiry();
    }
    edges.show();
    edges.build();
    edges.show();
}

/// Not moved back with anything in flight nor with nothing, in rooms right and wrong; and forward, which
/// is done of the memory behind the first octet alone.
fn moved(edges: &mut Edges) {
    edges.back(SIZE);
    edges.back(SIZE + 1);
    edges.command(|operations| {
        OWN.iter()
            .for_each(|(name, _)| operations.unsubscribe(*name))
    });
    edges.back(SIZE);
    edges.acknowledge();
    for room in [0, SIZE - 1, LENT, SIZE] {
        edges.back(room);
    }
    edges.show_room();
    edges.forward(LENT);
    edges.show();
}
