//! Positions: commands that break in each way at each place, and every other number asked in full.

use port::table::SIZE;

use super::script::{Edges, AMPLE};
use crate::traffic::operations::{Operations, BEFORE_LIST, BEFORE_VALUE};

/// The longest message that is taken.
const LONGEST: usize = 2_048;

/// A whole operation of each code, and sets that fail.
const WHOLE: [&[u8]; 12] = [
    &[1],
    &[2, 0, 3],
    &[3, 0, 3, 0, 1, 1],
    &[4, 0, 0xA4],
    &[5, 0, 0xA4],
    &[6, 0, 3, 0, 0],
    &[7, 0, 0xA4, 0, 1, 1],
    &[8, 0, 0xA4, 0, 0],
    &[9, 0, 6, 0, 2, 0x0A, 0x0A],
    &[3, 0, 2, 0, 0],
    &[3, 0, 0x0B, 0, 4, 0, 0, 0, 0x40],
    &[3, 0, 0x42, 0, 9, 6, 6, 6, 6, 6, 6, 6, 6, 6],
];

/// Operations with an unknown code.
const MALFORMED: [&[u8]; 6] = [
    &[0],
    &[0x0A],
    &[0x0B],
    &[0x81],
    &[0xFF, 0, 3],
    &[0x0A, 0, 3, 0, 1, 1],
];

/// Operations that are cut short, and what they lack: the name, the length or the value, all of it
/// or a part.
const CUT_SHORT: [(&[u8], &[u8]); 18] = [
    (&[2], &[0, 3]),
    (&[2, 0], &[3]),
    (&[3], &[0, 3, 0, 1, 1]),
    (&[3, 0], &[3, 0, 1, 1]),
    (&[4], &[0, 0xA4]),
    (&[4, 0], &[0xA4]),
    (&[5], &[0, 0xA4]),
    (&[5, 0], &[0xA4]),
    (&[3, 0, 3], &[0, 1, 1]),
    (&[3, 0, 3, 0], &[1, 1]),
    (&[3, 0, 3, 0, 1], &[1]),
    (&[3, 0, 0x42, 0, 3, 1, 1], &[1]),
    (&[3, 0, 0x42, 1, 0, 1, 1], &[1; 254]),
    (&[3, 0, 0x42, 0xFF, 0xFF], &[1, 1]),
    (&[6], &[0, 3, 0, 0]),
    (&[7, 0], &[0xA4, 0, 1, 1]),
    (&[8, 0, 3, 0], &[1, 1]),
    (&[9, 0, 3, 0, 2, 1], &[1]),
];

/// Lists with two operations that cannot be read. A value may swallow the second.
const TWICE: [&[u8]; 9] = [
    &[0x0A, 0x0A],
    &[0x0A, 2, 0, 3, 0],
    &[0, 1, 1, 0xFF],
    &[0x0B, 2],
    &[0x0B, 4, 0],
    &[0x0A, 3, 0, 3, 0, 2, 1],
    &[3, 0, 3, 0, 4, 0x0A, 0x0A],
    &[9, 0, 3, 0, 4, 0x0A, 0x0A],
    &[0xFF, 3, 0, 3, 0, 1, 1, 0x0A, 3, 0, 3],
];

pub fn add(edges: &mut Edges) {
    edges.fresh();
    places(edges);
    swallowed(edges);
    far(edges);
    longest(edges);
    numbers(edges);
    memories(edges);
    rooms(edges);
    edges.fresh();
}

/// A command of `list`, told in full in an ample room, with octets behind its operations.
fn told(edges: &mut Edges, list: &[u8], behind: &[u8]) {
    edges.message_in_full(AMPLE, &command(list, behind));
}

fn command(list: &[u8], behind: &[u8]) -> Vec<u8> {
    [&Operations::of(list).command(), behind].concat()
}

/// Each sort of break at the first place, at the last behind each operation, and in the middle. What
/// is cut short has nothing behind it in the list, so there its middle is that of the message.
fn places(edges: &mut Edges) {
    let all = WHOLE.concat();
    for broken in MALFORMED {
        told(edges, broken, &[]);
        told(edges, &[broken, &all].concat(), &[]);
        for before in WHOLE.iter().chain([&&all[..]]) {
            told(edges, &[before, broken].concat(), &[]);
        }
        told(edges, &[&all, broken, &all].concat(), &[1]);
    }
    for (broken, lacking) in CUT_SHORT {
        for before in WHOLE {
            told(edges, &[before, broken].concat(), &[]);
        }
        for behind in [&[][..], lacking, &[lacking, &all].concat()] {
            for before in [&[][..], &[1], &[2, 0, 3, 4, 0, 0xA4], &all] {
                told(edges, &[before, broken].concat(), behind);
            }
        }
    }
    // Nothing of what stood before them was done.
    edges.show();
}

/// Two operations that cannot be read, and values that would reach beyond the operations behind
/// them: by one octet and by many, and the one that just does not.
fn swallowed(edges: &mut Edges) {
    for list in TWICE {
        told(edges, list, &[]);
        told(edges, &[&[2, 0, 3], list, &[1]].concat(), &[]);
    }
    let behind = WHOLE.concat();
    for length in [0, 1, 2, 256].map(|more| behind.len() + more) {
        let [high, low] = (length as u16).to_be_bytes();
        let set = [&[3, 0, 0x42, high, low], &behind[..]].concat();
        for before in [&[][..], &[1], &[4, 0, 0xA4, 1]] {
            told(edges, &[before, &set].concat(), &[]);
            told(edges, &[before, &set].concat(), &[1, 1]);
        }
    }
}

/// Behind sets of long values, which are taken or fail, and behind many operations.
fn far(edges: &mut Edges) {
    let list = [
        &[3, 0, 6, 1, 0xC0][..],
        &[0, 5, 0x33, 0, 0, 0, 9].repeat(64),
    ]
    .concat();
    let chassis = [&[3, 0, 0x42, 0, 255][..], &[6; 255]].concat();
    for before in [&list, &chassis, &[2, 0, 3].repeat(100), &vec![1; 300]] {
        for count in [1, 3] {
            for broken in [&[0x0A][..], &[3, 0, 3, 0, 2, 1]] {
                told(edges, &[&before.repeat(count), broken].concat(), &[0; 2]);
            }
        }
    }
    told(edges, &[&list[..], &[0x0A], &chassis, &[0]].concat(), &[]);
    for power in [128, 256, 512, 1_024] {
        for position in [power - 1, power, power + 1] {
            told(edges, &[&set_before(position), &[0x0A][..]].concat(), &[]);
            told(edges, &[&set_before(position), &[2][..]].concat(), &[0, 3]);
        }
    }
}

/// A set of an unlisted name, behind which the next operation stands at `position`.
fn set_before(position: usize) -> Vec<u8> {
    let length = position - BEFORE_LIST - BEFORE_VALUE;
    let mut set = Operations::default();
    set.set(0x0002, &vec![2; length]);
    set.list()
}

/// Commands of 2,048 octets that break at the last of them, or before octets that fill them up, and
/// such of 2,049, which break nowhere.
fn longest(edges: &mut Edges) {
    let last = LONGEST - BEFORE_LIST - 1;
    let reads = [&[2, 0, 3].repeat(last / 3)[..], &[1][..last % 3]].concat();
    for before in [reads, set_before(LONGEST - 1), vec![1; last]] {
        told(edges, &[&before[..], &[4]].concat(), &[]);
        told(edges, &[&before[..], &[0x0A]].concat(), &[]);
        told(edges, &[&before[..], &[6]].concat(), &[]);
        told(edges, &[&before[..], &[0x0A]].concat(), &[0x0A]);
    }
    told(edges, &[1, 3], &vec![0; LONGEST - BEFORE_LIST - 2]);
}

/// Every number in full, each with a list that would break.
fn numbers(edges: &mut Edges) {
    let broken = command(&[4, 0, 0xA4, 0x0A], &[]);
    told(edges, &[4, 0, 0xA4], &[0x0A]);
    // An empty message, and an acknowledgement while idle.
    for room in [0, 1, AMPLE] {
        edges.message(room, &[]);
        edges.message_in_full(room, &[]);
        edges.message_in_full(room, &[4, 0, 1, 0x0A]);
    }
    for kind in [0, 2, 5] {
        edges.message_in_full(AMPLE, &[&[kind], &broken[1..]].concat());
    }
    for list in [
        &[1][..],
        &[1, 0],
        &[1, 0, 0, 0x0A],
        &[1, 0, 2, 0x0A],
        &[1, 6, 6, 6],
    ] {
        edges.message_in_full(AMPLE, list);
    }
    told(edges, &[2, 0, 3].repeat(256), &[0x0A]);
    edges.message_in_full(10, &command(&[2, 0, 3], &[0x0A]));
    edges.message_in_full(0, &command(&[4, 0, 0xA4], &[]));
    edges.message_in_full(0, &broken);
    // An acknowledgement while waiting, in rooms of none and of one octet.
    edges.local(0x00A4, &[1, 2]);
    edges.build();
    edges.message_in_full(AMPLE, &broken);
    edges.message_in_full(0, &[4, 0, 1, 0x0A]);
    edges.message_in_full(1, &[4, 0, 1, 0x0A]);
}

/// Memory of a wrong length, and memory that is not sound, until it is made fresh.
fn memories(edges: &mut Edges) {
    let broken = command(&[4, 0, 0xA4, 0x0A], &[]);
    for memory in [vec![0; SIZE - 1], vec![0; SIZE]] {
        edges.lend(&memory);
        edges.message_in_full(AMPLE, &broken);
        edges.message_in_full(AMPLE, &[]);
        edges.message(AMPLE, &broken);
    }
    edges.fresh();
    edges.message_in_full(AMPLE, &broken);
}

/// Rooms are made anew and shown, by messages in full and by others by turns.
fn rooms(edges: &mut Edges) {
    for room in [0, 1, 11, 14] {
        for list in [&[2, 0, 3][..], &[2, 0, 3, 0x0A]] {
            edges.message_in_full(room, &command(list, &[]));
            edges.show_room();
            edges.message(room + 1, &command(list, &[]));
            edges.show_room();
        }
    }
    edges.message_in_full(12, &command(&[2, 0, 3], &[]));
    edges.message_in_full(13, &command(&[0x0A], &[]));
    edges.show_room();
    edges.build_into(2);
    edges.show_room();
    edges.message_in_full(8_193, &command(&[0x0A], &[]));
    edges.show_room();
    edges.message(3, &command(&[0x0A], &[]));
    edges.show_room();
}
