//! What is not served: each of the four codes with every name, with values of all lengths, at the
//! limits of a reply, beside what is served, and cut short at each of its octets.

use port::table::TABLE;

use super::script::{Edges, AMPLE};
use crate::traffic::not_served::{
    CODES, DELETE_ENTRY, SELECTIVE_READ, SELECTIVE_SUBSCRIBE, SELECTIVE_UNSUBSCRIBE,
};
use crate::traffic::operations::{Operations, BEFORE_LIST, BEFORE_VALUE};
use crate::traffic::values::UNLISTED;

/// The longest room that is lent.
const LARGEST: u16 = 8_192;
/// The longest value in a message of 2,048 octets.
const LONGEST: usize = 2_048 - BEFORE_LIST - BEFORE_VALUE;
/// Values such as names have: one of them keeps each rule but that of 0004, and none is a commit.
const VALUES: [&[u8]; 5] = [&[], &[1], &[0, 9], &[0, 0, 0, 64], &[1; 8]];

pub fn add(edges: &mut Edges) {
    edges.fresh();
    names(edges);
    lengths(edges);
    rooms(edges);
    counts(edges);
    longest_reply(edges);
    order(edges);
    values(edges);
    marks(edges);
    cut_short(edges);
    codes(edges);
    edges.fresh();
}

/// One operation as a command of its own, told in full by every other code.
fn alone(edges: &mut Edges, code: u8, name: u16, value: &[u8]) {
    let mut operation = Operations::default();
    operation.valued(code, name, value);
    match code % 2 == 0 {
        true => edges.message(AMPLE, &operation.command()),
        false => edges.message_in_full(AMPLE, &operation.command()),
    }
}

/// Each name with each code, alone; and with values that are permitted for one name or another.
fn names(edges: &mut Edges) {
    let listed = TABLE.iter().map(|row| row.name);
    for name in listed.chain(UNLISTED) {
        for code in CODES {
            alone(edges, code, name, &[1]);
        }
        edges.command(|operations| {
            for (code, value) in CODES.iter().flat_map(|c| VALUES.map(|v| (*c, v))) {
                operations.valued(code, name, value);
            }
            operations.read(name);
        });
    }
    edges.show();
}

/// Values around 255 octets, as long as the largest room, and as long as a message holds.
fn lengths(edges: &mut Edges) {
    for code in CODES {
        for length in [0, 2, 254, 255, 256, 257, 470, 512] {
            alone(edges, code, 0x0042, &vec![7; length]);
        }
        for length in [255, 256, 299, 470] {
            alone(edges, code, 0x0142, &vec![7; length]);
        }
        alone(edges, code, 0x0006, &[0, 5, 0x11, 0, 0, 0, 3].repeat(64));
    }
    for code in [SELECTIVE_READ, DELETE_ENTRY] {
        alone(edges, code, 0x0061, &[code; LONGEST]);
        alone(edges, code, 0x0002, &[code; LONGEST + 1]);
    }
    alone(edges, SELECTIVE_SUBSCRIBE, 0x00A4, &[0x0A; LONGEST - 1]);
    alone(edges, SELECTIVE_UNSUBSCRIBE, 0xFFFF, &[4; LONGEST]);
    edges.show();
}

/// Rooms around the shortest replies, shown where they are used.
fn rooms(edges: &mut Edges) {
    for code in CODES {
        for room in [0, 1, 2, 8, 9, 10] {
            edges.command_into(room, |operations| operations.valued(code, 0x0003, &[0]));
            edges.show_room();
        }
    }
    edges.command_into(17, |operations| both(operations));
    edges.command_into(16, |operations| both(operations));
}

/// One for each element.
fn both(operations: &mut Operations) {
    operations.valued(DELETE_ENTRY, 0x0003, &[]);
    operations.valued(SELECTIVE_READ, 0x0003, &[]);
}

/// As many as a count can tell and one more, alone and with reads or sets that fail; and as many as a
/// message holds of those that are not counted.
fn counts(edges: &mut Edges) {
    type Other = fn(&mut Operations);
    let kinds: [(u8, Other); 2] = [
        (SELECTIVE_READ, |operations| operations.read(0x0002)),
        (DELETE_ENTRY, |operations| operations.set(0x0002, &[])),
    ];
    for (code, other) in kinds {
        for (count, others) in [(254, 0), (255, 0), (256, 0), (1, 254), (1, 255), (128, 128)] {
            edges.command_into(LARGEST, |operations| {
                (0..count).for_each(|_| operations.valued(code, 0x0003, &[]));
                (0..others).for_each(|_| other(operations));
            });
        }
        edges.command_into(LARGEST, |operations| {
            (0..127).for_each(|_| {
                other(operations);
                operations.valued(code, 0xFFFF, &[]);
            });
            other(operations);
        });
    }
    edges.command(|operations| (0..204).for_each(|_| both(operations)));
    for code in [SELECTIVE_SUBSCRIBE, SELECTIVE_UNSUBSCRIBE] {
        edges.command_into(1, |operations| {
            (0..409).for_each(|_| operations.valued(code, 0x00A4, &[]))
        });
    }
}

/// Replies of 4,095 to 4,098 octets, whose last record is that of a selective read or of a delete.
fn longest_reply(edges: &mut Edges) {
    edges.command(|operations| operations.set(0x0042, &[0x42; 255]));
    // 15 records of 259 octets, one of 4 more than its value, 6 octets around them, and 3 of a
    // selective read, or the 8 of an element with a delete.
    for (code, octets) in [(SELECTIVE_READ, 197), (DELETE_ENTRY, 192)] {
        for more in 0..4 {
            edges.command(|operations| operations.set(0x0061, &vec![0x61; octets + more]));
            edges.command_into(LARGEST, |operations| {
                (0..15).for_each(|_| operations.read(0x0042));
                operations.read(0x0061);
                operations.valued(code, 0x0003, &[]);
                operations.valued(SELECTIVE_SUBSCRIBE, 0x0003, &[1]);
            });
        }
    }
}

/// Errors of all sorts among each other, and a delete beside a long update.
fn order(edges: &mut Edges) {
    let list = [0, 5, 0x11, 0, 0, 0, 3].repeat(37);
    for turned in [false, true] {
        edges.command(|operations| {
            for name in [0x00A4, 0x0003, 0x0002] {
                let codes = if turned { [6, 9, 7, 8] } else { [9, 8, 7, 6] };
                codes[..2]
                    .iter()
                    .for_each(|code| operations.valued(*code, name, &[1]));
                operations.read(name);
                operations.set(name, &[1]);
                codes[2..]
                    .iter()
                    .for_each(|code| operations.valued(*code, name, &[]));
                operations.set(name, &[]);
            }
            operations.get_capabilities();
        });
        edges.command(|operations| {
            if turned {
                operations.set(0x0006, &list);
            }
            operations.valued(DELETE_ENTRY, 0x0006, &list);
            if !turned {
                operations.set(0x0006, &list);
            }
            operations.read(0x0006);
        });
    }
}

/// Each name beside a set of it, whose value is there afterwards, and beside a commit.
fn values(edges: &mut Edges) {
    for code in CODES {
        edges.fresh();
        edges.command(|operations| {
            for row in &TABLE {
                let value = vec![1; row.most.min(10)];
                operations.valued(code, row.name, &value);
                operations.read(row.name);
                operations.set(row.name, &value);
                operations.valued(code, row.name, &[]);
                operations.read(row.name);
            }
        });
        edges.command(|operations| TABLE.iter().for_each(|row| operations.read(row.name)));
    }
    edges.message(AMPLE, &committed().command());
    for code in CODES {
        edges.command(|operations| {
            for name in [0x8001, 0x0006, 0x0004] {
                operations.valued(code, name, &[]);
            }
            operations.read(0x8001);
        });
        edges.command(|operations| operations.read(0x8001));
    }
    edges.show();
}

/// The commit of the sixth example from the bench (RULES 18.7), with a delete before and behind it.
fn committed() -> Operations {
    let mut operations = Operations::default();
    operations.set(0x0004, &[0; 10]);
    operations.set(0x0005, &[0, 0, 0, 1]);
    operations.set(0x0006, &[0, 5, 0xFF, 0, 0x0F, 0x42, 0x40]);
    operations.valued(DELETE_ENTRY, 0x0006, &[0, 5, 0xFF, 0, 0x0F, 0x42, 0x40]);
    operations.set(0x0007, &[0, 0, 0, 1, 0, 0, 3, 0xE8]);
    operations.set(0x8001, &[0x02, 0x82, 0x13, 0xB5]);
    operations.valued(DELETE_ENTRY, 0x8001, &[]);
    operations
}

/// Subscriptions and pending marks, told by local values and notifications afterwards.
fn marks(edges: &mut Edges) {
    for code in CODES {
        edges.fresh();
        // Not subscribed before, nor afterwards.
        for name in [0x0001, 0x00A1, 0x00A4] {
            edges.command(|operations| operations.valued(code, name, &[]));
            edges.command(|operations| operations.valued(code, name, &[1, 2]));
        }
        edges.local(0x00A4, &[0, 1]);
        edges.local(0x00A1, b"neighbour");
        edges.build();
        // Subscribed, pending, and subscribed again in the same command.
        edges.command(|operations| {
            operations.subscribe(0x00A4);
            operations.valued(code, 0x00A4, &[]);
            operations.subscribe(0x00A1);
            operations.unsubscribe(0x00A1);
            operations.valued(code, 0x00A1, b"neighbour");
        });
        edges.local(0x00A4, &[0, 2]);
        edges.local(0x00A1, b"other");
        edges.command(|operations| {
            operations.valued(code, 0x00A4, &[0, 2]);
            operations.valued(code, 0x00A1, &[]);
        });
        edges.show();
        edges.build();
        // While waiting.
        edges.command(|operations| operations.valued(code, 0x00A4, &[]));
        edges.expiry();
        edges.acknowledge();
        edges.local(0x00A4, &[]);
        edges.build();
        edges.acknowledge();
        edges.local(0x00A4, &[0, 4]);
        // Pending, and unsubscribed by what stands before it.
        edges.command(|operations| {
            operations.unsubscribe(0x00A4);
            operations.valued(code, 0x00A4, &[]);
        });
        edges.local(0x00A4, &[0, 3]);
        edges.build();
    }
}

/// Cut short at each octet, first and behind others, with what is lacking behind the L octets or not.
fn cut_short(edges: &mut Edges) {
    for code in CODES {
        let whole = [code, 0, 0x42, 0, 3, 7, 7, 7];
        let before = [&[2, 0, 3][..], &whole].concat();
        for (before, cut) in [&[][..], &before]
            .iter()
            .flat_map(|b| (1..whole.len()).map(move |c| (*b, c)))
        {
            let list = Operations::of(&[before, &whole[..cut]].concat()).command();
            edges.message_in_full(AMPLE, &list);
            edges.message_in_full(AMPLE, &[&list[..], &whole[cut..], &[1, 0x0A]].concat());
        }
        // Far past the end, by the high octet of the length alone, and behind many others.
        for (high, low, value) in [(0xFF, 0xFF, 9), (1, 0, 0), (1, 0, 255), (2, 3, 3)] {
            let front = [1, code, 0, 3, high, low];
            let list = [&front[..], &vec![code; value]].concat();
            edges.message_in_full(AMPLE, &Operations::of(&list).command());
        }
        let far = [&whole.repeat(100)[..], &[code, 0]].concat();
        edges.message_in_full(0, &Operations::of(&far).command());
    }
}

/// Codes around those that are taken: alone, with a name, and laid out as a set.
fn codes(edges: &mut Edges) {
    for code in (0..=0x0C).chain([0x0F, 0x10, 0x16, 0x19, 0x46, 0x7F, 0x86, 0x89, 0xFF]) {
        for list in [
            &[code][..],
            &[code, 0, 3],
            &[code, 0, 3, 0, 0],
            &[code, 0, 0x0A, 0, 1, 1],
            &[code, 0, 0x0A, 0, 2, 1, 1, 1],
            &[6, 0, 3, 0, 0, code, 0, 3, 0, 0],
        ] {
            edges.message_in_full(AMPLE, &Operations::of(list).command());
        }
    }
}
