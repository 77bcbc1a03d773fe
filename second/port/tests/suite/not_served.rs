//! What is not served: selective reads and deletes of entries fail for every name, selective
//! subscribes and unsubscribes do nothing, and none of the four changes an octet (RULES 11.26 to
//! 11.29).

use crate::soundness::full;
use kit::{command, delete_entry, hex, list, read, schedule, selective_read, set, sets, subscribe};
use kit::{selective_subscribe, selective_unsubscribe, unsubscribe, valued, Bench, Reply};

/// The codes of what is not served (RULES 10.15 to 10.18).
const CODES: [u8; 4] = [6, 7, 8, 9];
/// Names around the listed ones, and such that share an octet with one.
const UNLISTED: [u16; 12] = [
    0x0000, 0x0002, 0x0009, 0x000A, 0x000C, 0x003F, 0x00A5, 0x0103, 0x0300, 0x8000, 0x8002, 0xFFFF,
];
/// Octets of the longest value: those of a message without its type, L, code, name and length.
const LONGEST: usize = 2_048 - 3 - 5;
const TTL: u16 = 0x00A4;

/// A value of each listed name that keeps its rule; for 8001 the sums of the four others.
fn listed() -> Vec<(u16, Vec<u8>)> {
    let schedule = schedule(5, 1_000, [1, 1_000]);
    let others = [
        (0x0001, vec![1; 8]),
        (0x0003, vec![1]),
        (0x0008, vec![2; 4]),
        (0x000B, vec![0, 0, 0, 64]),
        (0x0040, vec![2]),
        (0x0041, vec![3]),
        (0x0042, vec![0x42; 255]),
        (0x0060, vec![4]),
        (0x0061, vec![0x61; 9]),
        (0x00A0, vec![5]),
        (0x00A1, vec![0xA1; 255]),
        (0x00A2, vec![6]),
        (0x00A3, vec![0xA3; 7]),
        (0x00A4, vec![0, 9]),
    ];
    let listed: Vec<(u16, Vec<u8>)> = schedule.into_iter().chain(others).collect();
    assert_eq!(listed.len(), 19);
    listed
}

/// The reply to one of the four alone.
fn alone(code: u8, name: u16) -> Vec<u8> {
    match code {
        6 => hex(&format!("02 71 0005 00 01 {name:04x} 6F")),
        9 => hex(&format!("02 72 0005 00 01 {name:04x} 6F")),
        _ => hex("02"),
    }
}

/// Sends one of the four and holds its reply, and all memory after it, against the clauses.
fn assert_not_served(bench: &mut Bench, code: u8, name: u16, value: &[u8]) {
    let before = bench.memory.clone();
    let reply = bench.done(&valued(code, name, value));
    assert_eq!(
        reply,
        alone(code, name),
        "code {code}, name {name:04x}, {} octets",
        value.len()
    );
    assert!(bench.memory == before, "code {code}, name {name:04x}");
}

#[test]
fn names_and_values_make_no_difference() {
    let names = listed().into_iter();
    let names = names.chain(UNLISTED.map(|name| (name, vec![1])));
    let names: Vec<(u16, Vec<u8>)> = names.collect();
    for mut bench in [Bench::fresh(), full()] {
        for (code, (name, own)) in CODES.iter().flat_map(|c| names.iter().map(|n| (*c, n))) {
            for length in [0, 1, 2, 4, 255, 256, 470, LONGEST - 1, LONGEST] {
                assert_not_served(&mut bench, code, *name, &vec![1; length]);
            }
            assert_not_served(&mut bench, code, *name, own);
            let running = bench.memory[1_630..1_687].to_vec();
            assert_not_served(&mut bench, code, *name, &running);
        }
    }
}

#[test]
fn every_name_is_answered_alike() {
    let mut bench = full();
    let before = bench.memory.clone();
    for name in 0..=u16::MAX {
        for code in CODES {
            assert_eq!(bench.done(&valued(code, name, &[])), alone(code, name));
        }
    }
    assert!(bench.memory == before);
}

#[test]
fn a_value_is_no_operations() {
    let inner = [set(0x0003, &[1]), subscribe(TTL), read(0x0003), vec![1, 0]].concat();
    for code in CODES {
        assert_not_served(&mut Bench::fresh(), code, 0x0003, &inner);
    }
}

#[test]
fn values_of_the_longest_message_and_one_octet_more() {
    for code in CODES {
        let message = command(&valued(code, 0x0042, &[7; LONGEST]));
        assert_eq!(message.len(), 2_048);
        assert_eq!(Bench::fresh().send(&message), (0, alone(code, 0x0042)));
        let message = command(&valued(code, 0x0042, &[7; LONGEST + 1]));
        assert_eq!(Bench::fresh().send(&message).0, 3);
    }
}

/// Each is among the 255 of its count (RULES 12.16), also beside reads and sets that fail.
#[test]
fn failures_are_counted_up_to_255() {
    let kinds = [
        (selective_read(0x0003, &[]), read(0x0002), 0x71),
        (delete_entry(0x0003, &[]), set(0x0002, &[]), 0x72),
    ];
    for (not_served, other, element) in kinds {
        for others in [0, 1, 127, 254, 255] {
            let mix = |all: usize| {
                let operations = [not_served.repeat(all - others), other.repeat(others)];
                Bench::fresh().send(&command(&operations.concat()))
            };
            let (number, reply) = mix(255);
            assert_eq!(number, 0);
            assert_eq!(reply[..6], [2, element, 2, 0xFF, 0, 255]);
            assert_eq!(reply.len(), 6 + 255 * 3);
            assert_eq!(mix(256), (7, vec![]));
        }
    }
    // The counts are apart from each other: 255 of each of two, and reads and sets that succeed.
    let both = [
        selective_read(1, &[]).repeat(204),
        delete_entry(1, &[]).repeat(204),
    ];
    let parsed = Reply::parse(&Bench::fresh().done(&both.concat()));
    assert_eq!(parsed.read_errors, [(1, 0x6F); 204]);
    assert_eq!(parsed.update_errors, [(1, 0x6F); 204]);
    let beside = [selective_read(1, &[]).repeat(255), read(3).repeat(255)];
    let parsed = Reply::parse(&Bench::fresh().done(&beside.concat()));
    assert_eq!((parsed.values.len(), parsed.read_errors.len()), (255, 255));
}

/// Selective subscribes and unsubscribes are in no count.
#[test]
fn as_many_selective_subscribes_as_a_message_holds() {
    for code in [7, 8] {
        let operations = valued(code, TTL, &[]).repeat(409);
        assert_eq!(operations.len(), 2_045);
        assert_eq!(Bench::fresh().done(&operations), hex("02"));
    }
}

/// In one list of errors, and in the order of the operations (RULES 12.13, 12.16).
#[test]
fn failures_keep_the_order_of_their_operations() {
    let operations = [
        selective_read(0x0003, &[1]),
        set(0x0002, &[]),
        read(0x0002),
        delete_entry(0x0042, &[]),
        read(0x0003),
        selective_read(0x0002, &[]),
        set(0x0003, &[1]),
        selective_subscribe(TTL, &[]),
        set(0x0003, &[2]),
        read(TTL),
        delete_entry(0xFFFF, &[9; 300]),
        selective_unsubscribe(TTL, &[1]),
        set(0x000B, &[]),
        selective_read(TTL, &[]),
    ];
    let reads = "01 0003 0001 00 05 0003 6F 0002 01 0002 6F 00A4 03 00A4 6F";
    let sets = "01 0003 01 01 05 0002 01 0042 6F 0003 02 FFFF 6F 000B 6F";
    let reply = hex(&format!("02 71 0016 {reads} 72 0015 {sets}"));
    assert_eq!(Bench::fresh().done(&operations.concat()), reply);
}

#[test]
fn a_delete_stands_before_the_long_updates() {
    let long = list(37, 1);
    let reply = [hex("02 72 010E 00 01 0006 6F 0107 0006 0103"), long.clone()].concat();
    for operations in [
        [delete_entry(0x0006, &[]), set(0x0006, &long)],
        [set(0x0006, &long), delete_entry(0x0006, &long)],
    ] {
        let mut bench = Bench::fresh();
        assert_eq!(bench.done(&operations.concat()), reply);
        // The list is there, whichever came first.
        assert_eq!(bench.done(&read(0x0006))[9..268], long);
    }
}

#[test]
fn rooms_that_the_replies_just_fit() {
    for code in CODES {
        let length = alone(code, TTL).len();
        let mut bench = Bench::fresh();
        let message = command(&valued(code, TTL, &[0, 1]));
        for room in 0..length {
            assert_eq!(bench.send_into(&message, room).0, 7, "code {code}");
        }
        assert_eq!(bench.send_into(&message, length), (0, alone(code, TTL)));
    }
    // A selective subscribe and an unsubscribe beside each other still take one octet.
    let both = [
        selective_subscribe(TTL, &[]),
        selective_unsubscribe(3, &[1]),
    ]
    .concat();
    assert_eq!(Bench::fresh().send_into(&command(&both), 1), (0, hex("02")));
}

/// Replies of 4,096 octets, and of more by a selective read or a delete of an entry.
#[test]
fn the_longest_reply() {
    let mut bench = Bench::fresh();
    bench.done(&[set(0x0042, &[7; 255]), set(0x0061, &[7; 198])].concat());
    // 15 records of 259 octets, one of 202, and 6 octets around them leave 3.
    let most = [read(0x0042).repeat(15), read(0x0061)].concat();
    let longest = [most.clone(), selective_read(0x0003, &[])].concat();
    assert_eq!(bench.send_into(&command(&longest), 8_192).1.len(), 4_096);
    for more in [selective_read(1, &[]), delete_entry(1, &[])] {
        let over = [longest.clone(), more].concat();
        assert_eq!(bench.send_into(&command(&over), 8_192).0, 7);
    }
    // A delete alone has an element of its own, of 8 octets.
    let deleted = [most.clone(), delete_entry(1, &[])].concat();
    assert_eq!(bench.send_into(&command(&deleted), 8_192).0, 7);
    bench.done(&set(0x0061, &[7; 193]));
    assert_eq!(bench.send_into(&command(&deleted), 8_192).1.len(), 4_096);
}

#[test]
fn a_selective_subscribe_does_not_subscribe() {
    let mut bench = Bench::fresh();
    for name in [0x0001, 0x0008, 0x00A0, 0x00A1, 0x00A2, 0x00A3, TTL] {
        bench.done(
            &[
                selective_subscribe(name, &[]),
                selective_subscribe(name, &[1]),
            ]
            .concat(),
        );
    }
    assert_eq!(bench.local(TTL, &[0, 1]), 0);
    assert_eq!(bench.build().0, 9);
    // Nor does it undo what a subscribe or an unsubscribe has done in the same command.
    let operations = [subscribe(TTL), selective_subscribe(TTL, &[])].concat();
    bench.done(&operations);
    assert_eq!(bench.local(TTL, &[0, 2]), 0);
    assert_eq!(bench.build(), (0, hex("03 0008 01 00A4 0002 0002 00")));
    bench.done(&[unsubscribe(TTL), selective_subscribe(TTL, &[])].concat());
    assert_eq!(bench.send(&[4]), (0, hex("05")));
    assert_eq!(bench.local(TTL, &[0, 3]), 0);
    assert_eq!(bench.build().0, 9);
}

#[test]
fn a_selective_unsubscribe_clears_neither_mark() {
    let mut bench = Bench::fresh();
    bench.done(&[subscribe(TTL), selective_unsubscribe(TTL, &[])].concat());
    assert_eq!(bench.local(TTL, &[0, 1]), 0);
    bench.done(&selective_unsubscribe(TTL, &[0, 1]));
    assert_eq!(bench.build(), (0, hex("03 0008 01 00A4 0002 0001 00")));
    assert_eq!(bench.send(&[4]), (0, hex("05")));
    bench.done(&selective_unsubscribe(TTL, &[]));
    assert_eq!(bench.local(TTL, &[]), 0);
    assert_eq!(bench.build(), (0, hex("03 0005 00 01 00A4 03")));
}

/// What stands beside them in the same command finds nothing changed by them.
#[test]
fn reads_and_sets_beside_them_act_as_ever() {
    for code in CODES {
        let mut bench = Bench::fresh();
        for (name, value) in listed() {
            let operations = [
                valued(code, name, &value),
                set(name, &value),
                valued(code, name, &[]),
                read(name),
            ];
            let with = Reply::parse(&bench.clone().done(&operations.concat()));
            let without = [set(name, &value), read(name)].concat();
            let without = Reply::parse(&bench.done(&without));
            assert_eq!(with.values, without.values, "code {code}, {name:04x}");
            assert_eq!(with.updates, without.updates, "code {code}, {name:04x}");
        }
        assert_eq!(bench.memory[108..111], hex("8001 01"), "a block runs");
    }
}

#[test]
fn a_running_block_is_not_deleted() {
    let mut bench = Bench::fresh();
    let values = schedule(3, 5, [1, 1_000]);
    bench.done(&sets(&values));
    let names = values.iter().map(|(name, _)| *name);
    let deletes: Vec<u8> = names.flat_map(|name| delete_entry(name, &[])).collect();
    bench.done(&deletes);
    let parsed = Reply::parse(&bench.done(&read(0x8001)));
    assert_eq!(parsed.values, [values[4].clone()]);
}

/// Cut short in their name, length or value, whatever follows behind the L octets.
#[test]
fn cut_short_at_each_octet() {
    for code in CODES {
        let whole = valued(code, 0x0042, &[7; 3]);
        for before in [
            vec![],
            vec![1],
            read(0x0003),
            valued(code, 0x0003, &[1; 300]),
        ] {
            for cut in 1..whole.len() {
                let list = [&before[..], &whole[..cut]].concat();
                let expected = (6, 3 + before.len());
                let completing = &whole[cut..];
                for behind in [&[][..], completing, &[completing, &[1, 0x0A]].concat()] {
                    let message = [&command(&list), behind].concat();
                    let told = Bench::fresh().position(&message);
                    assert_eq!(told, expected, "code {code}, {cut} octets");
                }
            }
            let list = [before, whole.clone()].concat();
            assert_eq!(Bench::fresh().position(&command(&list)), (0, 0));
        }
    }
}
