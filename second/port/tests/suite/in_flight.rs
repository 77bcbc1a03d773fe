//! What is in flight: told by a notification that is out, and kept until somebody acknowledges it.

use crate::sound::place;
use kit::{command, delete_entry, hex, read, schedule, selective_read, selective_subscribe};
use kit::{selective_unsubscribe, set, sets, subscribe, unsubscribe, Bench};

const TTL: u16 = 0x00A4;
const CHASSIS: u16 = 0x00A1;
const TICK: u16 = 0x0008;

/// The names that the port sets, each with two values that its rule permits.
const OWN: [(u16, [&[u8]; 2]); 7] = [
    (0x0001, [&[1; 8], &[2; 8]]),
    (TICK, [&[1; 4], &[2; 4]]),
    (0x00A0, [&[1], &[2]]),
    (CHASSIS, [b"chassis", b"other"]),
    (0x00A2, [&[3], &[4]]),
    (0x00A3, [b"port", b"another"]),
    (TTL, [&[0, 120], &[0, 60]]),
];

/// Flags of a name's cell.
fn flags(bench: &Bench, name: u16) -> u8 {
    bench.memory[6 * place(name) + 2]
}

/// The flags of all cells, in their order.
fn all_flags(bench: &Bench) -> Vec<u8> {
    let cells = bench.memory[..114].iter().skip(2);
    cells.step_by(6).copied().collect()
}

/// 00A4, 00A1 and 0008 subscribed; 00A4 in flight with 0078, 00A1 in flight and absent.
fn out() -> Bench {
    let mut bench = Bench::fresh();
    for name in [TTL, CHASSIS, TICK] {
        bench.done(&subscribe(name));
    }
    bench.local(CHASSIS, b"old");
    bench.local(CHASSIS, &[]);
    bench.local(TTL, &[0, 0x78]);
    let told = hex("03 000B 01 00A4 0002 0078 01 00A1 03");
    assert_eq!(bench.build(), (0, told));
    assert_eq!(
        [TTL, CHASSIS, TICK].map(|name| flags(&bench, name)),
        [11, 10, 2]
    );
    bench
}

/// Five expiries, of which the last gives up.
fn give_up(bench: &mut Bench) {
    for _ in 0..4 {
        assert_eq!(bench.expire(), 20);
    }
    assert_eq!(bench.expire(), 21);
}

#[test]
fn building_turns_each_pending_flag_into_in_flight() {
    // Every choice of the seven names that are pending; all 19 are subscribed.
    for pending in 1..128 {
        let mut bench = Bench::fresh();
        for place in 0..19 {
            let name = [bench.memory[6 * place], bench.memory[6 * place + 1]];
            bench.done(&subscribe(u16::from_be_bytes(name)));
        }
        for (own, (name, [value, _])) in OWN.into_iter().enumerate() {
            if pending >> own & 1 == 1 {
                bench.local(name, value);
            }
        }
        let mut expected = bench.memory.clone();
        for flags in expected[..114].iter_mut().skip(2).step_by(6) {
            *flags = if *flags == 7 { 11 } else { *flags };
        }
        expected[114] = 1;
        assert_eq!(bench.build().0, 0);
        assert!(bench.memory == expected, "{pending:07b}");
        assert!(bench.is_sound());
    }
}

#[test]
fn an_acknowledgement_clears_what_is_in_flight() {
    let mut bench = out();
    let mut expected = bench.memory.clone();
    expected[6 * place(TTL) + 2] = 3;
    expected[6 * place(CHASSIS) + 2] = 2;
    expected[114] = 0;
    assert_eq!(bench.send(&[4]), (0, hex("05")));
    assert!(bench.memory == expected);
    assert_eq!(bench.build().0, 9);
}

#[test]
fn an_acknowledgement_keeps_what_has_changed_while_waiting() {
    let mut bench = out();
    bench.local(TTL, &[0, 1]);
    bench.local(TICK, &[1; 4]);
    let marks = |bench: &Bench| [TTL, CHASSIS, TICK].map(|name| flags(bench, name));
    assert_eq!(marks(&bench), [15, 10, 7]);
    assert_eq!(bench.send(&hex("04 00")), (0, hex("05")));
    assert_eq!(marks(&bench), [7, 2, 7]);
    // Only what has changed since is told, and not what was acknowledged.
    let told = hex("03 0010 02 0008 0004 01010101 00A4 0002 0001 00");
    assert_eq!(bench.build(), (0, told));
    assert_eq!(marks(&bench), [11, 2, 11]);
}

#[test]
fn the_fifth_expiry_turns_in_flight_back_into_pending() {
    let mut bench = out();
    let before = all_flags(&bench);
    for count in 1..=4 {
        assert_eq!(bench.expire(), 20);
        assert_eq!(all_flags(&bench), before, "expiry {count}");
        assert!(bench.is_sound());
    }
    let mut expected = bench.memory.clone();
    expected[6 * place(TTL) + 2] = 7;
    expected[6 * place(CHASSIS) + 2] = 6;
    expected[114..116].fill(0);
    assert_eq!(bench.expire(), 21);
    assert!(bench.memory == expected);
    assert!(bench.is_sound());
}

#[test]
fn both_marks_become_one_at_the_fifth_expiry() {
    let mut bench = out();
    bench.local(TTL, &[0, 1]);
    bench.local(TICK, &[1; 4]);
    give_up(&mut bench);
    let marks = [TTL, CHASSIS, TICK].map(|name| flags(&bench, name));
    assert_eq!(marks, [7, 6, 7]);
    // Each once, as it is now.
    let told = hex("03 0013 02 0008 0004 01010101 00A4 0002 0001 01 00A1 03");
    assert_eq!(bench.build(), (0, told));
}

#[test]
fn what_is_given_up_is_told_again_as_often_as_it_takes() {
    let mut bench = out();
    for _ in 0..4 {
        give_up(&mut bench);
        assert_eq!(bench.expire(), 8);
        let told = hex("03 000B 01 00A4 0002 0078 01 00A1 03");
        assert_eq!(bench.build(), (0, told));
    }
    assert_eq!(bench.send(&[4]), (0, hex("05")));
    assert_eq!(bench.build().0, 9);
}

#[test]
fn what_changes_behind_a_given_up_notification_is_told_as_it_is_then() {
    let mut bench = out();
    give_up(&mut bench);
    bench.local(TTL, &[]);
    bench.local(CHASSIS, b"new");
    let told = hex("03 000C 01 00A1 0003 6E6577 01 00A4 03");
    assert_eq!(bench.build(), (0, told));
    assert_eq!([flags(&bench, TTL), flags(&bench, CHASSIS)], [10, 11]);
}

#[test]
fn a_change_while_in_flight_marks_pending_beside_it() {
    for (name, values) in OWN {
        let mut bench = Bench::fresh();
        bench.done(&subscribe(name));
        bench.local(name, values[0]);
        assert_eq!(bench.build().0, 0);
        assert_eq!(flags(&bench, name), 11);
        // An equal value marks nothing.
        assert_eq!(bench.local(name, values[0]), 0);
        assert_eq!(flags(&bench, name), 11, "{name:04x}");
        for (value, expected) in [(values[1], 15), (values[0], 15), (&[], 14), (values[0], 15)] {
            assert_eq!(bench.local(name, value), 0);
            assert_eq!(flags(&bench, name), expected, "{name:04x}");
            assert!(bench.is_sound());
        }
        assert_eq!(bench.memory[114..116], [1, 0]);
    }
}

/// Changed back, it is told all the same.
#[test]
fn a_value_changed_back_is_told_again() {
    for given_up in [false, true] {
        let mut bench = out();
        bench.local(TTL, &[0, 1]);
        bench.local(TTL, &[0, 0x78]);
        let (contents, rest) = if given_up {
            give_up(&mut bench);
            ("000B", "01 00A1 03")
        } else {
            assert_eq!(bench.send(&[4]).0, 0);
            ("0008", "00")
        };
        let told = hex(&format!("03 {contents} 01 00A4 0002 0078 {rest}"));
        assert_eq!(bench.build(), (0, told));
    }
}

#[test]
fn an_unsubscribe_clears_in_flight_and_pending() {
    for changed in [false, true] {
        let mut bench = out();
        if changed {
            bench.local(TTL, &[0, 1]);
        }
        bench.done(&unsubscribe(TTL));
        let marks = [TTL, CHASSIS, TICK].map(|name| flags(&bench, name));
        assert_eq!(marks, [1, 10, 2]);
        assert_eq!(bench.memory[114..116], [1, 0]);
        // Subscribed again, it is not in flight again, and giving up does not make it pending.
        bench.done(&subscribe(TTL));
        assert_eq!(flags(&bench, TTL), 3);
        give_up(&mut bench);
        assert_eq!(flags(&bench, TTL), 3);
        assert_eq!(bench.build(), (0, hex("03 0005 00 01 00A1 03")));
    }
}

#[test]
fn with_all_unsubscribed_nothing_is_told_again() {
    let mut bench = out();
    bench.done(&[unsubscribe(TTL), unsubscribe(CHASSIS)].concat());
    give_up(&mut bench);
    assert_eq!(bench.build().0, 9);
    bench.done(&[subscribe(TTL), subscribe(CHASSIS)].concat());
    assert_eq!(bench.build().0, 9);
}

#[test]
fn marks_in_flight_follow_the_order_of_operations() {
    let (on, off) = (subscribe(TTL), unsubscribe(TTL));
    let cases: [(&[&Vec<u8>], [u8; 2]); 5] = [
        (&[&on], [11, 15]),
        (&[&on, &on], [11, 15]),
        (&[&off, &on], [3, 3]),
        (&[&on, &off], [1, 1]),
        (&[&off, &on, &off], [1, 1]),
    ];
    for (operations, expected) in cases {
        let operations: Vec<u8> = operations.iter().flat_map(|o| o.to_vec()).collect();
        let mut alone = out();
        assert_eq!(alone.done(&operations), hex("02"));
        let mut beside_pending = out();
        beside_pending.local(TTL, &[0, 1]);
        beside_pending.done(&operations);
        let marks = [&alone, &beside_pending].map(|bench| flags(bench, TTL));
        assert_eq!(marks, expected);
    }
}

#[test]
fn no_other_operation_touches_what_is_in_flight() {
    let mut bench = out();
    bench.local(TTL, &[0, 1]);
    let values = sets(&schedule(3, 10, [1, 1_000]));
    for operations in [
        set(TTL, &[0, 9]),
        set(CHASSIS, b"set"),
        set(TICK, &[]),
        values,
        set(0x0003, &[1]),
        set(0x0040, &[9]),
        vec![1],
        [read(TTL), read(CHASSIS), read(TICK)].concat(),
        [subscribe(0x0003), unsubscribe(0x0003), unsubscribe(TICK)].concat(),
        [selective_read(TTL, &[]), delete_entry(TTL, &[])].concat(),
        selective_subscribe(TTL, &[]),
        selective_unsubscribe(TTL, &[]),
    ] {
        bench.done(&operations);
        let marks = [TTL, CHASSIS].map(|name| flags(&bench, name));
        assert_eq!(marks, [15, 10], "{operations:02x?}");
        assert_eq!(bench.memory[114..116], [1, 0]);
        assert!(bench.is_sound());
    }
}

/// The bench sees to it that a refused call changes no octet.
#[test]
fn a_refused_call_leaves_what_is_in_flight() {
    let mut bench = out();
    bench.local(TTL, &[0, 1]);
    let before = bench.memory.clone();
    let too_long = vec![4; 2_049];
    let cut = command(&[unsubscribe(TTL), vec![5, 0]].concat());
    let many = command(&[unsubscribe(TTL), read(0x0003).repeat(256)].concat());
    let messages: [(&[u8], usize, u8); 7] = [
        (&[], 1, 2),
        (&too_long, 1, 3),
        (&[3], 1, 4),
        (&[1, 0], 1, 5),
        (&cut, 4_096, 6),
        (&many, 4_096, 7),
        (&[4], 0, 7),
    ];
    for (message, room, number) in messages {
        assert_eq!(bench.send_into(message, room).0, number);
    }
    assert_eq!(bench.send_into(&command(&unsubscribe(TTL)), 0).0, 7);
    assert_eq!(bench.local(TTL, &[1]), 12);
    assert_eq!(bench.local(0x0003, &[]), 12);
    assert_eq!(bench.build_into(1_599).0, 11);
    assert_eq!(bench.build().0, 10);
    assert!(bench.memory == before);
    assert_eq!([flags(&bench, TTL), flags(&bench, CHASSIS)], [15, 10]);
}

#[test]
fn making_fresh_drops_what_is_in_flight() {
    let mut bench = out();
    bench.local(TTL, &[0, 1]);
    assert_eq!(bench.make_fresh(), 0);
    assert!(bench.memory == Bench::fresh().memory);
    assert_eq!(bench.build().0, 9);
    assert_eq!(bench.expire(), 8);
}
