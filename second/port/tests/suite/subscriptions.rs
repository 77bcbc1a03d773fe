//! Subscriptions, pending marks and notifications.

use kit::{command, hex, read, set, subscribe, unsubscribe, Bench};

/// Flags of the entry at a place of the table.
fn flags(bench: &Bench, place: usize) -> u8 {
    bench.memory[6 * place + 2]
}

const TTL: u16 = 0x00A4;
const TTL_PLACE: usize = 17;

fn subscribed() -> Bench {
    let mut bench = Bench::fresh();
    bench.done(&subscribe(TTL));
    assert_eq!(flags(&bench, TTL_PLACE), 2);
    bench
}

#[test]
fn only_a_difference_marks_pending() {
    let mut bench = subscribed();
    assert_eq!(bench.local(TTL, &[]), 0);
    assert_eq!(flags(&bench, TTL_PLACE), 2);
    assert_eq!(bench.local(TTL, &[0, 1]), 0);
    assert_eq!(flags(&bench, TTL_PLACE), 7);
    assert_eq!(bench.build().0, 0);
    assert_eq!(bench.send(&[4]).0, 0);
    assert_eq!(flags(&bench, TTL_PLACE), 3);
    assert_eq!(bench.local(TTL, &[0, 1]), 0);
    assert_eq!(flags(&bench, TTL_PLACE), 3);
    assert_eq!(bench.local(TTL, &[0, 2]), 0);
    assert_eq!(flags(&bench, TTL_PLACE), 7);
}

#[test]
fn a_reported_value_made_absent_is_marked_again() {
    let mut bench = subscribed();
    assert_eq!(bench.local(TTL, &[0, 1]), 0);
    assert_eq!(bench.build(), (0, hex("03 0008 01 00A4 0002 0001 00")));
    assert_eq!(bench.send(&[4]), (0, hex("05")));
    assert_eq!(flags(&bench, TTL_PLACE), 3);
    assert_eq!(bench.local(TTL, &[]), 0);
    assert_eq!(flags(&bench, TTL_PLACE), 6);
    assert_eq!(bench.build(), (0, hex("03 0005 00 01 00A4 03")));
    assert_eq!(flags(&bench, TTL_PLACE), 10);
    assert!(bench.is_sound());
}

#[test]
fn a_value_from_before_its_subscription_is_marked_when_made_absent() {
    let mut bench = Bench::fresh();
    assert_eq!(bench.local(TTL, &[0, 1]), 0);
    bench.done(&subscribe(TTL));
    assert_eq!(flags(&bench, TTL_PLACE), 3);
    assert_eq!(bench.local(TTL, &[]), 0);
    assert_eq!(flags(&bench, TTL_PLACE), 6);
    assert_eq!(bench.build(), (0, hex("03 0005 00 01 00A4 03")));
}

#[test]
fn an_equal_value_keeps_an_older_mark() {
    let mut bench = subscribed();
    bench.local(TTL, &[0, 1]);
    bench.local(TTL, &[0, 1]);
    assert_eq!(flags(&bench, TTL_PLACE), 7);
    bench.local(TTL, &[]);
    assert_eq!(flags(&bench, TTL_PLACE), 6);
    assert_eq!(bench.build(), (0, hex("03 0005 00 01 00A4 03")));
}

#[test]
fn without_subscription_nothing_is_pending() {
    let mut bench = Bench::fresh();
    bench.local(TTL, &[0, 1]);
    assert_eq!(flags(&bench, TTL_PLACE), 1);
    bench.done(&subscribe(TTL));
    assert_eq!(bench.build().0, 9);
}

#[test]
fn unsubscribing_clears_both_marks() {
    let mut bench = subscribed();
    bench.local(TTL, &[0, 1]);
    bench.done(&subscribe(TTL));
    assert_eq!(flags(&bench, TTL_PLACE), 7);
    bench.done(&unsubscribe(TTL));
    assert_eq!(flags(&bench, TTL_PLACE), 1);
}

#[test]
fn marks_follow_the_order_of_operations() {
    let (on, off) = (subscribe(TTL), unsubscribe(TTL));
    let cases: [(&[&Vec<u8>], u8); 4] = [
        (&[&off, &on], 3),
        (&[&on, &off], 1),
        (&[&off, &on, &off], 1),
        (&[&on, &on], 7),
    ];
    for (operations, expected) in cases {
        let mut bench = subscribed();
        bench.local(TTL, &[0, 1]);
        let operations: Vec<u8> = operations.iter().flat_map(|o| o.to_vec()).collect();
        assert_eq!(bench.done(&operations), hex("02"));
        assert_eq!(flags(&bench, TTL_PLACE), expected);
    }
}

#[test]
fn marks_do_nothing_on_unlisted_names() {
    for name in [0x0000, 0x0002, 0x00A5, 0x01A4, 0x8000, 0xFFFF] {
        let mut bench = Bench::fresh();
        let fresh = bench.memory.clone();
        bench.done(&[subscribe(name), unsubscribe(name), subscribe(name)].concat());
        assert!(bench.memory == fresh);
    }
}

#[test]
fn every_listed_name_can_be_subscribed_to() {
    let mut bench = Bench::fresh();
    let names: Vec<u16> = (0..19)
        .map(|place| u16::from_be_bytes([bench.memory[6 * place], bench.memory[6 * place + 1]]))
        .collect();
    for (place, name) in names.into_iter().enumerate() {
        bench.done(&subscribe(name));
        assert_eq!(flags(&bench, place) & 14, 2);
        assert!(bench.is_sound());
    }
}

#[test]
fn a_set_marks_nothing() {
    let mut bench = Bench::fresh();
    bench.done(&[subscribe(0x0003), set(0x0003, &[1])].concat());
    assert_eq!(flags(&bench, 1), 3);
    assert_eq!(bench.build().0, 9);
}

#[test]
fn a_notification_has_all_pending_names_in_table_order() {
    let mut bench = Bench::fresh();
    let names = [0x00A4, 0x00A1, 0x0008, 0x0001, 0x00A3];
    let operations: Vec<u8> = names.iter().flat_map(|name| subscribe(*name)).collect();
    bench.done(&operations);
    bench.local(0x00A4, &[0, 9]);
    bench.local(0x00A1, &[7, 7, 7]);
    bench.local(0x00A1, &[]);
    bench.local(0x0008, &[1, 2, 3, 4]);
    bench.local(0x00A0, &[1]);
    bench.local(0x00A3, &[5]);
    bench.local(0x00A3, &[]);
    let (number, notification) = bench.build();
    let records = "02 0008 0004 01020304 00A4 0002 0009 02 00A1 03 00A3 03";
    assert_eq!(
        (number, notification),
        (0, hex(&format!("03 0016 {records}")))
    );
    assert_eq!(bench.memory[114..116], [1, 0]);
    assert!(bench.is_sound());
}

#[test]
fn the_largest_notification() {
    // Each name that the port sets, with a value of its largest length.
    let values = [
        (0x0001, vec![0xD1; 8]),
        (0x0008, vec![0xD8; 4]),
        (0x00A0, vec![7]),
        (0x00A1, vec![0xC1; 255]),
        (0x00A2, vec![1]),
        (0x00A3, vec![0xC3; 255]),
        (0x00A4, vec![0xFF; 2]),
    ];
    let mut bench = Bench::fresh();
    let mut expected = hex("03 022C 07");
    for (name, value) in values {
        bench.done(&subscribe(name));
        assert_eq!(bench.local(name, &value), 0);
        expected.extend(u16::to_be_bytes(name));
        expected.extend((value.len() as u16).to_be_bytes());
        expected.extend(value);
    }
    expected.push(0);
    assert_eq!(expected.len(), 559);
    assert_eq!(bench.build_into(1_600), (0, expected));
}

#[test]
fn changes_while_waiting_are_reported_later() {
    let mut bench = subscribed();
    bench.local(TTL, &[0, 1]);
    bench.build();
    bench.local(TTL, &[0, 2]);
    assert_eq!(bench.send(&command(&read(0x0003))).0, 0);
    for _ in 0..4 {
        assert_eq!(bench.expire(), 20);
    }
    assert_eq!(bench.expire(), 21);
    assert_eq!(bench.build(), (0, hex("03 0008 01 00A4 0002 0002 00")));
}
