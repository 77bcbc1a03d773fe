//! Each number is reached by a test of its own. The bench checks on every call that a refusal
//! changes neither memory nor room.

use kit::{command, hex, list, read, set, subscribe, valued, Bench};

/// A port with one reported change: name 00A4 subscribed and pending.
fn with_pending() -> Bench {
    let mut bench = Bench::fresh();
    bench.done(&subscribe(0x00A4));
    assert_eq!(bench.local(0x00A4, &[0, 120]), 0);
    bench
}

/// A port that waits for an acknowledgement.
fn waiting() -> Bench {
    let mut bench = with_pending();
    assert_eq!(bench.build(), (0, hex("03 0008 01 00A4 0002 0078 00")));
    bench
}

#[test]
fn number_0_done() {
    let mut bench = Bench::of(vec![0xFF; 2_100]);
    assert_eq!(bench.make_fresh(), 0);
    assert_eq!(bench.send(&command(&subscribe(0x0008))), (0, hex("02")));
    assert_eq!(bench.local(0x0008, &[0, 0, 0, 1]), 0);
    assert_eq!(bench.build().0, 0);
    assert_eq!(bench.send(&[4]), (0, hex("05")));
}

#[test]
fn number_1_memory_of_wrong_length() {
    for length in [0, 1, 2, 2_099, 2_100, 2_102, 2_200] {
        let mut lent = Bench::fresh().lent();
        lent.resize(length, 0);
        let mut bench = Bench::lend(&lent);
        assert_eq!(bench.make_fresh(), 1);
        assert_eq!(bench.send(&command(&read(0x0003))).0, 1);
        assert_eq!(bench.local(0x00A4, &[0, 1]), 1);
        assert_eq!(bench.build().0, 1);
        assert_eq!(bench.expire(), 1);
        assert_eq!(bench.gates(0), (1, None));
    }
}

#[test]
fn number_1_memory_not_sound() {
    let mut bench = Bench::of(vec![0; 2_100]);
    assert_eq!(bench.send(&command(&read(0x0003))).0, 1);
    assert_eq!(bench.local(0x00A4, &[0, 1]), 1);
    assert_eq!(bench.build().0, 1);
    assert_eq!(bench.expire(), 1);
    assert_eq!(bench.gates(0), (1, None));
    assert_eq!(bench.make_fresh(), 0);
}

#[test]
fn number_2_message_empty() {
    assert_eq!(Bench::fresh().send(&[]).0, 2);
}

#[test]
fn number_3_message_too_long() {
    assert_eq!(Bench::fresh().send(&[0; 2_049]).0, 3);
    assert_eq!(Bench::fresh().send(&[1; 65_535]).0, 3);
    let mut acknowledgement = vec![0; 2_049];
    acknowledgement[0] = 4;
    assert_eq!(waiting().send(&acknowledgement).0, 3);
    acknowledgement.pop();
    assert_eq!(waiting().send(&acknowledgement), (0, hex("05")));
}

#[test]
fn number_4_unknown_type() {
    for kind in (0..=255).filter(|kind| ![1, 4].contains(kind)) {
        assert_eq!(Bench::fresh().send(&[kind, 0, 3, 2, 0, 3]).0, 4);
    }
}

#[test]
fn number_5_wrong_length() {
    for message in [
        "01",
        "01 00",
        "01 0000",
        "01 0000 02 0003",
        "01 0001",
        "01 0004 02 0003",
    ] {
        assert_eq!(Bench::fresh().send(&hex(message)).0, 5, "{message}");
    }
    assert_eq!(Bench::fresh().send(&hex("01 FFFF 02 0003")).0, 5);
}

#[test]
fn number_6_malformed_operation() {
    // 00 and those from 0A on, alone and laid out as each operation is.
    for code in (0..=255).filter(|code| !(1..=9).contains(code)) {
        for operation in [vec![code], vec![code, 0, 3], valued(code, 0x0003, &[1])] {
            assert_eq!(Bench::fresh().send(&command(&operation)).0, 6, "{code:02x}");
        }
    }
    let named = [read(0x0003), subscribe(0x0001), hex("05 0001")];
    let laid_out_alike = [3, 6, 7, 8, 9].map(|code| valued(code, 0x0003, &[1]));
    for operation in named.into_iter().chain(laid_out_alike) {
        for cut in 1..operation.len() {
            let mut message = command(&operation[..cut]);
            assert_eq!(Bench::fresh().send(&message).0, 6);
            // Octets past the operations cannot complete one of them.
            message.extend(&operation[cut..]);
            assert_eq!(Bench::fresh().send(&message).0, 6);
        }
    }
}

#[test]
fn number_6_leaves_earlier_operations_undone() {
    let mut bench = Bench::fresh();
    let operations = [set(0x0003, &[1]), subscribe(0x0001), vec![0x0A]].concat();
    assert_eq!(bench.send(&command(&operations)).0, 6);
    assert_eq!(
        bench.done(&read(0x0003)),
        hex("02 71 0007 01 0003 0001 00 00")
    );
}

#[test]
fn number_7_room_too_small() {
    let operations = [
        vec![1],
        set(0x0003, &[1]),
        read(0x0003),
        set(0x0006, &list(37, 1)),
    ]
    .concat();
    let length = Bench::fresh().done(&operations).len();
    for room in 0..length {
        assert_eq!(Bench::fresh().send_into(&command(&operations), room).0, 7);
    }
    for room in [length, length + 1, 8_192] {
        assert_eq!(Bench::fresh().send_into(&command(&operations), room).0, 0);
    }
    assert_eq!(
        Bench::fresh().send_into(&command(&subscribe(0x0001)), 0).0,
        7
    );
    assert_eq!(waiting().send_into(&[4], 0).0, 7);
    assert_eq!(waiting().send_into(&[4], 1), (0, hex("05")));
}

#[test]
fn number_7_reply_over_4096() {
    let mut bench = Bench::fresh();
    bench.done(&set(0x0042, &[7; 255]));
    // 15 records of 259 octets and the frame around them leave 205 octets, or 41 records of 5.
    let operations = [read(0x0042).repeat(15), read(0x0003).repeat(41)].concat();
    assert_eq!(bench.send_into(&command(&operations), 8_192).1.len(), 4_096);
    // One octet more: 40 records of 5 and two errors of 3.
    let over = [
        read(0x0042).repeat(15),
        read(0x0003).repeat(40),
        read(0x0002).repeat(2),
    ]
    .concat();
    assert_eq!(bench.send_into(&command(&over), 8_192).0, 7);
}

#[test]
fn number_7_count_over_255() {
    let operations = read(0x0003).repeat(256);
    assert_eq!(Bench::fresh().send_into(&command(&operations), 8_192).0, 7);
}

#[test]
fn number_8_idle() {
    assert_eq!(Bench::fresh().send(&[4]).0, 8);
    assert_eq!(Bench::fresh().send(&hex("04 0000")).0, 8);
    assert_eq!(Bench::fresh().expire(), 8);
}

#[test]
fn number_9_nothing_pending() {
    assert_eq!(Bench::fresh().build().0, 9);
    let mut bench = Bench::fresh();
    assert_eq!(bench.local(0x00A4, &[0, 1]), 0);
    assert_eq!(bench.build().0, 9);
    bench.done(&subscribe(0x00A4));
    assert_eq!(bench.build().0, 9);
}

#[test]
fn number_10_already_waiting() {
    let mut bench = waiting();
    assert_eq!(bench.build().0, 10);
    assert_eq!(bench.local(0x00A4, &[1, 1]), 0);
    assert_eq!(bench.build().0, 10);
}

#[test]
fn number_11_notification_room() {
    for room in [0, 1, 1_599] {
        assert_eq!(with_pending().build_into(room).0, 11);
    }
    for room in [1_600, 8_192] {
        assert_eq!(with_pending().build_into(room).0, 0);
    }
}

#[test]
fn number_12_local_value() {
    // Each listed name that the port does not set, with a value that its rule permits.
    for text in [
        "0003 01",
        "0004 000000000000 00000000",
        "0005 00000001",
        "0006 00 05 FF 00000001",
        "0007 00000001 00000001",
        "000B 00000040",
        "0040 01",
        "0041 01",
        "0042 01",
        "0060 01",
        "0061 01",
        "8001 00000000",
    ] {
        let octets = hex(text);
        let (name, value) = (u16::from_be_bytes([octets[0], octets[1]]), &octets[2..]);
        for value in [value, &[], &[1]] {
            assert_eq!(Bench::fresh().local(name, value), 12, "{text}");
        }
    }
    assert_eq!(Bench::fresh().local(0x0008, &[0; 3]), 12);
    assert_eq!(Bench::fresh().local(0x00A1, &[0; 256]), 12);
    assert_eq!(Bench::fresh().local(0x00A1, &[0; 65_533]), 12);
}

#[test]
fn number_12_for_every_name_but_the_seven_of_the_port() {
    let by_port = [0x0001, 0x0008, 0x00A0, 0x00A1, 0x00A2, 0x00A3, 0x00A4];
    let bench = Bench::fresh();
    for name in by_port {
        assert_eq!(bench.clone().local(name, &[]), 0, "{name:04x}");
    }
    // No value, and values of lengths that the seven have.
    for name in (0..=u16::MAX).filter(|name| !by_port.contains(name)) {
        for length in [0, 1, 2, 4, 8] {
            let number = bench.clone().local(name, &vec![1; length]);
            assert_eq!(number, 12, "{name:04x} with {length} octets");
        }
    }
}

#[test]
fn numbers_20_send_again_and_21_given_up() {
    let mut bench = waiting();
    let expected = bench.memory.clone();
    for count in 1..=4 {
        assert_eq!(bench.expire(), 20);
        assert_eq!(bench.memory[114..116], [1, count]);
    }
    assert_eq!(bench.expire(), 21);
    assert_eq!(bench.memory[114..116], [0, 0]);
    // Beside the timer only the mark of what was in flight has changed: it is pending again.
    let flags = 6 * 17 + 2;
    assert_eq!([expected[flags], bench.memory[flags]], [11, 7]);
    assert_eq!(bench.memory[..flags], expected[..flags]);
    assert_eq!(bench.memory[flags + 1..114], expected[flags + 1..114]);
    assert_eq!(bench.memory[116..], expected[116..]);
    assert_eq!(bench.expire(), 8);
    assert_eq!(bench.build(), (0, hex("03 0008 01 00A4 0002 0078 00")));
}

#[test]
fn an_acknowledgement_ends_the_waiting() {
    let mut bench = waiting();
    assert_eq!(bench.expire(), 20);
    assert_eq!(bench.send(&hex("04 FFFFFF")), (0, hex("05")));
    assert_eq!(bench.memory[114..116], [0, 0]);
    assert_eq!(bench.send(&[4]).0, 8);
}
