//! Where two numbers apply, the earlier in the order of its call is returned.

use kit::{command, hex, read, set, subscribe, valued, Bench};

fn unsound() -> Bench {
    let mut bench = Bench::fresh();
    bench.memory[3] = 1;
    bench
}

fn waiting_with_pending() -> Bench {
    let mut bench = Bench::fresh();
    bench.done(&subscribe(0x0008));
    assert_eq!(bench.local(0x0008, &[0, 0, 0, 1]), 0);
    assert_eq!(bench.build().0, 0);
    assert_eq!(bench.local(0x0008, &[0, 0, 0, 2]), 0);
    bench
}

#[test]
fn memory_comes_before_all_else_of_a_message() {
    let too_long = vec![9; 2_049];
    let many = command(&read(0x0003).repeat(256));
    let others: [&[u8]; 7] = [&[], &too_long, &[9], &[1], &[1, 0, 1, 10], &many, &[4]];
    for message in others {
        assert_eq!(unsound().send_into(message, 0).0, 1);
        assert_ne!(Bench::fresh().send_into(message, 0).0, 1);
    }
}

#[test]
fn length_of_the_message_comes_before_its_contents() {
    let mut message = vec![9; 2_049];
    assert_eq!(Bench::fresh().send(&message).0, 3);
    message[..3].copy_from_slice(&[1, 0, 0]);
    assert_eq!(Bench::fresh().send(&message).0, 3);
    message[..4].copy_from_slice(&[1, 0, 1, 10]);
    assert_eq!(Bench::fresh().send(&message).0, 3);
    message[0] = 4;
    assert_eq!(Bench::fresh().send_into(&message, 0).0, 3);
}

#[test]
fn type_comes_before_l_and_operations() {
    assert_eq!(Bench::fresh().send(&[0]).0, 4);
    assert_eq!(Bench::fresh().send(&hex("02 0000")).0, 4);
    assert_eq!(Bench::fresh().send(&hex("05 0001 0A")).0, 4);
}

#[test]
fn l_comes_before_operations() {
    assert_eq!(Bench::fresh().send(&hex("01 0002 0A")).0, 5);
    assert_eq!(Bench::fresh().send(&hex("01 0000 0A")).0, 5);
    assert_eq!(Bench::fresh().send_into(&hex("01 0004 02 0003"), 0).0, 5);
}

#[test]
fn malformed_operations_come_before_the_reply() {
    let many = [read(0x0003).repeat(256), vec![10]].concat();
    assert_eq!(Bench::fresh().send(&command(&many)).0, 6);
    let long = [set(0x0042, &[1; 255]), read(0x0042).repeat(20), vec![2, 0]].concat();
    assert_eq!(Bench::fresh().send(&command(&long)).0, 6);
    assert_eq!(Bench::fresh().send_into(&hex("01 0001 0A"), 0).0, 6);
    // What is not served is cut short like any other operation, and counted only if it is not.
    for code in [6, 7, 8, 9] {
        let many = [valued(code, 0x0003, &[]).repeat(256), vec![code, 0]].concat();
        assert_eq!(Bench::fresh().send(&command(&many)).0, 6);
        let cut = command(&[code, 0, 3, 0, 1]);
        assert_eq!(Bench::fresh().send_into(&cut, 0).0, 6);
    }
}

#[test]
fn idle_comes_before_the_room_of_an_acknowledgement() {
    assert_eq!(Bench::fresh().send_into(&[4], 0).0, 8);
    assert_eq!(waiting_with_pending().send_into(&[4], 0).0, 7);
}

#[test]
fn building_goes_1_11_10_9() {
    let mut unsound_and_waiting = waiting_with_pending();
    unsound_and_waiting.memory[3] = 1;
    assert_eq!(unsound_and_waiting.build_into(0).0, 1);
    assert_eq!(waiting_with_pending().build_into(1_599).0, 11);
    assert_eq!(Bench::fresh().build_into(1_599).0, 11);
    assert_eq!(waiting_with_pending().build().0, 10);
    let mut nothing_pending = Bench::fresh();
    nothing_pending.memory[114] = 1;
    assert_eq!(nothing_pending.build().0, 10);
}

#[test]
fn local_values_go_1_12_and_expiries_1_8() {
    assert_eq!(unsound().local(0x0003, &[1]), 1);
    assert_eq!(unsound().local(0x0008, &[1]), 1);
    assert_eq!(unsound().expire(), 1);
}

#[test]
fn causes_of_a_set_go_01_6f_02() {
    let cause = |name, value: &[u8]| Bench::fresh().done(&set(name, value)).pop();
    assert_eq!(cause(0x0002, &[]), Some(0x01));
    assert_eq!(cause(0x00A0, &[0]), Some(0x6F));
    assert_eq!(cause(0x000B, &[0, 0, 0, 64]), Some(0x6F));
    assert_eq!(cause(0x000B, &[]), Some(0x6F));
    assert_eq!(cause(0x0003, &[2]), Some(0x02));
}
