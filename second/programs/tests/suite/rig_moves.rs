//! The program `rig`, moving the memory that is lent from the old form to form B and back.

use crate::process::{lines, RIG};
use crate::rig::{build, digits, instruction, message};
use kit::{command, hex, read, set, subscribe, Bench};

const OLD: u16 = 2_100;
const NEW: u16 = 2_101;

fn forward(room: u16) -> Vec<u8> {
    instruction(0x0B, &room.to_be_bytes())
}

fn back(room: u16) -> Vec<u8> {
    instruction(0x0C, &room.to_be_bytes())
}

fn lend(octets: &[u8]) -> Vec<u8> {
    instruction(5, octets)
}

fn show_memory() -> Vec<u8> {
    instruction(6, &[])
}

fn show_room() -> Vec<u8> {
    instruction(7, &[])
}

/// Idle, with values and a subscription.
fn idle() -> Bench {
    let mut bench = Bench::fresh();
    bench.done(&[set(0x0042, b"name"), subscribe(0x00A4)].concat());
    bench
}

/// With 00A4 in flight.
fn out() -> Bench {
    let mut bench = idle();
    assert_eq!(bench.local(0x00A4, &[0, 9]), 0);
    assert_eq!(bench.build().0, 0);
    bench
}

#[test]
fn forward_prints_its_number_and_what_it_writes() {
    let [old, new, out] = [idle().memory, idle().lent(), out().memory];
    let script = [
        [lend(&old), forward(NEW), forward(OLD), forward(NEW + 1)].concat(),
        [forward(0), forward(8_192), forward(65_535)].concat(),
        [lend(&new), forward(NEW), lend(&out), forward(NEW)].concat(),
        [lend(&[]), forward(NEW), forward(0)].concat(),
    ];
    let written = format!("0 02{}", digits(&old));
    let expected = [
        &["lent 2100", &written, "16 -", "16 -"][..],
        &["16 -", "16 -", "16 -"],
        &["lent 2101", "1 -", "lent 2100", "1 -"],
        &["lent 0", "1 -", "1 -"],
    ];
    assert_eq!(lines(RIG, &script.concat()), expected.concat());
}

#[test]
fn back_prints_its_number_and_what_it_writes() {
    let [old, new, out] = [idle().memory, idle().lent(), out().lent()];
    let script = [
        [lend(&new), back(OLD), back(NEW), back(OLD - 1)].concat(),
        [back(0), back(8_192), back(65_535)].concat(),
        [lend(&old), back(OLD), lend(&out), back(OLD), back(NEW)].concat(),
        [lend(&[2]), back(OLD), back(0)].concat(),
    ];
    let written = format!("0 {}", digits(&old));
    let expected = [
        &["lent 2101", &written, "16 -", "16 -"][..],
        &["16 -", "16 -", "16 -"],
        &["lent 2100", "1 -", "lent 2101", "17 -", "16 -"],
        &["lent 1", "1 -", "1 -"],
    ];
    assert_eq!(lines(RIG, &script.concat()), expected.concat());
}

/// At the start memory is fresh and in form B: back gives the old form of it, forward refuses it.
#[test]
fn it_starts_with_memory_in_form_b() {
    let script = [back(OLD), forward(NEW), show_memory()].concat();
    let fresh = Bench::fresh();
    let expected = [
        format!("0 {}", digits(&fresh.memory)),
        "1 -".into(),
        format!("02{}", digits(&fresh.memory)),
    ];
    assert_eq!(lines(RIG, &script), expected);
}

/// The room is made anew also where the move is refused, and shown as it was left.
#[test]
fn moves_make_the_room_anew() {
    let old = idle().memory;
    let sent = message(20, &command(&read(0x0003)));
    for (wrong, length) in [(0, 0), (7, 7), (2_102, 2_102), (8_193, 8_192)] {
        let rooms = [forward(wrong), show_room(), back(wrong), show_room()].concat();
        let script = [lend(&old), sent.clone(), rooms].concat();
        let anew = match length {
            0 => "-".to_string(),
            length => "a5".repeat(length),
        };
        let expected = ["lent 2100", "1 -", "16 -", &anew, "1 -", &anew];
        assert_eq!(lines(RIG, &script), expected, "room of {wrong}");
    }
    let script = [lend(&old), forward(NEW), show_room(), build(3), show_room()].concat();
    let script = [script, lend(&idle().lent()), back(OLD), show_room()].concat();
    let [new, old] = [format!("02{}", digits(&old)), digits(&old)];
    let [forward, back] = [&new, &old].map(|written| format!("0 {written}"));
    let expected = ["lent 2100", &forward, &new, "1 -", "a5a5a5"];
    let expected = [&expected[..], &["lent 2101", &back, &old]].concat();
    assert_eq!(lines(RIG, &script), expected);
}

/// A move leaves what is lent as it is, and what it wrote is not lent by it.
#[test]
fn moves_leave_the_memory_that_is_lent() {
    for lent in [idle().memory, idle().lent(), out().lent(), vec![0xEE; 9]] {
        for moved in [forward(NEW), back(OLD), forward(5), back(5)] {
            let script = [lend(&lent), moved, show_memory()].concat();
            assert_eq!(lines(RIG, &script)[2], digits(&lent));
        }
    }
    let read = message(4_096, &command(&read(0x0003)));
    let script = [lend(&idle().memory), forward(NEW), read].concat();
    assert_eq!(lines(RIG, &script)[2], "1 -");
}

/// What forward wrote is lent as memory and used: the port that waited goes on waiting.
#[test]
fn what_a_move_wrote_can_be_lent() {
    let mut old = idle().memory;
    old[114..116].copy_from_slice(&[1, 3]);
    let written = lines(RIG, &[lend(&old), forward(NEW)].concat())[1].clone();
    let new = hex(written.strip_prefix("0 ").unwrap());
    let expiry = instruction(4, &[]);
    let script = [lend(&new), message(9, &[4]), lend(&new), expiry.repeat(3)].concat();
    let expected = ["lent 2101", "0 05", "lent 2101", "20 -", "21 -", "8 -"];
    assert_eq!(lines(RIG, &script), expected);
    // Back gives what forward was lent.
    let script = [lend(&new), back(OLD)].concat();
    assert_eq!(lines(RIG, &script)[1], format!("0 {}", digits(&old)));
}
