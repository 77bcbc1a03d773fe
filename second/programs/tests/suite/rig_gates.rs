//! The program `rig`, asked which gates are open.

use crate::process::{lines, RIG};
use crate::rig::{build, in_full, instruction, message};
use kit::{command, entries, hex, list, read, schedule, schedule_of, set, sets, subscribe, Bench};

fn gates(instant: i64) -> Vec<u8> {
    instruction(10, &instant.to_be_bytes())
}

/// A command that lets the schedule of the rules' example run: 4 and 3 of 10 ns.
fn example() -> Vec<u8> {
    let list = entries(&[(0xFF, 4), (0x01, 3)]);
    command(&sets(&schedule_of(list, [1, 100_000_000])))
}

/// The lines of the instants of a schedule that a message lets run.
fn told(started: &[u8], instants: &[i64]) -> Vec<String> {
    let script: Vec<u8> = instants.iter().flat_map(|at| gates(*at)).collect();
    lines(RIG, &[message(4_096, started), script].concat()).split_off(1)
}

#[test]
fn the_example_of_the_rules_is_printed() {
    let expected = ["0 ff 0 1", "0 01 1 6", "0 01 1 1", "0 ff 0 4", "0 -"];
    assert_eq!(told(&example(), &[3, 4, 19, 20, -1]), expected);
}

#[test]
fn gates_print_each_kind_of_line() {
    let instants = [i64::MIN, -1, 0, i64::MAX];
    let asked: Vec<u8> = instants.iter().flat_map(|at| gates(*at)).collect();
    let script = [
        asked.clone(),
        message(4_096, &example()),
        asked.clone(),
        instruction(5, &[0; 2_101]),
        asked.clone(),
        instruction(0, &[]),
        asked,
    ];
    let mut printed = lines(RIG, &script.concat());
    // The line of the message is another test's.
    assert!(printed.remove(4).starts_with("0 02"));
    let expected = [
        ["15 -"; 4].to_vec(),
        vec!["0 -", "0 -", "0 ff 0 4", "0 01 1 3", "lent 2101"],
        ["1 -"; 4].to_vec(),
        vec!["0 -"],
        ["15 -"; 4].to_vec(),
    ];
    assert_eq!(printed, expected.concat());
}

/// States have two digits, the numbers as many as they need; no digit is a capital.
#[test]
fn the_digits_of_an_answer() {
    let list: Vec<(u8, u32)> = (0..64_u16)
        .map(|entry| ((entry * 5) as u8 ^ 0xA0, 10))
        .collect();
    let started = command(&sets(&schedule_of(entries(&list), [u32::MAX, 1])));
    let expected = [
        "0 a0 0 10",
        "0 8d 9 1",
        "0 92 10 10",
        "0 c4 20 8",
        "0 00 32 10",
        "0 9b 63 4294967294999999370",
        "0 9b 63 1",
        "0 a0 0 10",
    ];
    let cycle = 4_294_967_295_000_000_000;
    let instants = [0, 99, 100, 202, 320, 630, cycle - 1, cycle];
    assert_eq!(told(&started, &instants), expected);
}

/// The highest octet of an instant comes first, and its highest bit is the sign.
#[test]
fn the_octets_of_an_instant() {
    let started = message(4_096, &command(&sets(&schedule(1, 1, [u32::MAX, 1]))));
    let cases = [
        ("0000000000000001", "0 ff 0 4294967294999999999"),
        ("0000000000000100", "0 ff 0 4294967294999999744"),
        ("0100000000000000", "0 ff 0 4222909700962072064"),
        ("7FFFFFFFFFFFFFFF", "0 ff 0 3661529848145224193"),
        ("8000000000000000", "0 -"),
        ("FF00000000000000", "0 -"),
        ("FFFFFFFFFFFFFFFF", "0 -"),
    ];
    for (octets, line) in cases {
        let script = [started.clone(), instruction(10, &hex(octets))].concat();
        assert_eq!(lines(RIG, &script)[1], line, "{octets}");
    }
}

#[test]
fn an_instant_of_other_than_8_octets_ends_the_run() {
    let mut faulty: Vec<Vec<u8>> = [0, 1, 7, 9, 16]
        .iter()
        .map(|length| instruction(10, &vec![0; *length]))
        .collect();
    let whole = gates(0);
    faulty.extend((1..whole.len()).map(|kept| whole[..kept].to_vec()));
    for at_fault in faulty {
        let script = [gates(0), at_fault].concat();
        assert_eq!(lines(RIG, &script), ["15 -", "cut"]);
    }
    let script = [instruction(10, &[0; 7]), gates(0)].concat();
    assert_eq!(lines(RIG, &script), ["cut"]);
}

#[test]
fn gates_leave_memory_and_room_as_they_are() {
    let shown = [instruction(6, &[]), instruction(7, &[])].concat();
    let asked: Vec<u8> = [-1, 0, 7, i64::MAX].into_iter().flat_map(gates).collect();
    let states = [
        vec![],
        message(9, &command(&read(0x0003))),
        in_full(20, &command(&subscribe(0x0008))),
        build(1_600),
        message(4_096, &example()),
        [message(300, &[4]), instruction(5, &[7; 30])].concat(),
        instruction(5, &[]),
    ];
    let mut script = Vec::new();
    for state in states {
        script.extend(state);
        let asked = [&script[..], &shown, &asked, &shown].concat();
        let printed = lines(RIG, &asked);
        let [.., memory, room, _, _, _, _, memory_behind, room_behind] = &printed[..] else {
            panic!("{printed:?}");
        };
        assert_eq!((memory, room), (memory_behind, room_behind));
    }
}

/// What has been set since a commit is not what runs, nor is what stands in lent memory beside it.
#[test]
fn the_running_block_alone_is_told() {
    let mut bench = Bench::fresh();
    bench.send(&example());
    bench.done(
        &[
            set(0x0006, &list(3, 1)),
            set(0x0007, &[0, 0, 0, 9, 0, 0, 0, 1]),
        ]
        .concat(),
    );
    let asked: Vec<u8> = [3, 4, 19, 20].into_iter().flat_map(gates).collect();
    let printed = lines(RIG, &[instruction(5, &bench.lent()), asked].concat());
    let expected = ["lent 2101", "0 ff 0 1", "0 01 1 6", "0 01 1 1", "0 ff 0 4"];
    assert_eq!(printed, expected);
}
