//! The program `rig` with both profiles: the instruction that makes memory fresh, and what is printed then.

use crate::process::{lines, BRIDGE, RIG};
use crate::rig::{build, digits, in_full, instruction, message};
use kit::{command, hex, read, schedule, set, sets, subscribe, valued, Bench};

/// An instruction that makes memory fresh for a profile.
fn fresh(profile: u8) -> Vec<u8> {
    instruction(0, &[profile])
}

/// An instruction that shows memory.
fn show() -> Vec<u8> {
    instruction(6, &[])
}

#[test]
fn memory_is_made_fresh_for_the_profile_of_the_body() {
    let script = [fresh(3), show(), fresh(2), show(), fresh(3)].concat();
    let script = [script, instruction(0, &[]), show()].concat();
    let [usual, other] = [2, 3].map(|profile| digits(&Bench::fresh_of(profile).lent()));
    let expected = ["0 -", &other, "0 -", &usual, "0 -", "0 -", &usual];
    assert_eq!(lines(RIG, &script), expected);
}

#[test]
fn every_other_profile_is_refused_and_changes_nothing() {
    let used = [fresh(3), message(64, &command(&set(0x0003, &[1])))].concat();
    let others = (0..=255).filter(|octet| ![2, 3].contains(octet));
    let refused: Vec<u8> = others.flat_map(fresh).collect();
    let printed = lines(RIG, &[used, show(), refused, show()].concat());
    assert_eq!(printed.len(), 2 + 1 + 254 + 1);
    assert!(printed[3..257].iter().all(|line| line == "18 -"));
    assert_eq!(printed[2], printed[257]);
    assert!(printed[2].starts_with("03"));
}

#[test]
fn memory_of_another_length_is_refused_before_the_profile() {
    for length in [0, 1, 2_100, 2_102] {
        let lend = instruction(5, &vec![3; length]);
        let script = [lend, fresh(2), fresh(3), fresh(4), instruction(0, &[])].concat();
        let printed = lines(RIG, &script);
        assert_eq!(printed[1..], ["1 -"; 4], "{length} octets");
    }
}

#[test]
fn a_longer_body_ends_the_run() {
    for body in [&[3, 3][..], &[2, 0], &[0; 3], &[3; 2_101]] {
        let script = [fresh(3), instruction(0, body), show()].concat();
        assert_eq!(lines(RIG, &script), ["0 -", "cut"]);
    }
}

#[test]
fn commands_of_release_16_are_answered() {
    let mut values = schedule(36, 9, [1, 1_000]);
    values[1].1.drain(..2);
    let script = [
        fresh(3),
        in_full(64, &command(&[1])),
        in_full(
            64,
            &command(&[read(0x0003), valued(6, 0x0003, &[])].concat()),
        ),
        in_full(4_096, &command(&sets(&values))),
        message(64, &command(&read(0x0005))),
        message(64, &command(&set(0x0006, &[0; 256]))),
        message(64, &command(&[read(0x000B), read(0x0040)].concat())),
        instruction(10, &(9 * 36_i64 - 1).to_be_bytes()),
    ];
    let printed = lines(RIG, &script.concat());
    let names = "00010003000400050006000700080040004100420060006100a000a100a200a300a48001";
    assert_eq!(printed[1], format!("0 0 02700024{names}"));
    assert_eq!(printed[2], "6 6 -");
    assert!(printed[3].starts_with("0 0 02720125050004"));
    let expected = [
        "0 027100080100050002002400",
        "0 02720005000100066f",
        "0 027100080002000b0100406f",
        "0 ff 35 999677",
    ];
    assert_eq!(printed[4..], expected);
}

#[test]
fn a_port_of_release_16_tells_and_is_not_moved_back() {
    let script = [
        fresh(3),
        message(64, &command(&subscribe(0x00A4))),
        instruction(2, &hex("00A4 0078")),
        instruction(2, &hex("00A4")),
        build(1_600),
        instruction(12, &2_099_u16.to_be_bytes()),
        instruction(12, &2_100_u16.to_be_bytes()),
        message(1, &[4]),
        instruction(12, &2_100_u16.to_be_bytes()),
    ];
    let told = "0 030005000100a46f";
    let expected = [
        "0 -", "0 02", "0 -", "0 -", told, "16 -", "19 -", "0 05", "19 -",
    ];
    assert_eq!(lines(RIG, &script.concat()), expected);
}

/// A command as controllers of Release 16 send it, to a port that has profile 02.
#[test]
fn the_bridge_stays_with_profile_02() {
    let operations = [set(0x0005, &[0, 1]), read(0x000B), read(0x0004)].concat();
    let command = command(&operations);
    let frame = [&(command.len() as u16).to_be_bytes(), &command[..]].concat();
    let reply = "0 0271000d01000b000400000040010004037200050001000502";
    assert_eq!(lines(BRIDGE, &frame), [reply]);
}
