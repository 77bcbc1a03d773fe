//! The program `rig`, as a child process.

use crate::process::{assert_quiet_without_reader, assert_refused, lines, Peer, RIG};
use kit::{command, hex, list, read, set, subscribe, Bench};

pub fn instruction(code: u8, body: &[u8]) -> Vec<u8> {
    let [high, low] = (body.len() as u16).to_be_bytes();
    [&[code, high, low], body].concat()
}

pub fn message(room: u16, message: &[u8]) -> Vec<u8> {
    instruction(1, &[&room.to_be_bytes(), message].concat())
}

/// A message whose line has its position.
pub fn in_full(room: u16, message: &[u8]) -> Vec<u8> {
    instruction(9, &[&room.to_be_bytes(), message].concat())
}

fn local(name: u16, value: &[u8]) -> Vec<u8> {
    instruction(2, &[&name.to_be_bytes(), value].concat())
}

pub fn build(room: u16) -> Vec<u8> {
    instruction(3, &room.to_be_bytes())
}

pub fn digits(octets: &[u8]) -> String {
    octets.iter().map(|octet| format!("{octet:02x}")).collect()
}

#[test]
fn it_starts_with_fresh_memory_and_an_empty_room() {
    let script = [instruction(6, &[]), instruction(7, &[])].concat();
    assert_eq!(
        lines(RIG, &script),
        [digits(&Bench::fresh().lent()), "-".into()]
    );
    assert!(lines(RIG, &[]).is_empty());
}

#[test]
fn every_call_prints_its_line() {
    let mut script = message(64, &command(&subscribe(0x00A4)));
    script.extend(message(9, &command(&read(0x0003))));
    script.extend(local(0x00A4, &[0, 9]));
    script.extend(local(0x00A5, &[0, 9]));
    script.extend([build(1_599), build(1_600), build(1_600)].concat());
    script.extend(instruction(4, &[]).repeat(2));
    script.extend([message(4, &[4]), instruction(4, &[]), build(1_600)].concat());
    script.extend([message(4, &[]), message(4, &[4]), instruction(0, &[])].concat());
    let expected = [
        "0 02",
        "7 -",
        "0 -",
        "12 -",
        "11 -",
        "0 0300080100a40002000900",
        "10 -",
        "20 -",
        "20 -",
        "0 05",
        "8 -",
        "9 -",
        "2 -",
        "8 -",
        "0 -",
    ];
    assert_eq!(lines(RIG, &script), expected);
}

#[test]
fn a_message_in_full_prints_its_position() {
    let long = command(&[set(0x0006, &list(64, 1)), vec![10]].concat());
    let script = [
        in_full(64, &command(&subscribe(0x00A4))),
        in_full(64, &command(&read(0x0003))),
        in_full(9, &command(&read(0x0003))),
        in_full(64, &[]),
        in_full(64, &[0; 2_049]),
        in_full(64, &[2]),
        in_full(64, &[1, 0, 0]),
        in_full(64, &[4]),
        in_full(64, &command(&[10])),
        in_full(64, &command(&[read(0x0003), vec![2]].concat())),
        in_full(0, &[command(&hex("01 02 0003 02")), hex("0003")].concat()),
        in_full(64, &long),
        // In short it is the same call.
        message(64, &long),
        instruction(5, &[0; 2_101]),
        in_full(64, &long),
    ];
    let expected = [
        "0 0 02",
        "0 0 0271000701000300010000",
        "7 0 -",
        "2 0 -",
        "3 0 -",
        "4 0 -",
        "5 0 -",
        "8 0 -",
        "6 3 -",
        "6 6 -",
        "6 7 -",
        "6 456 -",
        "6 -",
        "lent 2101",
        "1 0 -",
    ];
    assert_eq!(lines(RIG, &script.concat()), expected);
}

/// A message in full does what the same message does in short, and prints one thing more.
#[test]
fn a_message_in_full_does_what_it_does_in_short() {
    let messages = [
        command(&set(0x0003, &[1])),
        command(&[set(0x0003, &[0]), vec![10]].concat()),
        command(&[subscribe(0x00A4), read(0x0003)].concat()),
        vec![4],
        vec![],
    ];
    let script = |send: fn(u16, &[u8]) -> Vec<u8>| {
        let shown = [instruction(6, &[]), instruction(7, &[])].concat();
        let sent = messages.iter().flat_map(|m| [send(20, m), shown.clone()]);
        [sent.collect::<Vec<_>>().concat(), build(1_600)].concat()
    };
    let [short, full] = [script(message), script(in_full)].map(|script| lines(RIG, &script));
    assert_eq!((short.len(), full.len()), (16, 16));
    for (at, (short, full)) in short.iter().zip(&full).enumerate() {
        if at % 3 == 0 && at < 15 {
            let (number, written) = short.split_once(' ').unwrap();
            let position = if number == "6" { "9" } else { "0" };
            assert_eq!(*full, format!("{number} {position} {written}"));
        } else {
            assert_eq!(short, full, "line {at}");
        }
    }
}

#[test]
fn a_notification_is_given_up_at_the_fifth_expiry() {
    let mut script = message(1, &command(&subscribe(0x0008)));
    script.extend([local(0x0008, &[1; 4]), build(4_096)].concat());
    script.extend(instruction(4, &[]).repeat(6));
    let printed = lines(RIG, &script);
    assert_eq!(
        printed[3..],
        ["20 -", "20 -", "20 -", "20 -", "21 -", "8 -"]
    );
}

#[test]
fn rooms_are_made_anew() {
    let reply = "0271000701000300010000";
    for (asked, made) in [
        (11, 11),
        (12, 12),
        (8_192, 8_192),
        (8_193, 8_192),
        (65_535, 8_192),
    ] {
        let room = format!("{reply}{}", "a5".repeat(made - 11));
        let asked = [message, in_full].map(|send| send(asked, &command(&read(0x0003))));
        for (asked, line) in asked
            .iter()
            .zip([format!("0 {reply}"), format!("0 0 {reply}")])
        {
            let script = [&asked[..], &instruction(7, &[])].concat();
            assert_eq!(lines(RIG, &script), [line, room.clone()]);
        }
    }
    let script = [
        message(10, &command(&read(0x0003))),
        instruction(7, &[]),
        message(0, &[]),
    ]
    .concat();
    let script = [script, instruction(7, &[]), build(3), instruction(7, &[])].concat();
    let script = [script, in_full(2, &command(&[10])), instruction(7, &[])].concat();
    let expected = ["7 -", &"a5".repeat(10), "2 -", "-", "11 -", "a5a5a5"];
    let expected = [&expected[..], &["6 3 -", "a5a5"]].concat();
    assert_eq!(lines(RIG, &script), expected);
}

#[test]
fn memory_can_be_lent() {
    let mut bench = Bench::fresh();
    bench.done(&set(0x0003, &[1]));
    let mut script = instruction(5, &bench.lent());
    script.extend(message(4_096, &command(&read(0x0003))));
    script.extend(
        [
            instruction(5, &[]),
            instruction(6, &[]),
            instruction(0, &[]),
        ]
        .concat(),
    );
    script.extend(
        [
            instruction(5, &[1; 2_200]),
            message(9, &[]),
            instruction(0, &[]),
        ]
        .concat(),
    );
    script.extend(
        [
            instruction(5, &[1; 2_101]),
            instruction(4, &[]),
            instruction(0, &[]),
        ]
        .concat(),
    );
    script.extend(instruction(6, &[]));
    let fresh = digits(&Bench::fresh().lent());
    let expected = [
        "lent 2101",
        "0 0271000701000300010100",
        "lent 0",
        "-",
        "1 -",
        "lent 2200",
        "1 -",
        "1 -",
        "lent 2101",
        "1 -",
        "0 -",
        &fresh,
    ];
    assert_eq!(lines(RIG, &script), expected);
}

#[test]
fn delays_are_converted() {
    let delays = [0, 1, (1 << 47) - 1, 1 << 47, u64::MAX];
    let script: Vec<u8> = delays
        .iter()
        .flat_map(|d| instruction(8, &d.to_be_bytes()))
        .collect();
    let expected = [
        "0000000000000000",
        "0000010000000000",
        "0000ffffffffff7f",
        "ffffffffffffff7f",
        "ffffffffffffff7f",
    ];
    assert_eq!(lines(RIG, &script), expected);
}

#[test]
fn faulty_instructions_end_the_run() {
    let wrong_lengths = [
        (0, 2),
        (0, 3),
        (0, 2_101),
        (1, 0),
        (1, 1),
        (2, 0),
        (2, 1),
        (3, 0),
        (3, 1),
        (3, 3),
        (4, 1),
        (5, 2_201),
        (5, 65_535),
        (6, 1),
        (7, 1),
        (8, 0),
        (8, 7),
        (8, 9),
        (9, 0),
        (9, 1),
        (0x0B, 0),
        (0x0B, 1),
        (0x0B, 3),
        (0x0C, 0),
        (0x0C, 1),
        (0x0C, 3),
    ];
    let mut faulty: Vec<Vec<u8>> = wrong_lengths
        .iter()
        .map(|(code, length)| instruction(*code, &vec![0; *length]))
        .collect();
    faulty.extend([0x0D, 0x0E, 0x10, 0x81, 0xFF].map(|code| instruction(code, &[])));
    faulty.push(instruction(0xFF, &[1, 2]));
    let [sent, told] = [message, in_full].map(|send| send(64, &command(&read(0x0003))));
    for whole in [
        sent,
        told,
        instruction(0x0B, &[8, 53]),
        instruction(0x0C, &[8, 52]),
    ] {
        faulty.extend((1..whole.len()).map(|kept| whole[..kept].to_vec()));
    }
    for at_fault in faulty {
        let script = [instruction(4, &[]), at_fault].concat();
        assert_eq!(lines(RIG, &script), ["8 -", "cut"]);
    }
    let script = [instruction(0xFF, &[]), instruction(4, &[])].concat();
    assert_eq!(lines(RIG, &script), ["cut"]);
}

#[test]
fn a_peer_on_a_pipe_gets_each_answer() {
    let mut peer = Peer::of(RIG);
    for _ in 0..3 {
        peer.write(&in_full(64, &command(&[10])));
        assert_eq!(peer.line(), "6 3 -\n");
        peer.write(&message(64, &command(&read(0x0003))));
        assert_eq!(peer.line(), "0 0271000701000300010000\n");
        peer.write(&instruction(4, &[]));
        assert_eq!(peer.line(), "8 -\n");
        peer.write(&instruction(10, &[0; 8]));
        assert_eq!(peer.line(), "15 -\n");
    }
    peer.write(&hex("00 00"));
    assert_eq!(peer.end(), "cut");
}

#[test]
fn wrong_use() {
    assert_refused(RIG, &["anything"]);
    assert_quiet_without_reader(RIG, &[], &instruction(6, &[]).repeat(20_000));
}
