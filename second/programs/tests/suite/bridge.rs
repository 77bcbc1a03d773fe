//! The program `bridge`, as a child process.

use std::fs::File;
use std::io::{self, ErrorKind, Read};
use std::process::Command;

use crate::process::{assert_quiet_without_reader, assert_refused, lines, text, Peer, BRIDGE};
use kit::{command, hex, list, read, set, Bench, Chance};

fn frame(message: &[u8]) -> Vec<u8> {
    [&(message.len() as u16).to_be_bytes(), message].concat()
}

fn line(number: u8, reply: &[u8]) -> String {
    let digits: String = reply.iter().map(|octet| format!("{octet:02x}")).collect();
    let digits = if digits.is_empty() {
        "-".into()
    } else {
        digits
    };
    format!("{number} {digits}")
}

#[test]
fn the_printed_example() {
    let input = hex("0003010003 0006010003020003 0000");
    assert_eq!(
        lines(BRIDGE, &input),
        ["5 -", "0 0271000701000300010000", "2 -"]
    );
}

#[test]
fn an_incomplete_last_frame() {
    let whole = hex("0006010003020003");
    for kept in 1..whole.len() {
        assert_eq!(lines(BRIDGE, &whole[..kept]), ["cut"]);
        let two = [&whole, &whole[..kept]].concat();
        assert_eq!(lines(BRIDGE, &two), ["0 0271000701000300010000", "cut"]);
    }
    assert!(lines(BRIDGE, &[]).is_empty());
}

#[test]
fn frames_of_every_length_are_read_over() {
    let mut input = Vec::new();
    let mut expected = Vec::new();
    for length in [2_048, 2_049, 4_096, 65_534, 65_535, 65_535] {
        let mut message = command(&read(0x0003));
        message.resize(length, 0xFF);
        input.extend(frame(&message));
        let taken = length <= 2_048;
        expected.push(if taken {
            "0 0271000701000300010000"
        } else {
            "3 -"
        });
        input.extend(frame(&[]));
        expected.push("2 -");
    }
    assert_eq!(lines(BRIDGE, &input), expected);
    input.extend(&frame(&[1; 65_535])[..65_536]);
    expected.push("cut");
    assert_eq!(lines(BRIDGE, &input), expected);
}

#[test]
fn one_memory_serves_all_frames() {
    let mut chance = Chance::new(21);
    let mut bench = Bench::fresh();
    let mut input = Vec::new();
    let mut expected = Vec::new();
    for _ in 0..5_000 {
        let message = match chance.below(6) {
            0 => command(&set(0x0003, &[chance.below(3) as u8])),
            1 => command(&set(0x0006, &list(chance.below(65), 1))),
            2 => command(&set(0x0042, &vec![chance.octet(); 1 + chance.below(255)])),
            3 => command(&[read(0x0003), read(0x0006)].concat()),
            4 => command(&read(0x0042).repeat(1 + chance.below(20))),
            _ => chance.octets(7),
        };
        input.extend(frame(&message));
        let (number, reply) = bench.send(&message);
        expected.push(line(number, &reply));
    }
    assert!(lines(BRIDGE, &input) == expected);
}

#[test]
fn a_peer_on_a_pipe_gets_each_answer() {
    let mut peer = Peer::of(BRIDGE);
    for value in [1, 0, 1] {
        peer.write(&frame(&command(&set(0x0003, &[value]))));
        assert_eq!(peer.line(), format!("0 02720006010003010{value}00\n"));
        // Half a frame gives no line, and the answers of the frames before it are not held back.
        let read = frame(&command(&read(0x0003)));
        peer.write(&[&read, &read[..3]].concat());
        assert_eq!(peer.line(), format!("0 027100070100030001{value:02x}00\n"));
        peer.write(&read[3..]);
        assert_eq!(peer.line(), format!("0 027100070100030001{value:02x}00\n"));
    }
    peer.write(&[0]);
    assert_eq!(peer.end(), "cut");
}

/// Hands out its octets one by one, and is interrupted before each.
pub struct Drip<'a> {
    octets: &'a [u8],
    interrupted: bool,
}

impl Drip<'_> {
    pub fn of(octets: &[u8]) -> Drip<'_> {
        Drip {
            octets,
            interrupted: false,
        }
    }
}

impl Read for Drip<'_> {
    fn read(&mut self, room: &mut [u8]) -> io::Result<usize> {
        self.interrupted = !self.interrupted;
        if self.interrupted {
            return Err(ErrorKind::Interrupted.into());
        }
        let count = self.octets.len().min(1);
        let (given, rest) = self.octets.split_at(count);
        room[..count].copy_from_slice(given);
        self.octets = rest;
        Ok(count)
    }
}

#[test]
fn input_may_come_in_drops() {
    let octets = hex("0003010003 0006010003020003 0000 0006010003");
    let mut output = Vec::new();
    programs::bridge::run(Drip::of(&octets), &mut output).unwrap();
    assert_eq!(text(&output), "5 -\n0 0271000701000300010000\n2 -\ncut\n");
}

/// Fails to be read.
pub struct Broken;

impl Read for Broken {
    fn read(&mut self, _: &mut [u8]) -> io::Result<usize> {
        Err(io::Error::other("broken"))
    }
}

#[test]
fn a_read_error_is_told_after_the_lines_that_are_due() {
    let octets = hex("0003010003 0006010003");
    let mut output = Vec::new();
    let result = programs::bridge::run(octets.as_slice().chain(Broken), &mut output);
    assert_eq!(result.unwrap_err().to_string(), "broken");
    assert_eq!(text(&output), "5 -\n");

    let directory = File::open(env!("CARGO_MANIFEST_DIR")).unwrap();
    let output = Command::new(BRIDGE).stdin(directory).output().unwrap();
    assert_eq!(output.status.code(), Some(1));
    assert_eq!(text(&output.stderr).lines().count(), 1);
}

#[test]
fn wrong_use() {
    assert_refused(BRIDGE, &["anything"]);
    let frames = hex("0006010003020003").repeat(50_000);
    assert_quiet_without_reader(BRIDGE, &[], &frames);
}
