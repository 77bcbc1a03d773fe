//! The stored stream of the proved bridge, `crates/bridge/stdin`, and the lines of it, `stdout`.

use std::collections::BTreeSet;

use kit::files::{frames, sample, stored};
use kit::{command, hex, read, Reply};
use tools::traffic::{stream, Kind};

use crate::process::{run, text, BRIDGE};
use crate::traffic::{measured, pieces};

/// The samples that the stream begins with.
const SAMPLES: [&str; 2] = ["three-frames", "replies"];

/// Asserts that the second program at `path` prints what is stored with the proved one.
pub fn assert_prints(path: &str, program: &str) {
    let output = run(path, &[], &stored(program, "stdin"));
    assert!(output.status.success());
    assert_eq!(text(&output.stderr), "");
    let (printed, stored) = (text(&output.stdout), stored(program, "stdout"));
    for (at, (printed, stored)) in (1..).zip(printed.lines().zip(text(&stored).lines())) {
        assert_eq!(printed, stored, "line {at}");
    }
    assert!(output.stdout == stored, "the number of lines");
}

/// The stored lines, as numbers and replies, without the last, which is `cut`.
fn answers() -> Vec<(u8, Vec<u8>)> {
    let stdout = stored("bridge", "stdout");
    let lines = text(&stdout).strip_suffix("\ncut\n").unwrap().lines();
    let answer = |line: &str| {
        let (number, reply) = line.split_once(' ').unwrap();
        (number.parse().unwrap(), hex(reply))
    };
    lines.map(answer).collect()
}

/// The replies among the stored lines.
fn replies() -> Vec<Reply> {
    let done = answers().into_iter().filter(|(number, _)| *number == 0);
    done.map(|(_, reply)| Reply::parse(&reply)).collect()
}

#[test]
fn the_second_bridge_prints_the_stored_lines() {
    assert_prints(*BRIDGE, "bridge");
}

/// The README has the command line that made it. Where `traffic` or a sample changes, both files are
/// made anew.
#[test]
fn the_stored_stream_follows_from_its_seeds() {
    let samples = SAMPLES.map(|name| frames(&sample(name, "hex")));
    let traffic = [
        stream(measured("mixed"), 1, 200),
        stream(Kind::Frames, 33_332, 360),
    ];
    let stdin = stored("bridge", "stdin");
    assert!(stdin == [samples.concat(), traffic.concat()].concat());
    assert!(stdin.len() < 160_000);
    let frames = pieces(&stdin, 2);
    let lengths: BTreeSet<usize> = frames.iter().map(|(_, message)| message.len()).collect();
    let edges = BTreeSet::from([0, 1, 2_048, 2_049, 65_535]);
    assert!(lengths.is_superset(&edges), "{lengths:?}");
}

#[test]
fn the_stored_lines_begin_with_those_of_the_samples() {
    let lines = SAMPLES.map(|name| sample(name, "out")).concat();
    assert_eq!(lines.lines().count(), 3 + 5);
    assert!(text(&stored("bridge", "stdout")).starts_with(&lines));
}

#[test]
fn the_stored_lines_have_every_number_of_a_message() {
    let answers = answers();
    assert!(answers.len() >= 500, "{} lines", answers.len());
    assert_eq!(
        answers[..3],
        [(5, vec![]), (0, hex("0271000701000300010000")), (2, vec![])]
    );
    let numbers: BTreeSet<u8> = answers.iter().map(|(number, _)| *number).collect();
    // The bridge's memory is always sound, so there is no 1, and it never waits, so each 04 gives 8.
    assert_eq!(numbers, BTreeSet::from([0, 2, 3, 4, 5, 6, 7, 8]));
    for (number, reply) in &answers {
        assert_eq!(*number == 0, !reply.is_empty());
    }
}

#[test]
fn the_stored_stream_has_255_and_256_reads_of_gate_enabled() {
    let frames = pieces(&stored("bridge", "stdin"), 2);
    let answers = answers();
    assert_eq!(frames.len(), answers.len());
    let answers_to = |count: usize| -> Vec<&(u8, Vec<u8>)> {
        let message = command(&read(0x0003).repeat(count));
        let all = frames.iter().zip(&answers);
        let asked = all.filter(|((_, sent), _)| *sent == message);
        asked.map(|(_, answer)| answer).collect()
    };
    let records = hex("0003 0001 01").repeat(255);
    let reply = [hex("02 71 04FD FF"), records, hex("00")].concat();
    assert_eq!(answers_to(255), [&(0, reply)]);
    assert_eq!(answers_to(256), [&(7, vec![])]);
}

#[test]
fn the_stored_replies_have_every_kind_of_record() {
    let replies = replies();
    let count = |test: &dyn Fn(&Reply) -> bool| replies.iter().filter(|r| test(r)).count();
    let asked = [
        ("70", count(&|r| r.capabilities.is_some())),
        ("values read", count(&|r| !r.values.is_empty())),
        ("read errors", count(&|r| !r.read_errors.is_empty())),
        ("updates", count(&|r| !r.updates.is_empty())),
        ("update errors", count(&|r| !r.update_errors.is_empty())),
        ("long updates", count(&|r| !r.long_updates.is_empty())),
        (
            "commits",
            count(&|r| r.updates.iter().any(|u| u.0 == 0x8001)),
        ),
        (
            "refused commits",
            count(&|r| r.update_errors.contains(&(0x8001, 2))),
        ),
        ("nothing", count(&|r| *r == Reply::default())),
    ];
    for (what, count) in asked {
        assert!(count >= 5, "{count} replies with {what}");
    }
    assert_causes(&replies);
    assert_edges(&replies);
}

/// Each cause of a read and of a set, and no other.
fn assert_causes(replies: &[Reply]) {
    let causes = |errors: fn(&Reply) -> &Vec<(u16, u8)>| -> BTreeSet<u8> {
        let errors = replies.iter().flat_map(errors);
        errors.map(|(_, cause)| *cause).collect()
    };
    assert_eq!(causes(|r| &r.read_errors), BTreeSet::from([1, 3, 0x6F]));
    assert_eq!(causes(|r| &r.update_errors), BTreeSet::from([1, 2, 0x6F]));
}

/// The longest reply, the largest counts, and lists around 255 octets and at their end.
fn assert_edges(replies: &[Reply]) {
    let lengths = answers().into_iter().map(|(_, reply)| reply.len());
    assert_eq!(lengths.max(), Some(4_096));
    for counted in [
        replies.iter().map(|r| r.values.len()).max(),
        replies.iter().map(|r| r.read_errors.len()).max(),
        replies.iter().map(|r| r.updates.len()).max(),
        replies.iter().map(|r| r.update_errors.len()).max(),
    ] {
        assert_eq!(counted, Some(255));
    }
    let updates = replies
        .iter()
        .flat_map(|r| r.updates.iter().chain(&r.long_updates));
    let lists: BTreeSet<usize> = updates
        .filter(|(name, _)| *name == 6)
        .map(|(_, list)| list.len() / 7)
        .collect();
    let edges = BTreeSet::from([0, 1, 36, 37, 64]);
    assert!(lists.is_superset(&edges), "{lists:?}");
}

#[test]
fn a_stored_reply_has_all_six_kinds_of_record() {
    let counts = |r: &Reply| {
        [
            usize::from(r.capabilities.is_some()),
            r.values.len(),
            r.read_errors.len(),
            r.updates.len(),
            r.update_errors.len(),
            r.long_updates.len(),
        ]
    };
    assert!(replies().iter().any(|r| counts(r) == [1; 6]));
}

#[test]
fn a_stored_reply_has_two_long_updates() {
    let lengths = |r: &Reply| -> Vec<(u16, usize)> {
        let long = r.long_updates.iter();
        long.map(|(name, list)| (*name, list.len())).collect()
    };
    let two = [(0x0006, 259), (0x0006, 266)];
    assert!(replies().iter().any(|r| lengths(r) == two));
}
