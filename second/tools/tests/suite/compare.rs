//! The programs `traffic` and `compare`, as child processes.

use std::process::Command;
use std::thread;
use std::time::Instant;

use crate::process::{assert_quiet_without_reader, assert_refused, run, text};
use crate::process::{BRIDGE, COMPARE, DESK, RIG, TRAFFIC};

/// A program that stands in for a bridge or a rig.
fn stand_in(name: &str) -> String {
    format!("{}/tests/tools/{name}", env!("CARGO_MANIFEST_DIR"))
}

fn compare(arguments: &[&str]) -> (Option<i32>, Vec<String>) {
    let output = run(COMPARE, arguments, &[]);
    let lines = text(&output.stdout).lines().map(String::from).collect();
    (output.status.code(), lines)
}

#[test]
fn a_program_agrees_with_itself() {
    let (status, lines) = compare(&[*RIG, *RIG, "6"]);
    assert_eq!(
        (status, lines),
        (Some(0), vec!["6 streams, 1200 lines, 0 differences".into()])
    );
    let (status, lines) = compare(&["script", *RIG, *RIG, "5-7", "50"]);
    assert_eq!(
        (status, lines),
        (Some(0), vec!["3 streams, 150 lines, 0 differences".into()])
    );
    let (status, lines) = compare(&["frames", *BRIDGE, *BRIDGE, "3", "400"]);
    assert_eq!(
        (status, lines),
        (Some(0), vec!["3 streams, 1200 lines, 0 differences".into()])
    );
}

#[test]
fn a_desk_agrees_with_itself() {
    let (status, lines) = compare(&["captures", *DESK, *DESK, "4", "100"]);
    assert_eq!((status, lines.len()), (Some(0), 1), "{lines:?}");
    let count = lines[0].strip_prefix("4 streams, ").unwrap();
    let count = count.strip_suffix(" lines, 0 differences").unwrap();
    // A line that is read prints a line for each record as well.
    assert!(count.parse::<u64>().unwrap() > 1_000, "{count} lines");
    let (status, lines) = compare(&["captures", *DESK, *DESK, "9-9"]);
    assert_eq!((status, lines.len()), (Some(0), 1), "{lines:?}");
    // The longest messages have more than the lines of other programs may.
    let (status, lines) = compare(&["captures", *DESK, *DESK, "1-400", "1"]);
    assert_eq!((status, lines.len()), (Some(0), 1), "{lines:?}");
}

#[test]
fn a_wrong_desk_is_found() {
    // One that takes a cause for another.
    let words = ["captures", *DESK, &stand_in("wrong_desk"), "1-3", "100"];
    let mut command = Command::new(COMPARE);
    let output = command.args(words).env("DESK", *DESK).output().unwrap();
    assert_eq!(output.status.code(), Some(1));
    let first = text(&output.stdout).lines().next().unwrap();
    assert!(first.starts_with("seed 1 line "), "{first}");
    assert!(
        first.contains("02 invalid-value") && first.contains("6f protocol-error"),
        "{first}"
    );
    // One that prints nothing at all, or the lines of another program.
    let (status, lines) = compare(&["captures", "true", "true", "2-2", "100"]);
    assert_eq!(status, Some(1));
    assert_eq!(
        lines[0],
        "seed 2 line 1: A has no more lines: end of its output"
    );
    assert_eq!(lines.last().unwrap(), "1 streams, 0 lines, 2 differences");
    let (status, lines) = compare(&["captures", *DESK, *BRIDGE, "2-2", "100"]);
    assert_eq!(status, Some(1));
    assert!(lines[0].starts_with("seed 2 line 1: "), "{lines:?}");
}

#[test]
fn differences_are_told_with_seed_and_line() {
    let (status, lines) = compare(&["frames", *BRIDGE, *RIG, "4-5", "8"]);
    assert_eq!(status, Some(1));
    let (last, differences) = lines.split_last().unwrap();
    assert_eq!(
        *last,
        format!("2 streams, 16 lines, {} differences", differences.len())
    );
    assert!(differences
        .iter()
        .any(|line| line.starts_with("seed 4 line 1: ")));
    assert!(differences.iter().all(|line| line.starts_with("seed ")));
}

#[test]
fn too_few_lines_are_a_difference() {
    let (status, lines) = compare(&[*RIG, "true", "2-2", "40"]);
    assert_eq!(status, Some(1));
    let expected = "seed 2 line 1: B has no more lines: end of its output";
    assert_eq!(lines, [expected, "1 streams, 40 lines, 1 differences"]);
    let (status, lines) = compare(&["true", "true", "1", "40"]);
    assert_eq!(status, Some(1));
    assert_eq!(lines.last().unwrap(), "1 streams, 0 lines, 2 differences");
    let (status, lines) = compare(&[*RIG, "false", "2-2", "40"]);
    assert_eq!(status, Some(1));
    assert_eq!(
        lines[0],
        "seed 2 line 1: B has no more lines: exit status: 1"
    );
}

#[test]
fn it_stops_after_twenty_differences() {
    // In the midst of a stream, and with its last line.
    let (status, lines) = compare(&["frames", *BRIDGE, "yes", "3-9", "100"]);
    assert_eq!((status, lines.len()), (Some(1), 21));
    assert!(lines[19].starts_with("seed 3 line 20: "), "{lines:?}");
    let last = lines[20].strip_prefix("1 streams, ").unwrap();
    assert!(last.ends_with(" lines, 20 differences; stopped at seed 3, more are not told"));
    let script = stand_in("wrong");
    let (status, lines) = compare(&[*RIG, &script, "3-9", "10"]);
    assert_eq!((status, lines.len()), (Some(1), 21));
    assert!(lines[10].starts_with("seed 4 line 1: "), "{lines:?}");
    let told = "2 streams, 20 lines, 20 differences; stopped at seed 4, more are not told";
    assert_eq!(lines[20], told);
    // Twenty and no more are not stopped at.
    let (_, lines) = compare(&[*RIG, &script, "3-4", "10"]);
    assert_eq!(lines[20], "2 streams, 20 lines, 20 differences");
}

/// Asserts that a rig which stands for B is killed on the stream of seed 7, and why that is told.
fn assert_killed(program: &str, why: &str) {
    let start = Instant::now();
    let words = ["--wait", "1", *RIG, &stand_in(program), "7-7", "30"];
    let (status, lines) = compare(&words);
    let told = format!("seed 7 line 1: B has no more lines: it {why} and was killed");
    let last = "1 streams, 30 lines, 1 differences";
    assert_eq!((status, lines), (Some(1), vec![told, last.into()]));
    let seconds = start.elapsed().as_secs_f64();
    assert!(
        (1.0..25.0).contains(&seconds),
        "{program}: {seconds} seconds"
    );
}

#[test]
fn a_program_that_hangs_is_killed_and_told() {
    thread::scope(|scope| {
        scope.spawn(|| assert_killed("silent", "printed nothing for 1 seconds"));
        scope.spawn(|| assert_killed("child", "printed nothing for 1 seconds"));
        scope.spawn(|| assert_killed("endless", "did not end in 1 seconds"));
    });
}

#[test]
fn a_program_that_prints_without_end_is_killed_and_told() {
    let (status, lines) = compare(&["true", "yes", "7-7", "1"]);
    assert_eq!((status, lines.len()), (Some(1), 3), "{lines:?}");
    assert_eq!(
        lines[0],
        "seed 7 line 1: A has no more lines: end of its output"
    );
    let why = ": B has no more lines: it printed over 40000 octets and was killed";
    assert!(lines[1].ends_with(why), "{lines:?}");
}

#[test]
fn wrong_use_of_compare() {
    let cases: [&[&str]; 17] = [
        &["captures", *RIG, *RIG],
        &["capture-edges", *RIG, *RIG, "1", "2"],
        &["--wait", *RIG, *RIG, "1"],
        &["--wait", "0", *RIG, *RIG, "1"],
        &["--wait", "1", "--wait", "1", *RIG, *RIG, "1"],
        &["--most", *RIG, *RIG, "1"],
        &["--wait"],
        &[],
        &[*RIG],
        &[*RIG, *RIG],
        &[*RIG, *RIG, "many"],
        &[*RIG, *RIG, "0"],
        &[*RIG, *RIG, "9-5"],
        &[*RIG, *RIG, "-5"],
        &[*RIG, *RIG, "1", "few"],
        &["frames", *RIG, *RIG, "1", "2", "3"],
        &["nowhere/rig", *RIG, "1"],
    ];
    for arguments in cases {
        assert_refused(COMPARE, arguments);
    }
    assert_quiet_without_reader(COMPARE, &[*BRIDGE, *RIG, "3"], &[]);
}

#[test]
fn seeds_that_are_none_are_told() {
    let number = "is a number of at most 64 bits, not";
    for (seeds, why) in [
        ("0", "SEEDS has no seed in it: \"0\"".to_string()),
        ("9-5", "SEEDS has no seed in it: \"9-5\"".to_string()),
        ("-5", format!("SEEDS {number} \"\"")),
        ("5-", format!("SEEDS {number} \"\"")),
        ("5-7-9", format!("SEEDS {number} \"7-9\"")),
        ("1-2e9", format!("SEEDS {number} \"2e9\"")),
        (
            "1-18446744073709551616",
            format!("SEEDS {number} \"18446744073709551616\""),
        ),
    ] {
        let output = run(COMPARE, &[*RIG, *RIG, seeds], &[]);
        assert_eq!(text(&output.stderr), format!("compare: {why}\n"));
    }
    // The last seeds that there are.
    let seeds = "18446744073709551614-18446744073709551615";
    let (status, lines) = compare(&[*RIG, *RIG, seeds, "5"]);
    assert_eq!(
        (status, lines),
        (Some(0), vec!["2 streams, 10 lines, 0 differences".into()])
    );
}

#[test]
fn wrong_use_of_traffic() {
    let cases: [&[&str]; 9] = [
        &[],
        &["frames"],
        &["frames", "1"],
        &["frames", "1", "2", "3"],
        &["records", "1", "2"],
        &["frames", "-1", "2"],
        &["script", "1", "x"],
        &["script", "18446744073709551616", "1"],
        &["script", "", "1"],
    ];
    for arguments in cases {
        assert_refused(TRAFFIC, arguments);
    }
    assert_quiet_without_reader(TRAFFIC, &["script", "1", "100000"], &[]);
}

#[test]
fn traffic_writes_what_comparisons_use() {
    for (word, kind) in [
        ("frames", tools::traffic::Kind::Frames),
        ("script", tools::traffic::Kind::Script),
        ("calls", tools::traffic::Kind::Calls),
        ("edges", tools::traffic::Kind::Edges),
        ("captures", tools::traffic::Kind::Captures),
        ("capture-edges", tools::traffic::Kind::CaptureEdges),
    ] {
        let output = run(TRAFFIC, &[word, "18446744073709551615", "300"], &[]);
        assert!(output.status.success());
        assert!(output.stdout == tools::traffic::stream(kind, u64::MAX, 300));
        let none = run(TRAFFIC, &[word, "1", "0"], &[]);
        assert!(none.status.success() && none.stdout.is_empty());
    }
}
