//! The program `measure`: its arguments, its table, and runs as a child process.

use std::path::Path;
use std::process::{Command, Output};
use std::time::Duration;
use std::{env, fs};

use tools::measure::time::Times;
use tools::measure::worst::GOALS;
use tools::measure::{desk, processor, Exported, Plan};
use tools::traffic::measured::{Stream, STREAMS};

use crate::process::{assert_quiet_without_reader, assert_refused, run, text};
use crate::process::{BRIDGE, DESK, MEASURE, RIG};
use crate::{gate, stack};

/// A folder with what stands in for other programs.
pub const TOOLS: &str = concat!(env!("CARGO_MANIFEST_DIR"), "/tests/tools");

/// A file for a test.
pub fn file(name: &str, content: &[u8]) -> String {
    let path = Path::new(env!("CARGO_TARGET_TMPDIR")).join(name);
    fs::write(&path, content).unwrap();
    path.to_str().unwrap().into()
}

/// Runs `measure` with another PATH.
pub fn on_path(path: &str, arguments: &[&str]) -> Output {
    let mut command = Command::new(MEASURE);
    command.args(arguments).env("PATH", path).output().unwrap()
}

/// The cells of the table's rows but the first, which has the processor. The table is all that is
/// printed, and its columns are aligned. Where figures are marked as over their limits the status is 1.
pub fn rows(output: &Output) -> Vec<[&str; 5]> {
    let lines: Vec<&str> = text(&output.stdout).lines().collect();
    assert!(lines.iter().all(|line| line.len() == lines[0].len()));
    assert!(lines[1].starts_with("| ---"));
    let cells = lines.into_iter().map(|line| {
        let cells: Vec<&str> = line.split('|').map(str::trim).collect();
        let ["", what, measured, limit, each, from, ""] = cells[..] else {
            panic!("{line}");
        };
        [what, measured, limit, each, from]
    });
    let cells: Vec<_> = cells.collect();
    let heads = [
        "what",
        "measured",
        "limit",
        "microseconds a message",
        "from",
    ];
    assert_eq!(cells[0], heads);
    assert_eq!(cells[2], ["processor", "", "", "", &*processor::own()]);
    let over = cells.iter().filter(|row| row[1].ends_with(" over")).count();
    let (status, told) = match over {
        0 => (0, String::new()),
        over => (
            1,
            format!("measure: figures over their limits, marked in the table: {over}\n"),
        ),
    };
    assert_eq!(output.status.code(), Some(status));
    assert_eq!(text(&output.stderr), told);
    cells[3..].to_vec()
}

/// Asserts that a row has the times of two bridges for so many messages.
fn assert_timed(row: [&str; 5], messages: u64) {
    assert_timed_on(row, messages, "messages");
}

/// Asserts that a row has the times of two programs for so many of what they are timed on.
pub fn assert_timed_on(row: [&str; 5], count: u64, counted: &str) {
    let [_, ratio, _, each, from] = row;
    let ratio = ratio.strip_suffix(" over").unwrap_or(ratio);
    let number = |word: &str| word.parse::<f64>().unwrap();
    let (bridge, second) = each.split_once(" (second ").unwrap();
    let second = number(second.strip_suffix(')').unwrap());
    // What is shown is rounded.
    let shown = number(bridge) / second - number(ratio);
    assert!(second > 0.0 && shown.abs() < 0.1, "{row:?}");
    let start = format!("{count} {counted}, medians of 5 runs each, ");
    let turns = from.strip_prefix(&start).unwrap();
    let turns = turns.strip_suffix(" by turns").unwrap();
    let (low, high) = turns.split_once(" to ").unwrap();
    let [low, ratio, high] = [low, ratio, high].map(number);
    assert!(0.0 < low && low <= ratio && ratio <= high, "{row:?}");
}

#[test]
fn one_table_has_all_that_is_asked_for() {
    let library = file("asked.a", stack::LLVM.as_bytes());
    let log = file("asked.log", gate::LOG.as_bytes());
    let path = format!("{TOOLS}:{}", env::var("PATH").unwrap());
    let mut words = vec!["--worst", "--stack", "call,part::deep", &library];
    words.extend(["--gate", &log, *BRIDGE, *BRIDGE, "300"]);
    let output = on_path(&path, &words);
    let rows = rows(&output);
    for (row, stream) in rows.iter().zip(&STREAMS) {
        assert_eq!(row[0], format!("time to the second's: {}", stream.what));
        assert_eq!(row[2], format!("{:.2}", stream.limit.ratio()));
        assert_timed(*row, (300 / stream.one_in).max(1));
    }
    let (worst, rest) = rows[STREAMS.len()..].split_at(GOALS.len());
    for (row, goal) in worst.iter().zip(GOALS) {
        let (tried, _) = row[0].split_once(" messages tried: ").unwrap();
        let tried = tried.strip_prefix(&format!("{goal} of ")).unwrap();
        assert!(tried.parse::<usize>().unwrap() > 100, "{row:?}");
        assert_eq!(row[2], "2.00");
        let (messages, _) = row[4].split_once(' ').unwrap();
        assert_timed(*row, messages.parse().unwrap());
    }
    let rest = rest.iter();
    let rest: Vec<String> = rest.map(|cells| cells.join("; ")).collect();
    let expected = "\
stack of the message call; 112 octets; 2612 octets; ; limit 2100 for the working copy and 512 beside it; call 72, part::deep 40
stack of the other calls, at most; 40 octets; 256 octets; ; limit 256 for each; part::deep 40; part::deep 40
code of the five calls; 59 octets; ; ; all sections of text for x86-64, without memcpy, memmove and memset; constants take 16 octets more
time of the gate to ten minutes; 0.15; 1.00; ; 90 seconds; 2 crates proved, 1 of them with tests, and 3 edits refused";
    assert_eq!(rest.join("\n"), expected);
}

#[test]
fn desks_are_timed_on_what_a_bridge_prints() {
    let words = ["--desk", *DESK, *DESK, *BRIDGE, *BRIDGE, "300"];
    let output = run(MEASURE, &words, &[]);
    let rows = rows(&output);
    assert_eq!(rows.len(), STREAMS.len() + desk::WORDS.len());
    for (row, word) in rows[STREAMS.len()..].iter().zip(desk::WORDS) {
        let stream = Stream::named(word).unwrap();
        let what = format!("time of desk to the second's: answers to {}", stream.what);
        assert_eq!((row[0], row[2]), (&*what, "2.00"));
        assert_timed(*row, stream.before() + (300 / stream.one_in).max(1));
        let (mut lines, mut frames) = (Vec::new(), Vec::new());
        desk::write(stream, 20, &mut lines).unwrap();
        stream.write(1, 20, &mut frames).unwrap();
        assert!(lines == run(*BRIDGE, &[], &frames).stdout, "{word}");
    }
    // What is not compiled is not timed.
    let script = format!("{TOOLS}/silent");
    let output = run(
        MEASURE,
        &["--desk", &script, *DESK, *BRIDGE, *BRIDGE, "1"],
        &[],
    );
    let why = "not measured: the desk is not a compiled program";
    for row in &self::rows(&output)[STREAMS.len()..] {
        assert_eq!(row[1..], ["-", "2.00", "", why]);
    }
}

#[test]
fn what_is_not_asked_for_or_not_told_is_left_out() {
    let output = run(MEASURE, &[*BRIDGE, *BRIDGE, "10"], &[]);
    assert_eq!(rows(&output).len(), STREAMS.len());
    let log = file("untimed.log", gate::LOG.replace("real", "").as_bytes());
    let output = run(MEASURE, &["--gate", &log, *BRIDGE, *BRIDGE, "10"], &[]);
    let [what, measured, limit, each, from] = rows(&output)[STREAMS.len()];
    let untimed = ["time of the gate to ten minutes", "-", "1.00", ""];
    assert_eq!([what, measured, limit, each], untimed);
    let why = "not measured: the log has no line 'real' of 'time'; 2 crates proved, ";
    assert!(from.starts_with(why), "{from}");
    let log = file("in_part.log", gate::in_part().as_bytes());
    let output = run(MEASURE, &["--gate", &log, *BRIDGE, *BRIDGE, "10"], &[]);
    let [what, measured, limit, each, from] = rows(&output)[STREAMS.len()];
    assert_eq!([what, measured, limit, each], untimed);
    let why = format!("not measured: this run did {}, an earlier one", gate::PART);
    assert!(from.starts_with(&why), "{from}");
}

#[test]
fn the_ratio_is_that_of_the_medians() {
    let times = [[30, 10, 20, 90, 40], [10, 40, 20, 20, 80]];
    let times = Times::of(times.map(|times| times.map(Duration::from_millis)));
    let expected = Times {
        medians: [30, 20].map(Duration::from_millis),
        turns: [0.25, 4.5],
    };
    assert_eq!(times, expected);
    assert_eq!(times.ratio(), 1.5);
    assert_eq!(times.each(1_000), [30.0, 20.0]);
    let told = "medians of 5 runs each, 0.25 to 4.50 by turns";
    assert_eq!(times.to_string(), told);
}

#[test]
fn arguments_of_measure() {
    let plan = |words: &str| Plan::parse(&words.split(' ').map(String::from).collect::<Vec<_>>());
    let paths = |a: &str, b: &str| [a.into(), b.into()];
    let bare = Plan {
        programs: paths("./a", "/b/c"),
        count: 1_000_000,
        worst: false,
        desks: None,
        rigs: None,
        stack: None,
        gate: None,
    };
    assert_eq!(plan("a /b/c"), Ok(bare));
    let full = || Plan {
        programs: paths("../a", "./-b/c"),
        count: 7,
        worst: true,
        desks: Some(paths("./d", "/e")),
        rigs: Some(paths("./r", "./s/t")),
        stack: Some(Exported {
            message: "message".into(),
            others: vec!["build".into(), "expiry".into()],
            library: "./-x.a".into(),
        }),
        gate: Some("log".into()),
    };
    assert_eq!(
        plan("--worst --desk d /e --rig r s/t --stack message,build,expiry -x.a --gate log ../a -b/c 7"),
        Ok(full())
    );
    assert_eq!(
        plan("--gate log --rig r s/t --stack message,build,expiry -x.a --worst --desk d /e ../a -b/c 7"),
        Ok(full())
    );
}

#[test]
fn wrong_use_of_measure() {
    let cases: [&[&str]; 22] = [
        &["--desk", *DESK, *DESK],
        &["--desk", *DESK, *DESK, *BRIDGE],
        &["--desk", "a", "b", "--desk", "a", "b", *BRIDGE, *BRIDGE],
        &["--rig", *RIG, *RIG],
        &["--rig", *RIG, *RIG, *BRIDGE],
        &["--rig", "a", "b", "--rig", "a", "b", *BRIDGE, *BRIDGE],
        &[],
        &[*BRIDGE],
        &[*BRIDGE, *BRIDGE, "few"],
        &[*BRIDGE, *BRIDGE, "0"],
        &[*BRIDGE, *BRIDGE, "-1"],
        &[*BRIDGE, *BRIDGE, "18446744073709551615"],
        &[*BRIDGE, *BRIDGE, "1", "2"],
        &["--help"],
        &["--fast", *BRIDGE, *BRIDGE],
        &["--worst", "--worst", *BRIDGE, *BRIDGE],
        &["--gate"],
        &["--gate", "log", *BRIDGE],
        &["--gate", "log", "--gate", "log", *BRIDGE, *BRIDGE],
        &["--stack", "call", "library"],
        &["--stack", "a", "b", "--stack", "a", "b", *BRIDGE, *BRIDGE],
        &[*BRIDGE, *BRIDGE, "1", "--gate", "log"],
    ];
    for arguments in cases {
        assert_refused(MEASURE, arguments);
    }
    assert_quiet_without_reader(MEASURE, &[*BRIDGE, *BRIDGE, "10"], &[]);
}

/// The line on standard error of a measurement that is given up, and prints nothing else.
pub fn given_up(output: &Output) -> &str {
    assert_eq!(output.status.code(), Some(2));
    assert_eq!(text(&output.stdout), "");
    let line = text(&output.stderr).strip_prefix("measure: ").unwrap();
    line.strip_suffix('\n').unwrap()
}

#[test]
fn programs_that_cannot_be_measured() {
    let given_up = |words: &[&str]| given_up(&run(MEASURE, words, &[])).to_owned();
    assert!(given_up(&["", *BRIDGE, "1"]).starts_with("cannot read \"./\": "));
    let missing = given_up(&[*BRIDGE, "nowhere/bridge", "10"]);
    assert!(missing.starts_with("cannot read \"./nowhere/bridge\": "));
    let failing = given_up(&["/bin/false", *BRIDGE, "10"]);
    assert_eq!(failing, "\"/bin/false\" ended with exit status: 1");
    let idle = given_up(&[*BRIDGE, "/bin/true", "1"]);
    assert_eq!(idle, "\"/bin/true\" has read 0 of 8 octets");
    // Frames are no instructions, and a program that reads none of them to the end is found out.
    let other = given_up(&[*RIG, *BRIDGE, "100000"]);
    assert!(other.contains(" has read "), "{other}");
    // A compiled program that nobody may run.
    let copy = file("not_executable", &fs::read(*BRIDGE).unwrap());
    assert!(given_up(&[&copy, *BRIDGE, "1"]).starts_with("cannot run "));
}

#[test]
fn files_that_tell_nothing() {
    let library = file("told.a", stack::LLVM.as_bytes());
    let path = format!("{TOOLS}:{}", env::var("PATH").unwrap());
    let stack = |path: &str, call: &str, library: &str| {
        let words = ["--stack", call, library, *BRIDGE, *BRIDGE, "10"];
        given_up(&on_path(path, &words)).to_owned()
    };
    let unknown = stack(&path, "calls", &library);
    let why = format!("the stack cannot be read off {library:?}: it has no function calls");
    assert_eq!(unknown, why);
    assert_eq!(stack(&path, "call,part::deep,calls", &library), why);
    let bare = file("bare.a", stack::LLVM.replace(" .text", " .data").as_bytes());
    let why = format!("the code cannot be read off {bare:?}: it has no section of text");
    assert_eq!(stack(&path, "call", &bare), why);
    let missing = stack(&path, "call", "nowhere.a");
    let why = "llvm-objdump cannot read \"./nowhere.a\": ";
    assert!(missing.starts_with(why), "{missing}");
    let alone = stack("", "call", &library);
    let why =
        "neither llvm-objdump nor objdump is on the PATH, and the library is read by one of them";
    assert_eq!(alone, why);
    let gate =
        |log: &str| given_up(&run(MEASURE, &["--gate", log, *BRIDGE, *BRIDGE], &[])).to_owned();
    assert!(gate("nowhere.log").starts_with("cannot read \"nowhere.log\": "));
    let log = file("told.log", b"\xFFrt: octets proved\n");
    let why = format!(
        "{log:?} is not what a gate printed that passed: it has no line 'N passed, 0 failed'"
    );
    assert_eq!(gate(&log), why);
}

#[test]
fn the_processor_of_a_program_is_read_off_its_head() {
    let mut head = *b"\x7FELF\x02\x01\x01\0\0\0\0\0\0\0\0\0\x03\0\x3E\x01 and more";
    assert_eq!(processor::number(&head), Some(0x013E));
    head[5] = 2;
    assert_eq!(processor::number(&head), Some(0x3E01));
    assert_eq!(processor::number(&head[..20]), Some(0x3E01));
    assert_eq!(processor::number(&head[..19]), None);
    head[5] = 3;
    assert_eq!(processor::number(&head), None);
    assert_eq!(
        processor::number(b"#!/bin/sh\nexec emulator bridge\n"),
        None
    );
    assert_eq!(processor::number(b""), None);
}

#[test]
fn the_processor_of_the_machine_is_told() {
    let one = "processor\t: 0\nBogoMIPS\t: 243\nCPU implementer\t: 0x41\nCPU part\t: 0xd0c\n\n";
    let two = format!("{one}{}", one.replace(": 0\n", ": 1\n"));
    let told = "aarch64, CPU implementer 0x41, CPU part 0xd0c, cores 2";
    assert_eq!(processor::described("aarch64", &two), told);
    let named = "processor\t: 0\nmodel name\t: Some Name: 7 @ 2.00GHz\n";
    let told = "x86_64, model name Some Name: 7 @ 2.00GHz, cores 1";
    assert_eq!(processor::described("x86_64", named), told);
    assert_eq!(processor::described("x86_64", ""), "x86_64");
    assert!(processor::own().starts_with(env::consts::ARCH));
}

#[test]
fn programs_for_another_processor_are_not_compared() {
    let mut octets = fs::read(*BRIDGE).unwrap();
    octets[18] ^= 0xFF;
    let foreign = file("foreign", &octets);
    let script = file("script", b"#!/bin/sh\nexec emulator bridge\n");
    for (bridge, second, why) in [
        (
            foreign.as_str(),
            *BRIDGE,
            "not measured: the bridge is compiled for another processor than this machine's",
        ),
        (
            *BRIDGE,
            foreign.as_str(),
            "not measured: the second is compiled for another processor than this machine's",
        ),
        (
            script.as_str(),
            *BRIDGE,
            "not measured: the bridge is not a compiled program",
        ),
    ] {
        let output = run(MEASURE, &["--worst", bridge, second], &[]);
        let rows = rows(&output);
        for (row, goal) in rows[STREAMS.len()..].iter().zip(GOALS) {
            assert_eq!(*row, [goal, "-", "2.00", "", why]);
        }
        assert_eq!(rows.len(), STREAMS.len() + GOALS.len());
        for (row, stream) in rows.iter().zip(&STREAMS) {
            let limit = format!("{:.2}", stream.limit.ratio());
            assert_eq!(row[1..], ["-", &*limit, "", why]);
        }
    }
}
