//! What `./check` tells and ends with, over a toolchain that stands in: the proved programs beside
//! the second ones.

use std::fs;
use std::os::unix::fs::symlink;
use std::os::unix::process::ExitStatusExt;
use std::thread::sleep;
use std::time::{Duration, SystemTime};

use crate::place::{until, Place, ANSWERS};
use crate::process::{DESK, RIG};

pub const LAST: &str = "3 passed, 0 failed\n";
const DIFFER: &str =
    "check: the proved programs differ from the second ones, or could not be compared; \
                      what was printed stands further up\n";

/// What the gate is told to have done, line by line, and all other lines: the comparison prints its own beside it.
pub fn parted(printed: &str) -> (String, String) {
    let lines = printed.split_inclusive('\n');
    lines.partition(|line| ["rt: ", "== "].iter().any(|head| line.starts_with(head)))
}

/// What a gate prints that proves three programs and tries some edits, but for its last line.
pub fn gate(edits: &[&str]) -> String {
    let proved = |name| format!("== {name}\nrt: {name} proved\nrt: {name}: its tests are proved\n");
    let refused =
        |edit: &&str| format!("rt: must-fail crates/{edit}.edit: refused, as it must be\n");
    let ok = "rt: ok; handles allowed: none; must-fail edits: 1 refused; every proof and must-fail edit was done in this run\n";
    let proved = ["desk", "bridge", "rig"].map(proved).concat();
    proved + &edits.iter().map(refused).collect::<String>() + ok
}

/// The commands that compare, as `./check` printed them, each with what it printed in turn.
fn comparisons(printed: &str) -> Vec<(&str, &str)> {
    let parts = printed.split("check: ").skip(1);
    parts.filter_map(|part| part.split_once('\n')).collect()
}

fn seconds() -> u64 {
    let now = SystemTime::now().duration_since(SystemTime::UNIX_EPOCH);
    now.unwrap().as_secs()
}

/// What is compared: the kind of streams, the program, and how long each stream is.
const COMPARED: [[&str; 3]; 3] = [
    ["captures", "desk", "100"],
    ["frames", "bridge", "200"],
    ["script", "rig", "200"],
];

/// Asserts that a command has seeds that follow from the time, between these seconds.
fn assert_seeds(command: &str, [kind, name, length]: [&str; 3], [began, ended]: [u64; 2]) {
    let second = "second/target/tests";
    let words: Vec<&str> = command.split(' ').collect();
    let [compare, told, proved, other, seeds, count] = words[..] else {
        panic!("{command}")
    };
    let programs = (format!("./{name}"), format!("{second}/{name}"));
    assert_eq!((proved, other), (&*programs.0, &*programs.1));
    assert_eq!(
        (compare, told, count),
        (&*format!("{second}/compare"), kind, length)
    );
    let (first, last) = seeds.split_once('-').unwrap();
    let [first, last] = [first, last].map(|seed| seed.parse::<u64>().unwrap());
    assert_eq!((first % 1_000, last - first), (0, 299));
    assert!((began..=ended).contains(&(first / 1_000)), "{command}");
}

/// Whether a comparison has found three streams alike. How many lines a desk prints is left to chance.
fn agrees(printed: &str) -> bool {
    let first = printed.lines().next().unwrap_or_default();
    first.starts_with("3 streams, ") && first.ends_with(" lines, 0 differences")
}

#[test]
fn programs_that_agree_pass() {
    let place = Place::fresh();
    let began = seconds();
    let (status, out, err) = place.shell("./check");
    assert_eq!((status, err.as_str()), (0, ""));
    assert!(out.ends_with(LAST), "{out}");
    let (told, rest) = parted(&out);
    assert_eq!(told, gate(&[]));
    let compared = comparisons(rest.strip_suffix(LAST).unwrap());
    assert_eq!(compared.len(), COMPARED.len(), "{out}");
    for ((command, printed), told) in compared.into_iter().zip(COMPARED) {
        assert_seeds(command, told, [began, seconds()]);
        assert!(agrees(printed), "{out}");
        // What is printed can be run.
        let (status, again, _) = place.shell(command);
        assert_eq!((status, again.as_str()), (0, printed));
    }
}

#[test]
fn what_the_gate_has_built_is_started_at_once() {
    let place = Place::fresh();
    fs::write(place.kit("kept"), "rig\n").unwrap();
    let (status, out, _) = place.shell("./check");
    let (_, rest) = parted(&out);
    assert_eq!((status, comparisons(&rest).len()), (0, 3), "{out}");
    let sample = "./bridge samples/three-frames.hex";
    place.assert_shell(sample, 0, ANSWERS, "");
    place.assert_shell("./rig </dev/null && ./desk </dev/null", 0, "", "");
    let asked = || fs::read_to_string(place.kit("asked")).unwrap();
    assert_eq!(asked(), "ci\n");
    // What is edited while the gate runs is built anew, and where something builds nothing is handed over.
    fs::write(place.kit("hold"), "").unwrap();
    let check = place.start("./check");
    until(|| asked() == "ci\nci\n");
    place.shell("touch crates/mid/src/lib.rt; rm \"$KIT/hold\"");
    assert!(check.wait_with_output().unwrap().status.success());
    assert_eq!(place.shell(sample).1, ANSWERS);
    assert_eq!(asked(), "ci\nci\nbridge\n");
    let held =
        "{ flock 9; echo old >target/bin/bridge; ./check; cat target/bin/bridge; } 9>>target/lock";
    let (_, out, _) = place.shell(held);
    assert!(out.ends_with(&format!("{LAST}old\n")), "{out}");
}

#[test]
fn a_program_that_differs_fails() {
    for name in ["bridge", "rig", "desk"] {
        let place = Place::fresh();
        let wrong = place.kit("programs").join(name);
        fs::remove_file(&wrong).unwrap();
        // It answers each line but one as it should, or is another program altogether.
        match name {
            "bridge" => symlink(RIG, &wrong).unwrap(),
            _ => {
                let right = if name == "rig" { RIG } else { DESK };
                let script = format!("#!/bin/sh\n'{right}' | sed '7s/.$/x/'\n");
                fs::write(&wrong, script).unwrap();
            }
        }
        let (status, out, err) = place.shell("./check");
        assert_eq!((status, err.as_str()), (1, ""));
        assert!(out.ends_with(&format!("{LAST}{DIFFER}")), "{out}");
        let (_, rest) = parted(&out);
        let told = comparisons(&rest);
        assert_eq!(told.len(), COMPARED.len() + 1, "{out}");
        for (command, printed) in told.into_iter().take(COMPARED.len()) {
            assert_eq!(agrees(printed), !command.contains(name), "{out}");
        }
    }
}

/// Asserts what commands end with, and print but for what the gate is told to have done.
fn assert_rest(place: &Place, script: &str, status: i32, rest: &str) {
    let (ended, out, err) = place.shell(script);
    let expected = (status, rest, "");
    assert_eq!((ended, &*parted(&out).1, &*err), expected, "{script}");
}

#[test]
fn programs_that_nothing_can_run_are_not_compared() {
    let place = Place::fresh();
    fs::write(place.kit("machine"), "riscv64").unwrap();
    let told = "check: the proved programs are not compared: they are for x86-64, this machine is \
                riscv64, and no emulator is on the PATH\n";
    assert_rest(&place, "./check", 0, &format!("{told}{LAST}"));
}

#[test]
fn what_cannot_be_compared_fails() {
    let place = Place::fresh();
    fs::write(place.kit("unsaid"), "").unwrap();
    let told = "check: 'rt ci' has ended, and has not said that it has proved 'desk'\n";
    let all = format!("{told}{LAST}{DIFFER}");
    assert_rest(&place, "./check", 1, &all);
    // A program of an earlier run is not taken for one of this.
    let before = "for name in bridge rig desk; do cp \"$KIT/second/$name\" crates/$name/out; done";
    assert_rest(&place, &format!("{before}; ./check"), 1, &all);
    let place = Place::fresh();
    fs::remove_file(place.kit("second/rig")).unwrap();
    let (status, out, _) = place.shell("./check");
    assert_eq!(status, 1);
    assert!(
        out.contains("compare: cannot run \"second/target/tests/rig\""),
        "{out}"
    );
    assert!(out.ends_with(&format!("{LAST}{DIFFER}")), "{out}");
    let place = Place::fresh();
    fs::remove_dir_all(place.kit("second")).unwrap();
    let (status, out, _) = place.shell("./check");
    assert_eq!(status, 1);
    assert!(
        parted(&out)
            .1
            .starts_with("check: the second programs cannot be built\n"),
        "{out}"
    );
}

#[test]
fn nothing_is_compared_where_a_proof_fails() {
    let place = Place::fresh();
    fs::write(place.kit("fault"), "").unwrap();
    assert_rest(&place, "./check", 1, "1 passed, 2 failed\n");
}

#[test]
fn what_was_built_before_a_proof_failed_is_compared() {
    let place = Place::fresh();
    fs::write(place.kit("fault"), "bridge\n").unwrap();
    let last = "1 passed, 2 failed\n";
    let (status, out, _) = place.shell("./check");
    let (_, rest) = parted(&out);
    let told = comparisons(rest.strip_suffix(last).unwrap());
    assert_eq!((status, told.len()), (1, 1), "{out}");
    assert!(
        told[0].0.contains(" captures ") && agrees(told[0].1),
        "{out}"
    );
    let wrong = place.kit("programs/desk");
    fs::remove_file(&wrong).unwrap();
    symlink(RIG, &wrong).unwrap();
    let (status, out, _) = place.shell("./check");
    assert_eq!(status, 1);
    assert!(out.ends_with(&format!("{last}{DIFFER}")), "{out}");
}

/// Whether a process runs that has been started by a check of this place, with this word.
fn runs(place: &Place, word: &str) -> bool {
    let folder = place.kit("").to_str().unwrap().to_string();
    let (_, all, _) = place.shell("ps -eo args");
    all.lines()
        .any(|line| line.contains(word) && line.contains(&folder))
}

/// Asserts that a comparison ends with its check: by a signal to the check alone, or to all that it
/// has started, as a terminal sends it.
fn assert_ends(place: &Place, word: &str, [signal, to]: [&str; 2], number: i32) {
    // An interrupt is ignored by what a script has started behind it, as these tests may be.
    let mut child = place.start("TMPDIR=$KIT exec env --default-signal=INT setsid ./check");
    until(|| runs(place, word));
    // More than once: bash outlives an interrupt that comes between two of its commands.
    let mut ended = None;
    let kill = format!("kill -s {signal} -- {to}{}", child.id());
    for _ in 0..200 {
        place.shell(&kill);
        ended = child.try_wait().unwrap();
        if ended.is_some() {
            break;
        }
        sleep(Duration::from_millis(50));
    }
    assert_eq!(ended.and_then(|status| status.signal()), Some(number));
    until(|| !runs(place, word) && !runs(place, "scripts/agree"));
}

const SIGNALS: [([&str; 2], i32); 3] = [(["TERM", ""], 15), (["KILL", ""], 9), (["INT", "-"], 2)];

#[test]
fn a_comparison_that_waits_ends_with_the_check() {
    for (signal, number) in SIGNALS {
        let place = Place::fresh();
        fs::write(place.kit("hold"), "").unwrap();
        assert_ends(&place, "scripts/agree", signal, number);
        fs::remove_file(place.kit("hold")).unwrap();
    }
}

#[test]
fn a_comparison_that_runs_ends_with_the_check() {
    for (signal, number) in SIGNALS {
        let place = Place::fresh();
        let path = place.kit("second/compare");
        fs::remove_file(&path).unwrap();
        fs::write(&path, "#!/bin/sh\nwhile sleep 0.1; do :; done\n").unwrap();
        place.shell("chmod +x \"$KIT/second/compare\"");
        assert_ends(&place, "tests/compare", signal, number);
    }
}
