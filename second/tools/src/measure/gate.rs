//! The time that the gate took, and what it did in that time, from the lines that it printed.

use std::fmt;

/// What the line `rt: ok` of a gate ends with that has taken nothing from an earlier run.
const ALL: &str = "; every proof and must-fail edit was done in this run";
/// What stands there otherwise, ahead of what was done, behind which there is a semicolon.
const SOME: &str = "; done in this run: ";
/// What stands ahead of either, behind a number, where edits could not be made.
const BAD: &str = " bad";

/// What a gate did that has passed.
#[derive(Debug, PartialEq)]
pub struct Gate {
    /// How many crates are proved.
    pub crates: usize,
    /// How many of them have tests that passed.
    pub tests: usize,
    /// How many edits were refused.
    pub edits: usize,
    /// How much of that was done in this run, in words, if an earlier one did the rest.
    pub part: Option<String>,
    /// Seconds from its start to its end, where `time` has told them.
    pub whole: Option<f64>,
}

impl Gate {
    /// Reads what a gate printed. Each thing that passed has a line. Where one is missing the log is
    /// not whole.
    pub fn read(log: &str) -> Result<Gate, String> {
        let passed = log.lines().rev().find_map(passed);
        let passed = passed.ok_or("it has no line 'N passed, 0 failed'")?;
        let count = |deed| log.lines().filter(|line| Deed::read(line) == deed).count();
        let gate = Gate {
            crates: count(Some(Deed::Proved)),
            tests: count(Some(Deed::Tested)),
            edits: count(Some(Deed::Refused)),
            part: part(log)?,
            whole: log.lines().rev().find_map(whole),
        };
        let lines = gate.crates + gate.edits;
        match lines == passed {
            true => Ok(gate),
            false => Err(format!(
                "it says that {passed} passed, and has the lines of {lines}"
            )),
        }
    }
}

/// How much was done in this run, if not all was. An error where it is not told, or edits are bad.
fn part(log: &str) -> Result<Option<String>, String> {
    let ok = log.lines().rev().find(|line| line.starts_with("rt: ok"));
    let ok = ok.ok_or("it has no line 'rt: ok'")?;
    let (told, part) = match (ok.strip_suffix(ALL), ok.split_once(SOME)) {
        (Some(told), _) => (told, None),
        (None, Some((told, rest))) => (told, rest.split(';').next()),
        (None, None) => return Err("its line 'rt: ok' does not tell what was done".into()),
    };
    match told.ends_with(BAD) {
        true => Err("it says that edits are bad".into()),
        false => Ok(part.map(String::from)),
    }
}

impl fmt::Display for Gate {
    fn fmt(&self, f: &mut fmt::Formatter) -> fmt::Result {
        let Gate {
            crates,
            tests,
            edits,
            ..
        } = self;
        write!(
            f,
            "{crates} crates proved, {tests} of them with tests, and {edits} edits refused"
        )
    }
}

/// What a line tells of a thing that passed.
#[derive(Clone, Copy, PartialEq, Eq)]
enum Deed {
    Proved,
    Tested,
    Refused,
}

impl Deed {
    /// Reads a line; none if it tells something else.
    fn read(line: &str) -> Option<Deed> {
        let line = line.strip_prefix("rt: ")?;
        if let Some(edit) = line.strip_prefix("must-fail ") {
            let (_, told) = edit.split_once(": ")?;
            let refused = told.starts_with("refused, as it must be");
            return refused.then_some(Deed::Refused);
        }
        let (name, told) = line.split_once(' ')?;
        let tested = name.strip_suffix(':');
        let proved = told == "proved" || told.starts_with("is kept: ");
        match (tested, told) {
            (Some(name), "its tests passed") if is_name(name) => Some(Deed::Tested),
            (None, _) if proved && is_name(name) => Some(Deed::Proved),
            _ => None,
        }
    }
}

/// Whether a word can name a crate.
fn is_name(word: &str) -> bool {
    let letter = |c: char| c.is_ascii_alphanumeric() || c == '_';
    !word.is_empty() && word.chars().all(letter)
}

/// How many things passed, from the last line of a gate where none failed.
fn passed(line: &str) -> Option<usize> {
    line.strip_suffix(" passed, 0 failed")?.parse().ok()
}

/// Seconds from the line of `time` for a whole run: `real 8m31.436s`, or by `time -p` `real 511.43`.
fn whole(line: &str) -> Option<f64> {
    let time = line.strip_prefix("real")?.trim();
    let seconds = |text: &str| {
        let seconds: f64 = text.parse().ok()?;
        (seconds.is_finite() && seconds >= 0.0).then_some(seconds)
    };
    let Some(minutes_first) = time.strip_suffix('s') else {
        return seconds(time);
    };
    let (minutes, rest) = minutes_first.split_once('m')?;
    Some(f64::from(minutes.parse::<u32>().ok()?) * 60.0 + seconds(rest)?)
}
