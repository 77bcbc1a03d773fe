//! The program `compare`: runs two programs on the same traffic and tells where they differ.

mod run;

use std::fmt;
use std::io::{self, Write};
use std::ops::RangeInclusive;
use std::sync::Arc;

use crate::arguments::number;
use crate::traffic::{self, Kind};
use run::{Limits, Run};

/// How the program is called.
pub const USAGE: &str = "usage: compare [--wait SECONDS] [frames|script|captures] A B SEEDS [COUNT]; \
A and B are paths of programs, SEEDS is how many seeds (from 1 on) or a range like 5-9, COUNT how many \
frames, instructions or lines a stream has (200 if left out), SECONDS how long a program may print \
nothing before it is killed (10 if left out); streams are scripts unless the first word is frames or \
captures; it stops after 20 differences";

/// Frames, instructions or lines of a stream where no count is given.
const COUNT: u64 = 200;
/// Seconds without a line after which a program is killed, where none are given.
const WAIT: u64 = 10;
/// Differences after which no more are looked for: a program that is wrong is wrong in many lines.
const MOST: u64 = 20;
/// Octets that are printed for a frame or an instruction, and more: the longest line shows a room of
/// 8,192 octets.
const LINE: u64 = 20_000;
/// Octets that are printed for a captured message, and more: the longest has 2,046 names.
const CAPTURE: u64 = 100_000;
/// Characters shown of a line, and how many of them before the first that differs.
const SHOWN: usize = 72;
const SHOWN_BEFORE: usize = 16;

/// What to compare.
#[derive(Debug, PartialEq, Eq)]
pub struct Plan {
    /// What the programs are fed with.
    pub kind: Kind,
    /// Paths of the two programs.
    pub programs: [String; 2],
    /// Seeds of the streams.
    pub seeds: RangeInclusive<u64>,
    /// Frames, instructions or lines of each stream.
    pub count: u64,
    /// Seconds in which a program may print nothing.
    pub wait: u64,
}

impl Plan {
    /// Reads the arguments.
    pub fn parse(arguments: &[String]) -> Result<Plan, String> {
        let (wait, rest) = match arguments {
            [word, wait, rest @ ..] if word == "--wait" => (number("SECONDS", wait)?, rest),
            rest => (WAIT, rest),
        };
        let (kind, rest) = match rest {
            [word, rest @ ..] if word == "frames" => (Kind::Frames, rest),
            [word, rest @ ..] if word == "script" => (Kind::Script, rest),
            [word, rest @ ..] if word == "captures" => (Kind::Captures, rest),
            rest => (Kind::Script, rest),
        };
        let (a, b, seeds, count) = match rest {
            [word, ..] if word.starts_with("--") => return Err(USAGE.into()),
            [a, b, seeds] => (a, b, seeds, COUNT),
            [a, b, seeds, count] => (a, b, seeds, number("COUNT", count)?),
            _ => return Err(USAGE.into()),
        };
        if wait == 0 {
            return Err("SECONDS cannot be 0".into());
        }
        Ok(Plan {
            kind,
            programs: [a.clone(), b.clone()],
            seeds: parse_seeds(seeds)?,
            count,
            wait,
        })
    }

    /// Both programs on the stream of a seed, and how many lines they have to print for it.
    fn runs(&self, seed: u64) -> io::Result<([Run; 2], u64)> {
        let stream = Arc::new(traffic::stream(self.kind, seed, self.count));
        let least = traffic::least_lines(self.kind, &stream, self.count);
        let each = match self.kind {
            Kind::Captures => CAPTURE,
            _ => LINE,
        };
        let octets = self.count.saturating_add(1).saturating_mul(each);
        let limits = Limits {
            wait: self.wait,
            octets: octets.try_into().unwrap_or(usize::MAX),
        };
        let [a, b] = &self.programs;
        let runs = [Run::of(a, &stream, limits)?, Run::of(b, &stream, limits)?];
        Ok((runs, least))
    }
}

fn parse_seeds(word: &str) -> Result<RangeInclusive<u64>, String> {
    let (first, last) = word.split_once('-').unwrap_or(("1", word));
    let seeds = number("SEEDS", first)?..=number("SEEDS", last)?;
    if seeds.is_empty() {
        return Err(format!("SEEDS has no seed in it: {word:?}"));
    }
    Ok(seeds)
}

/// What a comparison has found.
#[derive(Debug, Default, PartialEq, Eq)]
pub struct Findings {
    /// Streams run.
    pub streams: u64,
    /// Lines compared.
    pub lines: u64,
    /// Differences printed.
    pub differences: u64,
    /// The seed at which it was stopped, since there were enough differences.
    pub stopped: Option<u64>,
}

impl fmt::Display for Findings {
    fn fmt(&self, f: &mut fmt::Formatter) -> fmt::Result {
        let Findings {
            streams,
            lines,
            differences,
            stopped,
        } = self;
        write!(
            f,
            "{streams} streams, {lines} lines, {differences} differences"
        )?;
        match stopped {
            Some(seed) => write!(f, "; stopped at seed {seed}, more are not told"),
            None => Ok(()),
        }
    }
}

/// Compares, and prints each difference and then the findings. An error is one of `output`, or
/// tells which program cannot be run.
pub fn run<W: Write>(plan: &Plan, output: &mut W) -> io::Result<Findings> {
    let mut findings = Findings::default();
    for seed in plan.seeds.clone() {
        let (runs, least) = plan.runs(seed)?;
        let mut differences = differences(&runs, least).into_iter();
        let left = MOST - findings.differences;
        for (line, what) in differences.by_ref().take(left as usize) {
            writeln!(output, "seed {seed} line {line}: {what}")?;
            findings.differences += 1;
        }
        let [a, b] = runs.map(|run| run.lines().count() as u64);
        findings.streams += 1;
        findings.lines += a.max(b);
        let more = differences.len() > 0 || seed < *plan.seeds.end();
        if findings.differences == MOST && more {
            findings.stopped = Some(seed);
            break;
        }
    }
    writeln!(output, "{findings}")?;
    output.flush()?;
    Ok(findings)
}

/// The differences of two runs, each with its line. A program with too few lines, or with a bad
/// end, makes one difference after its last line.
fn differences(runs: &[Run; 2], wanted: u64) -> Vec<(u64, String)> {
    let [a, b] = runs;
    let pairs = (1..).zip(a.lines().zip(b.lines()));
    let mut found: Vec<_> = pairs
        .filter(|(_, (a, b))| a != b)
        .map(|(line, (a, b))| (line, describe(a, b)))
        .collect();
    let counts = runs.each_ref().map(|run| run.lines().count() as u64);
    let wanted = counts[0].max(counts[1]).max(wanted);
    for ((run, name), count) in runs.iter().zip(["A", "B"]).zip(counts) {
        let end = match &run.fault {
            Some(fault) => fault,
            None if count < wanted => "end of its output",
            None => continue,
        };
        found.push((count + 1, format!("{name} has no more lines: {end}")));
    }
    found
}

fn describe(a: &[u8], b: &[u8]) -> String {
    let same = a.iter().zip(b).take_while(|(a, b)| a == b).count();
    let from = same.saturating_sub(SHOWN_BEFORE);
    let shown = |line: &[u8]| {
        let rest = &line[from.min(line.len())..];
        String::from_utf8_lossy(&rest[..rest.len().min(SHOWN)]).into_owned()
    };
    let column = from + 1;
    format!("from column {column} A {:?}, B {:?}", shown(a), shown(b))
}
