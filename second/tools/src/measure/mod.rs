//! The program `measure`: what it is asked for, and the one table that it prints.

pub mod assembly;
pub mod desk;
mod fault;
pub mod gate;
pub mod library;
mod pair;
pub mod processor;
mod rig;
pub mod stack;
pub mod table;
pub mod time;
pub mod worst;

use std::fs;
use std::io::{self, Write};

use crate::arguments::number;
use crate::traffic::measured::{Limit, Stream, STREAMS};
use fault::told;
use gate::Gate;
use stack::Deepest;
use table::{Figure, Row, Table};
use time::SEED;

/// How the program is called.
pub const USAGE: &str =
    "usage: measure [--worst] [--desk DESK SECOND] [--rig RIG SECOND] [--stack CALLS LIBRARY] \
[--gate LOG] BRIDGE SECOND [COUNT]; BRIDGE is the path of the bridge that is measured, SECOND of the \
one that it is measured against, DESK and RIG and their SECOND likewise of desks and of rigs, COUNT \
how many of the shortest messages a stream has (1000000 if left out), LIBRARY a static library for \
x86-64, CALLS the name of its message call or several names joined by commas without blanks, none \
empty and none twice, of which the first is the message call's and the others are those of its other \
calls, LOG what a gate printed; --worst also searches for the worst message; the status is 1 if a \
figure is over its limit";

/// Messages of a stream where no count is given.
const COUNT: u64 = 1_000_000;
/// Octets of stack that a message call may take: the working copy, and all else.
const STACK: [i64; 2] = [2_100, 512];
/// Octets of stack that each of the other calls may take.
const OTHERS: i64 = 256;
/// Seconds that the gate may take.
const GATE: f64 = 600.0;

/// What to measure.
#[derive(Debug, Default, PartialEq, Eq)]
pub struct Plan {
    /// Paths of the bridge and of the second one.
    pub programs: [String; 2],
    /// Messages of a stream of the shortest; other streams have a part of it.
    pub count: u64,
    /// Whether the worst message is searched for.
    pub worst: bool,
    /// Paths of the desk and of the second one.
    pub desks: Option<[String; 2]>,
    /// Paths of the rig and of the second one.
    pub rigs: Option<[String; 2]>,
    /// The calls whose stack is to be read, in a library whose code is to be counted.
    pub stack: Option<Exported>,
    /// Path of what a gate printed.
    pub gate: Option<String>,
}

/// Calls in a library.
#[derive(Debug, PartialEq, Eq)]
pub struct Exported {
    /// The name of the message call.
    pub message: String,
    /// The names of other calls; there may be none.
    pub others: Vec<String>,
    /// The library's path.
    pub library: String,
}

impl Exported {
    /// The calls whose names stand between commas, the message call first. None if a name is empty or
    /// stands twice.
    fn named(calls: &str, library: &str) -> Option<Exported> {
        let names: Vec<String> = calls.split(',').map(String::from).collect();
        let mut places = names.iter().enumerate();
        if places.any(|(place, name)| name.is_empty() || names[..place].contains(name)) {
            return None;
        }
        let (message, others) = names.split_first()?;
        Some(Exported {
            message: message.clone(),
            others: others.to_vec(),
            library: path_of(library),
        })
    }
}

impl Plan {
    /// Reads the arguments.
    pub fn parse(arguments: &[String]) -> Result<Plan, String> {
        let mut plan = Plan::default();
        let mut rest = arguments;
        while let Some(behind) = plan.take_option(rest) {
            rest = behind;
        }
        (plan.programs, plan.count) = programs_and_count(rest)?;
        Ok(plan)
    }

    /// Takes the option in front, if there is one that is right and was not there before; the words
    /// behind it.
    fn take_option<'a>(&mut self, words: &'a [String]) -> Option<&'a [String]> {
        let pair = |program, second| Some([program, second].map(|path: &String| path_of(path)));
        match words {
            [word, behind @ ..] if word == "--worst" && !self.worst => {
                self.worst = true;
                Some(behind)
            }
            [word, desk, second, behind @ ..] if word == "--desk" && self.desks.is_none() => {
                self.desks = pair(desk, second);
                Some(behind)
            }
            [word, rig, second, behind @ ..] if word == "--rig" && self.rigs.is_none() => {
                self.rigs = pair(rig, second);
                Some(behind)
            }
            [word, calls, library, behind @ ..] if word == "--stack" && self.stack.is_none() => {
                self.stack = Some(Exported::named(calls, library)?);
                Some(behind)
            }
            [word, log, behind @ ..] if word == "--gate" && self.gate.is_none() => {
                self.gate = Some(log.clone());
                Some(behind)
            }
            _ => None,
        }
    }
}

/// The arguments after the options.
fn programs_and_count(words: &[String]) -> Result<([String; 2], u64), String> {
    let (bridge, second, count) = match words {
        [word, ..] if word.starts_with("--") => return Err(USAGE.into()),
        [bridge, second] => (bridge, second, COUNT),
        [bridge, second, count] => (bridge, second, number("COUNT", count)?),
        _ => return Err(USAGE.into()),
    };
    if count == 0 || count == u64::MAX {
        return Err(format!("COUNT cannot be {count}"));
    }
    Ok(([bridge, second].map(|path| path_of(path)), count))
}

/// A path that means a file wherever it is used: a bare name would be looked for on the PATH when it
/// is run, and one that begins with a dash would be an option of the program that is handed it.
fn path_of(word: &str) -> String {
    match word.starts_with(['/', '.']) {
        true => word.into(),
        false => format!("./{word}"),
    }
}

/// Measures, and prints the table; how many of its figures are over their limits. An error is one of
/// `output`, or tells what cannot be read, run or written. Files are read first, since runs take long.
pub fn run<W: Write>(plan: &Plan, output: &mut W) -> io::Result<usize> {
    let library = plan.stack.as_ref().map(library_rows).transpose()?;
    let gate = plan.gate.as_deref().map(gate_row).transpose()?;
    let mut rows = vec![Row::plain("processor", Figure::None, processor::own())];
    rows.extend(time_rows(plan)?);
    if let Some(desks) = &plan.desks {
        rows.extend(desk::rows(desks, plan.count)?);
    }
    if let Some(rigs) = &plan.rigs {
        rows.extend(rig::rows(rigs, plan.count)?);
    }
    rows.extend(library.into_iter().flatten());
    rows.extend(gate);
    let table = Table(rows);
    write!(output, "{table}")?;
    output.flush()?;
    Ok(table.over())
}

/// The bridge's times to those of the second one, or why they cannot be compared here.
fn time_rows(plan: &Plan) -> io::Result<Vec<Row>> {
    let what = |stream: &Stream| format!("time to the second's: {}", stream.what);
    if let Some(why) = processor::obstacle("bridge", &plan.programs)? {
        let streams = STREAMS.iter().map(|stream| (what(stream), stream.limit));
        let goals = worst::GOALS.iter().filter(|_| plan.worst);
        let all = streams.chain(goals.map(|goal| (goal.to_string(), Limit::Any)));
        let rows = all.map(|(what, limit)| Row::untimed(what, limit, &why));
        return Ok(rows.collect());
    }
    let row = |stream: &Stream| {
        let messages = (plan.count / stream.one_in).max(1);
        let frames = stream.before() + messages;
        let times = time::measure(&plan.programs, |sink| stream.write(SEED, frames, sink))?;
        Ok(Row::timed(what(stream), stream.limit, messages, &times))
    };
    let mut rows: Vec<Row> = STREAMS.iter().map(row).collect::<io::Result<_>>()?;
    if plan.worst {
        rows.extend(worst::rows(&plan.programs, plan.count)?);
    }
    Ok(rows)
}

/// The stack of the message call, that of the other calls if there are any, and the code of all calls.
fn library_rows(exported: &Exported) -> io::Result<Vec<Row>> {
    let library = &exported.library;
    let listing = library::listing(library)?;
    let cannot = |what: &str, why: String| {
        let what = format!("the {what} cannot be read off {library:?}: {why}");
        io::Error::other(what)
    };
    let deepest = |call| stack::deepest(call, &listing).map_err(|why| cannot("stack", why));
    let message = deepest(&exported.message)?;
    let others = exported.others.iter();
    let others = others.map(|call| Ok((call.as_str(), deepest(call)?)));
    let others: Vec<_> = others.collect::<io::Result<_>>()?;
    let octets = |name| library::octets(name, &listing).map_err(|why| cannot("code", why));
    let (code, constants) = (octets(".text")?, octets(".rodata")?);
    if code == 0 {
        return Err(cannot("code", "it has no section of text".into()));
    }
    let sections = "all sections of text for x86-64, without memcpy, memmove and memset";
    let constants = format!("{sections}; constants take {constants} octets more");
    let code = Figure::Octets(code, None);
    let mut rows = vec![message_row(&message)];
    rows.extend(others_row(&others));
    rows.push(Row::plain("code of the five calls", code, constants));
    Ok(rows)
}

/// The stack of the message call.
fn message_row(deepest: &Deepest) -> Row {
    let [copy, beside] = STACK;
    let limit = format!("limit {copy} for the working copy and {beside} beside it");
    Row::plain(
        "stack of the message call",
        Figure::Octets(deepest.octets(), Some(copy + beside)),
        format!("{limit}; {deepest}"),
    )
}

/// The stack of the deepest of the other calls, each given by its name and where it is deepest; none if
/// there are no others.
fn others_row(others: &[(&str, Deepest)]) -> Option<Row> {
    // From behind, since the last of several that are equally deep is had.
    let ways = others.iter().rev().map(|(_, way)| way);
    let deepest = ways.max_by_key(|way| way.octets())?;
    let each = others
        .iter()
        .map(|(name, way)| format!("{name} {}", way.octets()));
    let each = each.collect::<Vec<_>>().join(", ");
    Some(Row::plain(
        "stack of the other calls, at most",
        Figure::Octets(deepest.octets(), Some(OTHERS)),
        format!("limit {OTHERS} for each; {each}; {deepest}"),
    ))
}

fn gate_row(path: &str) -> io::Result<Row> {
    let log = fs::read(path).map_err(|error| told(format_args!("cannot read {path:?}"), &error))?;
    let gate = Gate::read(&String::from_utf8_lossy(&log)).map_err(|why| {
        let what = format!("{path:?} is not what a gate printed that passed: {why}");
        io::Error::other(what)
    })?;
    let time = match (&gate.part, gate.whole) {
        (Some(part), _) => format!("not measured: this run did {part}, an earlier one the others"),
        (None, Some(seconds)) => format!("{seconds:.0} seconds"),
        (None, None) => "not measured: the log has no line 'real' of 'time'".into(),
    };
    let whole = gate.whole.filter(|_| gate.part.is_none());
    let ratio = whole.map(|seconds| seconds / GATE);
    Ok(Row::plain(
        "time of the gate to ten minutes",
        Figure::Ratio(ratio, 1.0),
        format!("{time}; {gate}"),
    ))
}
