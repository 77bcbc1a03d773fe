//! The stack that a call takes: the deepest way through the functions of a disassembled library.

use std::cmp::Reverse;
use std::collections::{BTreeSet, HashMap};
use std::fmt;

use super::assembly::{self, Function, Leads, Made, Step};

/// Functions of the C library that compiled code calls; what these take is not counted.
const OUTSIDE: [&str; 5] = ["memcpy", "memmove", "memset", "memcmp", "bcmp"];
/// Octets on the stack when a function begins: the address that it returns to.
const ENTRY: i64 = 8;

/// The functions that have octets on the stack where it is deepest, and how many.
#[derive(Clone, Debug, PartialEq, Eq)]
pub struct Deepest(pub Vec<(String, i64)>);

impl Deepest {
    /// Octets of all of them.
    pub fn octets(&self) -> i64 {
        self.0.iter().map(|(_, octets)| octets).sum()
    }
}

impl fmt::Display for Deepest {
    fn fmt(&self, f: &mut fmt::Formatter) -> fmt::Result {
        let shown = self
            .0
            .iter()
            .map(|(name, octets)| format!("{name} {octets}"));
        f.write_str(&shown.collect::<Vec<_>>().join(", "))
    }
}

/// Where the stack is deepest in a call, from the disassembly of the library that has it. An error
/// tells what cannot be followed.
pub fn deepest(call: &str, disassembly: &str) -> Result<Deepest, String> {
    let mut library = Library::default();
    for function in assembly::functions(disassembly) {
        let name = function.name;
        if library.functions.insert(name, function).is_some() {
            return Err(format!("it has two functions {name}"));
        }
    }
    library.deepest(call)
}

#[derive(Default)]
struct Library<'a> {
    functions: HashMap<&'a str, Function<'a>>,
    /// Those that are known already.
    known: HashMap<String, Deepest>,
    /// Those that have called the one that is looked at.
    above: Vec<String>,
}

impl Library<'_> {
    fn deepest(&mut self, name: &str) -> Result<Deepest, String> {
        if let Some(deepest) = self.known.get(name) {
            return Ok(deepest.clone());
        }
        if self.above.iter().any(|above| above == name) {
            return Err(format!("{name} calls itself, at once or by others"));
        }
        let function = self.functions.get(name);
        let function = function.ok_or_else(|| format!("it has no function {name}"))?;
        let frame = Frame::of(function).map_err(|why| format!("{name} {why}"))?;
        self.above.push(name.into());
        let mut deepest = Deepest(vec![(name.into(), frame.own)]);
        for (callee, depth) in frame.calls {
            if OUTSIDE.contains(&callee.as_str()) {
                continue;
            }
            let mut way = vec![(name.into(), depth)];
            way.extend(self.deepest(&callee)?.0);
            if Deepest(way.clone()).octets() > deepest.octets() {
                deepest = Deepest(way);
            }
        }
        self.above.pop();
        self.known.insert(name.into(), deepest.clone());
        Ok(deepest)
    }
}

/// What a function has on the stack.
struct Frame {
    /// At its deepest, without what it calls.
    own: i64,
    /// At each call.
    calls: Vec<(String, i64)>,
}

impl Frame {
    fn of(function: &Function) -> Result<Frame, String> {
        let steps = function.steps()?;
        if steps.is_empty() {
            return Err("has no instruction".into());
        }
        let depths = depths(&steps)?;
        let mut frame = Frame {
            own: ENTRY,
            calls: Vec::new(),
        };
        for (step, depth) in steps.into_iter().zip(depths) {
            // What no way leads to takes nothing.
            let Some(depth) = depth else { continue };
            frame.own = frame.own.max(depth + step.grows.max(step.below));
            match step.leads {
                Leads::Call(name) => frame.calls.push((name, depth)),
                Leads::Instead(name, _) => frame.calls.push((name, depth - ENTRY)),
                _ => (),
            }
        }
        Ok(frame)
    }
}

/// Octets on the stack before each step of a function, where a way is known that leads to it.
type Depths = Vec<Option<i64>>;

/// How many octets a function has on the stack before each of its steps, along every way. All ways
/// to a step have to agree, and a return has to find the stack as it was.
fn depths(steps: &[Step]) -> Result<Depths, String> {
    let places = steps
        .iter()
        .enumerate()
        .map(|(place, step)| (step.at, place));
    let places: HashMap<u64, usize> = places.collect();
    let mut depths = followed(steps, &places, vec![None; steps.len()], (0, ENTRY))?;
    while let Some(place) = hidden(steps, &depths) {
        let tried = jumps(steps, &depths)
            .into_iter()
            .map(|Reverse(depth)| followed(steps, &places, depths.clone(), (place, depth)));
        // The deepest that goes with all else; where none does, why the last does not.
        match tried.reduce(|found, next| found.or(next)) {
            Some(found) => depths = found?,
            None => break,
        }
    }
    Ok(depths)
}

/// What is known of the depths, and what follows from the depth at one place.
fn followed(
    steps: &[Step],
    places: &HashMap<u64, usize>,
    mut depths: Depths,
    from: (usize, i64),
) -> Result<Depths, String> {
    let mut due = vec![from];
    while let Some((place, depth)) = due.pop() {
        match depths.get(place) {
            Some(Some(known)) if *known != depth => {
                let at = steps[place].at;
                return Err(format!(
                    "comes to {at:x} with {known} and with {depth} octets"
                ));
            }
            Some(None) => {
                depths[place] = Some(depth);
                due.extend(onward(place, &steps[place], depth, places)?);
            }
            _ => (),
        }
    }
    Ok(depths)
}

/// The places that a step leads to, and the depth there.
fn onward(
    place: usize,
    step: &Step,
    depth: i64,
    places: &HashMap<u64, usize>,
) -> Result<Vec<(usize, i64)>, String> {
    let after = depth + step.grows;
    let next = (place + 1, after);
    let leaves = matches!(step.leads, Leads::Back | Leads::Instead(..));
    if leaves && depth != ENTRY {
        let left = depth - ENTRY;
        return Err(format!("leaves with {left} octets on the stack"));
    }
    Ok(match step.leads {
        Leads::On | Leads::Filler | Leads::Call(_) | Leads::Instead(_, Made::Perhaps) => vec![next],
        Leads::To(address, made) => {
            let to = places.get(&address);
            let to = to.ok_or_else(|| format!("jumps to {address:x}, out of its instructions"))?;
            match made {
                Made::Always => vec![(*to, after)],
                Made::Perhaps => vec![next, (*to, after)],
            }
        }
        Leads::Computed | Leads::Instead(_, Made::Always) | Leads::Back | Leads::Stop => vec![],
    })
}

/// A place that no way has led to yet: a computed jump leads there, if there is one.
fn hidden(steps: &[Step], depths: &[Option<i64>]) -> Option<usize> {
    let mut known = steps.iter().zip(depths);
    known.position(|(step, depth)| depth.is_none() && step.leads != Leads::Filler)
}

/// The depths of the computed jumps, the greatest first.
fn jumps(steps: &[Step], depths: &[Option<i64>]) -> BTreeSet<Reverse<i64>> {
    let known = steps.iter().zip(depths);
    let jumps = known.filter(|(step, _)| step.leads == Leads::Computed);
    jumps.filter_map(|(_, depth)| depth.map(Reverse)).collect()
}
