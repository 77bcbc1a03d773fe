//! Seeded traffic: streams of frames for `bridge`, scripts for `rig` and lines for `desk`, the same on
//! every machine.

pub mod acts;
pub mod asked;
mod breaks;
mod captures;
mod commands;
pub mod dice;
mod edges;
mod faulty;
mod forms;
mod frames;
mod gated;
mod in_flight;
pub mod measured;
mod memories;
mod moves;
pub mod not_served;
mod operations;
mod pace;
mod pieces;
mod release_16;
mod schedules;
mod script;
mod stage;
mod values;

use std::io::{self, Write};
use std::str::FromStr;

use asked::{Asked, ASKED};
use dice::Dice;
use measured::{Stream, STREAMS};

/// What a stream is made of.
#[derive(Clone, Copy, Debug, PartialEq, Eq)]
pub enum Kind {
    /// Frames for `bridge`, of every kind and often faulty.
    Frames,
    /// Frames for `bridge`, to be measured.
    Measured(&'static Stream),
    /// Records for `rig`, to be measured.
    Asked(&'static Asked),
    /// Records for `rig`.
    Script,
    /// Records for `rig` that make more calls than they lend and show, to be stored.
    Calls,
    /// The records for `rig` that lie at the edges, to be stored: they are the same for each seed.
    Edges,
    /// Lines for `desk`, of every form and often faulty.
    Captures,
    /// The lines for `desk` that lie at the edges, to be stored: they are the same for each seed.
    CaptureEdges,
}

impl FromStr for Kind {
    type Err = String;

    fn from_str(word: &str) -> Result<Kind, String> {
        match word {
            "frames" => Ok(Kind::Frames),
            "script" => Ok(Kind::Script),
            "calls" => Ok(Kind::Calls),
            "edges" => Ok(Kind::Edges),
            "captures" => Ok(Kind::Captures),
            "capture-edges" => Ok(Kind::CaptureEdges),
            _ => Stream::named(word)
                .map(Kind::Measured)
                .or_else(|| Asked::named(word).map(Kind::Asked))
                .ok_or_else(|| format!("KIND is {}, not {word:?}", words())),
        }
    }
}

/// The words of all kinds.
pub fn words() -> String {
    let measured = STREAMS.iter().map(|stream| stream.word);
    let asked = ASKED.iter().map(|stream| stream.word);
    let words: Vec<&str> = ["frames"]
        .into_iter()
        .chain(measured)
        .chain(asked)
        .collect();
    format!(
        "{}, script, calls, edges, captures or capture-edges",
        words.join(", ")
    )
}

/// Writes the stream of `count` pieces that belongs to `seed`.
pub fn write<W: Write>(kind: Kind, seed: u64, count: u64, sink: &mut W) -> io::Result<()> {
    let mut dice = Dice::new(seed);
    match kind {
        Kind::Frames => frames::write(&mut dice, count, sink),
        Kind::Measured(stream) => stream.write(seed, count, sink),
        Kind::Asked(stream) => stream.write(seed, count, sink),
        Kind::Script => script::write(&mut dice, pace::OFTEN, count, sink),
        Kind::Calls => script::write(&mut dice, pace::SELDOM, count, sink),
        Kind::Edges => edges::write(count, sink),
        Kind::Captures => captures::write(&mut dice, count, sink),
        Kind::CaptureEdges => captures::edges::write(count, sink),
    }
}

/// How many lines a program prints at least for a stream of `count` pieces: one for each frame or
/// record, and one for each line that holds something.
pub fn least_lines(kind: Kind, stream: &[u8], count: u64) -> u64 {
    match kind {
        Kind::Captures | Kind::CaptureEdges => captures::held(stream),
        _ => count,
    }
}

/// The same stream, in memory.
pub fn stream(kind: Kind, seed: u64, count: u64) -> Vec<u8> {
    let mut octets = Vec::new();
    // Writing to a vector cannot fail.
    let _ = write(kind, seed, count, &mut octets);
    octets
}
