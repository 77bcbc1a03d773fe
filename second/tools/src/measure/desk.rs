//! The rows of desks: the time of one to that of the second, on what a bridge prints.

use std::io::{self, Write};

use programs::bridge;

use super::pair::Pair;
use super::table::Row;
use super::time::SEED;
use crate::traffic::measured::Stream;

/// The streams whose answers are read: replies of every kind, then those with the most records and
/// those with the longest values.
pub const WORDS: [&str; 3] = ["mixed", "full-reads-255", "lists-4"];

/// The desk's times to those of the second one, or why they cannot be compared here.
pub fn rows(desks: &[String; 2], count: u64) -> io::Result<Vec<Row>> {
    let pair = Pair::of("desk", desks)?;
    let streams = WORDS.iter().filter_map(|word| Stream::named(word));
    let row = |stream: &Stream| {
        let what = format!("answers to {}", stream.what);
        let lines = stream.before() + (count / stream.one_in).max(1);
        pair.row(&what, (lines, "messages"), |sink| {
            write(stream, lines, sink)
        })
    };
    streams.map(row).collect()
}

/// Writes what a bridge prints for so many frames of a stream.
pub fn write<W: Write>(stream: &Stream, frames: u64, sink: &mut W) -> io::Result<()> {
    let mut input = Vec::new();
    stream.write(SEED, frames, &mut input)?;
    bridge::run(input.as_slice(), sink)
}
