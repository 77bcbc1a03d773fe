//! A program and the second one of its kind, and their row for a stream.

use std::fs::File;
use std::io::{self, BufWriter};

use super::processor;
use super::table::Row;
use super::time;
use crate::traffic::measured::Limit;

/// Two programs of one kind.
pub struct Pair<'a> {
    name: &'static str,
    programs: &'a [String; 2],
    /// Why their times cannot be compared here.
    obstacle: Option<String>,
}

impl Pair<'_> {
    /// A program of the given name, and the second one.
    pub fn of<'a>(name: &'static str, programs: &'a [String; 2]) -> io::Result<Pair<'a>> {
        Ok(Pair {
            name,
            programs,
            obstacle: processor::obstacle(name, programs)?,
        })
    }

    /// The time of the program to that of the second one on the stream that `write` writes, which has so
    /// many of what they are timed on.
    pub fn row(
        &self,
        what: &str,
        (count, counted): (u64, &str),
        write: impl FnOnce(&mut BufWriter<File>) -> io::Result<()>,
    ) -> io::Result<Row> {
        let what = format!("time of {} to the second's: {what}", self.name);
        if let Some(why) = &self.obstacle {
            return Ok(Row::untimed(what, Limit::Any, why));
        }
        let times = time::measure(self.programs, write)?;
        Ok(Row {
            from: format!("{count} {counted}, {times}"),
            ..Row::timed(what, Limit::Any, count, &times)
        })
    }
}
