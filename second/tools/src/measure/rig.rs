//! The rows of rigs: the time of one to that of the second, asked which gates are open.

use std::io;

use super::pair::Pair;
use super::table::Row;
use super::time::SEED;
use crate::traffic::asked::ASKED;

/// The rig's times to those of the second one, or why they cannot be compared here.
pub fn rows(rigs: &[String; 2], count: u64) -> io::Result<Vec<Row>> {
    let pair = Pair::of("rig", rigs)?;
    let rows = ASKED.iter().map(|stream| {
        let instructions = stream.before() + count;
        pair.row(stream.what, (count, "calls"), |sink| {
            stream.write(SEED, instructions, sink)
        })
    });
    rows.collect()
}
