//! A script for `rig` that lies at the edges of the rules, where chance seldom goes.
//!
//! It is the same at all times, and is stored in front of one by chance, so that each wrong port of
//! `second/wrong` prints other lines.

mod bounds;
mod calls;
mod forms;
mod gates;
mod in_flight;
mod marks;
mod memories;
mod moves;
mod not_served;
mod positions;
mod profiles;
mod replies;
mod schedules;
mod script;
mod values;

use std::io::{self, Write};

use script::Edges;

/// Writes the first `count` instructions. The last one of all makes memory fresh, so that what
/// follows finds it as at the start.
pub fn write<W: Write>(count: u64, sink: &mut W) -> io::Result<()> {
    let mut edges = Edges::new();
    // What a rig starts with.
    edges.show();
    values::add(&mut edges);
    schedules::add(&mut edges);
    marks::add(&mut edges);
    in_flight::add(&mut edges);
    calls::add(&mut edges);
    positions::add(&mut edges);
    not_served::add(&mut edges);
    replies::add(&mut edges);
    memories::add(&mut edges);
    forms::add(&mut edges);
    moves::add(&mut edges);
    gates::add(&mut edges);
    profiles::add(&mut edges);
    bounds::add(&mut edges);
    for (instruction, _) in edges.script.iter().zip(0..count) {
        sink.write_all(instruction)?;
    }
    Ok(())
}
