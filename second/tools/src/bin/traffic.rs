//! Writes a seeded stream of frames, instructions or lines to standard output.

use std::io::{self, BufWriter, Write};
use std::process::ExitCode;

use programs::program;
use tools::arguments::number;
use tools::traffic::{self, Kind};

fn usage() -> String {
    format!(
        "usage: traffic KIND SEED COUNT; KIND is {} (the last two for desk, the five before them for rig, \
all others for bridge), SEED the number that the stream follows from, COUNT how many frames, \
instructions or lines it has",
        traffic::words()
    )
}

fn main() -> ExitCode {
    let arguments = program::arguments();
    let [kind, seed, count] = arguments.as_slice() else {
        return program::refuse("traffic", &usage());
    };
    match parse(kind, seed, count) {
        Ok((kind, seed, count)) => program::finish("traffic", run(kind, seed, count)),
        Err(why) => program::refuse("traffic", &why),
    }
}

fn parse(kind: &str, seed: &str, count: &str) -> Result<(Kind, u64, u64), String> {
    let seed = number("SEED", seed)?;
    Ok((kind.parse()?, seed, number("COUNT", count)?))
}

fn run(kind: Kind, seed: u64, count: u64) -> io::Result<()> {
    let mut sink = BufWriter::with_capacity(64 * 1024, io::stdout().lock());
    traffic::write(kind, seed, count, &mut sink)?;
    sink.flush()
}
