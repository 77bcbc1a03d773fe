//! The time that two programs take for a large stream, run by turns.

use std::fs::{self, File};
use std::io::{self, BufWriter, Seek};
use std::process::{self, Command, Stdio};
use std::time::{Duration, Instant};
use std::{array, env, fmt};

use super::fault::told;

/// The seed of the streams, which are the same in every measurement.
pub const SEED: u64 = 1;
/// Runs of each program on a stream; odd, so that one of them is the median.
pub const RUNS: usize = 5;

/// The times of a program and of the second one for a stream.
#[derive(Debug, PartialEq)]
pub struct Times {
    /// The median of each.
    pub medians: [Duration; 2],
    /// The lowest and the highest ratio of two runs of one turn.
    pub turns: [f64; 2],
}

impl Times {
    /// From the times of the program and of the second one, each in the order of the turns.
    pub fn of(times: [[Duration; RUNS]; 2]) -> Times {
        let [bridge, second] = times;
        let mut turns: [f64; RUNS] = array::from_fn(|turn| ratio(bridge[turn], second[turn]));
        turns.sort_unstable_by(f64::total_cmp);
        Times {
            medians: times.map(median),
            turns: [turns[0], turns[RUNS - 1]],
        }
    }

    /// The ratio of the medians.
    pub fn ratio(&self) -> f64 {
        let [bridge, second] = self.medians;
        ratio(bridge, second)
    }

    /// Microseconds that each takes for one of so many messages.
    pub fn each(&self, messages: u64) -> [f64; 2] {
        self.medians
            .map(|median| median.as_secs_f64() * 1e6 / messages as f64)
    }
}

impl fmt::Display for Times {
    fn fmt(&self, f: &mut fmt::Formatter) -> fmt::Result {
        let [low, high] = self.turns;
        write!(
            f,
            "medians of {RUNS} runs each, {low:.2} to {high:.2} by turns"
        )
    }
}

fn ratio(a: Duration, b: Duration) -> f64 {
    a.as_secs_f64() / b.as_secs_f64()
}

fn median(mut times: [Duration; RUNS]) -> Duration {
    times.sort_unstable();
    times[RUNS / 2]
}

/// Measures the programs on the stream that `write` writes.
pub fn measure(
    programs: &[String; 2],
    write: impl FnOnce(&mut BufWriter<File>) -> io::Result<()>,
) -> io::Result<Times> {
    let mut stream = stream(write)?;
    let size = stream.stream_position()?;
    let mut times = [[Duration::ZERO; RUNS]; 2];
    for turn in 0..RUNS {
        for (program, times) in programs.iter().zip(&mut times) {
            times[turn] = time(program, &mut stream, size)?;
        }
    }
    Ok(Times::of(times))
}

/// A file that holds a stream, at its end. It has no name any more, so that it is gone when the
/// program ends, in whatever way.
fn stream(write: impl FnOnce(&mut BufWriter<File>) -> io::Result<()>) -> io::Result<File> {
    let folder = env::temp_dir();
    let path = folder.join(format!("measure-{}", process::id()));
    let written = || {
        let mut options = File::options();
        let file = options
            .read(true)
            .write(true)
            .create_new(true)
            .open(&path)?;
        fs::remove_file(&path)?;
        let mut sink = BufWriter::with_capacity(64 * 1024, file);
        write(&mut sink)?;
        Ok(sink.into_inner()?)
    };
    written().map_err(|error| told(format_args!("cannot write to {folder:?}"), &error))
}

/// How long a program takes for a stream, from its start to its end; what it prints is dropped.
/// One that fails, or has not read the whole stream, did other work than was to be measured.
fn time(program: &str, stream: &mut File, size: u64) -> io::Result<Duration> {
    stream.rewind()?;
    let mut command = Command::new(program);
    command.stdin(stream.try_clone()?).stdout(Stdio::null());
    let start = Instant::now();
    let status = command
        .status()
        .map_err(|error| told(format_args!("cannot run {program:?}"), &error))?;
    let taken = start.elapsed();
    if !status.success() {
        return Err(io::Error::other(format!("{program:?} ended with {status}")));
    }
    // The program's standard input and the file here share their position.
    let read = stream.stream_position()?;
    if read < size {
        let what = format!("{program:?} has read {read} of {size} octets");
        return Err(io::Error::other(what));
    }
    Ok(taken)
}
