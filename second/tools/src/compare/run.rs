//! A run of a program on a stream: what it printed, how it ended, and when it is given up.

use std::io::{self, ErrorKind, Read, Write};
use std::process::{Child, Command, ExitStatus, Stdio};
use std::sync::mpsc::{self, Receiver, RecvTimeoutError};
use std::sync::Arc;
use std::time::{Duration, Instant};
use std::{fmt, thread};

/// Octets that are read of a program's output at once.
const BLOCK: usize = 64 * 1024;
/// How long the end of a program is waited for at first, and at most, before it is asked for again.
const PAUSES: [Duration; 2] = [Duration::from_micros(100), Duration::from_millis(50)];

/// What a program may take before it is given up and killed.
#[derive(Clone, Copy)]
pub struct Limits {
    /// Seconds in which it prints nothing, or does not end after its output.
    pub wait: u64,
    /// Octets of its output.
    pub octets: usize,
}

/// What a program has printed, and how it ended if not well.
pub struct Run {
    output: Vec<u8>,
    /// What is wrong with its end.
    pub fault: Option<String>,
}

impl Run {
    /// Runs a program on a stream. An error tells that it cannot be run.
    pub fn of(program: &str, input: &Arc<Vec<u8>>, limits: Limits) -> io::Result<Run> {
        let cannot = |error: io::Error| {
            io::Error::new(error.kind(), format!("cannot run {program:?}: {error}"))
        };
        let mut command = Command::new(program);
        command.stdin(Stdio::piped()).stdout(Stdio::piped());
        let mut child = command.spawn().map_err(cannot)?;
        feed(&mut child, input);
        let (output, given_up) = gather(&printed(&mut child), limits)?;
        let fault = match given_up {
            Some(why) => Some(why),
            None => match ended(&mut child, limits)? {
                Some(status) => fault(status, &output),
                None => Some(killed(format_args!(
                    "did not end in {} seconds",
                    limits.wait
                ))),
            },
        };
        child.kill()?;
        child.wait()?;
        Ok(Run { output, fault })
    }

    /// The lines that it has printed.
    pub fn lines(&self) -> impl Iterator<Item = &[u8]> {
        let text = self.output.strip_suffix(b"\n").unwrap_or(&self.output);
        let lines = text.split(|octet| *octet == b'\n');
        lines.skip(usize::from(self.output.is_empty()))
    }
}

/// Feeds a program. One that ends early does not take all of its input; its lines tell that. Nobody
/// waits for the thread: what a killed program has started may hold its pipes open.
fn feed(child: &mut Child, input: &Arc<Vec<u8>>) {
    let (stdin, input) = (child.stdin.take(), Arc::clone(input));
    thread::spawn(move || stdin.map(|mut stdin| stdin.write_all(&input)));
}

/// What a program prints, as it comes. Nobody waits for this thread either.
fn printed(child: &mut Child) -> Receiver<io::Result<Vec<u8>>> {
    let (sender, receiver) = mpsc::channel();
    let stdout = child.stdout.take();
    thread::spawn(move || {
        let mut block = vec![0; BLOCK];
        let Some(mut stdout) = stdout else { return };
        loop {
            let piece = match stdout.read(&mut block) {
                Ok(0) => return,
                Ok(count) => Ok(block[..count].to_vec()),
                Err(error) if error.kind() == ErrorKind::Interrupted => continue,
                Err(error) => Err(error),
            };
            let failed = piece.is_err();
            // Where nobody listens any more, nothing more is read.
            if sender.send(piece).is_err() || failed {
                return;
            }
        }
    });
    receiver
}

/// All that a program prints, and why it is given up, if it is.
fn gather(
    pieces: &Receiver<io::Result<Vec<u8>>>,
    limits: Limits,
) -> io::Result<(Vec<u8>, Option<String>)> {
    let mut output = Vec::new();
    let Limits { wait, octets } = limits;
    while output.len() <= octets {
        match pieces.recv_timeout(Duration::from_secs(wait)) {
            Ok(piece) => output.extend(piece?),
            Err(RecvTimeoutError::Disconnected) => return Ok((output, None)),
            Err(RecvTimeoutError::Timeout) => {
                return Ok((
                    output,
                    Some(killed(format_args!("printed nothing for {wait} seconds"))),
                ));
            }
        }
    }
    Ok((
        output,
        Some(killed(format_args!("printed over {octets} octets"))),
    ))
}

/// What is told of a program that is given up.
fn killed(why: fmt::Arguments) -> String {
    format!("it {why} and was killed")
}

/// How a program ends that prints nothing any more; none if it does not in its time.
fn ended(child: &mut Child, limits: Limits) -> io::Result<Option<ExitStatus>> {
    let start = Instant::now();
    let [mut pause, longest] = PAUSES;
    loop {
        let status = child.try_wait()?;
        if status.is_some() || start.elapsed() >= Duration::from_secs(limits.wait) {
            return Ok(status);
        }
        thread::sleep(pause);
        pause = (2 * pause).min(longest);
    }
}

/// What is wrong with the end of a run.
fn fault(status: ExitStatus, output: &[u8]) -> Option<String> {
    // The status after a `cut` is left to the program, as long as no signal ends it.
    let cut = output.ends_with(b"\ncut\n") || output == b"cut\n";
    let ended_well = status.success() || cut && status.code().is_some();
    if !ended_well {
        Some(status.to_string())
    } else if !output.is_empty() && !output.ends_with(b"\n") {
        Some("the last line is not ended".into())
    } else {
        None
    }
}
