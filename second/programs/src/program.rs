//! What the programs share: how they end, and how they refuse wrong arguments.

use std::env;
use std::ffi::OsString;
use std::io::{self, ErrorKind, StdinLock, StdoutLock};
use std::process::ExitCode;

/// Exit status of a run that could not be finished.
const FAILED: u8 = 1;
/// Exit status of wrong arguments.
const USAGE: u8 = 2;

/// Runs a program that takes no arguments and passes from standard input to standard output.
pub fn filter(
    name: &str,
    run: impl FnOnce(StdinLock<'static>, StdoutLock<'static>) -> io::Result<()>,
) -> ExitCode {
    if env::args_os().len() > 1 {
        return refuse(name, "takes no arguments; it reads standard input");
    }
    finish(name, run(io::stdin().lock(), io::stdout().lock()))
}

/// Ends a run. A reader that went away has nothing left to be told, so it gets no message.
pub fn finish(name: &str, result: io::Result<()>) -> ExitCode {
    match result {
        Ok(()) => ExitCode::SUCCESS,
        Err(error) => {
            if error.kind() != ErrorKind::BrokenPipe {
                eprintln!("{name}: {error}");
            }
            ExitCode::from(FAILED)
        }
    }
}

/// Ends a run that cannot start, saying why in one line.
pub fn refuse(name: &str, why: &str) -> ExitCode {
    eprintln!("{name}: {why}");
    ExitCode::from(USAGE)
}

/// The arguments as text; one that is none becomes text that no reading accepts as a number.
pub fn arguments() -> Vec<String> {
    let text = |argument: OsString| argument.to_string_lossy().into_owned();
    env::args_os().skip(1).map(text).collect()
}
