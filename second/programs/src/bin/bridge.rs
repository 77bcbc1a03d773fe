//! Answers frames from standard input, one line a frame.

use std::process::ExitCode;

fn main() -> ExitCode {
    programs::program::filter("bridge", programs::bridge::run)
}
