//! Reads captured messages from standard input, a line each, and prints their records.

use std::process::ExitCode;

fn main() -> ExitCode {
    programs::program::filter("desk", programs::desk::run)
}
