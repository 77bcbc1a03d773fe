//! Carries out a script of instructions from standard input, one line an instruction.

use std::process::ExitCode;

fn main() -> ExitCode {
    programs::program::filter("rig", programs::rig::run)
}
