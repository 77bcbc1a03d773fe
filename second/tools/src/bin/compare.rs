//! Runs two programs on the same traffic and prints where they differ.

use std::io::{self, ErrorKind};
use std::process::ExitCode;

use programs::program;
use tools::compare::{self, Plan};

fn main() -> ExitCode {
    let plan = match Plan::parse(&program::arguments()) {
        Ok(plan) => plan,
        Err(why) => return program::refuse("compare", &why),
    };
    match compare::run(&plan, &mut io::stdout().lock()) {
        Ok(findings) if findings.differences == 0 => ExitCode::SUCCESS,
        Ok(_) => ExitCode::FAILURE,
        Err(error) if error.kind() == ErrorKind::BrokenPipe => {
            program::finish("compare", Err(error))
        }
        Err(error) => program::refuse("compare", &error.to_string()),
    }
}
