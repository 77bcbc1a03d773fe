//! Prints one table: two bridges timed on the same large streams, two desks and two rigs likewise, the
//! stack of calls, a library's code, the gate's time.

use std::io::{self, ErrorKind};
use std::process::ExitCode;

use programs::program;
use tools::measure::{self, Plan};

fn main() -> ExitCode {
    let plan = match Plan::parse(&program::arguments()) {
        Ok(plan) => plan,
        Err(why) => return program::refuse("measure", &why),
    };
    match measure::run(&plan, &mut io::stdout().lock()) {
        Ok(0) => ExitCode::SUCCESS,
        Ok(over) => {
            let what = format!("figures over their limits, marked in the table: {over}");
            program::finish("measure", Err(io::Error::other(what)))
        }
        Err(error) if error.kind() == ErrorKind::BrokenPipe => {
            program::finish("measure", Err(error))
        }
        Err(error) => program::refuse("measure", &error.to_string()),
    }
}
