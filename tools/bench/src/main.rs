// The command line: `report::HELP` says what it does.

use bench::monitor::Monitor;
use bench::naive::Naive;
use bench::plain::{Automaton, Once, Plain};
use bench::proved::Proved;
use std::process::ExitCode;

fn main() -> ExitCode {
    let args: Vec<String> = std::env::args().skip(1).collect();
    let monitors: [&dyn Monitor; 5] = [&Plain, &Proved, &Once, &Automaton, &Naive];
    match bench::report::run(&monitors, &args) {
        Ok(()) => ExitCode::SUCCESS,
        Err(error) => {
            eprintln!("bench: {error}");
            ExitCode::from(2)
        }
    }
}
