//! The library held against the original Rust, in one process, on cases that a seed repeats.

mod answer;
mod cases;
mod damage;
mod draft;
mod grammar;
mod keys;
mod ledger;
mod library;
mod library_writer;
mod limits;
mod long;
mod lookups;
mod nest;
mod panics;
mod paths;
mod report;
mod rng;
mod run;
mod session;
mod short;
mod shrink;
mod slice;
mod texts;
mod tree;

use std::fs;
use std::process::ExitCode;
use std::thread::available_parallelism;

use run::Plan;

const SEED: u64 = 1;
const CASES: u64 = 1_000_000;

/// Takes the arguments `--cases N --seed S --threads T`, or `--only HEX`, or `--file PATH`.
pub fn main() -> ExitCode {
    panics::silence();
    let arguments: Vec<String> = std::env::args().skip(1).collect();
    match obey(&arguments) {
        Ok(true) => ExitCode::SUCCESS,
        Ok(false) => ExitCode::FAILURE,
        Err(why) => {
            eprintln!("compare: {why}");
            ExitCode::from(2)
        }
    }
}

/// True where nothing disagrees.
fn obey(arguments: &[String]) -> Result<bool, String> {
    let mut plan = Plan {
        seed: SEED,
        cases: CASES,
        threads: available_parallelism().map_or(1, usize::from),
    };
    for pair in arguments.chunks(2) {
        let [name, value] = pair else {
            return Err(format!("{} has no value", pair[0]));
        };
        let number = || {
            value
                .parse::<u64>()
                .map_err(|error| format!("{value}: {error}"))
        };
        match name.as_str() {
            "--seed" => plan.seed = number()?,
            "--cases" => plan.cases = number()?,
            "--threads" => plan.threads = number()?.max(1) as usize,
            "--only" => {
                let bytes = hex::decode(value).map_err(|error| format!("{value}: {error}"))?;
                return Ok(report::only(bytes));
            }
            "--file" => {
                let bytes = fs::read(value).map_err(|error| format!("{value}: {error}"))?;
                return Ok(report::file(bytes));
            }
            _ => return Err(format!("no such argument: {name}")),
        }
    }
    let outcome = run::run(&plan);
    Ok(report::outcome(&plan, &outcome))
}
