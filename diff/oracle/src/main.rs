//! The oracle: case lines on standard input, answer lines on standard output.

use std::error::Error;
use std::io::{stdin, stdout, BufRead, Write};
use std::process::ExitCode;

fn main() -> ExitCode {
    // A panic shows in its line.
    std::panic::set_hook(Box::new(|_| {}));
    match run() {
        Ok(()) => ExitCode::SUCCESS,
        Err(error) => {
            eprintln!("oracle: {error}");
            ExitCode::FAILURE
        }
    }
}

fn run() -> Result<(), Box<dyn Error>> {
    for (number, line) in stdin().lock().lines().enumerate() {
        let answer = oracle::answer(&line?).map_err(|why| format!("line {}: {why}", number + 1))?;
        writeln!(stdout(), "{answer}")?;
    }
    Ok(())
}
