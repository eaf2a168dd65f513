//! Reads a script from standard input, and prints the account of its calls.

use plain::account::rehearse;
use plain::script::Script;
use std::io::{self, BufWriter, Read};
use std::process::ExitCode;

fn run() -> Result<(), String> {
    let mut bytes = Vec::new();
    io::stdin()
        .lock()
        .read_to_end(&mut bytes)
        .map_err(|error| format!("the script cannot be read: {error}"))?;
    let script = Script::read(&bytes).map_err(|unreadable| unreadable.to_string())?;
    let out = BufWriter::with_capacity(1 << 16, io::stdout().lock());
    rehearse(script, out).map_err(|error| format!("the account cannot be written: {error}"))
}

fn main() -> ExitCode {
    match run() {
        Ok(()) => ExitCode::SUCCESS,
        Err(text) => {
            eprintln!("{text}");
            ExitCode::FAILURE
        }
    }
}
