//! `second transcript < commands`, `second generate SEED COUNT`, `second commands`: see README.md.

use std::io::{self, Read, Write};
use std::process::ExitCode;

use second::{generate, transcript, vectors};

const USAGE: &str = "usage: second transcript < COMMANDS | second generate SEED COUNT | second commands";

fn main() -> ExitCode {
    let arguments: Vec<String> = std::env::args().skip(1).collect();
    let words: Vec<&str> = arguments.iter().map(String::as_str).collect();
    match output(&words).and_then(write_out) {
        Ok(()) => ExitCode::SUCCESS,
        Err(error) => {
            eprintln!("second: {error}");
            ExitCode::FAILURE
        }
    }
}

/// What a command line asks to be written.
fn output(words: &[&str]) -> Result<String, String> {
    match words {
        ["transcript"] => transcript::transcript(&read_in()?),
        ["generate", seed, count] => {
            let lines = generate::generate_both(number(seed)?, number(count)?);
            Ok(lines.iter().map(|line| format!("{line}\n")).collect())
        }
        ["commands"] => Ok(vectors::commands()),
        _ => Err(USAGE.to_string()),
    }
}

fn number(text: &str) -> Result<u64, String> {
    text.parse().map_err(|_| format!("not a number: {text}\n{USAGE}"))
}

fn read_in() -> Result<String, String> {
    let mut text = String::new();
    io::stdin().read_to_string(&mut text).map_err(|error| error.to_string())?;
    Ok(text)
}

fn write_out(text: String) -> Result<(), String> {
    io::stdout().write_all(text.as_bytes()).map_err(|error| error.to_string())
}
