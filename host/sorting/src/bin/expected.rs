//! Prints what test programs must print for the walks of a list such as `host/cases.txt`.
//!
//! `expected LIST` prints one line a case; `expected --program FRAME` prints the program's text for
//! the bytes of a file.

use sorting_filter::{cases, program};
use std::process::ExitCode;

const USAGE: &str = "usage: expected LIST | expected --program FRAME";

fn expected_lines(path: &str) -> Result<String, String> {
    let list = std::fs::read_to_string(path).map_err(|error| format!("{path}: {error}"))?;
    Ok(cases::read(&list)?.iter().map(|case| case.expected() + "\n").collect())
}

fn program_text(path: &str) -> Result<String, String> {
    let input = std::fs::read(path).map_err(|error| format!("{path}: {error}"))?;
    Ok(program::printed(&input))
}

fn main() -> ExitCode {
    let words: Vec<String> = std::env::args().skip(1).collect();
    let text = match words.iter().map(String::as_str).collect::<Vec<_>>()[..] {
        ["--program", path] => program_text(path),
        [path] if !path.starts_with('-') => expected_lines(path),
        _ => Err(USAGE.to_string()),
    };
    match text {
        Ok(text) => {
            print!("{text}");
            ExitCode::SUCCESS
        }
        Err(message) => {
            eprintln!("expected: {message}");
            ExitCode::FAILURE
        }
    }
}
