//! The original and the port in one process, on the same lines; usage.txt has the words.

mod asks;
mod bench;
mod check;
mod joins;
mod lines;
mod many;
mod runs;
mod types;
mod worked;

use std::io::{self, Write};
use std::process::ExitCode;

/// Whether no difference was left unexplained, or why that is not known.
pub type Outcome = Result<bool, Failure>;

/// Why a command has no outcome.
pub enum Failure {
    /// Words that were not understood.
    Usage(String),
    /// What could not be read or written.
    Trouble(String),
}

/// Only what is written to standard output is handed on as it is.
impl From<io::Error> for Failure {
    fn from(error: io::Error) -> Self {
        Failure::Trouble(format!("cannot write to standard output: {error}"))
    }
}

fn main() -> ExitCode {
    let said = match outcome() {
        Ok(true) => return ExitCode::SUCCESS,
        Ok(false) => return ExitCode::from(1),
        Err(Failure::Usage(said)) => format!("{said}\n{}", include_str!("usage.txt")),
        Err(Failure::Trouble(said)) => said + "\n",
    };
    // Where standard error cannot be written either, the status is all there is.
    let _ = write!(io::stderr(), "both: {said}");
    ExitCode::from(2)
}

fn outcome() -> Outcome {
    let mut words = vec![];
    for word in std::env::args_os().skip(1) {
        words.push(word.into_string().map_err(|word| Failure::Usage(format!("a word that is not UTF-8: {}", word.to_string_lossy())))?);
    }
    let words: Vec<&str> = words.iter().map(String::as_str).collect();
    match words[..] {
        ["check", ref words @ ..] => check::command(words),
        ["joins", ref words @ ..] => joins::command(words),
        ["types", ref words @ ..] => types::command(words),
        ["bench", ref words @ ..] => bench::command(words),
        ["notes", ref words @ ..] => many::notes(words),
        ["duplicates", ref words @ ..] => many::duplicates(words),
        ["--help"] => {
            io::stdout().write_all(include_bytes!("usage.txt"))?;
            Ok(true)
        }
        [] => Err(Failure::Usage("no word was given".into())),
        [word, ..] => Err(Failure::Usage(format!("there is no '{word}'"))),
    }
}

/// The number behind an option, from 1 up.
pub fn number(option: &str, word: Option<&&str>) -> Result<u64, Failure> {
    let given = word.map_or("nothing".into(), |word| format!("'{word}'"));
    let number = word.and_then(|word| word.parse().ok()).filter(|&number| number > 0);
    number.ok_or(Failure::Usage(format!("{option} takes a number from 1 up, and {given} is none")))
}
