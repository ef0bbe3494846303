//! The desk: what is done with files of notes. The port's calls decide all that is said of a note; here are files, words and statuses. help/ has the words.

mod check;
#[cfg(original)]
mod compare;
mod convert;
mod desk;
mod duplicates;
mod files;
mod join;
mod keys;
mod refusals;
mod table;
mod width;
mod withhold;
mod words;
mod writing;

use desk::Desk;
use std::ffi::OsString;
use std::process::ExitCode;
use words::{quoted, Words};

/// Whether something was found, or why that is not known.
pub type Outcome = Result<bool, Failure>;

/// Why a verb has no outcome.
pub enum Failure {
    /// Words that were not understood.
    Words(String),
    /// What could not be read or written, a line for each.
    Trouble(Vec<String>),
}

impl Failure {
    pub fn trouble(said: String) -> Self {
        Failure::Trouble(vec![said])
    }
}

/// Something that the desk does: its name, the options that it knows, and how it is done.
struct Verb {
    name: &'static str,
    options: &'static [&'static str],
    done: fn(&mut Desk, Words) -> Outcome,
}

const VERBS: &[Verb] = &[
    Verb { name: "duplicates", options: &["--between", "--tsv"], done: duplicates::verb },
    Verb { name: "keys", options: &["--tsv"], done: keys::verb },
    Verb { name: "convert", options: &["--tsv"], done: convert::verb },
    Verb { name: "check", options: &["--tsv"], done: check::verb },
    Verb { name: "withhold", options: &["--ranges FILE", "--tsv"], done: withhold::verb },
    Verb { name: "join", options: &["--tsv"], done: join::verb },
    #[cfg(original)]
    Verb { name: "compare", options: &["--tsv"], done: compare::verb },
];

fn main() -> ExitCode {
    let mut words = std::env::args_os().skip(1);
    let name = words.next().unwrap_or_default();
    let mut desk = Desk::new();
    let outcome = done(&mut desk, &name, words.collect());
    match outcome.and_then(|found| desk.finish().map(|()| found)) {
        Ok(false) => ExitCode::SUCCESS,
        Ok(true) => ExitCode::from(1),
        Err(failure) => {
            desk.fail(failure, &name.to_string_lossy());
            ExitCode::from(2)
        }
    }
}

fn done(desk: &mut Desk, name: &OsString, words: Vec<OsString>) -> Outcome {
    let verb = VERBS.iter().find(|verb| verb.name == name).ok_or_else(|| Failure::trouble(format!("there is no {}", quoted(name))))?;
    (verb.done)(desk, Words::of(words, verb.options)?)
}
