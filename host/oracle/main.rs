//! The oracle's program.

use oracle::{answer, asked, lists};
use std::io::{stdin, stdout, BufRead, BufWriter, Write};
use std::process::ExitCode;

const USAGE: &str = "\
usage: oracle < LINES           for each line and each form: the answer, or the original's message
       oracle answers < ASKED   for each line 'F HEX': the answer as it is recorded
       oracle record FOLDER     writes the recorded lists into a folder
host/README.md has the formats. Status 0: done; 2: the words were not understood, or something could not be read or written.
";

fn main() -> ExitCode {
    match command() {
        Ok(status) => status,
        Err(error) => {
            eprintln!("oracle: {error}");
            ExitCode::from(2)
        }
    }
}

fn command() -> std::io::Result<ExitCode> {
    let words: Vec<String> = std::env::args().skip(1).collect();
    let words: Vec<&str> = words.iter().map(String::as_str).collect();
    match words[..] {
        ["--help"] => stdout().write_all(USAGE.as_bytes()),
        [] => each_line(|line| answer::FORMS.map(|form| answer::told(form, line) + "\n").concat()),
        ["answers"] => each_line(|line| asked(line) + "\n"),
        ["record", folder] => lists::write(folder.as_ref()),
        [word, ..] => {
            eprint!("oracle: '{word}' was not understood\n{USAGE}");
            return Ok(ExitCode::from(2));
        }
    }?;
    Ok(ExitCode::SUCCESS)
}

/// Prints what is said of each line of standard input.
fn each_line(say: impl Fn(&[u8]) -> String) -> std::io::Result<()> {
    let mut out = BufWriter::new(stdout().lock());
    for line in stdin().lock().split(b'\n') {
        out.write_all(say(&line?).as_bytes())?;
    }
    out.flush()
}
