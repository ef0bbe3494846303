//! Many notes, and the job of finding duplicates among them as the original has it done: what notes.sh duplicates is measured beside.

use crate::{bench, number, Failure, Outcome};
use oracle::draw::Draw;
use sides::answers::Form;
use std::fs::read_to_string;
use std::io::{stdout, BufWriter, Write};
use vaporetto::Sentence;

/// Prints drawn notes; one in a hundred is the one before it with a column more.
pub fn notes(words: &[&str]) -> Outcome {
    let (count, seed) = match words {
        [count] => (count, 1),
        [count, "--seed", seed] => (count, number("--seed", Some(seed))?),
        _ => return Err(Failure::Usage("notes takes a number of notes, and --seed with another".into())),
    };
    let (mut draw, mut out) = (Draw::new(seed), BufWriter::new(stdout()));
    let mut line = bench::line(&mut draw, Form::Tokenized, true, 20, 400);
    for _ in 0..number("notes", Some(count))? {
        match draw.below(100) {
            0 => line += "/",
            _ => line = bench::line(&mut draw, Form::Tokenized, true, 20, 400),
        }
        writeln!(out, "{line}")?;
    }
    out.flush()?;
    Ok(true)
}

/// Prints the notes of a file that are written to the same partial line, with their numbers.
pub fn duplicates(words: &[&str]) -> Outcome {
    let [file] = words else { return Err(Failure::Usage("duplicates takes one file of tokenized notes".into())) };
    let text = read_to_string(file).map_err(|error| Failure::Trouble(format!("cannot read {file}: {error}")))?;
    let (mut sentence, mut written) = (Sentence::default(), vec![]);
    for (at, line) in text.lines().enumerate() {
        if sentence.update_tokenized(line).is_ok() {
            let mut partial = String::new();
            sentence.write_partial_annotation_text(&mut partial);
            written.push((partial, at + 1));
        }
    }
    written.sort_unstable();
    let mut out = BufWriter::new(stdout());
    for group in written.chunk_by(|(a, _), (b, _)| a == b).filter(|group| group.len() > 1) {
        group.iter().try_for_each(|(partial, at)| writeln!(out, "{file}:{at}: {partial}"))?;
    }
    out.flush()?;
    Ok(true)
}
