//! The recorded lists; host/README.md has their formats.

use crate::answer::{hex, list, outcome, read, Read};
use crate::{acts, answer, cases};
use std::io::{self, stdout, Write};
use std::path::Path;
use vaporetto::CharacterType;

/// Writes every list into a folder.
pub fn write(folder: &Path) -> std::io::Result<()> {
    let named = |path: &Path, error: io::Error| io::Error::new(error.kind(), format!("cannot write {}: {error}", path.display()));
    std::fs::create_dir_all(folder).map_err(|error| named(folder, error))?;
    for (name, lines) in all() {
        let path = folder.join(name);
        std::fs::write(&path, lines.join("\n") + "\n").map_err(|error| named(&path, error))?;
        let bytes: usize = lines.iter().map(|line| line.len() + 1).sum();
        let longest = lines.iter().map(String::len).max().unwrap_or(0);
        writeln!(stdout(), "{name}: {} answers, {bytes} bytes, longest line {longest}", lines.len())?;
    }
    Ok(())
}

/// Every list by its file's name.
pub fn all() -> [(&'static str, Vec<String>); 4] {
    [
        ("answers.txt", cases::answers().iter().map(|(form, line)| answer::recorded(*form, line)).collect()),
        ("long.txt", cases::long().iter().map(|(form, parts)| long(*form, parts)).collect()),
        ("acts.txt", cases::acts().iter().map(|(form, line, act)| acts::recorded(*form, line, act)).collect()),
        ("types.txt", types()),
    ]
}

/// A long line's answer: its parts, then counts and a sum that stand for the fields.
fn long(form: char, parts: &[(&str, usize)]) -> String {
    let asked = format!("{form} {}", list(parts.iter().map(|(part, count)| format!("{}*{count}", hex(part.as_bytes()))), ","));
    let line: String = parts.iter().map(|(part, count)| part.repeat(*count)).collect();
    match outcome(form, line.as_bytes()) {
        Read::Accepted(answer) => {
            let sentence = read(form, &line).unwrap();
            let (characters, bytes) = (sentence.char_types().len(), sentence.as_raw_text().len());
            format!("{asked} = {characters} {bytes} {} {} {}", sentence.n_tags(), answer.len(), sum(answer.as_bytes()))
        }
        _ => format!("{asked} !"),
    }
}

/// A sum of bytes: from 5381, each byte giving 33 times the sum plus the byte, left to wrap at 32 bits.
pub fn sum(bytes: &[u8]) -> u32 {
    bytes.iter().fold(5381, |sum: u32, &byte| sum.wrapping_mul(33).wrapping_add(byte.into()))
}

/// The type of every character, as first number, last number and type of each run of equals.
fn types() -> Vec<String> {
    let mut runs: Vec<(u32, u32, u8)> = vec![];
    for character in '\0'..=char::MAX {
        let (number, kind) = (u32::from(character), CharacterType::get_type(character) as u8);
        match runs.last_mut() {
            Some(run) if run.1 + 1 == number && run.2 == kind => run.1 = number,
            _ => runs.push((number, number, kind)),
        }
    }
    runs.iter().map(|(first, last, kind)| format!("{first} {last} {kind}")).collect()
}
