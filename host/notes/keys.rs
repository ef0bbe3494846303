//! The key of each note with its file and its line, for whoever groups them elsewhere.

use crate::desk::Desk;
use crate::files::{look_at, KEPT};
use crate::refusals::Refusals;
use crate::table::row;
use crate::words::Words;
use crate::Outcome;
use sides::port::Port;

pub fn verb(desk: &mut Desk, words: Words) -> Outcome {
    let tsv = words.has("--tsv");
    let sources = words.sources()?;
    look_at(&sources)?;
    if tsv {
        row(desk, &[b"key", b"file", b"line"])?;
    }
    let (mut port, mut refusals) = (Port::default(), Refusals::default());
    for source in &sources {
        let mut lines = source.lines(KEPT)?;
        while let Some(line) = lines.next(desk)? {
            refusals.notes += 1;
            match port.key(source.form, line.bytes) {
                Ok(key) => row(desk, &[key, source.name.as_encoded_bytes(), line.number.to_string().as_bytes()])?,
                Err(refusal) => refusals.say(desk, source, &line, refusal)?,
            }
        }
    }
    refusals.finish(desk, "they have no key")
}
