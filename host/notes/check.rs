//! The notes that are refused, counted by number.

use crate::desk::Desk;
use crate::files::{look_at, KEPT};
use crate::refusals::{shown, words, Refusals};
use crate::table::row;
use crate::words::Words;
use crate::Outcome;
use sides::port::Port;

pub fn verb(desk: &mut Desk, given: Words) -> Outcome {
    let tsv = given.has("--tsv");
    let sources = given.sources()?;
    look_at(&sources)?;
    if tsv {
        row(desk, &[b"file", b"line", b"number", b"place", b"refused", b"note"])?;
    }
    let (mut port, mut refusals) = (Port::default(), Refusals::default());
    for source in &sources {
        let mut lines = source.lines(KEPT)?;
        while let Some(line) = lines.next(desk)? {
            refusals.notes += 1;
            let Some(refusal) = port.refusal(source.form, line.bytes) else { continue };
            refusals.count(refusal);
            if tsv {
                let [at, number, place] = [line.number, refusal.number, refusal.place].map(|number| number.to_string());
                let cells = [at.as_bytes(), number.as_bytes(), place.as_bytes(), words(refusal.number).0.as_bytes(), line.bytes];
                row(desk, &[&[source.name.as_encoded_bytes()], &cells[..]].concat())?;
            } else {
                desk.line(shown(&source.at(line.number), line.bytes, refusal).as_bytes())?;
            }
        }
    }
    if refusals.total() > 0 {
        let told = format!("{}\n{}", refusals.told(), refusals.by_number().collect::<Vec<_>>().join("\n"));
        if tsv {
            desk.tell(&told)?
        } else {
            desk.line(format!("\n{told}").as_bytes())?
        }
    }
    Ok(refusals.total() > 0)
}
