//! A line for each note: what is written of it, or an empty one where it is refused; with --tsv a row.

use crate::desk::Desk;
use crate::refusals::{shown, Refusals, Refused};
use crate::table::row;
use crate::{Failure, Outcome};

pub struct Writing {
    tsv: bool,
    /// How many cells stand before the note, behind what refuses it.
    more: usize,
    refusals: Refusals,
}

/// The two cells that a row begins with.
type Head<'a> = [&'a [u8]; 2];

impl Writing {
    /// Begins, in a table with its heading.
    pub fn of(desk: &mut Desk, tsv: bool, head: Head, more: &[&[u8]]) -> Result<Self, Failure> {
        if tsv {
            row(desk, &[&head[..], &[b"number", b"place"], more, &[b"note"]].concat())?;
        }
        Ok(Self { tsv, more: more.len(), refusals: Refusals::default() })
    }

    /// What was written of a note, and what is told of it in a table.
    pub fn wrote(&mut self, desk: &mut Desk, head: Head, more: &[&[u8]], note: &[u8]) -> Result<(), Failure> {
        self.refusals.notes += 1;
        match self.tsv {
            true => row(desk, &[&head[..], &[b"", b""], more, &[note]].concat()),
            false => desk.line(note),
        }
    }

    /// What refuses a note, or parts of it: the first is counted, and stands in a table.
    pub fn refused(&mut self, desk: &mut Desk, head: Head, refused: &[Refused]) -> Result<(), Failure> {
        let first = refused[0].refusal;
        self.refusals.notes += 1;
        self.refusals.count(first);
        if self.tsv {
            let (number, place) = (first.number.to_string(), first.place.to_string());
            return row(desk, &[&head[..], &[number.as_bytes(), place.as_bytes()], &vec![&b""[..]; self.more + 1]].concat());
        }
        desk.line(b"")?;
        refused.iter().try_for_each(|part| desk.say(&shown(&part.at, part.bytes, part.refusal)))
    }

    /// How many notes there were.
    pub fn notes(&self) -> u64 {
        self.refusals.notes
    }

    /// Says how many were refused; whether any was.
    pub fn finish(&self, desk: &mut Desk) -> Outcome {
        self.refusals.finish(desk, if self.tsv { "their rows have the number and the place" } else { "each of them is an empty line of the output" })
    }
}
