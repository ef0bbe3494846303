//! Copies of notes with the labels of a range withheld.

use crate::desk::Desk;
use crate::files::{look_at, Lines, Source, KEPT};
use crate::refusals::Refused;
use crate::words::{number, Words};
use crate::writing::Writing;
use crate::{Failure, Outcome};
use sides::answers::visible;
use sides::port::Port;

pub fn verb(desk: &mut Desk, mut words: Words) -> Outcome {
    let tsv = words.has("--tsv");
    let form = words.form("form")?;
    let ranges = words.value("--ranges").map(Source::of_ranges);
    if ranges.is_some() && words.has_numbers() {
        return Err(Failure::Words("--ranges takes the place of START and END: behind the form stands one file at most".into()));
    }
    let range = if ranges.is_none() { (words.number("start")?, words.number("end")?) } else { (0, 0) };
    let source = words.source(form)?;
    if ranges.as_ref().is_some_and(Source::is_standard_input) && source.is_standard_input() {
        return Err(Failure::Words("the notes and the ranges cannot both be standard input: name a file for one of them".into()));
    }
    look_at([&source].into_iter().chain(&ranges))?;
    let mut ranges = ranges.as_ref().map(Ranges::of).transpose()?;
    let (mut port, mut writing) = (Port::default(), Writing::of(desk, tsv, [b"file", b"line"], &[])?);
    let mut lines = source.lines(KEPT)?;
    while let Some(line) = lines.next(desk)? {
        let (start, end) = ranges.as_mut().map_or(Ok(range), |ranges| ranges.next(desk, &source, line.number))?;
        let number = line.number.to_string();
        let head = [source.name.as_encoded_bytes(), number.as_bytes()];
        match port.withheld(form, line.bytes, start, end) {
            Ok(copy) => writing.wrote(desk, head, &[], copy)?,
            Err(refusal) => writing.refused(desk, head, &[Refused::of(&source, &line, refusal)])?,
        }
    }
    ranges.map_or(Ok(()), |ranges| ranges.end(desk, &source, writing.notes()))?;
    writing.finish(desk)
}

/// A file with a range for each note: a start and an end, with a blank or a tab between them.
struct Ranges<'a> {
    from: &'a Source,
    lines: Lines<'a>,
}

impl<'a> Ranges<'a> {
    fn of(from: &'a Source) -> Result<Self, Failure> {
        Ok(Self { from, lines: from.lines(KEPT)? })
    }

    /// The range of a note.
    fn next(&mut self, desk: &mut Desk, notes: &Source, number_of_note: u64) -> Result<(usize, usize), Failure> {
        let Some(line) = self.lines.next(desk)? else {
            return Err(Failure::trouble(format!(
                "{} ends before {} does: it has no range for line {number_of_note}",
                self.from.shown(),
                notes.shown()
            )));
        };
        let words: Option<Vec<usize>> =
            std::str::from_utf8(line.bytes).ok().and_then(|line| line.trim_end_matches('\r').split([' ', '\t']).map(number).collect());
        match words.as_deref() {
            Some(&[start, end]) => Ok((start, end)),
            _ => {
                let said = format!("{}: {} is no range: write two numbers, the start and the end", self.from.at(line.number), visible(line.bytes));
                Err(Failure::trouble(said + ", with a blank between them"))
            }
        }
    }

    /// No range is left over.
    fn end(mut self, desk: &mut Desk, notes: &Source, count: u64) -> Result<(), Failure> {
        match self.lines.next(desk)? {
            None => Ok(()),
            Some(_) => Err(Failure::trouble(format!(
                "{} has more lines than {}, which has {count}: are they of one file?",
                self.from.shown(),
                notes.shown()
            ))),
        }
    }
}
