//! What refuses a note, in words, and where.

use crate::desk::Desk;
use crate::files::{counted, grouped, Line, Source};
use crate::width::width;
use crate::{Failure, Outcome};
use sides::answers::{seen, Refusal};
use std::collections::BTreeMap;

/// How wide a shown line is at most, and how much of that stands before the place.
const WIDE: usize = 76;
const BEFORE: usize = 50;

/// How many notes were met, and how many of them were refused, by number.
#[derive(Default)]
pub struct Refusals {
    pub notes: u64,
    numbers: BTreeMap<u64, u64>,
}

impl Refusals {
    /// Counts a note that is refused.
    pub fn count(&mut self, refusal: Refusal) {
        *self.numbers.entry(refusal.number).or_default() += 1;
    }

    /// Counts it, and says what refuses it, and where.
    pub fn say(&mut self, desk: &mut Desk, source: &Source, line: &Line, refusal: Refusal) -> Result<(), Failure> {
        self.count(refusal);
        desk.say(&shown(&source.at(line.number), line.bytes, refusal))
    }

    /// How many were refused.
    pub fn total(&self) -> u64 {
        self.numbers.values().sum()
    }

    /// How many were refused, of how many.
    pub fn told(&self) -> String {
        format!("{} of {} refused", grouped(self.total()), counted(self.notes, "note"))
    }

    /// A line for each number: how many, in words, and what to do.
    pub fn by_number(&self) -> impl Iterator<Item = String> + '_ {
        self.numbers.iter().map(|(&number, &count)| {
            let (words, advice) = words(number);
            format!("  {} by {number}, {words}: {advice}", grouped(count))
        })
    }

    /// Says how many were refused, and what became of them; whether any was.
    pub fn finish(&self, desk: &mut Desk, became: &str) -> Outcome {
        if self.total() > 0 {
            desk.tell(&format!("{}: {became}", self.told()))?;
        }
        Ok(self.total() > 0)
    }
}

/// A note that is refused, or a part of one: where it stands, its bytes, and what refuses it.
pub struct Refused<'a> {
    pub at: String,
    pub bytes: &'a [u8],
    pub refusal: Refusal,
}

impl<'a> Refused<'a> {
    /// A line of a file.
    pub fn of(source: &Source, line: &Line<'a>, refusal: Refusal) -> Self {
        Self { at: source.at(line.number), bytes: line.bytes, refusal }
    }
}

/// A refusal's words, and what to do; README.md has the same.
pub fn words(number: u64) -> (&'static str, &'static str) {
    match number {
        1 => ("a note over 4,096 bytes", "split the note"),
        2 => ("not UTF-8", "save the file as UTF-8, or mend the byte there"),
        3 => ("no character", "take the line out"),
        4 => ("NUL", "delete it"),
        5 => ("a space before any text", "delete it, or put a backslash before it if it is text"),
        6 => ("a space after a space", "delete it, or put a backslash before it if it is text"),
        7 => ("a slash where a token should begin", "put the tag behind a text, or a backslash before a slash that is text"),
        8 => ("a space at the end", "delete it"),
        9 => ("no mark where one should be", "put -, | or a blank there; a tokenized note read as partial ends so too"),
        10 => ("a mark at the end", "delete it"),
        14 => ("a range that is not in the note", "give a start that is not past the end, and an end that is not past the note's characters"),
        _ => ("a refusal that no file of notes should meet", "report it with the line: it is a fault of this tool"),
    }
}

/// Whether the place is a byte of the note.
fn is_of_note(number: u64) -> bool {
    number <= 10
}

/// A refusal with its line, and a caret under the place.
pub fn shown(at: &str, line: &[u8], Refusal { number, place }: Refusal) -> String {
    let said = format!("{at}: {number} at {place}: {}", words(number).0);
    let place = is_of_note(number).then(|| place.min(line.len() as u64) as usize);
    let (shown, before) = window(&pieces(line), place.unwrap_or(0));
    let caret = if place.is_some() { format!("\n    {}^", " ".repeat(before)) } else { String::new() };
    format!("{said}\n    {shown}{caret}")
}

/// A character of a line, or a byte that is none: where it ends, how it is shown, and how wide that is.
struct Piece {
    end: usize,
    shown: String,
    width: usize,
}

fn pieces(line: &[u8]) -> Vec<Piece> {
    let (mut pieces, mut end) = (vec![], 0);
    for chunk in line.utf8_chunks() {
        for c in chunk.valid().chars() {
            let shown = seen(c.encode_utf8(&mut [0; 4]));
            let width = if shown.chars().eq([c]) { width(c) } else { shown.len() };
            end += c.len_utf8();
            pieces.push(Piece { end, shown, width });
        }
        for byte in chunk.invalid() {
            let shown = format!("<byte {byte:02X}>");
            end += 1;
            pieces.push(Piece { end, width: shown.len(), shown });
        }
    }
    pieces
}

/// So much of a line as fits around the piece that holds a byte, and how wide what stands before that piece is.
fn window(pieces: &[Piece], place: usize) -> (String, usize) {
    let at = pieces.iter().position(|piece| piece.end > place).unwrap_or(pieces.len());
    let wide = |pieces: &[Piece]| pieces.iter().map(|piece| piece.width).sum::<usize>();
    let (mut first, mut last) = (0, pieces.len());
    if wide(pieces) > WIDE {
        while wide(&pieces[first..at]) > BEFORE {
            first += 1;
        }
        while last > at + 1 && wide(&pieces[first..last]) > WIDE {
            last -= 1;
        }
    }
    let (front, back) = (if first > 0 { "…" } else { "" }, if last < pieces.len() { "…" } else { "" });
    let shown: String = pieces[first..last].iter().map(|piece| piece.shown.as_str()).collect();
    (format!("{front}{shown}{back}"), front.chars().count() + wide(&pieces[first..at]))
}
