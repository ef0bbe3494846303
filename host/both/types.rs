//! The types of numbers: what the port's look-up answers, its reader lays down and its check takes, beside the original's types.

use crate::asks::{same, Fault};
use crate::runs::{Options, Tally};
use crate::Outcome;
use oracle::cases::RANGES;
use oracle::draw::Draw;
use sides::answers::{Buffers, Form, Lent, Record, Refusal, AMPLE};
use sides::{original, port};
use std::io;
use vaporetto::CharacterType;

/// Heading of the numbers by what they are.
const NUMBERS: &str = "numbers";

/// Heading of the numbers by their types.
const TYPES: &str = "types";

/// Heading of the lines of many characters.
const LINES: &str = "lines";

/// The first number past all code points.
const PAST: u32 = 0x110000;

/// What document 01 gives a number that is no character.
const OTHER: u8 = 6;

/// The types that a sheet is given of a character: its own, and those that are refused.
const TOLD: [u8; 9] = [0, 1, 2, 3, 4, 5, 6, 7, 255];

/// Asks about numbers; whether no answer differs.
pub fn command(words: &[&str]) -> Outcome {
    let Options { long_run, only, seed } = Options::told("types", "--numbers", words)?;
    let (mut run, mut draw) = (Run::new(), Draw::new(seed));
    if only.is_none() {
        for number in (0..PAST).chain(beyond()) {
            run.number(number)?;
        }
        run.lines()?;
    }
    for _ in 0..only.unwrap_or(200_000) {
        run.number(drawn(&mut draw))?;
    }
    if long_run {
        run.all_beyond()?;
    }
    Ok(run.tally.finish()?)
}

/// The original's type of a character, and Other for what is none.
fn kind(number: u32) -> u8 {
    char::from_u32(number).map_or(OTHER, |c| CharacterType::get_type(c) as u8)
}

/// Numbers past all code points: both ends, both sides of each power of two, those whose low bits are those of a range's end, and every 4,099th.
fn beyond() -> Vec<u32> {
    let powers = (21..32).flat_map(|bits| [(1u32 << bits) - 1, 1 << bits, (1 << bits) + 1]);
    let edges = RANGES.into_iter().flat_map(|(first, last)| [first, last]);
    let alike = edges.flat_map(|edge| (16..32).map(move |bit| edge | 1 << bit).chain((8..32).map(move |bit| !0 << bit | edge)));
    let ends = [PAST, PAST + 1, u32::MAX - 1, u32::MAX].into_iter().chain((PAST..=u32::MAX).step_by(4099));
    let mut all: Vec<u32> = powers.chain(alike).chain(ends).filter(|&number| number >= PAST).collect();
    all.sort();
    all.dedup();
    all
}

/// A drawn number, of any size.
fn drawn(draw: &mut Draw) -> u32 {
    let bits = 1 + draw.below(32);
    draw.below(1 << bits) as u32
}

/// A run, what was asked so far, and the memory that is lent.
struct Run {
    tally: Tally,
    buffers: Buffers,
}

impl Run {
    fn new() -> Self {
        Self { tally: Tally::new("types", "numbers", &[NUMBERS, TYPES, LINES]), buffers: Buffers::filled(AMPLE, 0) }
    }

    /// Asks about a number: the look-up, and where it is a character that a line may have, the reader and the check.
    fn number(&mut self, number: u32) -> io::Result<()> {
        let (wanted, c) = (kind(number), char::from_u32(number));
        let name = match c {
            Some(_) => "characters",
            None if number < PAST => "surrogates",
            None => "past all characters",
        };
        self.tally.count(NUMBERS, name);
        self.tally.count(TYPES, format!("of type {wanted}"));
        let mut asked = same("the look-up", &port::get_type(number), &Ok(wanted.into()));
        if let Some(c) = c.filter(|&c| c != '\0') {
            asked = asked.and_then(|_| self.character(c, wanted));
        }
        if let Err(fault) = asked {
            let c = c.map_or("no character".into(), |c| c.escape_debug().to_string());
            self.tally.differs(format_args!("U+{number:04X} '{c}': {fault}"))?;
        }
        self.tally.progress();
        Ok(())
    }

    /// Asks about the line of one character: its type, and which types the check takes in its sheet.
    fn character(&mut self, c: char, wanted: u8) -> Fault {
        let (record, lent) = self.read(c.encode_utf8(&mut [0; 4]))?;
        same("the reader's type", &lent.types[0], &wanted)?;
        for told in TOLD {
            lent.types[0] = told;
            let taken = if told == wanted { Ok(1) } else { Err(Refusal { number: 13, place: 0 }) };
            same(format_args!("the step on a sheet with type {told}"), &port::next_token(record, &lent, 0, &mut [0; 2]), &taken)?;
        }
        Ok(())
    }

    /// Asks about lines of a thousand characters each, in which every character stands but NUL.
    fn lines(&mut self) -> io::Result<()> {
        let all: Vec<char> = ('\u{1}'..=char::MAX).collect();
        for line in all.chunks(1000).map(|characters| characters.iter().collect::<String>()) {
            self.tally.count(LINES, "of 1,000 characters or the rest");
            if let Err(fault) = self.line(&line) {
                self.tally.differs(format_args!("R '{}': {fault}", line.escape_unicode()))?;
            }
        }
        Ok(())
    }

    /// Asks about a line: the types that both readers lay down, and the check on them.
    fn line(&mut self, line: &str) -> Fault {
        let wanted: Vec<u8> = line.chars().map(|c| kind(c.into())).collect();
        let told = original::outcome(Form::Raw, line).map_err(|told| format!("the original {}", told.refusal))?;
        same("the types of the original's reader", &told.buffers.types, &wanted)?;
        let (record, lent) = self.read(line)?;
        same("the types of the port's reader", &lent.types[..record[0]], &wanted[..])?;
        same("whether the check takes them", &port::next_token(record, &lent, 0, &mut [0; 2]).is_ok(), &true)
    }

    /// Reads a raw line that is to be read, into lent buffers.
    fn read(&mut self, line: &str) -> Result<(Record, Lent<'_>), String> {
        let mut numbers = [0; 5];
        let mut lent = self.buffers.lend(AMPLE);
        same("the reader's answer", &port::read(Form::Raw as u32, line.as_bytes(), &mut lent, &mut numbers), &Ok(0))?;
        Ok((numbers.map(|number| number as usize), lent))
    }

    /// Asks the look-up about every number past all code points.
    fn all_beyond(&mut self) -> io::Result<()> {
        for first in (PAST..=u32::MAX).step_by(1 << 16) {
            let all = first..=first | 0xffff;
            let count = all.clone().count() as u64;
            self.tally.count_many(NUMBERS, "past all characters, one after another", count);
            self.tally.count_many(TYPES, format!("of type {OTHER}"), count);
            for number in all {
                if let Err(fault) = same("the look-up", &port::get_type(number), &Ok(OTHER.into())) {
                    self.tally.differs(format_args!("U+{number:04X} 'no character': {fault}"))?;
                }
            }
            self.tally.progress();
        }
        Ok(())
    }
}
