//! Makes wrong, of the port's answers, what the environment's `SPOIL` names: the call and the part, as `reader: text`. Only the build that tests
//! the reports has it.

use crate::answers::{Form, Lent, Refusal};
use std::sync::OnceLock;

type Given = Result<u64, Refusal>;

/// The part that is to be made wrong of a call, or nothing.
fn part_of(call: &str) -> &'static str {
    static NAMED: OnceLock<String> = OnceLock::new();
    let named = NAMED.get_or_init(|| std::env::var("SPOIL").unwrap_or_default());
    named.strip_prefix(call).and_then(|rest| rest.strip_prefix(": ")).unwrap_or("")
}

/// The answer made wrong: refused where it is not, counted on, or a refusal with another number or place, of all refusals or of one.
fn answer(part: &str, given: Given) -> Given {
    match given {
        Ok(_) if part == "refuses" => Err(Refusal { number: 3, place: 0 }),
        Ok(answer) if part == "answer" => Ok(answer + 1),
        Err(Refusal { number, place }) if part == "number" || part == format!("number {number}") => Err(Refusal { number: number + 1, place }),
        Err(Refusal { number, place }) if part == "place" || part == format!("place {number}") => Err(Refusal { number, place: place + 1 }),
        Err(Refusal { number, .. }) if part == format!("accepts {number}") => Ok(0),
        _ => given,
    }
}

/// Changes a cell, where there is one.
fn touch<T: Touched>(cells: &mut [T], at: usize) {
    cells.iter_mut().skip(at).take(1).for_each(T::touch);
}

/// Changes the cell behind those that were lent, as a port that overruns its room would. `check` lends memory that goes on.
fn overrun<T: Touched>(cells: &mut [T]) {
    unsafe { T::touch(&mut *cells.as_mut_ptr().add(cells.len())) }
}

/// Changes the first cell of memory that is lent to be read.
fn scribble(lent: &Lent) {
    unsafe { *lent.text.as_ptr().cast_mut() ^= 1 }
}

/// A cell that can be changed.
trait Touched {
    fn touch(&mut self);
}

impl Touched for u8 {
    fn touch(&mut self) {
        *self ^= 1;
    }
}

impl Touched for u16 {
    fn touch(&mut self) {
        *self = self.wrapping_add(1);
    }
}

impl Touched for u64 {
    fn touch(&mut self) {
        *self += 1;
    }
}

pub fn get_type(given: Given, number: u32) -> Given {
    let part = part_of("look-up");
    match (part, number) {
        ("one number", 0x30fb) => Ok(4),
        ("one number past the blocks", 0x2ceb0) => Ok(5),
        ("surrogates", 0xd800..=0xdfff) | ("numbers past all characters", 0x110000..) => Ok(5),
        ("low bits alone", _) => Ok(unsafe { super::exported::ighdelmur_get_type(number % 0x10000) }),
        ("the next number", _) => Ok(unsafe { super::exported::ighdelmur_get_type(number ^ 1) }),
        _ => answer(part, given),
    }
}

pub fn convert(given: Given, out: &mut [u8], at: usize) -> Given {
    let part = part_of("conversion");
    match (given, part) {
        (Ok(end), "line") if end as usize > at => touch(out, at),
        (Ok(_), "before") if at > 0 => touch(out, at - 1),
        (Ok(end), "behind") => touch(out, end as usize),
        (Ok(_), "overrun") => overrun(out),
        (Err(_), "memory where refused") => touch(out, at),
        _ => {}
    }
    answer(part, given)
}

pub fn read(given: Given, lent: &mut Lent, numbers: &mut [u64]) -> Given {
    let part = part_of("reader");
    let bytes = [("text", &mut *lent.text), ("types", &mut *lent.types), ("boundaries", &mut *lent.boundaries), ("tag bytes", &mut *lent.tag_bytes)];
    let ends = [
        ("char positions", &mut *lent.char_pos),
        ("byte positions", &mut *lent.byte_pos),
        ("cell starts", &mut *lent.cell_starts),
        ("cell lengths", &mut *lent.cell_lengths),
    ];
    if given.is_err() {
        bytes.into_iter().filter(|(name, _)| part == format!("{name} where refused")).for_each(|(_, cells)| touch(cells, 0));
        ends.into_iter().filter(|(name, _)| part == format!("{name} where refused")).for_each(|(_, cells)| touch(cells, 0));
        touch(numbers, if part == "numbers where refused" { 0 } else { usize::MAX });
        return answer(part, given);
    }
    let [n, b, columns, cells, g] = [0, 1, 2, 3, 4].map(|i| numbers[i] as usize);
    for ((name, cells), length) in bytes.into_iter().zip([b, n, n.saturating_sub(1), g]) {
        spoiled(part, name, cells, length);
    }
    for ((name, cells), length) in ends.into_iter().zip([n + 1, b + 1, cells, cells]) {
        spoiled(part, name, cells, length);
    }
    let names = ["N", "B", "columns", "cells", "G", "number behind"];
    names.iter().position(|name| part == *name).into_iter().for_each(|at| touch(numbers, at));
    let (starts, lengths) = (&mut lent.cell_starts[..cells], &mut lent.cell_lengths[..cells]);
    match part {
        "starts of absent tags" => starts.iter_mut().zip(&*lengths).filter(|(_, &length)| length == 0).for_each(|(start, _)| *start = 0),
        "starts in their rows" => starts.chunks_mut(columns.max(1)).for_each(from_the_first),
        "ends for lengths" => lengths.iter_mut().zip(&*starts).for_each(|(length, start)| *length += start),
        "lengths of the next cells" if cells > 0 => lengths.rotate_left(1),
        "listed tags for cells" => numbers[3] = lengths.chunks(columns.max(1)).map(listed).sum(),
        _ => {}
    }
    answer(part, given)
}

/// Counts the starts of a row from its first one on.
fn from_the_first(row: &mut [u16]) {
    let first = row[0];
    row.iter_mut().for_each(|start| *start -= first);
}

/// How many cells a row has up to its last present tag.
fn listed(lengths: &[u16]) -> u64 {
    lengths.iter().rposition(|&length| length > 0).map_or(0, |last| last as u64 + 1)
}

/// Makes a buffer wrong that holds so many cells: its first, its last, the one behind them, or the one behind what was lent.
fn spoiled<T: Touched>(part: &str, name: &str, cells: &mut [T], length: usize) {
    match part.strip_suffix(name) {
        Some("") => touch(cells, 0),
        Some("last of ") if length > 0 => touch(cells, length - 1),
        Some("behind ") => touch(cells, length),
        Some("overrun ") => overrun(cells),
        _ => {}
    }
}

pub fn write(given: Given, form: u32, lent: &Lent, out: &mut [u8]) -> Given {
    let part = part_of("writer");
    let tokenized = form == Form::Tokenized as u32;
    match (given, part) {
        (Ok(1..), "tokenized line") if tokenized => touch(out, 0),
        (Ok(1..), "partial line") if !tokenized => touch(out, 0),
        _ => around(part, given, lent, out),
    }
    answer(part, given)
}

pub fn withhold(given: Given, lent: &Lent, out: &mut [u8]) -> Given {
    copied("copy", given, lent, out)
}

pub fn key(given: Given, lent: &Lent, out: &mut [u8]) -> Given {
    copied("key", given, lent, out)
}

/// Makes wrong a call that writes one line, which is never empty.
fn copied(call: &str, given: Given, lent: &Lent, out: &mut [u8]) -> Given {
    let part = part_of(call);
    match (given, part) {
        (Ok(_), "line") => touch(out, 0),
        _ => around(part, given, lent, out),
    }
    answer(part, given)
}

/// Makes wrong what a writer is to leave alone.
fn around(part: &str, given: Given, lent: &Lent, out: &mut [u8]) {
    match (given, part) {
        (Ok(length), "behind") => touch(out, length as usize),
        (Ok(_), "overrun") => overrun(out),
        (Ok(_), "sheet") => scribble(lent),
        (Err(_), "memory where refused") => touch(out, 0),
        _ => {}
    }
}

pub fn next_token(given: Given, n: usize, p: usize, lent: &Lent, span: &mut [u64]) -> Given {
    let part = part_of("step");
    match (given, part) {
        (Ok(1), "start") => touch(span, 0),
        (Ok(1), "end") => touch(span, 1),
        (Ok(0), "cursor") => touch(span, 0),
        (Ok(0), "cursor past the end") if p > n => touch(span, 0),
        (Ok(0), "second where done") => touch(span, 1),
        (Ok(_), "number behind") => touch(span, 2),
        (Ok(0), "sheet") => scribble(lent),
        (Err(_), "span where refused") => touch(span, 0),
        _ => {}
    }
    answer(part, given)
}
