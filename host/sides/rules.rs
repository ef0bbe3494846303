//! Document 01's refusals once more, with those that document 02 adds, written from their text and not from the original.

use crate::answers::{Form, Lent, Record, Refusal};
use vaporetto::CharacterType;

/// The refusal of a line, if there is one, wherever there is room enough.
pub fn refusal(form: Form, line: &[u8]) -> Option<Refusal> {
    if line.len() > 4096 {
        return Some(Refusal { number: 1, place: 4096 });
    }
    let found = match std::str::from_utf8(line) {
        Err(error) => Some((2, error.valid_up_to())),
        Ok(text) => match form {
            Form::Raw => raw(text),
            Form::Tokenized => tokenized(text),
            Form::Partial => partial(text),
        },
    };
    found.map(|(number, place)| Refusal { number, place: place as u64 })
}

/// All characters, none NUL, at least one.
fn raw(line: &str) -> Option<(u64, usize)> {
    line.find('\0').map(|place| (4, place)).or(line.is_empty().then_some((3, 0)))
}

/// A space before any text (5) or after a space (6), a slash before text or right after a space (7), a space at the end (8).
fn tokenized(line: &str) -> Option<(u64, usize)> {
    let (mut any, mut after_space, mut escaped) = (false, false, false);
    for (place, c) in line.char_indices() {
        match (c, escaped) {
            ('\0', _) => return Some((4, place)),
            ('\\', false) => escaped = true,
            (' ', false) if !any => return Some((5, place)),
            (' ', false) if after_space => return Some((6, place)),
            (' ', false) => after_space = true,
            ('/', false) if !any || after_space => return Some((7, place)),
            _ => (any, after_space, escaped) = (true, false, false),
        }
    }
    match (any, after_space) {
        (false, _) => Some((3, line.len())),
        (true, true) => Some((8, line.len())),
        (true, false) => None,
    }
}

/// Where a line of the partial form stands.
#[derive(PartialEq)]
enum Awaits {
    First,
    Character,
    Mark,
    MarkOrTag,
}

/// A character taken literally, tags, a mark: a bad mark (9), a line that ends after a mark (10).
fn partial(line: &str) -> Option<(u64, usize)> {
    let (mut awaits, mut escaped) = (Awaits::First, false);
    for (place, c) in line.char_indices() {
        let literal = awaits == Awaits::First || awaits == Awaits::Character;
        match (c, escaped) {
            ('\0', _) => return Some((4, place)),
            _ if literal => awaits = Awaits::Mark,
            ('\\', false) => escaped = true,
            (' ' | '-' | '|', false) => awaits = Awaits::Character,
            ('/', false) => awaits = Awaits::MarkOrTag,
            _ if awaits == Awaits::Mark => return Some((9, place)),
            _ => escaped = false,
        }
    }
    match awaits {
        Awaits::First => Some((3, line.len())),
        Awaits::Character => Some((10, line.len())),
        _ => None,
    }
}

/// Whether a sentence has more cells than the conversion and `respell` hold: they refuse it by 11, after all refusals of the line and before 12.
pub fn is_too_wide([n, _, columns, ..]: Record) -> bool {
    n * columns > 2048
}

/// Whether a record and buffers are a sentence as it is laid out, within the limits.
pub fn is_sheet([n, b, columns, cells, g]: Record, lent: &Lent) -> bool {
    let limits = n >= 1 && b <= 4096 && n <= b && columns <= 4096 && cells == n * columns && g <= 65535;
    limits
        && lent.text.len() >= b
        && lent.types.len() >= n
        && lent.boundaries.len() >= n - 1
        && lent.char_pos.len() > n
        && lent.byte_pos.len() > b
        && lent.cell_starts.len() >= cells
        && lent.cell_lengths.len() >= cells
        && lent.tag_bytes.len() >= g
        && characters(n, b, lent)
        && lent.boundaries[..n - 1].iter().all(|&mark| mark <= 2)
        && tags(&lent.cell_starts[..cells], &lent.cell_lengths[..cells], &lent.tag_bytes[..g])
}

/// The text, its types and its two position maps.
fn characters(n: usize, b: usize, lent: &Lent) -> bool {
    let Some(text) = clean(&lent.text[..b]) else { return false };
    let starts: Vec<usize> = text.char_indices().map(|(start, _)| start).chain([b]).collect();
    let mut numbers = vec![0; b + 1];
    starts.iter().enumerate().for_each(|(number, &start)| numbers[start] = number as u16);
    starts.len() == n + 1
        && text.chars().zip(&lent.types[..n]).all(|(c, &kind)| CharacterType::get_type(c) as u8 == kind)
        && starts.iter().zip(&lent.char_pos[..n + 1]).all(|(&start, &position)| start == position as usize)
        && numbers == lent.byte_pos[..b + 1]
}

/// Cells that run through the tag bytes: each starts where the one before it ends, and the last ends where they end.
fn tags(starts: &[u16], lengths: &[u16], bytes: &[u8]) -> bool {
    let mut at = 0;
    for (&start, &length) in starts.iter().zip(lengths) {
        let end = at + length as usize;
        if start as usize != at || end > bytes.len() || clean(&bytes[at..end]).is_none() {
            return false;
        }
        at = end;
    }
    at == bytes.len()
}

/// Bytes as text, where they are UTF-8 without NUL.
fn clean(bytes: &[u8]) -> Option<&str> {
    std::str::from_utf8(bytes).ok().filter(|text| !text.contains('\0'))
}
