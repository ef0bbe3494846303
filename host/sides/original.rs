//! What the original says of a line, in the shape of document 01's sheet.

use crate::answers::{Answer, Buffers, Form, Refusal};
use oracle::answer;
use vaporetto::sentence::inside;
use vaporetto::{CharacterBoundary, Sentence};

/// What the original refused, as document 01 counts it, and in its own words.
pub struct Refused {
    pub refusal: Refusal,
    pub message: String,
}

/// Reads a line in a form.
pub fn read(form: Form, line: &str) -> Result<Sentence<'_, '_>, String> {
    answer::read(form.letter(), line).map_err(|error| error.to_string())
}

/// All that the original says of a line of at most 4,096 bytes.
pub fn outcome(form: Form, line: &str) -> Result<Answer, Refused> {
    match read(form, line) {
        Ok(sentence) => Ok(answered(&sentence)),
        Err(message) => {
            let number = number(&message);
            let place = if matches!(number, 3 | 8 | 10) { line.len() } else { place(form, line, &message) };
            Err(Refused { refusal: Refusal { number, place: place as u64 }, message })
        }
    }
}

/// The number that document 01 gives to a message of the original.
fn number(message: &str) -> u64 {
    let numbers = [
        ("must contain at least one character", 3),
        ("must not contain NULL", 4),
        ("must not start with a whitespace", 5),
        ("must not contain consecutive whitespaces", 6),
        ("a slash must follow a character", 7),
        ("must not end with a whitespace", 8),
        ("contains an invalid boundary character", 9),
        ("invalid annotation", 10),
    ];
    numbers.iter().find(|(part, _)| message.contains(part)).expect("a message that document 01 numbers").1
}

/// The byte at which the original stops: the last character of the shortest beginning of the line that it refuses in the same words.
fn place(form: Form, line: &str, message: &str) -> usize {
    let ends: Vec<usize> = line.char_indices().map(|(start, c)| start + c.len_utf8()).collect();
    let whole = ends.partition_point(|&end| read(form, &line[..end]).err().as_deref() != Some(message));
    ends[..whole].last().copied().unwrap_or(0)
}

/// A sentence of the original laid out as document 01 says.
pub fn answered(sentence: &Sentence) -> Answer {
    let (cell_starts, cell_lengths, tag_bytes) = tags(sentence);
    let narrow = |positions: &[usize]| positions.iter().map(|&p| p as u16).collect();
    let buffers = Buffers {
        text: sentence.as_raw_text().into(),
        types: sentence.char_types().to_vec(),
        boundaries: sentence.boundaries().iter().map(|&b| b as u8).collect(),
        char_pos: narrow(inside::char_positions(sentence)),
        byte_pos: narrow(inside::byte_positions(sentence)),
        cell_starts,
        cell_lengths,
        tag_bytes,
    };
    let mut tokenized = String::new();
    sentence.write_tokenized_text(&mut tokenized);
    let mut partial = String::new();
    sentence.write_partial_annotation_text(&mut partial);
    Answer {
        record: [buffers.types.len(), buffers.text.len(), sentence.n_tags(), buffers.cell_lengths.len(), buffers.tag_bytes.len()],
        tokens: Ok(sentence.iter_tokens().map(|t| [t.start() as u64, t.end() as u64]).collect()),
        tokenized: Ok(tokenized.into()),
        partial: Ok(partial.into()),
        buffers,
    }
}

/// The cells of the padded table, row after row: where each starts among the tag bytes, how many it has, and the bytes.
fn tags(sentence: &Sentence) -> (Vec<u16>, Vec<u16>, Vec<u8>) {
    let (mut cell_starts, mut cell_lengths, mut tag_bytes) = (vec![], vec![], vec![]);
    for tag in sentence.tags() {
        let tag = tag.as_ref().map_or("", |tag| tag);
        cell_starts.push(tag_bytes.len() as u16);
        cell_lengths.push(tag.len() as u16);
        tag_bytes.extend(tag.bytes());
    }
    (cell_starts, cell_lengths, tag_bytes)
}

/// A step of the original's token iterator set down at a place: a token or none, and where it stands after.
pub fn next_token(sentence: &Sentence, place: usize) -> (Option<[u64; 2]>, u64) {
    let mut tokens = inside::tokens_from(sentence, place);
    let token = tokens.next().map(|t| [t.start() as u64, t.end() as u64]);
    (token, inside::place(&tokens) as u64)
}

/// The original's partial line of a sentence out of which the labels of the characters from `start` up to `end` are taken, and the columns behind
/// the last that still has a tag.
pub fn withheld(mut sentence: Sentence, start: usize, end: usize) -> Vec<u8> {
    let hidden = start..end;
    for (i, boundary) in sentence.boundaries_mut().iter_mut().enumerate() {
        if hidden.contains(&i) || hidden.contains(&(i + 1)) {
            *boundary = CharacterBoundary::Unknown;
        }
    }
    partial_of(sentence, |char| !hidden.contains(&char))
}

/// The original's partial line of a sentence out of which the columns behind the last that has a tag are taken.
pub fn key(sentence: Sentence) -> Vec<u8> {
    partial_of(sentence, |_| true)
}

/// The original's partial line of a sentence with the tags of some characters alone, and columns up to the last of these tags.
fn partial_of(mut sentence: Sentence, shows: impl Fn(usize) -> bool) -> Vec<u8> {
    let (count, tags) = (sentence.n_tags(), sentence.tags().to_vec());
    let present = tags.into_iter().enumerate().filter_map(|(at, tag)| Some((at / count, at % count, tag?)));
    let kept: Vec<_> = present.filter(|&(char, ..)| shows(char)).collect();
    let columns = kept.iter().map(|(_, column, _)| column + 1).max().unwrap_or(0);
    sentence.reset_tags(columns);
    for (char, column, tag) in kept {
        sentence.tags_mut()[char * columns + column] = Some(tag);
    }
    let mut line = String::new();
    sentence.write_partial_annotation_text(&mut line);
    line.into()
}
