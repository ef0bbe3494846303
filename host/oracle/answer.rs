//! What the original says of a line, written in ASCII; host/README.md has the format.

use vaporetto::errors::Result;
use vaporetto::sentence::inside;
use vaporetto::Sentence;

/// The forms that a line can be read in: raw, tokenized, partial.
pub const FORMS: [char; 3] = ['R', 'T', 'P'];

/// What became of a line.
pub enum Read {
    Accepted(String),
    NotUtf8(usize),
    Refused(String),
}

/// Reads a line in one of the forms.
pub fn read(form: char, line: &str) -> Result<Sentence<'_, '_>> {
    match form {
        'R' => Sentence::from_raw(line),
        'T' => Sentence::from_tokenized(line),
        'P' => Sentence::from_partial_annotation(line),
        _ => panic!("unknown form {form}"),
    }
}

/// Reads a line of bytes and says all that is known of it.
pub fn outcome(form: char, line: &[u8]) -> Read {
    match std::str::from_utf8(line) {
        Err(error) => Read::NotUtf8(error.valid_up_to()),
        Ok(text) => match read(form, text) {
            Ok(sentence) => Read::Accepted(answer(&sentence)),
            Err(error) => Read::Refused(error.to_string()),
        },
    }
}

/// A line's answer as it is recorded.
pub fn recorded(form: char, line: &[u8]) -> String {
    let asked = format!("{form} {}", hex(line));
    match outcome(form, line) {
        Read::Accepted(answer) => format!("{asked} = {answer}"),
        Read::NotUtf8(place) => format!("{asked} ! 2 {place}"),
        Read::Refused(_) => format!("{asked} !"),
    }
}

/// A line's answer with the original's message in it.
pub fn told(form: char, line: &[u8]) -> String {
    match outcome(form, line) {
        Read::Refused(message) => format!("{form} {} ! {message}", hex(line)),
        _ => recorded(form, line),
    }
}

/// All that the original knows of a sentence, in ten fields.
pub fn answer(sentence: &Sentence) -> String {
    let mut tokenized = String::new();
    sentence.write_tokenized_text(&mut tokenized);
    let mut partial = String::new();
    sentence.write_partial_annotation_text(&mut partial);
    let types: Vec<u8> = sentence.char_types().to_vec();
    let boundaries: Vec<u8> = sentence.boundaries().iter().map(|&b| b as u8).collect();
    let tokens = sentence.iter_tokens().map(|t| format!("{}-{}", t.start(), t.end()));
    [
        hex(sentence.as_raw_text().as_bytes()),
        list(types, ""),
        list(boundaries, ""),
        list(inside::char_positions(sentence), ","),
        list(inside::byte_positions(sentence), ","),
        sentence.n_tags().to_string(),
        rows(sentence),
        list(tokens, ","),
        hex(tokenized.as_bytes()),
        hex(partial.as_bytes()),
    ]
    .join(" ")
}

/// The padded table of tags, a row for each character.
fn rows(sentence: &Sentence) -> String {
    if sentence.n_tags() == 0 {
        assert!(sentence.tags().is_empty());
        return ".".into();
    }
    let cell = |tag: &Option<std::borrow::Cow<str>>| tag.as_ref().map_or("-".into(), |t| hex(t.as_bytes()));
    list(sentence.tags().chunks(sentence.n_tags()).map(|row| list(row.iter().map(cell), ",")), ";")
}

/// Values one after the other, a dot where there are none.
pub fn list<T: ToString>(values: impl IntoIterator<Item = T>, between: &str) -> String {
    let words: Vec<String> = values.into_iter().map(|v| v.to_string()).collect();
    if words.is_empty() {
        return ".".into();
    }
    words.join(between)
}

/// Bytes in lowercase hex, a dot where there are none.
pub fn hex(bytes: &[u8]) -> String {
    list(bytes.iter().map(|b| format!("{b:02x}")), "")
}

/// The bytes that `hex` wrote, or none where it wrote no such thing.
pub fn unhex(word: &str) -> Option<Vec<u8>> {
    if word == "." {
        return Some(vec![]);
    }
    if word.is_empty() || word.len() % 2 != 0 || !word.is_ascii() {
        return None;
    }
    (0..word.len() / 2).map(|i| u8::from_str_radix(&word[2 * i..2 * i + 2], 16).ok()).collect()
}
