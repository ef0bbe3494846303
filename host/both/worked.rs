//! Lines glued together, and what happens to each, worked out by hand.

use crate::asks::Fault;
use crate::joins::{accepts, says, Said};
use sides::answers::{Form, Refusal};
use Form::{Partial, Raw, Tokenized};
use Happens::{Reads, Refused};

/// What happens to a line.
pub enum Happens {
    /// The number and the place of its refusal.
    Refused(u64, u64),
    /// Its text, boundaries, columns and tag bytes, and how it is written, tokenized and partial.
    Reads(&'static str, &'static [u8], usize, &'static str, &'static str, &'static str),
}

/// A line, what stands behind it, another line, and what happens to the three as one.
pub type Case = (Form, &'static [u8], &'static [u8], &'static [u8], Happens);

/// The cases. The empty line and the mark that is none stand in some of them, and so do halves of a character.
pub const WORKED: &[Case] = &[
    // Behind a lone backslash the mark is a character, or a part of a tag.
    (Tokenized, br"a\", b" ", b"b", Reads("a b", &[0, 0], 0, "", r"a\ b", "a- -b")),
    (Tokenized, br"a/x\", b" ", b"b", Reads("a", &[], 1, "x b", r"a/x\ b", r"a/x\ b")),
    (Tokenized, br"a\", b" ", b"", Reads("a ", &[0], 0, "", r"a\ ", "a- ")),
    (Partial, br"a\", b"|", b"b", Refused(9, 2)),
    (Partial, br"a/x\", b"|", b"b", Reads("a", &[], 1, "x|b", "a/x|b", r"a/x\|b")),
    (Partial, br"a/x\", b"|", b"-", Refused(10, 6)),
    // Behind a backslash that is not alone it is a mark.
    (Tokenized, br"a\\", b" ", b"b", Reads(r"a\b", &[0, 1], 0, "", r"a\\ b", r"a-\|b")),
    (Partial, br"\", b"|", b"b", Reads(r"\b", &[1], 0, "", r"\\ b", r"\|b")),
    (Partial, br"a|\", b"-", b"b", Reads(r"a\b", &[1, 0], 0, "", r"a \\b", r"a|\-b")),
    // Beside the empty line.
    (Raw, b"", b"", b"b", Reads("b", &[], 0, "", "b", "b")),
    (Tokenized, b"", b" ", b"b", Refused(5, 0)),
    (Tokenized, b"a", b" ", b"", Refused(8, 2)),
    (Partial, b"", b"|", b"b", Refused(9, 1)),
    (Partial, b"", b"|", b"/", Reads("|", &[], 1, "", "|/", "|/")),
    (Partial, b"a", b"|", b"", Refused(10, 2)),
    // Joined.
    (Raw, b"a", b"", b"b", Reads("ab", &[2], 0, "", "", "a b")),
    (Tokenized, b"a/x", b" ", b"b", Reads("ab", &[1], 1, "x", "a/x b/", "a/x|b/")),
    // With what is no mark of the form.
    (Tokenized, b"a/x", b"", b"b", Reads("a", &[], 1, "xb", "a/xb", "a/xb")),
    (Tokenized, b"a", b"  ", b"b", Refused(6, 2)),
    (Tokenized, b"a", b"\t", b"b", Reads("a\tb", &[0, 0], 0, "", "a\tb", "a-\t-b")),
    (Raw, b"a", b" ", b"b", Reads("a b", &[2, 2], 0, "", "", "a   b")),
    // Lines of another form, and one that ends in CR.
    (Tokenized, b"a-b", b" ", b"c", Reads("a-bc", &[0, 0, 1], 0, "", "a-b c", "a---b|c")),
    (Partial, b"ab", b"|", b"c", Refused(9, 1)),
    (Tokenized, b"a\r", b" ", b"b", Reads("a\rb", &[0, 1], 0, "", "a\r b", "a-\r|b")),
    // Halves of a character.
    (Raw, b"\xe3", b"", b"", Refused(2, 0)),
    (Raw, b"\x81\x82", b"", b"", Refused(2, 0)),
    (Raw, b"\xe3", b"", b"\x81\x82", Reads("あ", &[], 0, "", "あ", "あ")),
];

impl Happens {
    /// What a side says is what happens.
    pub fn is(&self, side: &str, said: &Said) -> Fault {
        match *self {
            Refused(number, place) => says(side, said, &Err(Refusal { number, place })),
            Reads(text, boundaries, columns, tags, tokenized, partial) => accepts(side, said, |wanted| {
                let n = boundaries.len() + 1;
                wanted.record = [n, text.len(), columns, n * columns, tags.len()];
                wanted.buffers.text = text.into();
                wanted.buffers.boundaries = boundaries.into();
                wanted.buffers.tag_bytes = tags.into();
                wanted.tokenized = Ok(tokenized.into());
                wanted.partial = Ok(partial.into());
            }),
        }
    }
}
