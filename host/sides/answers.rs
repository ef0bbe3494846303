//! What both sides say of a line, in the shape of document 01's sheet.

/// How a line is read and written; its number is the one that the port takes.
#[derive(Clone, Copy, PartialEq, Eq, Debug)]
pub enum Form {
    Raw = 0,
    Tokenized = 1,
    Partial = 2,
}

pub const FORMS: [Form; 3] = [Form::Raw, Form::Tokenized, Form::Partial];

impl Form {
    pub fn letter(self) -> char {
        ['R', 'T', 'P'][self as usize]
    }

    pub fn name(self) -> &'static str {
        ["raw", "tokenized", "partial"][self as usize]
    }

    /// The form of a letter or of a name.
    pub fn named(name: &str) -> Option<Self> {
        match name {
            "R" | "raw" => Some(Form::Raw),
            "T" | "tokenized" => Some(Form::Tokenized),
            "P" | "partial" => Some(Form::Partial),
            _ => None,
        }
    }
}

/// A refusal as document 01 counts it.
#[derive(Clone, Copy, PartialEq, Eq, Debug)]
pub struct Refusal {
    pub number: u64,
    pub place: u64,
}

impl std::fmt::Display for Refusal {
    fn fmt(&self, f: &mut std::fmt::Formatter) -> std::fmt::Result {
        write!(f, "refuses: {} at {}", self.number, self.place)
    }
}

/// N, B, columns, cells and G.
pub type Record = [usize; 5];

/// The eight buffers of a sheet, each as long as it needs to be.
#[derive(Clone, Default, PartialEq, Debug)]
pub struct Buffers {
    pub text: Vec<u8>,
    pub types: Vec<u8>,
    pub boundaries: Vec<u8>,
    pub char_pos: Vec<u16>,
    pub byte_pos: Vec<u16>,
    pub cell_starts: Vec<u16>,
    pub cell_lengths: Vec<u16>,
    pub tag_bytes: Vec<u8>,
}

impl Buffers {
    /// The length of each buffer.
    pub fn lengths(&self) -> [usize; 8] {
        [
            self.text.len(),
            self.types.len(),
            self.boundaries.len(),
            self.char_pos.len(),
            self.byte_pos.len(),
            self.cell_starts.len(),
            self.cell_lengths.len(),
            self.tag_bytes.len(),
        ]
    }

    /// Buffers of given lengths, all cells alike.
    pub fn filled(lengths: [usize; 8], byte: u8) -> Self {
        let [text, types, boundaries, char_pos, byte_pos, cell_starts, cell_lengths, tag_bytes] = lengths;
        let cell = u16::from_ne_bytes([byte, byte]);
        Self {
            text: vec![byte; text],
            types: vec![byte; types],
            boundaries: vec![byte; boundaries],
            char_pos: vec![cell; char_pos],
            byte_pos: vec![cell; byte_pos],
            cell_starts: vec![cell; cell_starts],
            cell_lengths: vec![cell; cell_lengths],
            tag_bytes: vec![byte; tag_bytes],
        }
    }

    /// The front of each buffer, lent.
    pub fn lend(&mut self, lengths: [usize; 8]) -> Lent<'_> {
        let [text, types, boundaries, char_pos, byte_pos, cell_starts, cell_lengths, tag_bytes] = lengths;
        Lent {
            text: &mut self.text[..text],
            types: &mut self.types[..types],
            boundaries: &mut self.boundaries[..boundaries],
            char_pos: &mut self.char_pos[..char_pos],
            byte_pos: &mut self.byte_pos[..byte_pos],
            cell_starts: &mut self.cell_starts[..cell_starts],
            cell_lengths: &mut self.cell_lengths[..cell_lengths],
            tag_bytes: &mut self.tag_bytes[..tag_bytes],
        }
    }
}

/// Eight lent buffers.
pub struct Lent<'a> {
    pub text: &'a mut [u8],
    pub types: &'a mut [u8],
    pub boundaries: &'a mut [u8],
    pub char_pos: &'a mut [u16],
    pub byte_pos: &'a mut [u16],
    pub cell_starts: &'a mut [u16],
    pub cell_lengths: &'a mut [u16],
    pub tag_bytes: &'a mut [u8],
}

impl Lent<'_> {
    /// Sets every byte.
    pub fn fill(&mut self, byte: u8) {
        let cell = u16::from_ne_bytes([byte, byte]);
        [&mut *self.text, &mut *self.types, &mut *self.boundaries, &mut *self.tag_bytes].into_iter().for_each(|bytes| bytes.fill(byte));
        [&mut *self.char_pos, &mut *self.byte_pos, &mut *self.cell_starts, &mut *self.cell_lengths].into_iter().for_each(|cells| cells.fill(cell));
    }

    /// The name of a buffer that has another byte than this one, if there is such.
    pub fn other_than(&self, byte: u8) -> Option<&'static str> {
        let cell = u16::from_ne_bytes([byte, byte]);
        let bytes = [("text", &*self.text), ("types", &*self.types), ("boundaries", &*self.boundaries), ("tag bytes", &*self.tag_bytes)];
        let ends = [
            ("char positions", &*self.char_pos),
            ("byte positions", &*self.byte_pos),
            ("cell starts", &*self.cell_starts),
            ("cell lengths", &*self.cell_lengths),
        ];
        let byte = bytes.iter().find(|(_, cells)| cells.iter().any(|&b| b != byte));
        byte.map(|(name, _)| *name).or_else(|| ends.iter().find(|(_, cells)| cells.iter().any(|&c| c != cell)).map(|(name, _)| *name))
    }
}

/// The most cells of a line of 4,096 bytes: characters and columns together are at most its bytes.
const CELLS: usize = 2048 * 2048;

/// The lengths that hold the sentence of any line of 4,096 bytes.
pub const AMPLE: [usize; 8] = [4096, 4096, 4096, 4097, 4097, CELLS, CELLS, 4096];

/// The longest line that a line of 4,096 bytes can be written back to.
pub const LONGEST: usize = 2_101_249;

/// All that is known of a sentence that was read; a call on it may have been refused.
#[derive(Clone, PartialEq, Debug)]
pub struct Answer {
    pub record: Record,
    pub buffers: Buffers,
    pub tokens: Result<Vec<[u64; 2]>, Refusal>,
    pub tokenized: Result<Vec<u8>, Refusal>,
    pub partial: Result<Vec<u8>, Refusal>,
}

impl Answer {
    /// The line written in a form.
    pub fn written(&self, form: Form) -> &[u8] {
        let line = if form == Form::Tokenized { &self.tokenized } else { &self.partial };
        line.as_ref().map_or(&[], |line| line)
    }

    /// Each part by its name, made visible.
    pub fn parts(&self) -> [(&'static str, String); 13] {
        let [n, b, columns, cells, g] = self.record;
        let held = &self.buffers;
        [
            ("numbers", format!("N {n}, B {b}, cells {cells}, G {g}")),
            ("columns", columns.to_string()),
            ("text", visible(&held.text)),
            ("types", numbers(&held.types)),
            ("boundaries", numbers(&held.boundaries)),
            ("char positions", numbers(&held.char_pos)),
            ("byte positions", numbers(&held.byte_pos)),
            ("cell starts", numbers(&held.cell_starts)),
            ("cell lengths", numbers(&held.cell_lengths)),
            ("tag bytes", visible(&held.tag_bytes)),
            ("tokens", or_refused(&self.tokens, |tokens| spans(tokens))),
            ("tokenized line", or_refused(&self.tokenized, |line| visible(line))),
            ("partial line", or_refused(&self.partial, |line| visible(line))),
        ]
    }
}

/// A part made visible, or the refusal that stands in its place.
pub fn or_refused<T>(part: &Result<T, Refusal>, show: impl Fn(&T) -> String) -> String {
    part.as_ref().map_or_else(Refusal::to_string, show)
}

/// Tokens as start and end.
fn spans(tokens: &[[u64; 2]]) -> String {
    if tokens.is_empty() {
        return "none".into();
    }
    tokens.iter().map(|[start, end]| format!("{start}-{end}")).collect::<Vec<_>>().join(" ")
}

/// A list of numbers, `none` where there are none.
fn numbers<T: Copy + Into<u64>>(values: &[T]) -> String {
    if values.is_empty() {
        return "none".into();
    }
    values.iter().map(|&v| v.into().to_string()).collect::<Vec<_>>().join(" ")
}

/// Bytes as text in quotes; what cannot be seen stands in angle brackets.
pub fn visible(bytes: &[u8]) -> String {
    format!("'{}'", unquoted(bytes))
}

/// The same without quotes.
pub fn unquoted(bytes: &[u8]) -> String {
    let mut shown = String::new();
    for chunk in bytes.utf8_chunks() {
        shown += &seen(chunk.valid());
        chunk.invalid().iter().for_each(|byte| shown += &format!("<byte {byte:02X}>"));
    }
    shown
}

/// Text in which every character can be seen.
pub fn seen(text: &str) -> String {
    let hidden = |c: char| {
        let formats = ['\u{ad}'..='\u{ad}', '\u{200b}'..='\u{200f}', '\u{202a}'..='\u{202e}', '\u{2060}'..='\u{206f}', '\u{feff}'..='\u{feff}'];
        c.is_control() || c.is_whitespace() && c != ' ' && c != '\u{3000}' || formats.iter().any(|range| range.contains(&c))
    };
    text.chars().map(|c| if hidden(c) { format!("<U+{:04X}>", u32::from(c)) } else { c.into() }).collect()
}
