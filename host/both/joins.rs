//! Pairs of lines glued together, read by both sides: what is to come of them is put together from the two sentences, not read.

use crate::asks::Fault;
use crate::lines::{self, Asked};
use crate::runs::{Options, Tally};
use crate::worked::{Happens, WORKED};
use crate::Outcome;
use oracle::cases;
use oracle::draw::Draw;
use sides::answers::{visible, Answer, Buffers, Form, Record, Refusal, FORMS};
use sides::original;
use sides::port::Port;
use std::io;
use std::iter::repeat_n;
use std::str::from_utf8;

/// The most bytes of a line that the port takes.
const LIMIT: usize = 4096;

/// The original, where a part of what it says is wrong.
const ORIGINAL: &str = "the original's";

/// The port, where a part of what it says is wrong.
const PORT: &str = "the port's";

/// Heading of the pairs by what their lines are; a pair counts once, whatever marks it is asked with.
const PAIRS: &str = "pairs";

/// Heading of the glued lines that are to read as their sentences joined, by form and mark.
const JOINED: &str = "joined";

/// Heading of the glued lines whose mark stands behind a lone backslash, by what happens to them.
const LONE: &str = "left out, behind a lone backslash";

/// Heading of the glued lines of which one is empty, by what happens to them.
const EMPTY: &str = "left out, with an empty line";

/// Heading of the glued lines that are too long for the port, by what happens to them.
const LONG: &str = "left out, over 4,096 bytes";

/// Heading of the three lines that are glued from either side, by form.
const THREES: &str = "three lines";

/// Heading of the cases that are worked out by hand, by form.
const CASES: &str = "worked cases";

/// What stands between two lines, and the boundary that it makes: none (0), a word's (1) or an unknown one (2).
type Mark = (&'static str, u8);

/// The marks of a form.
fn marks(form: Form) -> &'static [Mark] {
    match form {
        Form::Raw => &[("", 2)],
        Form::Tokenized => &[(" ", 1)],
        Form::Partial => &[("-", 0), ("|", 1), (" ", 2)],
    }
}

/// The numbers and the buffers of a sentence.
type Sheet = (Record, Buffers);

/// A line that a form takes, with its sentence, and whether it ends behind a lone backslash; or the empty line, which has no sentence.
struct Line {
    text: String,
    sheet: Option<Sheet>,
    lone: bool,
}

impl Line {
    /// The line, where it is empty or the original takes it.
    fn taken(form: Form, line: &[u8]) -> Option<Self> {
        let found = answer(form, line);
        if found.is_none() && !line.is_empty() {
            return None;
        }
        let lone = line.strip_suffix(b"\\").is_some_and(|rest| answer(form, rest) == found);
        Some(Self { text: from_utf8(line).ok()?.into(), sheet: found.map(|answer| (answer.record, answer.buffers)), lone })
    }

    /// Whether another line can be glued behind this one.
    fn is_open(&self) -> bool {
        self.sheet.is_some() && !self.lone
    }
}

/// What the original says of a line that it takes and that is not too long.
fn answer(form: Form, line: &[u8]) -> Option<Answer> {
    let text = from_utf8(line).ok().filter(|text| text.len() <= LIMIT)?;
    original::read(form, text).ok().map(|sentence| original::answered(&sentence))
}

/// Two lines with a mark between them, and what they are joined to.
fn glued(x: &Line, (mark, boundary): Mark, y: &Line) -> Line {
    let sheet = x.sheet.as_ref().zip(y.sheet.as_ref()).map(|(x, y)| joined(x, boundary, y));
    Line { text: [&x.text, mark, &y.text].concat(), sheet, lone: y.lone }
}

/// Two sentences as one, with a boundary between them.
fn joined(x: &Sheet, boundary: u8, y: &Sheet) -> Sheet {
    let (([n, b, x_columns, _, g], before), ([m, c, y_columns, _, h], behind)) = (x, y);
    let columns = *x_columns.max(y_columns);
    let cell_lengths = [padded(x, columns), padded(y, columns)].concat();
    let char_pos = behind.char_pos.iter().skip(1).map(|place| place + *b as u16);
    let byte_pos = behind.byte_pos.iter().skip(1).map(|&number| if number == 0 { 0 } else { number + *n as u16 });
    let buffers = Buffers {
        text: [&before.text[..], &behind.text].concat(),
        types: [&before.types[..], &behind.types].concat(),
        boundaries: [&before.boundaries[..], &[boundary], &behind.boundaries].concat(),
        char_pos: before.char_pos.iter().copied().chain(char_pos).collect(),
        byte_pos: before.byte_pos.iter().copied().chain(byte_pos).collect(),
        cell_starts: starts(&cell_lengths),
        cell_lengths,
        tag_bytes: [&before.tag_bytes[..], &behind.tag_bytes].concat(),
    };
    ([n + m, b + c, columns, (n + m) * columns, g + h], buffers)
}

/// The lengths of the cells of a sentence, each row padded to so many columns.
fn padded(([n, _, own, ..], held): &Sheet, columns: usize) -> Vec<u16> {
    let row = |at| &held.cell_lengths[at * own..(at + 1) * own];
    (0..*n).flat_map(|at| row(at).iter().copied().chain(repeat_n(0, columns - own))).collect()
}

/// Where cells start of which each starts where the one before it ends.
fn starts(lengths: &[u16]) -> Vec<u16> {
    let ends = lengths.iter().scan(0, |end, length| {
        *end += length;
        Some(*end)
    });
    ends.zip(lengths).map(|(end, length)| end - length).collect()
}

/// Asks about pairs of lines; whether no answer differs.
pub fn command(words: &[&str]) -> Outcome {
    let Options { long_run, only, seed } = Options::told("joins", "--pairs", words)?;
    let (mut run, mut draw) = (Run::default(), Draw::new(seed));
    let recorded = if only.is_none() { lines::recorded() } else { vec![] };
    let (drawn, at_limit, rounds) = match only {
        Some(count) => (count, count.div_ceil(500), 1),
        None if long_run => (100_000, 40, 10),
        None => (6_000, 3, 1),
    };
    if only.is_none() {
        run.worked()?;
        FORMS.iter().try_for_each(|&form| run.short(form, long_run))?;
    }
    for form in FORMS {
        run.mixed("recorded", form, &taken(form, &recorded), rounds, &mut draw)?;
        run.mixed("written", form, &written(form, &recorded), rounds, &mut draw)?;
        for _ in 0..at_limit {
            run.at_limit(form, &mut draw)?;
        }
    }
    for at in 0..drawn as usize {
        run.drawn(FORMS[at % 3], &mut draw)?;
    }
    Ok(run.tally.finish()?)
}

/// The lines that a form takes, of some.
fn taken(form: Form, lines: &[Asked]) -> Vec<Line> {
    lines.iter().filter_map(|(_, line)| Line::taken(form, line)).collect()
}

/// The sentences of lines, tokenized or partial, as the original writes them in a form, each once.
fn written(form: Form, lines: &[Asked]) -> Vec<Line> {
    let answers = lines.iter().flat_map(|(_, line)| [Form::Tokenized, Form::Partial].map(|reader| answer(reader, line)));
    let mut written: Vec<Vec<u8>> = answers.flatten().map(|answer| as_written(form, answer)).collect();
    written.sort();
    written.dedup();
    written.iter().filter_map(|line| Line::taken(form, line)).collect()
}

/// A sentence as the original writes it in a form; raw, it is its text.
fn as_written(form: Form, answer: Answer) -> Vec<u8> {
    match form {
        Form::Raw => answer.buffers.text,
        _ => answer.written(form).to_vec(),
    }
}

/// Every short line of a form over a small alphabet, with the empty one.
fn short(form: Form, long_run: bool) -> Vec<Line> {
    let (alphabet, longest): (&[char], usize) = match (form, long_run) {
        (Form::Raw, _) => (&['a', 'あ', ' ', '/', '\\', '-', '|'], 2),
        (Form::Tokenized, false) => (&['あ', ' ', '/', '\\'], 4),
        (Form::Tokenized, true) => (&['a', 'あ', ' ', '/', '\\'], 5),
        (Form::Partial, false) => (&['a', 'あ', ' ', '/', '\\', '-', '|'], 3),
        (Form::Partial, true) => (&['a', 'あ', ' ', '/', '\\', '-', '|'], 4),
    };
    let lines = (0..=longest).flat_map(|length| cases::every(alphabet, length));
    lines.filter_map(|line| Line::taken(form, line.as_bytes())).collect()
}

/// A drawn line that a form takes, or now and then the empty one: whole, damaged, with many columns, as it is written, or with a backslash behind it.
fn drawn(draw: &mut Draw, form: Form) -> Line {
    loop {
        let line = match draw.below(16) {
            0 => vec![],
            1 => lines::wide(draw, 40).1,
            2 => [&lines::drawn(draw).1[..], b"\\"].concat(),
            3..7 => {
                let (reader, line) = (draw.one(&[Form::Tokenized, Form::Partial]), lines::drawn(draw).1);
                answer(reader, &line).map_or(line, |answer| as_written(form, answer))
            }
            _ => lines::drawn(draw).1,
        };
        if let Some(line) = Line::taken(form, &line) {
            return line;
        }
    }
}

/// A drawn line that another can be glued behind.
fn open(draw: &mut Draw, form: Form) -> Line {
    loop {
        let line = drawn(draw, form);
        if line.is_open() {
            return line;
        }
    }
}

/// A line of a form of so many bytes that another can be glued behind: one character of up to four, or drawn parts that are filled up.
fn of_bytes(draw: &mut Draw, form: Form, bytes: usize) -> Line {
    loop {
        let filler = draw.one(&['a', 'é', 'あ', '𠀀']);
        let line = match bytes {
            1..=4 => ["a", "é", "あ", "𠀀"][bytes - 1].into(),
            _ => lines::filled(draw, form, bytes, filler),
        };
        if let Some(line) = Line::taken(form, line.as_bytes()).filter(Line::is_open) {
            return line;
        }
    }
}

/// What a side says of a line.
pub type Said = Result<Answer, Refusal>;

/// What the original says of a line of at most 4,096 bytes.
fn told(form: Form, line: &str) -> Said {
    original::outcome(form, line).map_err(|told| told.refusal)
}

/// A run, and what was asked so far.
struct Run {
    port: Port,
    tally: Tally,
}

impl Default for Run {
    fn default() -> Self {
        Self { port: Port::default(), tally: Tally::new("joins", "pairs", &[PAIRS, JOINED, LONE, EMPTY, LONG, THREES, CASES]) }
    }
}

impl Run {
    /// The cases that are worked out by hand; the original cannot be given bytes that are not UTF-8.
    fn worked(&mut self) -> io::Result<()> {
        for (form, x, mark, y, happens) in WORKED {
            self.tally.count(CASES, form.letter());
            let fault = self.happens(*form, &[*x, mark, y].concat(), happens);
            self.listed(*form, &[x, mark, y], fault)?;
        }
        Ok(())
    }

    /// Both sides say of a line what happens.
    fn happens(&mut self, form: Form, line: &[u8], happens: &Happens) -> Fault {
        let given = self.port.outcome(form, line);
        let Ok(text) = from_utf8(line) else { return happens.is(PORT, &given) };
        let told = told(form, text);
        happens.is(ORIGINAL, &told)?;
        says(PORT, &given, &told)
    }

    /// Every pair of short lines, and every three of at most two characters, or of one in the raw form.
    fn short(&mut self, form: Form, long_run: bool) -> io::Result<()> {
        let lines = short(form, long_run);
        for x in &lines {
            lines.iter().try_for_each(|y| self.pair("short", form, x, y))?;
        }
        let most = if form == Form::Raw { 1 } else { 2 };
        let shortest: Vec<&Line> = lines.iter().filter(|line| line.sheet.is_some() && line.text.chars().count() <= most).collect();
        let open: Vec<&Line> = shortest.iter().copied().filter(|line| line.is_open()).collect();
        for x in &open {
            for y in &open {
                shortest.iter().try_for_each(|z| self.three(form, [x, y, z]))?;
            }
        }
        Ok(())
    }

    /// Each line of a list, so many times, before and behind another one of it.
    fn mixed(&mut self, kind: &str, form: Form, lines: &[Line], rounds: usize, draw: &mut Draw) -> io::Result<()> {
        for line in (0..rounds).flat_map(|_| lines) {
            let (before, behind) = (&lines[draw.below(lines.len())], &lines[draw.below(lines.len())]);
            self.pair(kind, form, before, line)?;
            self.pair(kind, form, line, behind)?;
        }
        Ok(())
    }

    /// A drawn pair, and now and then three lines.
    fn drawn(&mut self, form: Form, draw: &mut Draw) -> io::Result<()> {
        let (x, y) = (drawn(draw, form), drawn(draw, form));
        self.pair("drawn", form, &x, &y)?;
        if draw.below(4) > 0 {
            return Ok(());
        }
        let (x, y, z) = (open(draw, form), open(draw, form), open(draw, form));
        self.three(form, [&x, &y, &z])
    }

    /// Pairs whose glued line has a byte less than 4,096, as many, and a byte more, with the seam at the front, in the middle and at the end.
    fn at_limit(&mut self, form: Form, draw: &mut Draw) -> io::Result<()> {
        let between = marks(form)[0].0.len();
        for (kind, length) in [("of 4,095 bytes", LIMIT - 1), ("of 4,096 bytes", LIMIT), ("of 4,097 bytes", LIMIT + 1)] {
            let bytes = length - between;
            for first in [1 + draw.below(4), 1000 + draw.below(2000), bytes - 1 - draw.below(4)] {
                let (x, y) = (of_bytes(draw, form, first), of_bytes(draw, form, bytes - first));
                self.pair(kind, form, &x, &y)?;
            }
        }
        Ok(())
    }

    /// Asks about two lines with each mark between them.
    fn pair(&mut self, kind: &str, form: Form, x: &Line, y: &Line) -> io::Result<()> {
        self.tally.count(PAIRS, kind);
        for &mark in marks(form) {
            let fault = self.asked(form, x, mark, y);
            self.listed(form, &[x.text.as_bytes(), mark.0.as_bytes(), y.text.as_bytes()], fault)?;
        }
        Ok(())
    }

    /// Asks about three lines with all marks between them. The last one alone may end behind a lone backslash, and none is empty.
    fn three(&mut self, form: Form, lines: [&Line; 3]) -> io::Result<()> {
        self.tally.count(THREES, form.letter());
        for &first in marks(form) {
            for &second in marks(form) {
                let fault = self.either_way(form, lines, [first, second]);
                let [x, y, z] = lines.map(|line| line.text.as_bytes());
                self.listed(form, &[x, first.0.as_bytes(), y, second.0.as_bytes(), z], fault)?;
            }
        }
        Ok(())
    }

    /// Lists what is wrong with a line that was glued together, if something is.
    fn listed(&mut self, form: Form, parts: &[&[u8]], fault: Fault) -> io::Result<()> {
        if let Err(fault) = fault {
            let parts: Vec<String> = parts.iter().map(|part| visible(part)).collect();
            self.tally.differs(format_args!("{} {}: {fault}", form.letter(), parts.join(" ")))?;
        }
        self.tally.progress();
        Ok(())
    }

    /// A glued line reads as its sentences joined on both sides, but for those that are left out: on these both sides say the same.
    fn asked(&mut self, form: Form, x: &Line, mark: Mark, y: &Line) -> Fault {
        let length = x.text.len() + mark.0.len() + y.text.len();
        if length > LIMIT {
            return self.too_long(form, &[&x.text, mark.0, &y.text].concat());
        }
        let line = glued(x, mark, y);
        let told = told(form, &line.text);
        match &line.sheet {
            Some(sheet) if x.lone => {
                self.tally.count(LONE, happened(form, &told, "accepted as something else"));
                apart(ORIGINAL, &told, sheet)?;
            }
            Some(sheet) => {
                self.tally.count(JOINED, format!("{} {}", form.letter(), visible(mark.0.as_bytes())));
                reads(ORIGINAL, &told, sheet)?;
            }
            None => {
                self.tally.count(EMPTY, happened(form, &told, "accepted"));
                beside_nothing(form, &told, x.sheet.as_ref().or(y.sheet.as_ref()))?;
            }
        }
        says(PORT, &self.port.outcome(form, line.text.as_bytes()), &told)
    }

    /// A line that is too long for the port alone.
    fn too_long(&mut self, form: Form, line: &str) -> Fault {
        let given = self.port.outcome(form, line.as_bytes());
        self.tally.count(LONG, happened(form, &given, "accepted"));
        says(PORT, &given, &Err(Refusal { number: 1, place: LIMIT as u64 }))
    }

    /// Three lines glued from the left and from the right are one line, joined to one sentence, and read as it.
    fn either_way(&mut self, form: Form, [x, y, z]: [&Line; 3], [first, second]: [Mark; 2]) -> Fault {
        let (left, right) = (glued(&glued(x, first, y), second, z), glued(x, first, &glued(y, second, z)));
        if left.text != right.text || left.sheet != right.sheet {
            return Err("glued from the left and from the right: not the same".into());
        }
        if left.text.len() > LIMIT {
            return self.too_long(form, &left.text);
        }
        let told = told(form, &left.text);
        left.sheet.map_or(Ok(()), |sheet| reads(ORIGINAL, &told, &sheet))?;
        says(PORT, &self.port.outcome(form, left.text.as_bytes()), &told)
    }
}

/// What happened to a line, by its form.
fn happened(form: Form, said: &Said, accepted: &str) -> String {
    let what = said.as_ref().map_or_else(|refusal| format!("refused by {}", refusal.number), |_| accepted.into());
    format!("{} {what}", form.letter())
}

/// Nothing glued to a raw line leaves it as it is, and nothing alone is refused; what happens in the other forms is counted.
fn beside_nothing(form: Form, told: &Said, other: Option<&Sheet>) -> Fault {
    match (form, other) {
        (Form::Raw, Some(sheet)) => reads(ORIGINAL, told, sheet),
        (Form::Raw, None) => says(ORIGINAL, told, &Err(Refusal { number: 3, place: 0 })),
        _ => Ok(()),
    }
}

/// Whether a side reads a sentence.
fn is_read(said: &Said, (record, buffers): &Sheet) -> bool {
    said.as_ref().is_ok_and(|answer| answer.record == *record && answer.buffers == *buffers)
}

/// A side does not read a sentence.
fn apart(side: &str, said: &Said, sheet: &Sheet) -> Fault {
    match is_read(said, sheet) {
        true => Err(format!("{side} answer: the joined sentence, behind a lone backslash")),
        false => Ok(()),
    }
}

/// A side reads a sentence; tokens and written lines are its own.
fn reads(side: &str, said: &Said, sheet: &Sheet) -> Fault {
    match is_read(said, sheet) {
        true => Ok(()),
        false => accepts(side, said, |wanted| (wanted.record, wanted.buffers) = sheet.clone()),
    }
}

/// A side accepts a line, and what is set in its answer is there already.
pub fn accepts(side: &str, said: &Said, set: impl FnOnce(&mut Answer)) -> Fault {
    let mut wanted = said.clone().map_err(|refusal| format!("{side} answer: {refusal} and not accepts"))?;
    set(&mut wanted);
    says(side, said, &Ok(wanted))
}

/// A side says what it should; the first part that is another is named.
pub fn says(side: &str, given: &Said, wanted: &Said) -> Fault {
    match (given, wanted) {
        _ if given == wanted => Ok(()),
        (Ok(given), Ok(wanted)) => {
            let found = given.parts().into_iter().zip(wanted.parts()).find(|(given, wanted)| given != wanted);
            let ((part, given), (_, wanted)) = found.unwrap_or((("answer", "one".into()), ("answer", "another that looks alike".into())));
            Err(format!("{side} {part}: {} and not {}", clipped(&given, &wanted), clipped(&wanted, &given)))
        }
        _ => Err(format!("{side} answer: {} and not {}", outcome(given), outcome(wanted))),
    }
}

/// So much of a part as is read at a glance, from a little before where it is another than it should be.
fn clipped(part: &str, other: &str) -> String {
    let alike = part.chars().zip(other.chars()).take_while(|(a, b)| a == b).count();
    let from = if part.len().max(other.len()) > 300 { alike.saturating_sub(100) } else { 0 };
    part.chars().skip(from).take(300).collect()
}

/// An answer in a word, or the refusal.
fn outcome(said: &Said) -> String {
    said.as_ref().map_or_else(Refusal::to_string, |_| "accepts".into())
}
