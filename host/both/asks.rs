//! Each of the port's calls, asked with what it should answer at hand. Lent memory that is to be left alone is looked at too.

use oracle::draw::Draw;
use sides::answers::{Answer, Buffers, Form, Record, Refusal, AMPLE, LONGEST};
use sides::original;
use sides::port::{self, LONGEST_OUTPUT};
use sides::rules;
use std::fmt::{Debug, Display};

/// What a call on the port said that it should not have said.
pub type Fault = Result<(), String>;

/// What every lent byte holds before it is written.
const UNTOUCHED: u8 = 0xa5;

/// How many cells are looked at past those that are to be written.
const MARGIN: usize = 8;

/// What is asked of a copy in two places.
const NO_RANGE: &str = "the copy's answer to a range that is none";

/// The memory that is lent, and chance for the rest.
pub struct Asks {
    draw: Draw,
    buffers: Buffers,
    out: Vec<u8>,
}

impl Asks {
    pub fn new(seed: u64) -> Self {
        Self {
            draw: Draw::new(seed),
            buffers: Buffers::filled(AMPLE.map(|length| length + 2 * MARGIN), UNTOUCHED),
            out: vec![UNTOUCHED; LONGEST + 2 * MARGIN],
        }
    }

    /// Every call on a line that should be answered so.
    pub fn line(&mut self, form: Form, line: &[u8], expected: &Result<Answer, Refusal>) -> Fault {
        self.convert(form, line, expected)?;
        if self.draw.below(16) == 0 {
            self.out_of_range(form, line)?;
        }
        let answer = match expected {
            Err(refusal) => return self.refused(form, line, *refusal),
            Ok(answer) => answer,
        };
        if self.draw.below(8) == 0 {
            self.short_room(form, line, answer)?;
        }
        let asked = self.read(form, line, answer).and_then(|lengths| self.sheet(form, line, answer, lengths));
        self.wipe(answer);
        asked
    }

    /// A line that is read: the numbers, every buffer, and the cells behind. Answers the lengths that were lent.
    fn read(&mut self, form: Form, line: &[u8], answer: &Answer) -> Result<[usize; 8], String> {
        let lengths = answer.buffers.lengths().map(|needed| needed + self.draw.below(MARGIN));
        let mut numbers = [7; 7];
        let count = 5 + self.draw.below(3);
        let given = port::read(form as u32, line, &mut self.buffers.lend(lengths), &mut numbers[..count]);
        same("the reader's answer", &given, &Ok(0))?;
        let [n, b, columns, cells, g] = answer.record.map(|number| number as u64);
        let names = ["N", "B", "the columns", "the cells", "G", "a number behind the five", "a number behind the five"];
        for ((name, given), wanted) in names.iter().zip(numbers).zip([n, b, columns, cells, g, 7, 7]) {
            same(format_args!("the reader's numbers: {name}"), &given, &wanted)?;
        }
        self.is_sheet("the reader's", answer)?;
        Ok(lengths)
    }

    /// The buffers hold a sentence, and nothing is written behind it.
    fn is_sheet(&self, whose: &str, answer: &Answer) -> Fault {
        let (held, wanted) = (&self.buffers, &answer.buffers);
        holds(format_args!("{whose} text"), &held.text, &wanted.text)?;
        holds(format_args!("{whose} types"), &held.types, &wanted.types)?;
        holds(format_args!("{whose} boundaries"), &held.boundaries, &wanted.boundaries)?;
        holds(format_args!("{whose} char positions"), &held.char_pos, &wanted.char_pos)?;
        holds(format_args!("{whose} byte positions"), &held.byte_pos, &wanted.byte_pos)?;
        holds(format_args!("{whose} cell starts"), &held.cell_starts, &wanted.cell_starts)?;
        holds(format_args!("{whose} cell lengths"), &held.cell_lengths, &wanted.cell_lengths)?;
        holds(format_args!("{whose} tag bytes"), &held.tag_bytes, &wanted.tag_bytes)
    }

    /// A line that is refused, whatever the room: nothing is written.
    fn refused(&mut self, form: Form, line: &[u8], refusal: Refusal) -> Fault {
        let lengths = [0; 8].map(|_: usize| self.draw.below(MARGIN));
        self.refused_with("the reader's answer to a line that is to be refused", form as u32, line, lengths, 5, refusal)
    }

    /// A reader that is to refuse; `what` says why.
    fn refused_with(&mut self, what: &str, form: u32, line: &[u8], lengths: [usize; 8], count: usize, refusal: Refusal) -> Fault {
        let mut numbers = [7; 5];
        let given = port::read(form, line, &mut self.buffers.lend(lengths), &mut numbers[..count]);
        let written = self.buffers.lend(lengths.map(|length| length + MARGIN)).other_than(UNTOUCHED);
        if written.is_some() {
            self.buffers.lend(lengths.map(|length| length + MARGIN)).fill(UNTOUCHED);
        }
        same(what, &given, &Err(refusal))?;
        same("the numbers of a refused reader", &numbers, &[7; 5])?;
        written.map_or(Ok(()), |buffer| Err(format!("the {buffer} of a refused reader: written")))
    }

    /// One of the buffers a cell too short: 11.
    fn short_room(&mut self, form: Form, line: &[u8], answer: &Answer) -> Fault {
        let mut lengths = answer.buffers.lengths();
        let which = self.draw.below(8);
        if lengths[which] == 0 {
            return Ok(());
        }
        lengths[which] -= 1;
        self.refused_with("the reader's answer to short room", form as u32, line, lengths, 5, Refusal { number: 11, place: 0 })
    }

    /// Numbers out of range: an unknown form is 16 before all else; too few numbers, or a place past the output, are 14 before the line.
    fn out_of_range(&mut self, form: Form, line: &[u8]) -> Fault {
        let (unknown, outside) = (Refusal { number: 16, place: 0 }, Refusal { number: 14, place: 0 });
        let lengths = [0; 8].map(|_: usize| self.draw.below(MARGIN));
        let (strange, few) = (3 + self.draw.below(1 << 30) as u32, self.draw.below(5));
        self.refused_with("the reader's answer to an unknown form", strange, line, lengths, few, unknown)?;
        self.refused_with("the reader's answer to few numbers", form as u32, line, lengths, few, outside)?;
        let (room, past) = (self.draw.below(MARGIN), 1 + self.draw.below(9));
        for (reader, writer) in [(strange, 1), (form as u32, 0), (form as u32, strange)] {
            let given = port::convert(reader, writer, line, &mut self.out[..room], room + past);
            same("the conversion's answer to an unknown form", &given, &Err(unknown))?;
        }
        let given = port::convert(form as u32, 2, line, &mut self.out[..room], room + past);
        same("the conversion's answer to a place past the output", &given, &Err(outside))?;
        let given = port::convert(form as u32, 1, line, &mut self.out[..LONGEST_OUTPUT + 1], room);
        same("the conversion's answer to too long an output", &given, &Err(outside))?;
        self.out_alone("the output of a refused conversion", room)
    }

    /// A line converted to each written form behind some bytes, with room enough and, now and then, with a byte too little. A sentence with more cells
    /// than the conversion holds is refused, whatever the room.
    fn convert(&mut self, form: Form, line: &[u8], expected: &Result<Answer, Refusal>) -> Fault {
        for writer in [Form::Tokenized, Form::Partial] {
            let at = self.draw.below(5);
            let written = expected.as_ref().map_or(&[][..], |answer| answer.written(writer));
            let short = self.draw.below(8) == 0;
            let room = if short { (at + written.len()).saturating_sub(1).max(at) } else { at + written.len() + self.draw.below(4) };
            let room = room.min(LONGEST_OUTPUT);
            let lacks = at + written.len() > room;
            let too_wide = expected.as_ref().is_ok_and(|answer| rules::is_too_wide(answer.record));
            let wanted = match expected {
                Err(refusal) => Err(*refusal),
                Ok(_) if too_wide => Err(Refusal { number: 11, place: 0 }),
                Ok(_) if lacks => Err(Refusal { number: 12, place: written.len() as u64 }),
                Ok(_) => Ok((at + written.len()) as u64),
            };
            let given = port::convert(form as u32, writer as u32, line, &mut self.out[..room], at);
            let alone = match wanted {
                Err(_) => self.out_alone("the output of a refused conversion", room),
                Ok(_) => {
                    let before = alone("what stands before the converted line", &self.out[..at]);
                    let whole = [&self.out[..at], written].concat();
                    before.and(self.out_is("the converted line", &whole, room))
                }
            };
            let what = match (too_wide, lacks) {
                (true, _) => "to a sentence with too many cells",
                (_, true) => "with short room",
                _ => "with room enough",
            };
            same(format_args!("the conversion's answer {what}, to {}", writer.letter()), &given, &wanted)?;
            alone?;
        }
        Ok(())
    }

    /// The calls on the sheet that was read.
    fn sheet(&mut self, form: Form, line: &[u8], answer: &Answer, lengths: [usize; 8]) -> Fault {
        for writer in [Form::Tokenized, Form::Partial] {
            self.write(writer, answer, lengths)?;
            self.is_sheet("after a writer, the", answer)?;
        }
        self.tokens(answer, lengths)?;
        self.is_sheet("after the steps, the", answer)?;
        match self.draw.below(8) {
            0 => self.steps(form, line, answer, lengths),
            1 => self.unknown_form(answer, lengths),
            2 | 3 => self.changed(answer),
            4 | 5 => self.withhold(form, line, answer, lengths),
            _ => self.key(form, line, answer, lengths),
        }?;
        self.is_sheet("after all calls, the", answer)
    }

    /// The sentence written, with room enough and, now and then, with a byte too little.
    fn write(&mut self, writer: Form, answer: &Answer, lengths: [usize; 8]) -> Fault {
        let written = answer.written(writer);
        let room = self.room_for(written);
        let given = port::write(writer as u32, answer.record, &self.buffers.lend(lengths), &mut self.out[..room]);
        let letter = writer.letter();
        self.wrote(given, written, room, "writer", format_args!(", as {letter}"), format_args!("the line written as {letter}"))
    }

    /// The partial line with a range withheld, in the same way; then a range that is none, whose start is told as far as the answer holds it.
    fn withhold(&mut self, form: Form, line: &[u8], answer: &Answer, lengths: [usize; 8]) -> Fault {
        let n = answer.record[0];
        let start = self.draw.below(n + 1);
        let end = start + self.draw.below(n - start + 1);
        let copy = original::withheld(original::read(form, std::str::from_utf8(line).unwrap())?, start, end);
        let room = self.room_for(&copy);
        let given = port::withhold(answer.record, &self.buffers.lend(lengths), start, end, &mut self.out[..room]);
        self.wrote(given, &copy, room, "copy", "", "the withheld copy")?;
        self.is_sheet("after a copy, the", answer)?;
        let (start, end) = self.draw.one(&[(end + 1, end), (start, n + 1), (1 << 32, 1 << 32), (usize::MAX, 0)]);
        let given = port::withhold(answer.record, &self.buffers.lend(lengths), start, end, &mut self.out[..room]);
        same(NO_RANGE, &given, &Err(Refusal { number: 14, place: start.min(u32::MAX as usize) as u64 }))?;
        self.out_alone("the output of a refused copy", room)
    }

    /// The key, in the same way.
    fn key(&mut self, form: Form, line: &[u8], answer: &Answer, lengths: [usize; 8]) -> Fault {
        let key = original::key(original::read(form, std::str::from_utf8(line).unwrap())?);
        let room = self.room_for(&key);
        let given = port::key(answer.record, &self.buffers.lend(lengths), &mut self.out[..room]);
        self.wrote(given, &key, room, "key", "", "the key")?;
        self.is_sheet("after a key, the", answer)
    }

    /// Room enough for a line or, now and then, a byte too little.
    fn room_for(&mut self, line: &[u8]) -> usize {
        let short = !line.is_empty() && self.draw.below(8) == 0;
        if short {
            line.len() - 1
        } else {
            line.len() + self.draw.below(4)
        }
    }

    /// A writer's answer: the length of a line that stands at the front of the output, or 12 where the room is short.
    fn wrote(&mut self, given: Result<u64, Refusal>, line: &[u8], room: usize, whose: &str, form: impl Display, name: impl Display) -> Fault {
        let needed = line.len() as u64;
        let (what, wanted, alone) = if room < line.len() {
            ("with short room", Err(Refusal { number: 12, place: needed }), self.out_alone(format_args!("the output of a refused {whose}"), room))
        } else {
            ("with room enough", Ok(needed), self.out_is(name, line, room))
        };
        same(format_args!("the {whose}'s answer {what}{form}"), &given, &wanted)?;
        alone
    }

    /// All tokens, one after another; a long line's are left to `steps`.
    fn tokens(&mut self, answer: &Answer, lengths: [usize; 8]) -> Fault {
        let n = answer.record[0];
        if n > 200 {
            return Ok(());
        }
        let lent = self.buffers.lend(lengths);
        let mut span = [0, 0, 7];
        for token in answer.tokens.iter().flatten() {
            same("the step's answer", &port::next_token(answer.record, &lent, span[1] as usize, &mut span), &Ok(1))?;
            same("a token", &span[..2], token)?;
            same("the number behind a token", &span[2], &7)?;
        }
        let last = span[1];
        same("the step's answer at the end", &port::next_token(answer.record, &lent, last as usize, &mut span), &Ok(0))?;
        same("the cursor at the end", &span[0], &(n as u64))?;
        same("the numbers behind the cursor at the end", &span[1..], &[last, 7])
    }

    /// Steps of the cursor from places of any kind.
    fn steps(&mut self, form: Form, line: &[u8], answer: &Answer, lengths: [usize; 8]) -> Fault {
        let sentence = original::read(form, std::str::from_utf8(line).unwrap())?;
        for _ in 0..3 {
            let place = self.draw.below(answer.record[0] + 3);
            let mut span = [7; 2];
            let given = port::next_token(answer.record, &self.buffers.lend(lengths), place, &mut span);
            match original::next_token(&sentence, place) {
                (Some(token), _) => same("the step from a place of any kind and its token", &(given, span), &(Ok(1), token))?,
                (None, cursor) => same("the step from a place of any kind and its cursor", &(given, span), &(Ok(0), [cursor, 7]))?,
            }
        }
        Ok(())
    }

    /// An unknown form of a writer, and a span that is too short.
    fn unknown_form(&mut self, answer: &Answer, lengths: [usize; 8]) -> Fault {
        let form = self.draw.one(&[0, 3, 4, u32::MAX]);
        let lent = self.buffers.lend(lengths);
        let room = self.draw.below(MARGIN);
        let given = port::write(form, answer.record, &lent, &mut self.out[..room]);
        same("the writer's answer to an unknown form", &given, &Err(Refusal { number: 16, place: 0 }))?;
        let mut span = [7];
        let given = port::next_token(answer.record, &lent, 0, &mut span);
        same("the step's answer to a short span", &given, &Err(Refusal { number: 14, place: 0 }))?;
        same("the span of a refused step", &span, &[7])?;
        self.out_alone("the output of a refused writer", room)
    }

    /// One number of the sheet changed: 13 exactly where it is a sentence no more.
    fn changed(&mut self, answer: &Answer) -> Fault {
        let (record, mut buffers, lengths) = self.altered(answer);
        let lent = buffers.lend(lengths);
        let broken = Err(Refusal { number: 13, place: 0 });
        let mut span = [7; 2];
        let room = self.out.len() - MARGIN;
        let written = port::write(1, record, &lent, &mut self.out[..room]);
        let stepped = port::next_token(record, &lent, 0, &mut span);
        let copied = port::withhold(record, &lent, 1, 0, &mut []);
        let keyed = port::key(record, &lent, &mut []);
        if rules::is_sheet(record, &lent) {
            let length = written.map_or(0, |length| room.min(length as usize));
            let behind = alone("what stands behind the line written from a changed sheet", &self.out[length..length + MARGIN]);
            self.out[..length + MARGIN].fill(UNTOUCHED);
            same("whether a writer refuses a changed sheet that is one", &(written == broken), &false)?;
            same("whether a step refuses a changed sheet that is one", &(stepped == broken), &false)?;
            same(NO_RANGE, &copied, &Err(Refusal { number: 14, place: 1 }))?;
            same("the number of the key's refusal with no room", &keyed.map_err(|refusal| refusal.number), &Err(12))?;
            return behind;
        }
        let alone = self.out_alone("the output of a refused writer", answer.written(Form::Tokenized).len());
        same("the writer's answer to a changed sheet", &written, &broken)?;
        same("the step's answer to a changed sheet", &stepped, &broken)?;
        same("the copy's answer to a changed sheet", &copied, &broken)?;
        same("the key's answer to a changed sheet", &keyed, &broken)?;
        same("the span of a refused step", &span, &[7; 2])?;
        alone
    }

    /// A sheet with one number of its record, one of its lengths, its columns with their cells, the edge between two tags or one of its cells changed.
    fn altered(&mut self, answer: &Answer) -> (Record, Buffers, [usize; 8]) {
        let (mut record, mut buffers, mut lengths) = (answer.record, answer.buffers.clone(), answer.buffers.lengths());
        let which = self.draw.below(8);
        match self.draw.below(5) {
            0 => record[which % 5] = record[which % 5].wrapping_add_signed(self.draw.one(&[1, -1, 5000, isize::MAX])),
            1 => lengths[which] = lengths[which].saturating_sub(1),
            2 if record[3] > 1 && which % 2 == 0 => self.move_edge(&mut buffers),
            2 => {
                record[2] = if record[2] == 0 { 1 } else { record[2] + self.draw.one(&[1, 0]) * 2 - 1 };
                record[3] = record[0] * record[2];
            }
            _ => self.alter_cell(&mut buffers, which),
        }
        (record, buffers, lengths)
    }

    /// Moves by a byte where a cell of the tags ends and the next one starts; there are two cells or more.
    fn move_edge(&mut self, buffers: &mut Buffers) {
        let at = 1 + self.draw.below(buffers.cell_starts.len() - 1);
        let amount = self.draw.one(&[1, -1]);
        buffers.cell_lengths[at - 1] = buffers.cell_lengths[at - 1].wrapping_add_signed(amount);
        buffers.cell_starts[at] = buffers.cell_starts[at].wrapping_add_signed(amount);
        buffers.cell_lengths[at] = buffers.cell_lengths[at].wrapping_add_signed(-amount);
    }

    /// Changes a cell of one of the buffers.
    fn alter_cell(&mut self, buffers: &mut Buffers, which: usize) {
        let at = self.draw.below(buffers.lengths()[which].max(1));
        let bytes = [&mut buffers.text, &mut buffers.types, &mut buffers.boundaries, &mut buffers.tag_bytes];
        let ends = [&mut buffers.char_pos, &mut buffers.byte_pos, &mut buffers.cell_starts, &mut buffers.cell_lengths];
        let cells = |buffer: usize| if buffer < 3 { buffer } else { 3 };
        match which {
            0..3 | 7 => {
                let amount = self.draw.one(&[1, 2, 3, 0x80, 254, 255]);
                bytes.into_iter().nth(cells(which)).unwrap().iter_mut().skip(at).take(1).for_each(|byte| *byte = byte.wrapping_add(amount));
            }
            _ => {
                let amount = self.draw.one(&[1, -1, 2, 256]);
                ends.into_iter().nth(which - 3).unwrap().iter_mut().skip(at).take(1).for_each(|end| *end = end.wrapping_add_signed(amount));
            }
        }
    }

    /// The output starts with a line, and is left alone behind it, as far as it was lent and a little further; then it is made anew.
    fn out_is(&mut self, what: impl Display, line: &[u8], room: usize) -> Fault {
        let right = same(&what, &self.out[..line.len()], line);
        self.out[..line.len()].fill(UNTOUCHED);
        right.and(self.out_alone(format_args!("what stands behind {what}"), room))
    }

    /// The output is left alone, as far as it was lent and a little further; then it is made anew.
    fn out_alone(&mut self, what: impl Display, room: usize) -> Fault {
        let front = &mut self.out[..room + MARGIN];
        let right = alone(what, front);
        if right.is_err() {
            front.fill(UNTOUCHED);
        }
        right
    }

    /// Makes the buffers anew.
    fn wipe(&mut self, answer: &Answer) {
        self.buffers.lend(answer.buffers.lengths().map(|length| length + MARGIN)).fill(UNTOUCHED);
    }
}

/// A cell that may have been written.
trait Cell: Copy + PartialEq + Debug {
    const UNTOUCHED: Self;
}

impl Cell for u8 {
    const UNTOUCHED: u8 = UNTOUCHED;
}

impl Cell for u16 {
    const UNTOUCHED: u16 = u16::from_ne_bytes([UNTOUCHED; 2]);
}

/// A buffer starts with a part, and is left alone behind it.
fn holds<T: Cell>(what: impl Display, buffer: &[T], part: &[T]) -> Fault {
    same(&what, &buffer[..part.len()], part)?;
    alone(format_args!("what stands behind {what}"), &buffer[part.len()..part.len() + MARGIN])
}

/// Cells are as they were lent.
fn alone<T: Cell>(what: impl Display, cells: &[T]) -> Fault {
    let written = cells.iter().position(|&cell| cell != T::UNTOUCHED);
    written.map_or(Ok(()), |at| Err(format!("{what}: {:?} is written at {at}", cells[at])))
}

/// What was given is what was wanted.
pub fn same<T: PartialEq + Debug + ?Sized>(what: impl Display, given: &T, wanted: &T) -> Fault {
    if given == wanted {
        return Ok(());
    }
    let clipped = |value: &T| format!("{value:?}").chars().take(300).collect::<String>();
    Err(format!("{what}: {} and not {}", clipped(given), clipped(wanted)))
}
