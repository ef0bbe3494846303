//! The port: its exported functions, called on lent buffers.

use crate::answers::{Answer, Buffers, Form, Lent, Record, Refusal, AMPLE, LONGEST};

/// The longest output that the conversion takes.
pub const LONGEST_OUTPUT: usize = 1 << 20;

/// What the static library of crates/exports_c offers: a slice is a pointer and a length.
mod exported {
    #[link(name = "exports", kind = "static")]
    extern "C" {
        pub fn ighdelmur_get_type(c: u32) -> u64;

        pub fn ighdelmur_convert(reader: u32, writer: u32, line: *const u8, length: usize, out: *mut u8, room: usize, at: usize) -> u64;

        pub fn ighdelmur_read(
            form: u32,
            line: *const u8,
            length: usize,
            text: *mut u8,
            text_room: usize,
            types: *mut u8,
            types_room: usize,
            boundaries: *mut u8,
            boundaries_room: usize,
            char_pos: *mut u16,
            char_pos_room: usize,
            byte_pos: *mut u16,
            byte_pos_room: usize,
            cell_starts: *mut u16,
            cell_starts_room: usize,
            cell_lengths: *mut u16,
            cell_lengths_room: usize,
            tag_bytes: *mut u8,
            tag_bytes_room: usize,
            numbers: *mut u64,
            numbers_room: usize,
        ) -> u64;

        pub fn ighdelmur_write(
            form: u32,
            n: usize,
            b: usize,
            columns: usize,
            cells: usize,
            g: usize,
            text: *const u8,
            text_room: usize,
            types: *const u8,
            types_room: usize,
            boundaries: *const u8,
            boundaries_room: usize,
            char_pos: *const u16,
            char_pos_room: usize,
            byte_pos: *const u16,
            byte_pos_room: usize,
            cell_starts: *const u16,
            cell_starts_room: usize,
            cell_lengths: *const u16,
            cell_lengths_room: usize,
            tag_bytes: *const u8,
            tag_bytes_room: usize,
            out: *mut u8,
            room: usize,
        ) -> u64;

        pub fn ighdelmur_withhold(
            n: usize,
            b: usize,
            columns: usize,
            cells: usize,
            g: usize,
            text: *const u8,
            text_room: usize,
            types: *const u8,
            types_room: usize,
            boundaries: *const u8,
            boundaries_room: usize,
            char_pos: *const u16,
            char_pos_room: usize,
            byte_pos: *const u16,
            byte_pos_room: usize,
            cell_starts: *const u16,
            cell_starts_room: usize,
            cell_lengths: *const u16,
            cell_lengths_room: usize,
            tag_bytes: *const u8,
            tag_bytes_room: usize,
            start: usize,
            end: usize,
            out: *mut u8,
            room: usize,
        ) -> u64;

        pub fn ighdelmur_key(
            n: usize,
            b: usize,
            columns: usize,
            cells: usize,
            g: usize,
            text: *const u8,
            text_room: usize,
            types: *const u8,
            types_room: usize,
            boundaries: *const u8,
            boundaries_room: usize,
            char_pos: *const u16,
            char_pos_room: usize,
            byte_pos: *const u16,
            byte_pos_room: usize,
            cell_starts: *const u16,
            cell_starts_room: usize,
            cell_lengths: *const u16,
            cell_lengths_room: usize,
            tag_bytes: *const u8,
            tag_bytes_room: usize,
            out: *mut u8,
            room: usize,
        ) -> u64;

        pub fn ighdelmur_next_token(
            n: usize,
            b: usize,
            columns: usize,
            cells: usize,
            g: usize,
            text: *const u8,
            text_room: usize,
            types: *const u8,
            types_room: usize,
            boundaries: *const u8,
            boundaries_room: usize,
            char_pos: *const u16,
            char_pos_room: usize,
            byte_pos: *const u16,
            byte_pos_room: usize,
            cell_starts: *const u16,
            cell_starts_room: usize,
            cell_lengths: *const u16,
            cell_lengths_room: usize,
            tag_bytes: *const u8,
            tag_bytes_room: usize,
            p: usize,
            span: *mut u64,
            span_room: usize,
        ) -> u64;
    }
}

/// An answer, or the refusal that is 2^63 plus 256 times its place plus its number.
fn taken(code: u64) -> Result<u64, Refusal> {
    match code.checked_sub(1 << 63) {
        Some(rest) => Err(Refusal { number: rest % 256, place: rest / 256 }),
        None => Ok(code),
    }
}

/// The type of any number.
pub fn get_type(number: u32) -> Result<u64, Refusal> {
    spoil::get_type(taken(unsafe { exported::ighdelmur_get_type(number) }), number)
}

/// The line read in one form and written in another behind `at` bytes of the output: where it ends.
pub fn convert(reader: u32, writer: u32, line: &[u8], out: &mut [u8], at: usize) -> Result<u64, Refusal> {
    let converted = taken(unsafe { exported::ighdelmur_convert(reader, writer, line.as_ptr(), line.len(), out.as_mut_ptr(), out.len(), at) });
    spoil::convert(converted, out, at)
}

/// The line read into lent buffers: 0, and N, B, columns, cells and G in the first five numbers.
pub fn read(form: u32, line: &[u8], lent: &mut Lent, numbers: &mut [u64]) -> Result<u64, Refusal> {
    let read = taken(unsafe {
        exported::ighdelmur_read(
            form,
            line.as_ptr(),
            line.len(),
            lent.text.as_mut_ptr(),
            lent.text.len(),
            lent.types.as_mut_ptr(),
            lent.types.len(),
            lent.boundaries.as_mut_ptr(),
            lent.boundaries.len(),
            lent.char_pos.as_mut_ptr(),
            lent.char_pos.len(),
            lent.byte_pos.as_mut_ptr(),
            lent.byte_pos.len(),
            lent.cell_starts.as_mut_ptr(),
            lent.cell_starts.len(),
            lent.cell_lengths.as_mut_ptr(),
            lent.cell_lengths.len(),
            lent.tag_bytes.as_mut_ptr(),
            lent.tag_bytes.len(),
            numbers.as_mut_ptr(),
            numbers.len(),
        )
    });
    spoil::read(read, lent, numbers)
}

/// The sentence of lent buffers written into the output: its length.
pub fn write(form: u32, [n, b, columns, cells, g]: Record, lent: &Lent, out: &mut [u8]) -> Result<u64, Refusal> {
    let wrote = taken(unsafe {
        exported::ighdelmur_write(
            form,
            n,
            b,
            columns,
            cells,
            g,
            lent.text.as_ptr(),
            lent.text.len(),
            lent.types.as_ptr(),
            lent.types.len(),
            lent.boundaries.as_ptr(),
            lent.boundaries.len(),
            lent.char_pos.as_ptr(),
            lent.char_pos.len(),
            lent.byte_pos.as_ptr(),
            lent.byte_pos.len(),
            lent.cell_starts.as_ptr(),
            lent.cell_starts.len(),
            lent.cell_lengths.as_ptr(),
            lent.cell_lengths.len(),
            lent.tag_bytes.as_ptr(),
            lent.tag_bytes.len(),
            out.as_mut_ptr(),
            out.len(),
        )
    });
    spoil::write(wrote, form, lent, out)
}

/// The partial line of the sentence of lent buffers, with the labels of a range withheld, written into the output: its length.
pub fn withhold([n, b, columns, cells, g]: Record, lent: &Lent, start: usize, end: usize, out: &mut [u8]) -> Result<u64, Refusal> {
    let wrote = taken(unsafe {
        exported::ighdelmur_withhold(
            n,
            b,
            columns,
            cells,
            g,
            lent.text.as_ptr(),
            lent.text.len(),
            lent.types.as_ptr(),
            lent.types.len(),
            lent.boundaries.as_ptr(),
            lent.boundaries.len(),
            lent.char_pos.as_ptr(),
            lent.char_pos.len(),
            lent.byte_pos.as_ptr(),
            lent.byte_pos.len(),
            lent.cell_starts.as_ptr(),
            lent.cell_starts.len(),
            lent.cell_lengths.as_ptr(),
            lent.cell_lengths.len(),
            lent.tag_bytes.as_ptr(),
            lent.tag_bytes.len(),
            start,
            end,
            out.as_mut_ptr(),
            out.len(),
        )
    });
    spoil::withhold(wrote, lent, out)
}

/// The key of the sentence of lent buffers, written into the output: its length.
pub fn key([n, b, columns, cells, g]: Record, lent: &Lent, out: &mut [u8]) -> Result<u64, Refusal> {
    let wrote = taken(unsafe {
        exported::ighdelmur_key(
            n,
            b,
            columns,
            cells,
            g,
            lent.text.as_ptr(),
            lent.text.len(),
            lent.types.as_ptr(),
            lent.types.len(),
            lent.boundaries.as_ptr(),
            lent.boundaries.len(),
            lent.char_pos.as_ptr(),
            lent.char_pos.len(),
            lent.byte_pos.as_ptr(),
            lent.byte_pos.len(),
            lent.cell_starts.as_ptr(),
            lent.cell_starts.len(),
            lent.cell_lengths.as_ptr(),
            lent.cell_lengths.len(),
            lent.tag_bytes.as_ptr(),
            lent.tag_bytes.len(),
            out.as_mut_ptr(),
            out.len(),
        )
    });
    spoil::key(wrote, lent, out)
}

/// A step of the token cursor from `p`: 1 and a token's start and end, or 0 and where the cursor stands.
pub fn next_token([n, b, columns, cells, g]: Record, lent: &Lent, p: usize, span: &mut [u64]) -> Result<u64, Refusal> {
    let stepped = taken(unsafe {
        exported::ighdelmur_next_token(
            n,
            b,
            columns,
            cells,
            g,
            lent.text.as_ptr(),
            lent.text.len(),
            lent.types.as_ptr(),
            lent.types.len(),
            lent.boundaries.as_ptr(),
            lent.boundaries.len(),
            lent.char_pos.as_ptr(),
            lent.char_pos.len(),
            lent.byte_pos.as_ptr(),
            lent.byte_pos.len(),
            lent.cell_starts.as_ptr(),
            lent.cell_starts.len(),
            lent.cell_lengths.as_ptr(),
            lent.cell_lengths.len(),
            lent.tag_bytes.as_ptr(),
            lent.tag_bytes.len(),
            p,
            span.as_mut_ptr(),
            span.len(),
        )
    });
    spoil::next_token(stepped, n, p, lent, span)
}

/// The port with room for every line, for whoever asks line by line.
pub struct Port {
    buffers: Buffers,
    out: Vec<u8>,
}

impl Default for Port {
    fn default() -> Self {
        Self { buffers: Buffers::filled(AMPLE, 0), out: vec![0; LONGEST] }
    }
}

impl Port {
    /// What refuses the line, if something does.
    pub fn refusal(&mut self, form: Form, line: &[u8]) -> Option<Refusal> {
        self.read(form, line).err()
    }

    /// The key of the line's sentence.
    pub fn key(&mut self, form: Form, line: &[u8]) -> Result<&[u8], Refusal> {
        let (record, lent, out) = self.read(form, line)?;
        key(record, &lent, out).map(|length| front(out, length))
    }

    /// The line's copy with the labels of the characters from `start` up to `end` withheld.
    pub fn withheld(&mut self, form: Form, line: &[u8], start: usize, end: usize) -> Result<&[u8], Refusal> {
        let (record, lent, out) = self.read(form, line)?;
        withhold(record, &lent, start, end, out).map(|length| front(out, length))
    }

    /// The line written in a form: by one call, or by two where that one has too little room for it.
    pub fn written(&mut self, form: Form, writer: Form, line: &[u8]) -> Result<&[u8], Refusal> {
        match convert(form as u32, writer as u32, line, &mut self.out[..LONGEST_OUTPUT], 0) {
            Ok(end) => Ok(front(&self.out, end)),
            Err(Refusal { number: 11 | 12, .. }) => {
                let (record, lent, out) = self.read(form, line)?;
                write(writer as u32, record, &lent, out).map(|length| front(out, length))
            }
            Err(refusal) => Err(refusal),
        }
    }

    /// The line converted to a form by the one call, with the most room that it takes.
    pub fn converted(&mut self, form: Form, writer: Form, line: &[u8]) -> Result<Vec<u8>, Refusal> {
        let out = &mut self.out[..LONGEST_OUTPUT];
        convert(form as u32, writer as u32, line, out, 0).map(|end| front(out, end).to_vec())
    }

    /// All that the port's other calls say of a line.
    pub fn outcome(&mut self, form: Form, line: &[u8]) -> Result<Answer, Refusal> {
        let (record, lent, out) = self.read(form, line)?;
        let mut line = |form| write(form as u32, record, &lent, out).map(|length| front(out, length).to_vec());
        let (tokenized, partial) = (line(Form::Tokenized), line(Form::Partial));
        Ok(Answer { record, buffers: held(record, &lent), tokens: tokens(record, &lent), tokenized, partial })
    }

    /// The line read: its record, the buffers that hold it, and the room to write into.
    fn read(&mut self, form: Form, line: &[u8]) -> Result<(Record, Lent<'_>, &mut Vec<u8>), Refusal> {
        let mut lent = self.buffers.lend(AMPLE);
        let mut numbers = [0; 5];
        read(form as u32, line, &mut lent, &mut numbers)?;
        Ok((numbers.map(|number| number as usize), lent, &mut self.out))
    }
}

/// So many elements, as far as there are.
fn front<T>(of: &[T], length: u64) -> &[T] {
    &of[..of.len().min(length as usize)]
}

/// The tokens from the first character on.
fn tokens(record: Record, lent: &Lent) -> Result<Vec<[u64; 2]>, Refusal> {
    let mut all = vec![];
    let mut span = [0; 2];
    while next_token(record, lent, span[1] as usize, &mut span)? == 1 && all.len() < record[0] {
        all.push(span);
    }
    Ok(all)
}

/// What a record says of lent buffers, as far as they go.
fn held([n, b, _, cells, g]: Record, lent: &Lent) -> Buffers {
    fn copied<T: Copy>(of: &[T], length: usize) -> Vec<T> {
        front(of, length as u64).to_vec()
    }
    Buffers {
        text: copied(lent.text, b),
        types: copied(lent.types, n),
        boundaries: copied(lent.boundaries, n.saturating_sub(1)),
        char_pos: copied(lent.char_pos, n.saturating_add(1)),
        byte_pos: copied(lent.byte_pos, b.saturating_add(1)),
        cell_starts: copied(lent.cell_starts, cells),
        cell_lengths: copied(lent.cell_lengths, cells),
        tag_bytes: copied(lent.tag_bytes, g),
    }
}

/// Hands the port's answers on as they are.
#[cfg(not(wrong))]
mod spoil {
    use crate::answers::{Lent, Refusal};

    type Given = Result<u64, Refusal>;

    pub fn get_type(given: Given, _: u32) -> Given {
        given
    }

    pub fn convert(given: Given, _: &mut [u8], _: usize) -> Given {
        given
    }

    pub fn read(given: Given, _: &mut Lent, _: &mut [u64]) -> Given {
        given
    }

    pub fn write(given: Given, _: u32, _: &Lent, _: &mut [u8]) -> Given {
        given
    }

    pub fn withhold(given: Given, _: &Lent, _: &mut [u8]) -> Given {
        given
    }

    pub fn key(given: Given, _: &Lent, _: &mut [u8]) -> Given {
        given
    }

    pub fn next_token(given: Given, _: usize, _: usize, _: &Lent, _: &mut [u64]) -> Given {
        given
    }
}

/// Makes wrong what `SPOIL` names: only in the build that tests whether a wrong port is reported.
#[cfg(wrong)]
#[path = "spoil.rs"]
mod spoil;
