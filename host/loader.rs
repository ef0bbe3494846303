//! Reads each argument, or `a//x b/y` where there is none, as a tokenized note and prints its table of tags: a row for each character, which is printed
//! first, and in it a cell for each column, behind a tab: where it starts among the tag bytes, `+`, its length, a blank, and its tag, or `-` where the
//! tag is absent. For a note that is refused it prints the number and the place of its refusal.

#[link(name = "exports", kind = "static")]
extern "C" {
    /// As in ighdelmur.h; a slice is a pointer and a length.
    fn ighdelmur_read(
        form: u32,
        line: *const u8,
        length: usize,
        text: *mut u8,
        text_room: usize,
        types: *mut u8,
        types_room: usize,
        boundaries: *mut u8,
        boundaries_room: usize,
        char_pos: *mut u16,
        char_pos_room: usize,
        byte_pos: *mut u16,
        byte_pos_room: usize,
        cell_starts: *mut u16,
        cell_starts_room: usize,
        cell_lengths: *mut u16,
        cell_lengths_room: usize,
        tag_bytes: *mut u8,
        tag_bytes_room: usize,
        numbers: *mut u64,
        numbers_room: usize,
    ) -> u64;
}

/// The form by its number.
const TOKENIZED: u32 = 1;

/// What a loader wants of a note that was read.
struct Table {
    text: Vec<u8>,
    char_pos: Vec<u16>,
    cell_starts: Vec<u16>,
    cell_lengths: Vec<u16>,
    tag_bytes: Vec<u8>,
    characters: usize,
    columns: usize,
}

/// Reads a note into buffers that are long enough for one of its length: characters and columns together are at most its bytes.
fn read(note: &str) -> Result<Table, u64> {
    let (room, cells) = (note.len() + 1, (note.len() / 2) * note.len().div_ceil(2));
    let (mut text, mut types, mut boundaries, mut tag_bytes) = (vec![0; room], vec![0; room], vec![0; room], vec![0; room]);
    let (mut char_pos, mut byte_pos, mut cell_starts, mut cell_lengths) = (vec![0; room], vec![0; room], vec![0; cells], vec![0; cells]);
    let mut numbers = [0; 5];
    let answer = unsafe {
        ighdelmur_read(
            TOKENIZED,
            note.as_ptr(),
            note.len(),
            text.as_mut_ptr(),
            text.len(),
            types.as_mut_ptr(),
            types.len(),
            boundaries.as_mut_ptr(),
            boundaries.len(),
            char_pos.as_mut_ptr(),
            char_pos.len(),
            byte_pos.as_mut_ptr(),
            byte_pos.len(),
            cell_starts.as_mut_ptr(),
            cell_starts.len(),
            cell_lengths.as_mut_ptr(),
            cell_lengths.len(),
            tag_bytes.as_mut_ptr(),
            tag_bytes.len(),
            numbers.as_mut_ptr(),
            numbers.len(),
        )
    };
    match answer.checked_sub(1 << 63) {
        Some(refusal) => Err(refusal),
        None => Ok(Table { text, char_pos, cell_starts, cell_lengths, tag_bytes, characters: numbers[0] as usize, columns: numbers[2] as usize }),
    }
}

impl Table {
    /// A character, and its tags in each column.
    fn row(&self, i: usize) -> String {
        let mut row = shown(&self.text[self.char_pos[i] as usize..self.char_pos[i + 1] as usize]);
        for j in 0..self.columns {
            let (start, length) = (self.cell_starts[i * self.columns + j] as usize, self.cell_lengths[i * self.columns + j] as usize);
            let tag = if length == 0 { "-".into() } else { shown(&self.tag_bytes[start..start + length]) };
            row += &format!("\t{start}+{length} {tag}");
        }
        row
    }
}

/// Bytes as text.
fn shown(bytes: &[u8]) -> String {
    String::from_utf8_lossy(bytes).into_owned()
}

fn print_table(note: &str) {
    match read(note) {
        Err(refusal) => println!("refused: {} at {}", refusal % 256, refusal / 256),
        Ok(table) => (0..table.characters).for_each(|i| println!("{}", table.row(i))),
    }
}

fn main() {
    if std::env::args().len() < 2 {
        print_table("a//x b/y");
    }
    std::env::args().skip(1).for_each(|note| print_table(&note));
}
