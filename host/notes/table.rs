//! Tables for programs: rows of cells with tabs between them, under a heading.

use crate::desk::Desk;
use crate::Failure;

/// The cells of a row, escaped: a backslash is `\\`, a tab `\t`, LF `\n`, CR `\r`; all other bytes stand as they are.
pub fn row(desk: &mut Desk, cells: &[&[u8]]) -> Result<(), Failure> {
    for (at, cell) in cells.iter().enumerate() {
        if at > 0 {
            desk.put(b"\t")?;
        }
        put(desk, cell)?;
    }
    desk.put(b"\n")
}

fn put(desk: &mut Desk, cell: &[u8]) -> Result<(), Failure> {
    for part in cell.split_inclusive(|byte| escape(*byte).is_some()) {
        match part.split_last().and_then(|(last, before)| Some((before, escape(*last)?))) {
            Some((before, escaped)) => {
                desk.put(before)?;
                desk.put(escaped)?;
            }
            None => desk.put(part)?,
        }
    }
    Ok(())
}

fn escape(byte: u8) -> Option<&'static [u8]> {
    match byte {
        b'\\' => Some(b"\\\\"),
        b'\t' => Some(b"\\t"),
        b'\n' => Some(b"\\n"),
        b'\r' => Some(b"\\r"),
        _ => None,
    }
}
