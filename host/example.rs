//! Reads each argument as a tokenized note and prints it in the partial form, or the number and the place of its refusal.

#[link(name = "exports", kind = "static")]
extern "C" {
    /// As in ighdelmur.h; a slice is a pointer and a length.
    fn ighdelmur_convert(reader: u32, writer: u32, line: *const u8, length: usize, out: *mut u8, room: usize, at: usize) -> u64;
}

/// The forms by number.
const TOKENIZED: u32 = 1;
const PARTIAL: u32 = 2;

fn main() {
    let mut out = [0; 8192];
    for line in std::env::args().skip(1) {
        let end = unsafe { ighdelmur_convert(TOKENIZED, PARTIAL, line.as_ptr(), line.len(), out.as_mut_ptr(), out.len(), 0) };
        match end.checked_sub(1 << 63) {
            Some(refusal) => println!("refused: {} at {}", refusal % 256, refusal / 256),
            None => println!("{}", String::from_utf8_lossy(&out[..end as usize])),
        }
    }
}
