//! Asks the original, and writes down what it answers.

pub mod acts;
pub mod answer;
pub mod cases;
pub mod draw;
pub mod lists;
#[cfg(test)]
mod tests;

/// The recorded answer to a line 'F HEX', or a question mark where it is none.
pub fn asked(line: &[u8]) -> String {
    let line = String::from_utf8_lossy(line);
    match line.split(' ').collect::<Vec<_>>()[..] {
        [form @ ("R" | "T" | "P"), word] => match answer::unhex(word) {
            Some(bytes) => answer::recorded(form.chars().next().unwrap(), &bytes),
            None => "?".into(),
        },
        _ => "?".into(),
    }
}
