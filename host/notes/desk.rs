//! Standard output and standard error: what is found goes to the one, what is said about it to the other.

use crate::files::patiently;
use crate::width::width;
use crate::Failure;
use std::fs::File;
use std::io::{self, IsTerminal, Write};
use std::mem::ManuallyDrop;
use std::os::fd::FromRawFd;
use std::time::{Duration, Instant};

/// How much is written at once.
const PART: usize = 1 << 16;

/// When the first word on progress is due, and each further one.
const FIRST: Duration = Duration::from_secs(2);
const NEXT: Duration = Duration::from_millis(500);

/// How wide a word on progress is at most.
const LINE: usize = 76;

pub struct Desk {
    out: ManuallyDrop<File>,
    held: Vec<u8>,
    progress: Option<Progress>,
}

/// A line on standard error that is written over: when the next is due, and how long the one is that stands there.
struct Progress {
    due: Instant,
    length: usize,
}

impl Desk {
    pub fn new() -> Self {
        // What the standard library calls standard output takes a closed one for a good one.
        let out = ManuallyDrop::new(unsafe { File::from_raw_fd(1) });
        let progress = io::stderr().is_terminal().then(|| Progress { due: Instant::now() + FIRST, length: 0 });
        Self { out, held: Vec::with_capacity(2 * PART), progress }
    }

    /// Puts bytes into what is to be printed.
    pub fn put(&mut self, bytes: &[u8]) -> Result<(), Failure> {
        self.held.extend_from_slice(bytes);
        if self.held.len() < PART {
            Ok(())
        } else {
            self.flush()
        }
    }

    /// The same for a line.
    pub fn line(&mut self, line: &[u8]) -> Result<(), Failure> {
        self.put(line)?;
        self.put(b"\n")
    }

    /// Prints what is held.
    pub fn flush(&mut self) -> Result<(), Failure> {
        if self.held.is_empty() {
            return Ok(());
        }
        self.wipe();
        let mut from = 0;
        while from < self.held.len() {
            match patiently(|| self.out.write(&self.held[from..])) {
                Ok(0) => return Err(failed(io::ErrorKind::WriteZero.into())),
                Ok(count) => from += count,
                Err(error) => return Err(failed(error)),
            }
        }
        self.held.clear();
        Ok(())
    }

    /// Says something on standard error, behind all that was printed. Where nothing can be said there, the status is all there is.
    pub fn say(&mut self, said: &str) -> Result<(), Failure> {
        self.flush()?;
        self.wipe();
        let _ = writeln!(io::stderr(), "{said}");
        Ok(())
    }

    /// The same, for what is said about the whole.
    pub fn tell(&mut self, said: &str) -> Result<(), Failure> {
        self.say(&format!("notes.sh: {said}"))
    }

    /// A word on progress, where it is due.
    pub fn progress(&mut self, said: impl Fn() -> String) {
        let Some(progress) = self.progress.as_mut().filter(|progress| Instant::now() >= progress.due) else { return };
        let said = cut(&format!("notes.sh: {}", said()));
        let length = wide(&said);
        let rest = " ".repeat(progress.length.saturating_sub(length));
        let _ = write!(io::stderr(), "\r{said}{rest}");
        *progress = Progress { due: Instant::now() + NEXT, length };
    }

    /// Takes the word on progress away.
    fn wipe(&mut self) {
        if let Some(progress) = self.progress.as_mut().filter(|progress| progress.length > 0) {
            let _ = write!(io::stderr(), "\r{}\r", " ".repeat(progress.length));
            progress.length = 0;
        }
    }

    /// Prints what is left.
    pub fn finish(&mut self) -> Result<(), Failure> {
        self.wipe();
        self.flush()
    }

    /// Says why there is no outcome.
    pub fn fail(&mut self, failure: Failure, verb: &str) {
        let _ = self.flush();
        self.wipe();
        let lines = match failure {
            Failure::Words(said) => vec![said, format!("'bash notes.sh {verb} --help' says how it is used")],
            Failure::Trouble(said) => said,
        };
        lines.iter().for_each(|line| {
            let _ = writeln!(io::stderr(), "notes.sh: {line}");
        });
    }
}

/// How many columns of a terminal a text takes.
fn wide(text: &str) -> usize {
    text.chars().map(width).sum()
}

/// A text cut in its middle so that a line of a terminal takes it.
fn cut(text: &str) -> String {
    let mut chars: Vec<char> = text.chars().collect();
    let at = chars.len() / 3;
    let mut length = wide(text);
    if length <= LINE {
        return text.into();
    }
    while length >= LINE {
        length -= width(chars.remove(at));
    }
    chars.insert(at, '…');
    chars.into_iter().collect()
}

/// A failure of standard output.
fn failed(error: io::Error) -> Failure {
    Failure::trouble(format!("standard output cannot be written: {error}"))
}
