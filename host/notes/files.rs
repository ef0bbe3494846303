//! Files of notes, line by line.

use crate::desk::Desk;
use crate::Failure;
use sides::answers::{unquoted, Form};
use std::ffi::OsString;
use std::fs::{metadata, File, Metadata};
use std::io::{self, BufRead, BufReader, ErrorKind, Read};
use std::mem::ManuallyDrop;
use std::os::fd::FromRawFd;
use std::thread::sleep;
use std::time::Duration;

/// What is kept of a line: more than a reader takes, which refuses the line as the whole would be, and enough to show what stands at its limit.
pub const KEPT: u64 = 8192;

/// How much is read at once.
const PART: usize = 1 << 16;

/// A file of lines, and what these are; `-` is standard input.
pub struct Source {
    pub form: Form,
    pub name: OsString,
    holds: &'static str,
}

impl Source {
    /// A file of notes in a form.
    pub fn of_notes(form: Form, name: OsString) -> Self {
        Self { form, name, holds: "notes" }
    }

    /// A file of ranges.
    pub fn of_ranges(name: OsString) -> Self {
        Self { form: Form::Raw, name, holds: "ranges" }
    }

    pub fn is_standard_input(&self) -> bool {
        self.name == "-"
    }

    /// The file's name, to be read by a person.
    pub fn shown(&self) -> String {
        unquoted(self.name.as_encoded_bytes())
    }

    /// A line's place, to be read by a person.
    pub fn at(&self, number: u64) -> String {
        format!("{}:{number}", self.shown())
    }

    /// What is known of the file before it is read, or what is wrong with it.
    pub fn look(&self) -> Result<Metadata, String> {
        if self.is_standard_input() && std::env::var_os("CLOSED").is_some_and(|closed| !closed.is_empty()) {
            return Err("standard input is closed".into());
        }
        let found = if self.is_standard_input() { standard_input().metadata() } else { metadata(&self.name) };
        match found {
            Ok(found) if found.is_dir() => Err(self.unreadable(&ErrorKind::IsADirectory.into())),
            Ok(found) if found.is_file() && !self.is_standard_input() => self.open().map(|_| found),
            Ok(found) => Ok(found),
            Err(error) => Err(self.unreadable(&error)),
        }
    }

    pub fn open(&self) -> Result<File, String> {
        File::open(&self.name).map_err(|error| self.unreadable(&error))
    }

    /// Each line; of a longer one so many bytes.
    pub fn lines(&self, kept: u64) -> Result<Lines<'_>, Failure> {
        let file = if self.is_standard_input() { standard_input().try_clone().map_err(|error| self.unreadable(&error)) } else { self.open() };
        let file = file.map_err(Failure::trouble)?;
        let size = file.metadata().ok().filter(Metadata::is_file).map(|found| found.len());
        let from = BufReader::with_capacity(PART, Patient(file));
        Ok(Lines { source: self, from, kept, size, line: vec![], rest: vec![], taken: 0, number: 0, ended: 0, with_cr: 0 })
    }

    pub fn unreadable(&self, error: &io::Error) -> String {
        match error.kind() {
            ErrorKind::NotFound => format!("{} is not there: name a file of {}, or - for standard input", self.told(), self.holds),
            ErrorKind::IsADirectory => format!("{} is a folder: name a file of {}", self.told(), self.holds),
            _ => format!("{} cannot be read: {error}", self.told()),
        }
    }

    /// The same where it stands in a sentence.
    fn told(&self) -> String {
        match self.name.is_empty() {
            true => "''".into(),
            false if self.is_standard_input() => "standard input".into(),
            false => self.shown(),
        }
    }
}

/// Looks at all files before any is read; what is wrong with any of them is said.
pub fn look_at<'a>(sources: impl IntoIterator<Item = &'a Source>) -> Result<Vec<Metadata>, Failure> {
    let (found, wrong): (Vec<_>, Vec<_>) = sources.into_iter().map(Source::look).partition(Result::is_ok);
    let wrong: Vec<String> = wrong.into_iter().filter_map(Result::err).collect();
    if wrong.is_empty() {
        Ok(found.into_iter().flatten().collect())
    } else {
        Err(Failure::Trouble(wrong))
    }
}

fn standard_input() -> ManuallyDrop<File> {
    ManuallyDrop::new(unsafe { File::from_raw_fd(0) })
}

/// A file that is waited for, also where it says that it does not wait.
struct Patient(File);

impl Read for Patient {
    fn read(&mut self, room: &mut [u8]) -> io::Result<usize> {
        patiently(|| self.0.read(room))
    }
}

/// A call that is made again where it was interrupted, or would have had to wait.
pub fn patiently(mut call: impl FnMut() -> io::Result<usize>) -> io::Result<usize> {
    loop {
        match call() {
            Err(error) if error.kind() == ErrorKind::Interrupted => {}
            Err(error) if error.kind() == ErrorKind::WouldBlock => sleep(Duration::from_millis(5)),
            done => return done,
        }
    }
}

/// The lines of a file, up to what is kept of each.
pub struct Lines<'a> {
    source: &'a Source,
    from: BufReader<Patient>,
    kept: u64,
    size: Option<u64>,
    line: Vec<u8>,
    rest: Vec<u8>,
    taken: u64,
    number: u64,
    /// How many lines end in LF, and how many of these have a CR before it.
    ended: u64,
    with_cr: u64,
}

/// A line without its LF: its number from 1, where it begins in the file, and its bytes.
pub struct Line<'a> {
    pub number: u64,
    pub offset: u64,
    pub bytes: &'a [u8],
}

impl Lines<'_> {
    /// Whether the file can be opened once more by its name, and is the same then.
    pub fn is_repeatable(&self) -> bool {
        self.size.is_some() && !self.source.is_standard_input()
    }

    /// The next line. What was printed is shown before more input is waited for.
    pub fn next(&mut self, desk: &mut Desk) -> Result<Option<Line<'_>>, Failure> {
        if !self.from.buffer().contains(&b'\n') {
            desk.flush()?;
            desk.progress(|| self.progress());
        }
        let offset = self.taken;
        if self.take(self.kept).map_err(|error| self.broken(&error))? == 0 {
            self.hint(desk)?;
            return Ok(None);
        }
        self.number += 1;
        if self.number == 1 && self.source.holds == "notes" && self.line.starts_with("\u{feff}".as_bytes()) {
            let name = self.source.told();
            desk.tell(&format!("{name}: it begins with a byte order mark, which is a character of its first note here; to take it out: sed '1s/^\\xEF\\xBB\\xBF//' FILE"))?;
        }
        Ok(Some(Line { number: self.number, offset, bytes: &self.line }))
    }

    /// Reads a line up to and with its LF, and keeps so much of it: how many bytes were read.
    fn take(&mut self, kept: u64) -> io::Result<u64> {
        self.line.clear();
        let mut length = self.from.by_ref().take(kept).read_until(b'\n', &mut self.line)? as u64;
        let mut last = self.line.last_chunk::<2>().copied().unwrap_or([0, self.line.last().copied().unwrap_or(0)]);
        while length >= kept && last[1] != b'\n' {
            self.rest.clear();
            let more = self.from.by_ref().take(PART as u64).read_until(b'\n', &mut self.rest)?;
            if more == 0 {
                break;
            }
            length += more as u64;
            last = self.rest.last_chunk::<2>().copied().unwrap_or([last[1], self.rest[0]]);
        }
        if length > kept {
            self.line.truncate(whole(&self.line));
        }
        if last[1] == b'\n' {
            self.line.truncate(self.line.len() - usize::from(self.line.ends_with(b"\n")));
            self.ended += 1;
            self.with_cr += u64::from(last[0] == b'\r');
        }
        self.taken += length;
        Ok(length)
    }

    fn broken(&self, error: &io::Error) -> Failure {
        let read = if self.number == 0 { String::new() } else { format!("; its first {} were read", counted(self.number, "line")) };
        Failure::trouble(self.source.unreadable(error) + &read)
    }

    /// A word on a file whose lines all end in CR.
    fn hint(&self, desk: &mut Desk) -> Result<(), Failure> {
        if self.ended == 0 || self.with_cr < self.ended || self.source.holds != "notes" {
            return Ok(());
        }
        let name = self.source.told();
        desk.tell(&format!("{name}: every line ends in CR, which is a character of each note here; to take it out of a file: sed 's/\\r$//' FILE"))
    }

    fn progress(&self) -> String {
        let part = self.size.filter(|size| *size > 0).map(|size| format!(", {} %", self.taken.min(size) * 100 / size)).unwrap_or_default();
        format!("{}: {}{part}", self.source.told(), counted(self.number, "line"))
    }
}

/// How much of a line that was cut is whole characters, or bytes that are none.
pub fn whole(line: &[u8]) -> usize {
    line.len() - line.utf8_chunks().last().map_or(0, |last| last.invalid().len())
}

/// A number with its noun, and with commas between its thousands.
pub fn counted(number: u64, noun: &str) -> String {
    format!("{} {noun}{}", grouped(number), if number == 1 { "" } else { "s" })
}

/// A number with commas between its thousands.
pub fn grouped(number: u64) -> String {
    let digits = number.to_string();
    let groups: Vec<&str> = digits.as_bytes().rchunks(3).rev().map(|group| std::str::from_utf8(group).unwrap_or_default()).collect();
    groups.join(",")
}
