//! Groups of lines that mean the same note.
//!
//! Of each note its key's hash, its place and its line are held, and no key: those with one hash are read again, and their keys are compared.

use crate::desk::Desk;
use crate::files::{counted, grouped, look_at, Source, KEPT};
use crate::refusals::Refusals;
use crate::table::row;
use crate::words::Words;
use crate::{Failure, Outcome};
use sides::answers::unquoted;
use sides::port::Port;
use std::collections::HashMap;
use std::fs::{File, Metadata};
use std::hash::{DefaultHasher, Hasher};
use std::io::ErrorKind;
use std::os::unix::fs::{FileExt, MetadataExt};

/// How many refusals are shown; `check` shows them all.
const SHOWN: u64 = 10;

/// How many files are open at once.
const OPEN: usize = 16;

pub fn verb(desk: &mut Desk, words: Words) -> Outcome {
    let (between, tsv) = (words.has("--between"), words.has("--tsv"));
    let sources = words.sources()?;
    if between && sources.len() < 2 {
        return Err(Failure::Words("--between looks for notes that stand in more than one file: name two or more".into()));
    }
    apart(&sources, &look_at(&sources)?)?;
    let (mut port, mut refusals) = (Port::default(), Refusals::default());
    let mut shelf = Shelf::new(&sources);
    shelf.fill(desk, &mut port, &mut refusals)?;
    if tsv {
        row(desk, &[b"group", b"file", b"line", b"form", b"note"])?;
    }
    let (mut groups, mut members) = (0, 0);
    for run in shelf.runs(between) {
        for group in shelf.groups(&mut port, run, between)? {
            groups += 1;
            members += group.len() as u64;
            shelf.print(desk, tsv, groups, &group)?;
            desk.progress(|| format!("{} found", counted(groups, "group")));
        }
    }
    let rest = if refusals.total() > SHOWN { format!("; the first {SHOWN} are above, 'bash notes.sh check' lists them all") } else { String::new() };
    let refused = refusals.finish(desk, &format!("they are not compared{rest}"))?;
    desk.tell(&summary(groups, members, between, refusals.notes - refusals.total()))?;
    Ok(groups > 0 || refused)
}

/// How many notes were found, on how many lines, and among how many.
fn summary(groups: u64, members: u64, between: bool, notes: u64) -> String {
    let (place, lines, compared) =
        (if between { "in more than one file" } else { "more than once" }, counted(members, "line"), counted(notes, "note"));
    match groups {
        0 => format!("no note stands {place}: {compared} compared"),
        1 => format!("1 note stands {place}, on {lines}: {compared} compared"),
        _ => format!("{} notes stand {place}, on {lines}: {compared} compared", grouped(groups)),
    }
}

/// Refuses files that are one file: each of its notes would be its own duplicate.
fn apart(sources: &[Source], found: &[Metadata]) -> Result<(), Failure> {
    let mut seen = HashMap::new();
    for (source, found) in sources.iter().zip(found) {
        if let Some(first) = seen.insert((found.dev(), found.ino()), source.shown()) {
            let same =
                if first == source.shown() { format!("{first} is named twice") } else { format!("{first} and {} are one file", source.shown()) };
            return Err(Failure::trouble(format!("{same}: each of its notes would be its own duplicate")));
        }
    }
    Ok(())
}

/// A note: the hash of its key, where its line begins in its file or in what is held of it, how many bytes that has, its file, and its line there.
struct Note {
    hash: u64,
    offset: u64,
    length: u16,
    file: u32,
    number: u64,
}

/// The notes of all files, and what is needed to read them again.
struct Shelf<'a> {
    sources: &'a [Source],
    notes: Vec<Note>,
    held: HashMap<u32, Vec<u8>>,
    open: HashMap<u32, File>,
}

impl<'a> Shelf<'a> {
    fn new(sources: &'a [Source]) -> Self {
        Self { sources, notes: vec![], held: HashMap::new(), open: HashMap::new() }
    }

    /// Reads all files. What cannot be read twice is held.
    fn fill(&mut self, desk: &mut Desk, port: &mut Port, refusals: &mut Refusals) -> Result<(), Failure> {
        for (file, source) in (0..).zip(self.sources) {
            let mut lines = source.lines(KEPT)?;
            let mut held = (!lines.is_repeatable()).then(Vec::new);
            while let Some(line) = lines.next(desk)? {
                refusals.notes += 1;
                match port.key(source.form, line.bytes) {
                    Err(refusal) if refusals.total() < SHOWN => refusals.say(desk, source, &line, refusal)?,
                    Err(refusal) => refusals.count(refusal),
                    Ok(key) => {
                        let offset = held.as_ref().map_or(line.offset, |held| held.len() as u64);
                        held.iter_mut().for_each(|held| held.extend_from_slice(line.bytes));
                        self.notes.push(Note { hash: hash(key), offset, length: line.bytes.len() as u16, file, number: line.number });
                    }
                }
            }
            held.map(|held| self.held.insert(file, held));
        }
        self.notes.sort_unstable_by_key(|note| (note.hash, note.file, note.number));
        Ok(())
    }

    /// The notes that have one hash, by the first of them: where they begin among all, and where they end.
    fn runs(&self, between: bool) -> Vec<(usize, usize)> {
        let (mut runs, mut from) = (vec![], 0);
        for run in self.notes.chunk_by(|a, b| a.hash == b.hash) {
            if run.len() > 1 && (!between || run[0].file != run[run.len() - 1].file) {
                runs.push((from, from + run.len()));
            }
            from += run.len();
        }
        runs.sort_unstable_by_key(|&(from, _)| (self.notes[from].file, self.notes[from].number));
        runs
    }

    /// The groups of a run: those of its notes that have one key.
    fn groups(&mut self, port: &mut Port, (from, to): (usize, usize), between: bool) -> Result<Vec<Vec<usize>>, Failure> {
        let mut groups: Vec<(Vec<u8>, Vec<usize>)> = vec![];
        for at in from..to {
            let line = self.line(at)?;
            let note = &self.notes[at];
            let key =
                port.key(self.sources[note.file as usize].form, &line).ok().filter(|key| hash(key) == note.hash).ok_or_else(|| self.changed(at))?;
            match groups.iter_mut().find(|(of, _)| of == key) {
                Some((_, group)) => group.push(at),
                None => groups.push((key.to_vec(), vec![at])),
            }
        }
        Ok(groups.into_iter().map(|(_, group)| group).filter(|group| self.is_asked_for(group, between)).collect())
    }

    /// Whether a group is one that was asked for.
    fn is_asked_for(&self, group: &[usize], between: bool) -> bool {
        group.len() > 1 && (!between || group.iter().any(|&at| self.notes[at].file != self.notes[group[0]].file))
    }

    /// Prints a group, each note as its file spells it.
    fn print(&mut self, desk: &mut Desk, tsv: bool, count: u64, group: &[usize]) -> Result<(), Failure> {
        if !tsv && count > 1 {
            desk.line(b"")?;
        }
        for &at in group {
            let line = self.line(at)?;
            let note = &self.notes[at];
            let source = &self.sources[note.file as usize];
            if tsv {
                let (group, number) = (count.to_string(), note.number.to_string());
                row(desk, &[group.as_bytes(), source.name.as_encoded_bytes(), number.as_bytes(), source.form.name().as_bytes(), &line])?;
            } else {
                desk.line(format!("{}: {}", source.at(note.number), unquoted(&line)).as_bytes())?;
            }
        }
        Ok(())
    }

    /// A note's line, read again.
    fn line(&mut self, at: usize) -> Result<Vec<u8>, Failure> {
        let &Note { offset, length, file, .. } = &self.notes[at];
        if let Some(held) = self.held.get(&file) {
            return Ok(held[offset as usize..][..length as usize].to_vec());
        }
        if self.open.len() >= OPEN && !self.open.contains_key(&file) {
            self.open.clear();
        }
        let source = &self.sources[file as usize];
        if !self.open.contains_key(&file) {
            self.open.insert(file, source.open().map_err(Failure::trouble)?);
        }
        let mut line = vec![0; length as usize];
        match self.open[&file].read_exact_at(&mut line, offset) {
            Err(error) if error.kind() != ErrorKind::UnexpectedEof => Err(Failure::trouble(source.unreadable(&error))),
            Err(_) => Err(self.changed(at)),
            Ok(()) => Ok(line),
        }
    }

    fn changed(&self, at: usize) -> Failure {
        let note = &self.notes[at];
        Failure::trouble(format!("{} was changed while it was read: run it again", self.sources[note.file as usize].at(note.number)))
    }
}

/// A number for a key; two keys may have one.
fn hash(key: &[u8]) -> u64 {
    let mut hasher = DefaultHasher::new();
    hasher.write(key);
    if has_one_hash() {
        0
    } else {
        hasher.finish()
    }
}

/// Whether all keys have one hash: only in the build that tests whether that makes a difference, where `SPOIL` says so.
fn has_one_hash() -> bool {
    cfg!(wrong) && std::env::var("SPOIL").is_ok_and(|named| named == "hash")
}
