//! Each line of files, read and written by both sides; docs/COMPARING.md is the guide.

use crate::desk::Desk;
use crate::files::{counted, look_at, Source};
use crate::table::row;
use crate::words::Words;
use crate::{Failure, Outcome};
use sides::answers::{or_refused, seen, visible, Answer, Form, Refusal};
use sides::original;
use sides::port::Port;
use sides::rules;
use std::collections::BTreeMap;

/// How much of a value a person is shown.
const CLIP: usize = 160;

/// Compares both sides on each line of files, as a list to read or as a table; whether something that differs is not explained.
pub fn verb(desk: &mut Desk, words: Words) -> Outcome {
    let tsv = words.has("--tsv");
    let sources = words.sources()?;
    look_at(&sources)?;
    if tsv {
        row(desk, &[b"file", b"line", b"item", b"part", b"original", b"port", b"text"])?;
    }
    let (mut port, mut total, mut told) = (Port::default(), Summary::default(), vec![]);
    for source in &sources {
        let mut summary = Summary::default();
        let mut lines = source.lines(u64::MAX)?;
        while let Some(line) = lines.next(desk)? {
            summary.lines += 1;
            compared(desk, &mut port, tsv, source, line.bytes, &mut summary)?;
        }
        told.push(summary.told(&source.shown()));
        total.add(&summary);
    }
    if told.len() > 1 {
        told.push(total.told("in all"));
    }
    told.iter().try_for_each(|line| if tsv { desk.tell(line) } else { desk.line(line.as_bytes()) })?;
    Ok(total.unexplained() > 0)
}

/// Something that the two sides say differently of a line.
struct Difference {
    part: &'static str,
    original: String,
    port: String,
    item: Option<&'static str>,
}

/// What was met in a file.
#[derive(Default)]
struct Summary {
    lines: u64,
    accepted: u64,
    refused: u64,
    items: BTreeMap<&'static str, u64>,
}

impl Summary {
    fn unexplained(&self) -> u64 {
        self.items.get(UNEXPLAINED).copied().unwrap_or(0)
    }

    fn add(&mut self, other: &Summary) {
        self.lines += other.lines;
        self.accepted += other.accepted;
        self.refused += other.refused;
        other.items.iter().for_each(|(item, count)| *self.items.entry(item).or_default() += count);
    }

    fn told(&self, of: &str) -> String {
        let differing: u64 = self.items.values().sum();
        let mut items: Vec<_> = self.items.iter().filter(|(item, _)| **item != UNEXPLAINED).collect();
        items.sort_by_key(|(item, _)| (item.len(), **item));
        let items: Vec<String> = items.iter().map(|(item, count)| format!("{item}: {count}")).collect();
        let explained = if items.is_empty() { String::new() } else { format!("{}, ", items.join(", ")) };
        format!(
            "{of}: {}, {} alike ({} accepted, {} refused), {differing} different ({explained}{UNEXPLAINED}: {})",
            counted(self.lines, "line"),
            self.lines - differing,
            self.accepted,
            self.refused,
            self.unexplained()
        )
    }
}

/// What stands in the place of an item where none explains a difference.
const UNEXPLAINED: &str = "unexplained";

/// Compares both sides on a line and prints how they differ.
fn compared(desk: &mut Desk, port: &mut Port, tsv: bool, source: &Source, line: &[u8], summary: &mut Summary) -> Result<(), Failure> {
    let (differences, accepted) = differences(port, source.form, line);
    if differences.is_empty() {
        *if accepted { &mut summary.accepted } else { &mut summary.refused } += 1;
        return Ok(());
    }
    let item = differences.iter().find(|d| d.item.is_none()).map_or(differences[0].item, |_| None).unwrap_or(UNEXPLAINED);
    *summary.items.entry(item).or_default() += 1;
    let (at, shown) = (source.at(summary.lines), visible(line));
    if !tsv {
        desk.line(format!("{at}: {item}\n  line  {}", clipped(&shown, 0)).as_bytes())?;
    }
    for Difference { part, original, port, item } in differences {
        if tsv {
            let (number, item) = (summary.lines.to_string(), item.unwrap_or(UNEXPLAINED));
            let cells = [number.as_bytes(), item.as_bytes(), part.as_bytes(), original.as_bytes(), port.as_bytes(), shown.as_bytes()];
            row(desk, &[&[source.name.as_encoded_bytes()], &cells[..]].concat())?;
        } else {
            let from = original.bytes().zip(port.bytes()).take_while(|(a, b)| a == b).count();
            desk.line(format!("  {part}\n    the Rust  {}\n    the port  {}", clipped(&original, from), clipped(&port, from)).as_bytes())?;
        }
    }
    if tsv {
        Ok(())
    } else {
        desk.line(b"")
    }
}

/// How both sides differ on a line, and whether the port accepts it.
fn differences(asked: &mut Port, form: Form, line: &[u8]) -> (Vec<Difference>, bool) {
    let given = asked.outcome(form, line);
    let accepted = given.is_ok();
    let port = given.as_ref().map_or_else(Refusal::to_string, |_| "accepts".into());
    let whole = |original, item| vec![Difference { part: "answer", original, port: port.clone(), item }];
    let text = std::str::from_utf8(line);
    if line.len() > 4096 {
        let told = text.map(|text| original::read(form, text).map_or_else(said, |s| format!("accepts: {} characters", s.char_types().len())));
        let item = (given == Err(Refusal { number: 1, place: 4096 })).then_some("D2");
        return (whole(told.unwrap_or_else(not_utf8), item), accepted);
    }
    let text = match text {
        Ok(text) => text,
        Err(error) => {
            let item = (given == Err(Refusal { number: 2, place: error.valid_up_to() as u64 })).then_some("D1");
            return (whole(not_utf8(error), item), accepted);
        }
    };
    let found = match (original::outcome(form, text), given) {
        (Ok(told), Ok(given)) if told == given => converted(asked, form, line, &told),
        (Ok(told), Ok(given)) => told
            .parts()
            .into_iter()
            .zip(given.parts())
            .filter(|(told, given)| told != given)
            .map(|((part, original), (_, port))| Difference { part, original, port, item: None })
            .collect(),
        (Err(told), Err(given)) if told.refusal == given => vec![],
        (Err(told), _) => whole(format!("{} ({})", told.refusal, seen(&told.message)), None),
        (Ok(_), Err(_)) => whole("accepts".into(), None),
    };
    (found, accepted)
}

/// How the conversion differs from the lines that the original writes. A sentence with more cells than it holds is refused by 11.
fn converted(port: &mut Port, form: Form, line: &[u8], told: &Answer) -> Vec<Difference> {
    let mut found = vec![];
    for (part, writer) in [("converted to tokenized", Form::Tokenized), ("converted to partial", Form::Partial)] {
        let (wanted, given) = (told.written(writer), port.converted(form, writer, line));
        if given.as_deref() != Ok(wanted) {
            let item = (rules::is_too_wide(told.record) && given == Err(Refusal { number: 11, place: 0 })).then_some("D13");
            found.push(Difference { part, original: visible(wanted), port: or_refused(&given, |line| visible(line)), item });
        }
    }
    found
}

fn said(message: String) -> String {
    format!("refuses: {}", seen(&message))
}

fn not_utf8(error: std::str::Utf8Error) -> String {
    format!("cannot be given the line: it is not UTF-8 from byte {} on", error.valid_up_to())
}

/// So much of a value as fits, from a little before a byte of interest.
fn clipped(value: &str, from: usize) -> String {
    let before = value.char_indices().take_while(|(at, _)| *at < from).count().saturating_sub(CLIP / 4);
    let length = value.chars().count();
    if length <= CLIP {
        return value.into();
    }
    let part: String = value.chars().skip(before).take(CLIP).collect();
    let (front, back) = (if before > 0 { "…" } else { "" }, if before + CLIP < length { "…" } else { "" });
    format!("{front}{part}{back} ({length} characters)")
}
