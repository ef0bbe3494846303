//! The notes of files joined, line by line.

use crate::desk::Desk;
use crate::files::{look_at, whole, Line, Lines, Source, KEPT};
use crate::refusals::Refused;
use crate::words::Words;
use crate::writing::Writing;
use crate::{Failure, Outcome};
use sides::answers::{Form, Refusal};
use sides::port::Port;

/// Joins the lines of files; whether one of them is refused.
pub fn verb(desk: &mut Desk, mut words: Words) -> Outcome {
    let tsv = words.has("--tsv");
    let form = words.form("form")?;
    let sign = sign(form, &mut words)?;
    let sources = words.sources_in(form)?;
    together(form, &sources)?;
    look_at(&sources)?;
    let (mut port, mut writing) = (Port::default(), Writing::of(desk, tsv, [b"line", b"file"], &[])?);
    let mut files = sources.iter().map(|source| source.lines(KEPT)).collect::<Result<Vec<_>, _>>()?;
    while let Some(parts) = next(desk, &sources, &mut files)? {
        let number = parts[0].number.to_string();
        let head = |file| [number.as_bytes(), file];
        match joined(&mut port, form, sign, &parts) {
            Ok(note) => match port.refusal(form, &note) {
                None => writing.wrote(desk, head(b""), &[], &note)?,
                Some(refusal) => writing.refused(desk, head(b""), &[Refused { at: format!("line {number}, joined"), bytes: &note, refusal }])?,
            },
            Err(refused) => {
                let file = sources[refused[0].0].name.as_encoded_bytes();
                let refused: Vec<_> = refused.into_iter().map(|(at, refusal)| Refused::of(&sources[at], &parts[at], refusal)).collect();
                writing.refused(desk, head(file), &refused)?
            }
        }
    }
    writing.finish(desk)
}

/// What stands between two notes of a form; between partial ones the sign of the mark that is named.
fn sign(form: Form, words: &mut Words) -> Result<&'static [u8], Failure> {
    match (form, words.one_of(&["none", "word", "unknown"])) {
        (Form::Raw, None | Some("unknown")) => Ok(b""),
        (Form::Raw, Some(mark)) => Err(needless("raw notes are joined by an unknown boundary", mark)),
        (Form::Tokenized, None | Some("word")) => Ok(b" "),
        (Form::Tokenized, Some(mark)) => Err(needless("tokenized notes are joined by a word boundary", mark)),
        (Form::Partial, Some("none")) => Ok(b"-"),
        (Form::Partial, Some("word")) => Ok(b"|"),
        (Form::Partial, Some(_)) => Ok(b" "),
        (Form::Partial, None) => Err(words.lacks("mark", "partial notes are joined by none, word or unknown")),
    }
}

/// That a form has no such mark.
fn needless(has: &str, mark: &str) -> Failure {
    Failure::Words(format!("{has}: leave the mark out; a file of that name is given as ./{mark}"))
}

/// Refuses files of different forms, and standard input in two places.
fn together(form: Form, sources: &[Source]) -> Result<(), Failure> {
    if sources.iter().any(|source| source.form != form) {
        return Err(Failure::Words("notes of one form are joined: convert those of the other first".into()));
    }
    if sources.iter().filter(|source| source.is_standard_input()).count() > 1 {
        return Err(Failure::Words("standard input is named twice, and can be read once: name a file for one of them".into()));
    }
    Ok(())
}

/// The next line of each file; nothing where all of them end.
fn next<'a>(desk: &mut Desk, sources: &[Source], files: &'a mut [Lines]) -> Result<Option<Vec<Line<'a>>>, Failure> {
    let lines = files.iter_mut().map(|file| file.next(desk)).collect::<Result<Vec<_>, _>>()?;
    let ended: Vec<&Source> = sources.iter().zip(&lines).filter(|(_, line)| line.is_none()).map(|(source, _)| source).collect();
    match sources.iter().zip(&lines).find_map(|(source, line)| Some((source, line.as_ref()?.number))) {
        None => Ok(None),
        Some(_) if ended.is_empty() => Ok(Some(lines.into_iter().flatten().collect())),
        Some((longer, number)) => {
            let said = |source: &&Source| format!("{} ends before {} does: it has no line {number}", source.shown(), longer.shown());
            Err(Failure::Trouble(ended.iter().map(said).collect()))
        }
    }
}

/// The parts of a note with a sign between them, up to what is kept of a line; or those that are refused.
fn joined(port: &mut Port, form: Form, sign: &[u8], parts: &[Line]) -> Result<Vec<u8>, Vec<(usize, Refusal)>> {
    let (mut note, mut refused) = (vec![], vec![]);
    for (at, part) in parts.iter().enumerate() {
        note.extend_from_slice(if at > 0 { sign } else { b"" });
        match written(port, form, part.bytes) {
            Ok(written) => note.extend_from_slice(written),
            Err(refusal) => refused.push((at, refusal)),
        }
        note.truncate(KEPT as usize);
    }
    note.truncate(whole(&note));
    if refused.is_empty() {
        Ok(note)
    } else {
        Err(refused)
    }
}

/// A part as it is joined: written in its form, so that it ends where its sentence does; a raw one as it is.
fn written<'a>(port: &'a mut Port, form: Form, part: &'a [u8]) -> Result<&'a [u8], Refusal> {
    match form {
        Form::Raw => port.refusal(form, part).map_or(Ok(part), Err),
        Form::Tokenized | Form::Partial => port.written(form, form, part),
    }
}
