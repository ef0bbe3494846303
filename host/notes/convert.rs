//! Each note written in another form.

use crate::desk::Desk;
use crate::files::{counted, look_at, KEPT};
use crate::refusals::Refused;
use crate::words::Words;
use crate::writing::Writing;
use crate::{Failure, Outcome};
use sides::answers::Form;
use sides::port::Port;

pub fn verb(desk: &mut Desk, mut words: Words) -> Outcome {
    let tsv = words.has("--tsv");
    let (from, to) = (words.form("form to read")?, words.written_form()?);
    let source = words.source(from)?;
    look_at([&source])?;
    let (mut port, mut losses) = (Port::default(), Losses::default());
    let mut writing = Writing::of(desk, tsv, [b"file", b"line"], &[b"kept"])?;
    let mut lines = source.lines(KEPT)?;
    while let Some(line) = lines.next(desk)? {
        let number = line.number.to_string();
        let head = [source.name.as_encoded_bytes(), number.as_bytes()];
        match port.written(from, to, line.bytes).map(<[u8]>::to_vec) {
            Err(refusal) => writing.refused(desk, head, &[Refused::of(&source, &line, refusal)])?,
            Ok(written) => {
                let kept = is_kept(&mut port, from, to, line.bytes, &written);
                if !kept {
                    losses.count(&written, source.at(line.number));
                }
                writing.wrote(desk, head, &[if kept { b"yes" } else { b"no" }], &written)?;
            }
        }
    }
    losses.tell(desk)?;
    writing.finish(desk)
}

/// Whether the written line reads back as the note that it was written from. The two partial lines say so; by proof only the tokenized form of a note in
/// another form leaves something out, and only a line that is too long is not read back.
fn is_kept(port: &mut Port, from: Form, to: Form, line: &[u8], written: &[u8]) -> bool {
    if written.len() > 4096 || to == Form::Partial || from == Form::Tokenized {
        return written.len() <= 4096;
    }
    let note = port.written(from, Form::Partial, line).map(<[u8]>::to_vec);
    port.written(to, Form::Partial, written) == note.as_deref().map_err(|refusal| *refusal)
}

/// Written lines that do not read back as the note: those with something left out, and those that are too long, with the first of each.
#[derive(Default)]
struct Losses {
    left_out: (u64, String),
    too_long: (u64, String),
}

impl Losses {
    fn count(&mut self, written: &[u8], at: String) {
        let (count, first) = if written.len() > 4096 { &mut self.too_long } else { &mut self.left_out };
        if *count == 0 {
            *first = at;
        }
        *count += 1;
    }

    fn tell(&self, desk: &mut Desk) -> Result<(), Failure> {
        let Self { left_out: (left_out, first), too_long: (too_long, longest) } = self;
        if *left_out > 0 {
            let what = "tokens with an unknown boundary, or tags inside a token, which the tokenized form does not have";
            desk.tell(&format!("{} lost {what}; the first is {first}", counted(*left_out, "note")))?;
        }
        if *too_long > 0 {
            let (are, them) = if *too_long == 1 { ("is", "it") } else { ("are", "them") };
            let notes = counted(*too_long, "written note");
            desk.tell(&format!("{notes} {are} over 4,096 bytes long, and no reader takes {them}; the first is {longest}"))?;
        }
        Ok(())
    }
}
