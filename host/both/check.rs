//! Generated lines, read and written by both sides.

use crate::asks::Asks;
use crate::lines::{self, Asked};
use crate::runs::{Options, Tally};
use crate::Outcome;
use oracle::draw::Draw;
use sides::answers::{visible, Answer, Form, Refusal, FORMS};
use sides::original;
use sides::rules;
use std::io;

/// Asks about generated lines; whether no answer differs.
pub fn command(words: &[&str]) -> Outcome {
    let Options { long_run, only, seed } = Options::told("check", "--lines", words)?;
    let (mut run, mut draw) = (Run::new(seed), Draw::new(seed));
    let (drawn, near, wide, crowded, most) = match only {
        Some(count) => (count, count.div_ceil(50), count.div_ceil(50), count.div_ceil(50), 200),
        None if long_run => (600_000, 4_000, 20_000, 2_000, 1_000),
        None => (2_500, 20, 60, 60, 200),
    };
    if only.is_none() {
        for asked in lines::recorded().into_iter().chain(lines::short(long_run)) {
            run.line(asked)?;
        }
    }
    for _ in 0..drawn {
        run.line(lines::drawn(&mut draw))?;
    }
    for i in 0..near {
        run.line(lines::near_limit(&mut draw, FORMS[i as usize % 3]))?;
    }
    for _ in 0..wide {
        run.line(lines::wide(&mut draw, most))?;
    }
    for _ in 0..crowded {
        run.line(lines::crowded(&mut draw))?;
    }
    if long_run {
        run.line(lines::longest())?;
        run.line(lines::most_cells())?;
    }
    Ok(run.tally.finish()?)
}

/// A run, and what was asked so far.
struct Run {
    asks: Asks,
    tally: Tally,
}

impl Run {
    fn new(seed: u64) -> Self {
        Self { asks: Asks::new(!seed), tally: Tally::new("check", "lines in 3 forms", &["lines", "answers"]) }
    }

    /// Asks about a line in every form.
    fn line(&mut self, (kind, line): Asked) -> io::Result<()> {
        self.tally.count("lines", kind);
        for form in FORMS {
            if let Err(fault) = self.ask(form, &line) {
                self.tally.differs(format_args!("{} {}: {fault}", form.letter(), visible(&line)))?;
            }
        }
        self.tally.progress();
        Ok(())
    }

    /// Asks about a line in a form.
    fn ask(&mut self, form: Form, line: &[u8]) -> Result<(), String> {
        let expected = expected(form, line)?;
        let name = match &expected {
            Err(refusal) => format!("of refusal {}", refusal.number),
            Ok(answer) if rules::is_too_wide(answer.record) => "accepted with over 2,048 cells".into(),
            Ok(_) => "accepted".into(),
        };
        self.tally.count("answers", name);
        self.asks.line(form, line, &expected)
    }
}

/// What the port should say of a line: what the original says, and document 01 as `rules` has it, which must agree; 1 and 2 are document 01's alone.
fn expected(form: Form, line: &[u8]) -> Result<Result<Answer, Refusal>, String> {
    let ruled = rules::refusal(form, line);
    let text = match (std::str::from_utf8(line), ruled) {
        (_, Some(refusal @ Refusal { number: 1 | 2, .. })) => return Ok(Err(refusal)),
        (Ok(text), _) => text,
        (Err(_), _) => return Err("document 01 as rules.rs has it takes what is not UTF-8".into()),
    };
    match (original::outcome(form, text), ruled) {
        (Ok(answer), None) => Ok(Ok(answer)),
        (Err(told), Some(refusal)) if told.refusal == refusal => Ok(Err(refusal)),
        (told, _) => Err(format!("document 01 as rules.rs has it says {ruled:?}, the original {:?}", told.map(|_| "accepts").map_err(|r| r.refusal))),
    }
}
