//! What the runs `check`, `joins` and `types` have in common: their options, what they count, and what they say.

use crate::{number, Failure};
use std::collections::BTreeMap;
use std::fmt::Display;
use std::io::{self, stdout, Write};
use std::time::{Duration, Instant};

/// How much is asked about, and by which seed.
pub struct Options {
    pub long_run: bool,
    pub only: Option<u64>,
    pub seed: u64,
}

impl Options {
    /// What a command is told; `few` is the option that says how many drawn ones alone are asked about.
    pub fn told(command: &str, few: &str, words: &[&str]) -> Result<Self, Failure> {
        let mut options = Self { long_run: false, only: None, seed: 1 };
        let mut words = words.iter();
        while let Some(&word) = words.next() {
            match word {
                "--long" => options.long_run = true,
                "--seed" => options.seed = number(word, words.next())?,
                _ if word == few => options.only = Some(number(word, words.next())?),
                _ => return Err(Failure::Usage(format!("{command} does not know '{word}'"))),
            }
        }
        if options.long_run && options.only.is_some() {
            return Err(Failure::Usage(format!("--long and {few} exclude each other")));
        }
        Ok(options)
    }
}

/// What a run has counted under each of its headings, and how long it runs.
pub struct Tally {
    command: &'static str,
    asked: &'static str,
    counts: Vec<(&'static str, BTreeMap<String, u64>)>,
    differences: u64,
    began: Instant,
    said: Instant,
}

impl Tally {
    /// Nothing counted yet; what stands under the first heading is what is asked about, and `asked` is its name in the last line.
    pub fn new(command: &'static str, asked: &'static str, headings: &[&'static str]) -> Self {
        let now = Instant::now();
        Self { command, asked, counts: headings.iter().map(|&heading| (heading, BTreeMap::new())).collect(), differences: 0, began: now, said: now }
    }

    /// One more of a kind under a heading.
    pub fn count(&mut self, heading: &str, kind: impl Into<String>) {
        self.count_many(heading, kind, 1);
    }

    /// So many more of a kind under a heading.
    pub fn count_many(&mut self, heading: &str, kind: impl Into<String>, many: u64) {
        let (_, counts) = self.counts.iter_mut().find(|(name, _)| *name == heading).expect("a heading of this run");
        *counts.entry(kind.into()).or_default() += many;
    }

    /// One more difference; the first twenty are printed.
    pub fn differs(&mut self, what: impl Display) -> io::Result<()> {
        self.differences += 1;
        if self.differences <= 20 {
            writeln!(stdout(), "{what}")?;
        }
        Ok(())
    }

    /// Says every five seconds how far the run has come.
    pub fn progress(&mut self) {
        if self.said.elapsed() > Duration::from_secs(5) {
            self.said = Instant::now();
            eprintln!("{}: {}", self.command, self.so_far());
        }
    }

    fn so_far(&self) -> String {
        let asked: u64 = self.counts[0].1.values().sum();
        format!("{asked} {}, {} differences, {} s", self.asked, self.differences, self.began.elapsed().as_secs())
    }

    /// The last words of a run; whether no answer differed.
    pub fn finish(&self) -> io::Result<bool> {
        for (heading, counts) in &self.counts {
            let counts: Vec<String> = counts.iter().map(|(kind, count)| format!("{count} {kind}")).collect();
            writeln!(stdout(), "{heading}: {}", if counts.is_empty() { "none".into() } else { counts.join(", ") })?;
        }
        writeln!(stdout(), "{}", self.so_far())?;
        Ok(self.differences == 0)
    }
}
