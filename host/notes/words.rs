//! The words that a verb is given.

use crate::files::Source;
use crate::Failure;
use sides::answers::Form;
use std::collections::{BTreeMap, VecDeque};
use std::ffi::{OsStr, OsString};

/// What a verb is told: its options, with what is behind those that take a word, and the other words in their order.
pub struct Words {
    options: BTreeMap<&'static str, OsString>,
    rest: VecDeque<OsString>,
}

impl Words {
    /// Sorts the words. Options may stand anywhere; behind `--` there are none. One that takes a word is known as `--ranges FILE`.
    pub fn of(words: Vec<OsString>, known: &[&'static str]) -> Result<Self, Failure> {
        let mut sorted = Self { options: BTreeMap::new(), rest: VecDeque::new() };
        let mut words = words.into_iter();
        while let Some(word) = words.next() {
            if word == "--" {
                sorted.rest.extend(words);
                break;
            }
            if word == "-" || !word.as_encoded_bytes().starts_with(b"-") {
                sorted.rest.push_back(word);
                continue;
            }
            let mut options = known.iter().map(|option| option.split_once(' ').map_or((*option, None), |(name, takes)| (name, Some(takes))));
            let unknown = || Failure::Words(format!("there is no option {} here; it knows {}", quoted(&word), known.join(" and ")));
            let (name, takes) = options.find(|(name, _)| word == *name).ok_or_else(unknown)?;
            let value = takes.map_or(Some(OsString::new()), |_| words.next());
            let value = value.ok_or_else(|| Failure::Words(format!("{name} is the last word: behind it stands {}", takes.unwrap_or_default())))?;
            if sorted.options.insert(name, value).is_some() {
                return Err(Failure::Words(format!("{name} is given twice")));
            }
        }
        Ok(sorted)
    }

    /// Whether an option is given.
    pub fn has(&self, option: &str) -> bool {
        self.options.contains_key(option)
    }

    /// The word behind an option, where it is given.
    pub fn value(&mut self, option: &str) -> Option<OsString> {
        self.options.remove(option)
    }

    /// The next word, which is a form.
    pub fn form(&mut self, what: &str) -> Result<Form, Failure> {
        self.form_of(what, "raw, tokenized or partial")
    }

    fn form_of(&mut self, what: &str, forms: &str) -> Result<Form, Failure> {
        let word = self.rest.pop_front().ok_or_else(|| Failure::Words(format!("no {what} is named: it is {forms}")))?;
        form(&word).ok_or_else(|| Failure::Words(format!("{} is no form: it is raw, tokenized or partial (R, T or P)", quoted(&word))))
    }

    /// The next word, which is a form that notes are written in.
    pub fn written_form(&mut self) -> Result<Form, Failure> {
        match self.form_of("form to write", "tokenized or partial")? {
            Form::Raw => Err(Failure::Words("no note is written raw: the form to write is tokenized or partial (T or P)".into())),
            form => Ok(form),
        }
    }

    /// The next word, which is a number.
    pub fn number(&mut self, what: &str) -> Result<usize, Failure> {
        let word =
            self.rest.pop_front().ok_or_else(|| Failure::Words(format!("no {what} is given: it takes START and END, or --ranges and a file")))?;
        let number = word.to_str().and_then(number);
        number.ok_or_else(|| Failure::Words(format!("{} is no {what}: that is a number of characters, from 0 up", quoted(&word))))
    }

    /// The next word, where it is one of these.
    pub fn one_of(&mut self, these: &[&'static str]) -> Option<&'static str> {
        let found = these.iter().copied().find(|known| self.rest.front().is_some_and(|word| word == known))?;
        self.rest.pop_front();
        Some(found)
    }

    /// That the next word is not what is needed there, or that there is none.
    pub fn lacks(&self, what: &str, needed: &str) -> Failure {
        let found = self.rest.front().map_or(format!("no {what} is named"), |word| format!("{} is no {what}", quoted(word)));
        Failure::Words(format!("{found}: {needed}"))
    }

    /// Whether the next words are two numbers.
    pub fn has_numbers(&self) -> bool {
        let numbers = self.rest.iter().take(2).filter(|word| word.to_str().is_some_and(|word| number(word).is_some()));
        numbers.count() == 2
    }

    /// One file of notes at most, as the last word; standard input where none is named.
    pub fn source(mut self, form: Form) -> Result<Source, Failure> {
        let name = self.rest.pop_front().unwrap_or("-".into());
        match self.rest.pop_front() {
            Some(word) => Err(Failure::Words(format!("one file at most: {} is one too many", quoted(&word)))),
            None => Ok(Source::of_notes(form, name)),
        }
    }

    /// One or more files of notes behind their form, and perhaps more behind another.
    pub fn sources(mut self) -> Result<Vec<Source>, Failure> {
        let form = self.form("form")?;
        self.sources_in(form)
    }

    /// The same where the first form is known.
    pub fn sources_in(mut self, mut form: Form) -> Result<Vec<Source>, Failure> {
        let (mut sources, mut named): (Vec<Source>, usize) = (vec![], 0);
        while let Some(word) = self.rest.pop_front() {
            match self::form(&word).filter(|_| named > 0) {
                Some(next) => (form, named) = (next, 0),
                None => {
                    sources.push(Source::of_notes(form, word));
                    named += 1;
                }
            }
        }
        if named == 0 {
            return Err(Failure::Words(format!("no file is named behind the form {}; - is standard input", form.name())));
        }
        Ok(sources)
    }
}

fn form(word: &OsStr) -> Option<Form> {
    word.to_str().and_then(Form::named)
}

/// A number in decimal digits.
pub fn number(digits: &str) -> Option<usize> {
    digits.bytes().all(|byte| byte.is_ascii_digit()).then(|| digits.parse().ok()).flatten()
}

/// A word as it was given.
pub fn quoted(word: &OsStr) -> String {
    sides::answers::visible(word.as_encoded_bytes())
}
