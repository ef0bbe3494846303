//! What the original does with a sentence that it has read.

use crate::answer::{answer, hex, list, read};
use vaporetto::predictor::Predictor;
use vaporetto::sentence::inside;
use vaporetto::CharacterBoundary;

/// One thing done with a sentence.
pub enum Act {
    /// The boundary of an index set to a value.
    Boundary(usize, CharacterBoundary),
    /// Columns reset to a count.
    Columns(usize),
    /// The boundaries decided by scores.
    Scores(Vec<i32>),
    /// The token iterator's next step from a place.
    Next(usize),
}

/// The answer to an act on a line that is accepted, as it is recorded.
pub fn recorded(form: char, line: &str, act: &Act) -> String {
    let asked = format!("{form} {}", hex(line.as_bytes()));
    let mut sentence = read(form, line).expect("acts are asked of accepted lines");
    match act {
        Act::Boundary(index, value) => {
            sentence.boundaries_mut()[*index] = *value;
            format!("B {asked} {index} {} = {}", *value as u8, answer(&sentence))
        }
        Act::Columns(count) => {
            sentence.reset_tags(*count);
            format!("C {asked} {count} = {}", answer(&sentence))
        }
        Act::Scores(scores) => {
            let predictor = Predictor::new(scores.clone());
            predictor.predict(&mut sentence);
            format!("S {asked} {} = {}", list(scores, ","), answer(&sentence))
        }
        Act::Next(place) => {
            let mut tokens = inside::tokens_from(&sentence, *place);
            let token = tokens.next().map_or(".".into(), |t| format!("{}-{}", t.start(), t.end()));
            format!("N {asked} {place} = {token} {}", inside::place(&tokens))
        }
    }
}
