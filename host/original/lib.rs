//! The original sentence.rs, unchanged, as crate `vaporetto`, beside the smallest stand-ins for what it leans on.
//!
//! `VAPORETTO_SRC` is the folder of the original's sources; `EXTRACT` holds the lines taken out of predictor.rs.
#![allow(dead_code)]

extern crate alloc;

pub use sentence::{CharacterBoundary, CharacterType, Sentence, Token, TokenIterator};

/// Stands in for errors.rs: the one error that sentence.rs makes, in the original's wording.
pub mod errors {
    use core::fmt;

    pub type Result<T> = core::result::Result<T, VaporettoError>;

    #[derive(Debug)]
    pub struct VaporettoError {
        arg: &'static str,
        msg: String,
    }

    impl VaporettoError {
        pub(crate) fn invalid_argument<S: Into<String>>(arg: &'static str, msg: S) -> Self {
            Self { arg, msg: msg.into() }
        }
    }

    impl fmt::Display for VaporettoError {
        fn fmt(&self, f: &mut fmt::Formatter) -> fmt::Result {
            write!(f, "InvalidArgumentError: {}: {}", self.arg, self.msg)
        }
    }
}

/// Stands in for predictor.rs: given scores in the place of the scorers' sums, then the original's own decision.
pub mod predictor {
    use crate::sentence::{CharacterBoundary, Sentence};

    pub struct Predictor {
        scores: Vec<i32>,
    }

    impl Predictor {
        pub fn new(scores: Vec<i32>) -> Self {
            Self { scores }
        }

        /// Decides the boundaries of a sentence that has one more character than there are scores.
        pub fn predict<'a>(&'a self, sentence: &mut Sentence<'_, 'a>) {
            assert_eq!(sentence.boundaries.len(), self.scores.len());
            sentence.score_padding = 0;
            sentence.boundary_scores.clone_from(&self.scores);
            include!(concat!(env!("EXTRACT"), "/decision.rs"));
        }
    }
}

pub mod sentence {
    include!(concat!(env!("VAPORETTO_SRC"), "/sentence.rs"));

    /// What the original keeps to itself; a module inside its own may read it.
    pub mod inside {
        use super::{Sentence, Token, TokenIterator};

        /// The byte at which each character starts, then the text's length.
        pub fn char_positions<'s>(sentence: &'s Sentence) -> &'s [usize] {
            &sentence.char_to_str_pos
        }

        /// The number of the character that starts at each byte, 0 at inner bytes, then the count of characters.
        pub fn byte_positions<'s>(sentence: &'s Sentence) -> &'s [usize] {
            &sentence.str_to_char_pos
        }

        /// The token iterator, set down at a place of the caller's choice.
        pub fn tokens_from<'a, 'b>(sentence: &'a Sentence<'a, 'b>, place: usize) -> TokenIterator<'a, 'b> {
            TokenIterator { token: Token { sentence, start: place, end: place } }
        }

        /// Where the token iterator stands.
        pub fn place(tokens: &TokenIterator) -> usize {
            tokens.token.end
        }
    }
}
