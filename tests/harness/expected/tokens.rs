//! The tokens and sentence starts that the Rust gives for any bytes, in the types and buffers of include/howhakiru.h. The
//! types of a step are here too; ../steps.rs has its answers.

use reference::text::{self, Token};

use crate::expected::answers::{Admitted, BUFFER_TOO_SHORT};

#[repr(C)]
#[derive(Clone, Copy, Debug, Default, PartialEq, Eq)]
pub struct Tokens {
    pub refusal: u8,
    pub tokens: usize,
}

#[repr(C)]
#[derive(Clone, Copy, Debug, Default, PartialEq, Eq)]
pub struct State {
    pub len: usize,
    pub head: [u8; 5],
    pub last: u8,
    pub point: u8,
    pub colon: u8,
    pub question: u8,
    pub exclamation: u8,
    pub fresh: u8,
}

#[repr(C)]
#[derive(Clone, Copy, Debug, Default, PartialEq, Eq)]
pub struct Step {
    pub refusal: u8,
    pub breaks: u8,
    pub state: State,
}

/// Four pairs of offset and length, four bytes a number.
pub const TOKEN_BYTES: usize = 32;

const WHITESPACE: [char; 4] = [' ', '\t', '\n', '\r'];

/// A text's tokens with room for all of them: the table, and a byte for each that says whether it starts a sentence.
#[derive(Default)]
pub struct Tokenized {
    pub refusal: u8,
    pub table: Vec<u8>,
    pub starts: Vec<u8>,
}

impl Tokenized {
    pub fn of(admitted: Admitted) -> Self {
        match admitted {
            Err(refusal) => Tokenized { refusal, ..Tokenized::default() },
            Ok(text) => Self::of_text(text),
        }
    }

    /// Each part starts where the one before it ends. Joined, they must be the text less its trailing whitespace.
    fn of_text(text: &str) -> Self {
        let mut tokenized = Tokenized::default();
        let mut rest = text;
        for sentence in text::tokenize(text) {
            for (number, token) in sentence.iter().enumerate() {
                tokenized.starts.push(u8::from(number == 0));
                for part in parts(token) {
                    tokenized.put(text.len() - rest.len());
                    tokenized.put(part.len());
                    rest = rest.strip_prefix(part.as_str()).expect("parts that stand end to end in the text");
                }
            }
        }
        assert!(rest.chars().all(|c| WHITESPACE.contains(&c)), "tokens up to the trailing whitespace");
        tokenized
    }

    /// A number of the table.
    fn put(&mut self, number: usize) {
        let number = u32::try_from(number).expect("a text below 4 GiB");
        self.table.extend_from_slice(&number.to_le_bytes());
    }

    /// The answer in a buffer of `len` bytes, if the whole result has `exact` bytes.
    pub fn answer(&self, exact: usize, len: usize) -> Tokens {
        if self.refusal > 0 {
            return Tokens { refusal: self.refusal, tokens: 0 };
        }
        if len < exact {
            return Tokens { refusal: BUFFER_TOO_SHORT, tokens: 0 };
        }
        Tokens { refusal: 0, tokens: self.starts.len() }
    }

    /// Where the parts of each token stand: whitespace, prepunctuation, name, punctuation.
    pub fn places(&self) -> impl Iterator<Item = [(usize, usize); 4]> + '_ {
        let number = |bytes: &[u8]| u32::from_le_bytes([bytes[0], bytes[1], bytes[2], bytes[3]]) as usize;
        let pair = move |record: &[u8], part: usize| (number(&record[8 * part..]), number(&record[8 * part + 4..]));
        self.table.chunks(TOKEN_BYTES).map(move |record| [0, 1, 2, 3].map(|part| pair(record, part)))
    }
}

fn parts(token: &Token) -> [&String; 4] {
    [&token.whitespace, &token.prepunctuation, &token.name, &token.punctuation]
}
