//! The step form: what the Rust's push answers for any bytes, and what document 01 says of a state that no push leaves.

use std::fmt;

use reference::text::{SentenceBuilder, Token};

use crate::comparison::display;
use crate::expected::answers::{self, TEXT_TESTS};
use crate::expected::tokens::{State, Step};

/// The three texts of a step.
#[derive(Clone, Copy)]
pub struct Fed<'a> {
    pub whitespace: &'a [u8],
    pub name: &'a [u8],
    pub punctuation: &'a [u8],
}

impl fmt::Display for Fed<'_> {
    fn fmt(&self, out: &mut fmt::Formatter) -> fmt::Result {
        let [whitespace, name, punctuation] = [self.whitespace, self.name, self.punctuation].map(display);
        write!(out, "whitespace {whitespace}, name {name}, punctuation {punctuation}")
    }
}

impl<'a> Fed<'a> {
    /// The texts as the Rust takes them, or the refusal of the first test that does not pass for all of them.
    pub fn admitted(&self) -> Result<[&'a str; 3], u8> {
        let all = [self.whitespace, self.name, self.punctuation].map(answers::admit);
        let [Ok(whitespace), Ok(name), Ok(punctuation)] = all else {
            let first = TEXT_TESTS.into_iter().find(|&test| all.contains(&Err(test)));
            return Err(first.expect("a test that one of the texts does not pass"));
        };
        Ok([whitespace, name, punctuation])
    }
}

impl State {
    pub const FRESH: State =
        State { len: 0, head: [0; 5], last: 0, point: 0, colon: 0, question: 0, exclamation: 0, fresh: 1 };

    /// What is kept of a token.
    pub fn after(name: &[u8], punctuation: &[u8]) -> Self {
        let mut head = [0; 5];
        head.iter_mut().zip(name).for_each(|(kept, byte)| *kept = *byte);
        let has = |mark: u8| u8::from(punctuation.contains(&mark));
        State {
            len: name.len(),
            head,
            last: name.last().copied().unwrap_or(0),
            point: has(b'.'),
            colon: has(b':'),
            question: has(b'?'),
            exclamation: has(b'!'),
            fresh: 0,
        }
    }

    /// One step by the rule that document 01 gives, from any state.
    pub fn step(&self, fed: Fed) -> Step {
        match fed.admitted() {
            Err(refusal) => Step { refusal, breaks: 0, state: *self },
            Ok(_) => {
                let breaks = self.fresh == 0 && self.breaks(fed.whitespace, fed.name);
                Step { refusal: 0, breaks: u8::from(breaks), state: State::after(fed.name, fed.punctuation) }
            }
        }
    }

    fn breaks(&self, whitespace: &[u8], name: &[u8]) -> bool {
        if whitespace.iter().filter(|&&byte| byte == b'\n').count() > 1 {
            return true;
        }
        let yahoo = self.len == 5 && self.head.eq_ignore_ascii_case(b"yahoo") && self.exclamation != 0;
        if yahoo && name.first().is_some_and(u8::is_ascii_lowercase) {
            return false;
        }
        if self.colon != 0 || self.question != 0 || self.exclamation != 0 {
            return true;
        }
        if self.point == 0 || !name.first().is_some_and(u8::is_ascii_uppercase) {
            return false;
        }
        if whitespace.len() > 1 {
            return true;
        }
        !(self.last.is_ascii_uppercase() || (self.len < 4 && self.head[0].is_ascii_uppercase()))
    }
}

/// Steps one after another: the Rust's builder, and the state that belongs to its last token.
pub struct Steps {
    builder: SentenceBuilder,
    pub state: State,
}

impl Steps {
    pub fn new() -> Self {
        Steps { builder: SentenceBuilder::default(), state: State::FRESH }
    }

    /// The next step as the Rust's push makes it. The rule for any state must say the same.
    pub fn push(&mut self, fed: Fed) -> Step {
        let step = match fed.admitted() {
            Err(refusal) => Step { refusal, breaks: 0, state: self.state },
            Ok(texts) => {
                let [whitespace, name, punctuation] = texts.map(str::to_string);
                let token = Token { whitespace, name, punctuation, ..Token::default() };
                let breaks = u8::from(self.builder.push(token).is_some());
                Step { refusal: 0, breaks, state: State::after(fed.name, fed.punctuation) }
            }
        };
        assert_eq!(step, self.state.step(fed), "the Rust's push and the rule, fed {fed}");
        self.state = step.state;
        step
    }
}
