//! The step form, on both sides, its three texts lent apart.

use crate::comparison::{Comparison, Lent};
use crate::expected::tokens::{State, Step};
use crate::howhakiru;
use crate::steps::{Fed, Steps};

impl Comparison {
    /// The next of several steps, against the Rust's push.
    pub fn next_step(&mut self, steps: &mut Steps, fed: Fed, gap: usize) {
        let before = steps.state;
        let rust = steps.push(fed);
        self.with(fed.name, gap, |comparison, lent| comparison.push(before, fed, lent, rust));
    }

    /// One step from any state, against the rule.
    pub fn step_from(&mut self, state: State, fed: Fed, gap: usize) {
        self.with(fed.name, gap, |comparison, lent| comparison.push(state, fed, lent, state.step(fed)));
    }

    /// Steps with the text in each of the three places.
    pub fn step_with(&mut self, lent: Lent) {
        let state = State::after(b"end", b".");
        let fed = Fed { whitespace: b" ", name: lent.text, punctuation: b"." };
        self.push(state, fed, lent, state.step(fed));
        let start = self.beside[2].lend(b"A", lent.gap);
        let name = Lent { text: b"A", start, gap: lent.gap, admitted: Ok("A") };
        let first = Fed { whitespace: lent.text, name: b"A", punctuation: b"." };
        let last = Fed { whitespace: b" ", name: b"A", punctuation: lent.text };
        [first, last].into_iter().for_each(|fed| self.push(state, fed, name, state.step(fed)));
    }

    /// `lent` is the name.
    fn push(&mut self, state: State, fed: Fed, lent: Lent, wanted: Step) {
        let whitespace = self.beside[0].lend(fed.whitespace, lent.gap);
        let punctuation = self.beside[1].lend(fed.punctuation, lent.gap);
        // SAFETY: the three texts are lent for the call.
        let ours = unsafe {
            let (name, name_len) = (lent.start, lent.text.len());
            howhakiru::hwk_push(state, whitespace, fed.whitespace.len(), name, name_len, punctuation, fed.punctuation.len())
        };
        self.settle(lent, format_args!("hwk_push ({fed}; {state:?})"), ours, wanted);
        for (place, text) in [fed.whitespace, fed.punctuation].into_iter().enumerate() {
            if !self.beside[place].is_as_lent(text, lent.gap) {
                self.differ(lent, format_args!("hwk_push"), &"wrote into a text or beside it", &"leaves it alone");
            }
        }
    }
}
