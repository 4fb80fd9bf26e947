//! The calls about tokens, on both sides: the answer, the table or the sentence starts, and what was not to be touched.

use std::ptr::null_mut;

use crate::comparison::{display, Comparison, Lent};
use crate::expected::answers::TEXT_LIMIT;
use crate::expected::tokens::{State, Step, Tokenized, Tokens, TOKEN_BYTES};
use crate::howhakiru;
use crate::steps::Fed;

/// How many there are: the table, the sentence starts, and a step.
pub const TOKEN_CALLS: usize = 3;

/// Every length within a record and a byte of the exact one.
const NEAR: usize = 2 * (TOKEN_BYTES + 1) + 1;

/// The buffers that are tried: those near the exact one, and six more, of which three depend on the text's length alone. Their
/// number is odd, so two calls that take turns meet each of them.
const ROOMS: usize = NEAR + 6;

/// A call that fills one buffer, and what the Rust has for that buffer.
#[derive(Clone, Copy)]
struct Filling<'a> {
    name: &'a str,
    call: howhakiru::TokenCall,
    result: &'a [u8],
    /// Bytes a token.
    record: usize,
}

impl Filling<'_> {
    /// The length of the buffer number `room`. A text has a token for every two bytes at most.
    fn len(&self, room: usize, text_len: usize) -> usize {
        let most = self.record * text_len.min(TEXT_LIMIT).div_ceil(2);
        match room.checked_sub(NEAR) {
            None => (self.result.len() + room).saturating_sub(NEAR / 2),
            Some(0) => 0,
            Some(1) => most.saturating_sub(1),
            Some(2) => most,
            Some(3) => most + 1,
            Some(4) => self.result.len() / 2,
            Some(_) => self.result.len() + 1_000,
        }
    }
}

impl Tokenized {
    fn fillings(&self) -> [Filling<'_>; 2] {
        [
            Filling { name: "hwk_tokenize", call: howhakiru::hwk_tokenize, result: &self.table, record: TOKEN_BYTES },
            Filling { name: "hwk_sentences", call: howhakiru::hwk_sentences, result: &self.starts, record: 1 },
        ]
    }
}

impl Comparison {
    /// One of the three calls. This is for texts that are too many for every call.
    pub fn token_call(&mut self, call: usize, lent: Lent) {
        if call == 2 {
            return self.step_with(lent);
        }
        let tokenized = Tokenized::of(lent.admitted);
        self.fill_in_rotation(lent, &tokenized, tokenized.fillings()[call]);
    }

    /// Compares table, sentence starts, and the steps over the text's own tokens.
    pub fn every_token(&mut self, text: &[u8], gap: usize) {
        self.with(text, gap, |comparison, lent| {
            let tokenized = Tokenized::of(lent.admitted);
            tokenized.fillings().iter().for_each(|&filling| comparison.fill_in_rotation(lent, &tokenized, filling));
            comparison.steps_over(lent, &tokenized);
        });
    }

    /// The same, in buffers of every size.
    pub fn every_token_room(&mut self, text: &[u8], gap: usize) {
        self.with(text, gap, |comparison, lent| {
            let tokenized = Tokenized::of(lent.admitted);
            for filling in tokenized.fillings() {
                for room in 0..ROOMS {
                    comparison.fill(lent, &tokenized, filling, filling.len(room, text.len()));
                }
                comparison.fill_null(lent, &tokenized, filling);
            }
            comparison.steps_over(lent, &tokenized);
        });
    }

    /// The pointers for an empty buffer and for empty texts may be null.
    pub fn tokens_without_buffers(&mut self, lent: Lent) {
        let tokenized = Tokenized::of(lent.admitted);
        tokenized.fillings().iter().for_each(|&filling| self.fill_null(lent, &tokenized, filling));
        for state in [State::FRESH, State::default(), State::after(b"end", b".")] {
            let (none, len) = (std::ptr::null(), 0);
            // SAFETY: all three lengths are 0, so nothing is read.
            let ours = unsafe { howhakiru::hwk_push(state, none, len, none, len, none, len) };
            let fed = Fed { whitespace: b"", name: b"", punctuation: b"" };
            self.settle(lent, format_args!("hwk_push (null texts)"), ours, state.step(fed));
        }
        // SAFETY: it takes nothing.
        let ours = unsafe { howhakiru::hwk_fresh() };
        self.settle(lent, format_args!("hwk_fresh"), ours, State::FRESH);
    }

    /// The exact buffer, and the one whose turn it is.
    fn fill_in_rotation(&mut self, lent: Lent, tokenized: &Tokenized, filling: Filling) {
        self.fill(lent, tokenized, filling, filling.result.len());
        self.rotation += 1;
        self.fill(lent, tokenized, filling, filling.len(self.rotation % ROOMS, lent.text.len()));
    }

    fn fill(&mut self, lent: Lent, tokenized: &Tokenized, filling: Filling, len: usize) {
        let buffer = self.table.lend(len, lent.gap);
        // SAFETY: the text and the buffer are lent for the call, and stand apart.
        let ours = unsafe { (filling.call)(lent.start, lent.text.len(), buffer, len) };
        let rust = tokenized.answer(filling.result.len(), len);
        let name = format_args!("{} (buffer of {len})", filling.name);
        self.settle(lent, name, ours, rust);
        let result = if rust.refusal == 0 { filling.result } else { b"" };
        if !self.table.holds_only(result) {
            self.differ(lent, name, &self.table.display(), &format!("{}, all else as it was", display(result)));
        }
    }

    /// An empty buffer whose pointer is null.
    fn fill_null(&mut self, lent: Lent, tokenized: &Tokenized, filling: Filling) {
        // SAFETY: the text is lent for the call, and the buffer has no bytes.
        let ours: Tokens = unsafe { (filling.call)(lent.start, lent.text.len(), null_mut(), 0) };
        let name = format_args!("{} (null buffer)", filling.name);
        self.settle(lent, name, ours, tokenized.answer(filling.result.len(), 0));
    }

    /// Steps from a fresh state over the tokens of the text, in place: a break before each start but the first.
    fn steps_over(&mut self, lent: Lent, tokenized: &Tokenized) {
        // SAFETY: it takes nothing.
        let mut state = unsafe { howhakiru::hwk_fresh() };
        for (number, [whitespace, _, name, punctuation]) in tokenized.places().enumerate() {
            let part = |(offset, len): (usize, usize)| &lent.text[offset..offset + len];
            let wanted = Step {
                refusal: 0,
                breaks: if number == 0 { 0 } else { tokenized.starts[number] },
                state: State::after(part(name), part(punctuation)),
            };
            // SAFETY: the three parts are inside of the lent text.
            let ours = unsafe {
                let at = |(offset, _): (usize, usize)| lent.start.add(offset);
                howhakiru::hwk_push(state, at(whitespace), whitespace.1, at(name), name.1, at(punctuation), punctuation.1)
            };
            self.settle(lent, format_args!("hwk_push over the text's token {number}, after {state:?}"), ours, wanted);
            state = ours.state;
        }
    }
}
