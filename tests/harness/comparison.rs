//! Makes the same call on both sides, compares what comes back, and counts. The calls themselves are in calls/.

use std::fmt::{Arguments, Debug};
use std::ops::Range;
use std::process;

use crate::calls::readings::READING_CALLS;
use crate::calls::shapes::SHAPES;
use crate::calls::sheets::CALL_CALLS;
use crate::calls::tokens::TOKEN_CALLS;
use crate::expected::answers::{self, Admitted};
use crate::lent::{Buffer, Fenced};

/// The calls of the header, numbered for `one_call`: those about shapes first, then the readings, then those about tokens, then
/// those of the call sheet.
pub const CALLS: usize = TOKENS_END + CALL_CALLS;

const READINGS_END: usize = SHAPES + READING_CALLS;
const TOKENS_END: usize = READINGS_END + TOKEN_CALLS;

const DIFFERENCES_SHOWN: usize = 20;

/// Texts of one kind, and what was compared on them.
struct Group {
    name: &'static str,
    texts: u64,
    comparisons: u64,
}

/// What was compared so far.
#[derive(Default)]
pub struct Counts {
    groups: Vec<Group>,
    differences: usize,
}

impl Counts {
    /// These counts with those of another thread.
    pub fn and(mut self, mut other: Counts) -> Self {
        self.groups.append(&mut other.groups);
        self.differences += other.differences;
        self
    }

    /// Prints each group and the sum, and ends the program with status 1 if anything differed.
    pub fn finish(&self, seed: u64) {
        let (mut texts, mut comparisons) = (0, 0);
        for group in &self.groups {
            println!("  {:<44} {:>11} texts {:>13} comparisons", group.name, group.texts, group.comparisons);
            texts += group.texts;
            comparisons += group.comparisons;
        }
        let differences = self.differences;
        println!("compare: {texts} texts, {comparisons} comparisons, {differences} differences, seed {seed}");
        if differences > 0 {
            process::exit(1);
        }
    }
}

/// A text as a call gets it, and as the Rust takes it.
#[derive(Clone, Copy)]
pub struct Lent<'a> {
    pub text: &'a [u8],
    pub start: *const u8,
    /// How many bytes stand between the text and the fence, and between each buffer and its own.
    pub gap: usize,
    pub admitted: Admitted<'a>,
}

pub struct Comparison {
    seed: u64,
    pub counts: Counts,
    current: usize,
    texts: Fenced,
    /// Where the other texts of a step stand.
    pub beside: [Fenced; 3],
    pub store: Buffer,
    pub table: Buffer,
    /// Counts the calls that write, so that buffers of each size have their turn.
    pub rotation: usize,
}

impl Comparison {
    pub fn new(seed: u64) -> Self {
        Comparison {
            seed,
            counts: Counts::default(),
            current: 0,
            texts: Fenced::new(),
            beside: [Fenced::new(), Fenced::new(), Fenced::new()],
            store: Buffer::new(),
            table: Buffer::new(),
            rotation: 0,
        }
    }

    /// Counts what follows under `name`.
    pub fn begin(&mut self, name: &'static str) {
        let groups = &mut self.counts.groups;
        let known = groups.iter().position(|group| group.name == name);
        self.current = known.unwrap_or(groups.len());
        if known.is_none() {
            groups.push(Group { name, texts: 0, comparisons: 0 });
        }
    }

    fn group(&mut self) -> &mut Group {
        &mut self.counts.groups[self.current]
    }

    /// Compares every call about shapes on the text, which stands `gap` bytes before the fence.
    pub fn every_shape(&mut self, text: &[u8], gap: usize) {
        self.calls(text, gap, 0..SHAPES);
    }

    /// Compares every reading, in buffers of the exact size and of one other.
    pub fn every_reading(&mut self, text: &[u8], gap: usize) {
        self.calls(text, gap, SHAPES..READINGS_END);
    }

    pub fn every_call(&mut self, text: &[u8], gap: usize) {
        self.calls(text, gap, 0..CALLS);
    }

    /// Compares one call. This is for texts that are too many for every call.
    pub fn one_call(&mut self, text: &[u8], gap: usize, call: usize) {
        self.calls(text, gap, call..call + 1);
    }

    /// A pointer for the empty text may be null, and so may one for an empty buffer.
    pub fn null_pointers(&mut self) {
        self.begin("null pointers");
        self.group().texts += 1;
        let lent = Lent { text: b"", start: std::ptr::null(), gap: 0, admitted: answers::admit(b"") };
        (0..CALLS).for_each(|call| self.call(call, lent));
        self.word_without_store(lent);
        self.readings_without_buffers(lent);
        self.tokens_without_buffers(lent);
        self.calls_without_buffers(lent);
    }

    /// Lends the text, makes the calls, and then tests whether the text is as it was.
    pub fn with(&mut self, text: &[u8], gap: usize, calls: impl FnOnce(&mut Self, Lent)) {
        self.group().texts += 1;
        let start = self.texts.lend(text, gap);
        let lent = Lent { text, start, gap, admitted: answers::admit(text) };
        calls(self, lent);
        if !self.texts.is_as_lent(text, gap) {
            self.differ(lent, format_args!("a call"), &"wrote into the text or beside it", &"leaves it alone");
        }
    }

    fn calls(&mut self, text: &[u8], gap: usize, calls: Range<usize>) {
        self.with(text, gap, |comparison, lent| calls.for_each(|call| comparison.call(call, lent)));
    }

    fn call(&mut self, call: usize, lent: Lent) {
        match call {
            0..SHAPES => self.shape(call, lent),
            SHAPES..READINGS_END => self.reading(call - SHAPES, lent),
            READINGS_END..TOKENS_END => self.token_call(call - READINGS_END, lent),
            _ => self.call_call(call - TOKENS_END, lent),
        }
    }

    pub fn settle<Answer: Debug + PartialEq>(&mut self, lent: Lent, name: Arguments, ours: Answer, rust: Answer) {
        self.group().comparisons += 1;
        if ours != rust {
            self.differ(lent, name, &ours, &rust);
        }
    }

    pub fn differ(&mut self, lent: Lent, name: Arguments, ours: &dyn Debug, rust: &dyn Debug) {
        self.counts.differences += 1;
        let (number, group) = (self.counts.differences, self.group().name);
        println!("difference {number}: {name}, in '{group}'");
        println!("  text of {} bytes: {}", lent.text.len(), display(lent.text));
        println!("  ours: {ours:?}\n  Rust: {rust:?}");
        if self.counts.differences == DIFFERENCES_SHOWN {
            println!("compare: stopped after {DIFFERENCES_SHOWN} differences");
            self.counts.finish(self.seed);
        }
    }
}

/// The bytes, escaped. If there are many, their two ends.
pub fn display(bytes: &[u8]) -> String {
    if bytes.len() <= 200 {
        return format!("\"{}\"", bytes.escape_ascii());
    }
    let (front, back) = (&bytes[..60], &bytes[bytes.len() - 60..]);
    format!("\"{}\" .. \"{}\"", front.escape_ascii(), back.escape_ascii())
}
