//! Tokens and sentences. Ours writes a table, or sentence starts, into a lent buffer; the Rust's `tokenize` makes both at
//! once, as sentences of tokens of four `String`s each, which are dropped again.

use std::collections::VecDeque;
use std::hint::black_box;
use std::str::from_utf8;

use reference::text::{self, SentenceBuilder, Token};

use crate::expected::tokens::TOKEN_BYTES;
use crate::howhakiru;
use crate::inputs::{repeated, KIB};
use crate::timing::{compared, in_turn};
use crate::Row;

/// A kind of sheet, and what it repeats.
#[rustfmt::skip]
const SHEETS: &[(&str, &str)] = &[
    ("entries of one byte", "7 "),
    ("short entries", "12mm 9:30 rack 7 1984 "),
    ("long entries", "a-single-name-that-is-as-long-as-a-whole-line-of-a-sheet-is "),
    ("sentences", "Bar 12 at 9:30. Rack 5mm (21st)\nNo. 7 by Dr. Smith: \"1,234 times\", then stop?\n\n"),
    ("sentences, two-byte letters", "Öse 12 für 5mm. Fäden (21st) häkeln: \"schön\", später Mr. Ö.\n"),
    ("whitespace", " \n"),
    ("marks in front", "("),
    ("marks behind", "."),
    ("marks in runs", "(\"?!).' [; "),
];

/// Sheets that are taken apart in buffers of the exact size too, so that ours counts before it writes.
const EXACT: [&str; 4] = ["short entries", "long entries", "sentences", "marks in runs"];

/// Sheets whose tokens are taken in steps.
const STEPPED: [&str; 3] = ["short entries", "long entries", "sentences"];

const LONGEST: usize = 64 * KIB;
const SIZES: [usize; 3] = [16 * KIB, 32 * KIB, LONGEST];

type Call = fn(&mut Buffers, &[u8]) -> usize;

/// Our calls. The Rust's side is `tokenize` for each of them.
const CALLS: [(&str, Call); 3] =
    [("tokenize", Buffers::tokenize), ("sentences", Buffers::sentences), ("tokenize, then sentences", Buffers::both)];

struct Buffers {
    table: Vec<u8>,
    starts: Vec<u8>,
}

impl Buffers {
    /// Room for this many tokens.
    fn new(tokens: usize) -> Self {
        Buffers { table: vec![0; TOKEN_BYTES * tokens], starts: vec![0; tokens] }
    }

    /// Room for every sheet.
    fn ample() -> Self {
        Self::new(LONGEST / 2 + 1)
    }

    fn tokenize(&mut self, text: &[u8]) -> usize {
        let table = black_box(&mut self.table);
        unsafe { howhakiru::hwk_tokenize(text.as_ptr(), text.len(), table.as_mut_ptr(), table.len()) }.tokens
    }

    fn sentences(&mut self, text: &[u8]) -> usize {
        let starts = black_box(&mut self.starts);
        unsafe { howhakiru::hwk_sentences(text.as_ptr(), text.len(), starts.as_mut_ptr(), starts.len()) }.tokens
    }

    fn both(&mut self, text: &[u8]) -> usize {
        let tokens = self.tokenize(text);
        tokens.max(self.sentences(text))
    }
}

/// The count of tokens. The tokens themselves are made and dropped.
fn rust(text: &[u8]) -> usize {
    let Ok(text) = from_utf8(text) else { return 0 };
    black_box(text::tokenize(text)).iter().map(Vec::len).sum()
}

pub fn rows() -> Vec<Row> {
    let mut rows = Vec::new();
    for &(sheet, piece) in SHEETS {
        let text = repeated(piece, LONGEST);
        rows.extend(CALLS.map(|(name, call)| row(name, call, Buffers::ample(), format!("64 KiB, {sheet}"), &text)));
    }
    for (sheet, text) in chosen(&EXACT) {
        let input = format!("64 KiB, {sheet}, exact buffers");
        let exact = || Buffers::new(rust(&text));
        rows.extend(CALLS[..2].iter().map(|(name, call)| row(name, *call, exact(), input.clone(), &text)));
    }
    rows
}

fn row(name: &'static str, call: Call, mut buffers: Buffers, input: String, text: &[u8]) -> Row {
    let (ours, rust) = compared(&input, text, |text| call(&mut buffers, text), rust);
    Row { call: name, input, ours, rust }
}

/// The sheets of these kinds, 64 KiB of each.
fn chosen(kinds: &[&str]) -> Vec<(&'static str, Vec<u8>)> {
    let sheets = SHEETS.iter().filter(|(sheet, _)| kinds.contains(sheet));
    sheets.map(|&(sheet, piece)| (sheet, repeated(piece, LONGEST))).collect()
}

/// A table of our times at three sizes, each twice the one before.
pub fn doubling() {
    println!("| Call | Sheet | 16 KiB, ns | 32 KiB | 64 KiB | 64 to 16 KiB |");
    println!("|---|---|---:|---:|---:|---:|");
    for (name, call) in &CALLS[..2] {
        for &(sheet, piece) in SHEETS {
            let mut buffers = Buffers::ample();
            let times = in_turn(SIZES.map(|size| repeated(piece, size)), |text| call(&mut buffers, text));
            let columns = times.map(|time| format!("{time:.0}")).join(" | ");
            println!("| {name} | {sheet} | {columns} | {:.1} |", times[2] / times[0]);
        }
    }
}

/// The step form, in nanoseconds a token; the answers are compared by the count of breaks.
pub fn step_rows() -> Vec<Row> {
    let mut rows = Vec::new();
    for (sheet, text) in chosen(&STEPPED) {
        let (mut tokens, parts) = tokens_and_parts(&text);
        let ours = |_: &[u8]| ours_in_steps(black_box(&parts));
        let at_hand = compared(sheet, &text, ours, |_| rust_in_steps(&mut tokens));
        let from_bytes = compared(sheet, &text, ours, |_| rust_from_bytes(black_box(&parts)));
        for (made, (ours, rust)) in [("tokens at hand", at_hand), ("tokens from bytes", from_bytes)] {
            let count = parts.len() as f64;
            rows.push(Row { call: "push", input: format!("{sheet}, {made}"), ours: ours / count, rust: rust / count });
        }
    }
    rows
}

/// Whitespace, name and punctuation.
type Parts = [Vec<u8>; 3];

fn tokens_and_parts(text: &[u8]) -> (VecDeque<Token>, Vec<Parts>) {
    let tokens: VecDeque<Token> = text::tokenize(from_utf8(text).expect("UTF-8")).into_iter().flatten().collect();
    let bytes = |part: &String| part.clone().into_bytes();
    let parts = tokens.iter().map(|token| [&token.whitespace, &token.name, &token.punctuation].map(bytes)).collect();
    (tokens, parts)
}

fn ours_in_steps(tokens: &[Parts]) -> usize {
    let mut state = unsafe { howhakiru::hwk_fresh() };
    let mut breaks = 0;
    for [whitespace, name, punctuation] in tokens {
        let step = unsafe {
            howhakiru::hwk_push(
                state,
                whitespace.as_ptr(),
                whitespace.len(),
                name.as_ptr(),
                name.len(),
                punctuation.as_ptr(),
                punctuation.len(),
            )
        };
        breaks += usize::from(step.breaks);
        state = step.state;
    }
    breaks
}

/// Makes no token anew: the tokens of each finished sentence go back to the end of the queue, so the queue is the same after it.
fn rust_in_steps(tokens: &mut VecDeque<Token>) -> usize {
    let mut builder = SentenceBuilder::default();
    let mut breaks = 0;
    for _ in 0..tokens.len() {
        let Some(token) = tokens.pop_front() else { break };
        if let Some(sentence) = builder.push(token) {
            breaks += 1;
            tokens.extend(sentence);
        }
    }
    tokens.extend(builder.finish().into_iter().flatten());
    breaks
}

/// Makes each token from bytes, as ours takes it, and drops it with its sentence.
fn rust_from_bytes(tokens: &[Parts]) -> usize {
    let mut builder = SentenceBuilder::default();
    let mut breaks = 0;
    for parts in tokens {
        let [whitespace, name, punctuation] = parts.each_ref().map(|part| from_utf8(part).unwrap_or("").to_string());
        breaks += usize::from(builder.push(Token { whitespace, name, punctuation, ..Token::default() }).is_some());
    }
    breaks
}
