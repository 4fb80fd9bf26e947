//! The call sheet: document 01's twelve rows and the two of document 02, A2, over the Rust's functions, and what the calls
//! answer, in the types of include/howhakiru.h.

use reference::{numbers, patterns};

use crate::expected::answers::{Admitted, BUFFER_TOO_SHORT};
use crate::expected::tokens::Tokenized;

pub const NO_SUCH_ENTRY: u8 = 3;
pub const NAME_TOO_LONG: u8 = 4;
pub const NAME_LIMIT: usize = 4_096;

/// HWK_CALL_MOST of the header.
pub fn call_most(len: usize) -> usize {
    11 * len + 11
}

#[repr(C)]
#[derive(Clone, Copy, Debug, Default, PartialEq, Eq)]
pub struct CalledEntry {
    pub refusal: u8,
    pub row: u8,
    pub sign: u8,
    pub words: usize,
    pub bytes: usize,
}

#[repr(C)]
#[derive(Clone, Copy, Debug, Default, PartialEq, Eq)]
pub struct CalledSheet {
    pub refusal: u8,
    pub tokens: usize,
    pub words: usize,
    pub bytes: usize,
}

/// A name as it is read: the row that takes it, for row 8 its sign, and its words.
pub struct Reading {
    row: u8,
    sign: u8,
    pub words: Vec<String>,
}

const PLUS: u8 = 1;
const MINUS: u8 = 2;

/// The numbers of rows 5a and 5b.
const RANGE: u8 = 13;
const FRACTION: u8 = 14;

/// The first row that takes the name.
pub fn read(name: &str) -> Reading {
    let reading = |row, words| Reading { row, sign: 0, words };
    if name.is_empty() {
        return reading(1, Vec::new());
    }
    if patterns::is_dotted_abbrev(name) {
        return reading(2, numbers::letters(&name.replace('.', "")));
    }
    if patterns::is_comma_int(name) {
        return reading(3, numbers::cardinal(name));
    }
    if patterns::is_time(name) {
        let (hour, minute) = name.split_once(':').expect("a time has a colon");
        return reading(4, read_clock(hour, minute, Some("o'clock")));
    }
    if let Some((hour, minute, meridiem)) = patterns::split_time_meridiem(name) {
        return reading(5, joined(read_clock(hour, minute, None), numbers::letters(meridiem)));
    }
    if let Some((left, right)) = split_range(name) {
        return reading(RANGE, [read(left).words, said("to"), read(right).words].concat());
    }
    if patterns::is_digits_slash_digits(name) {
        return reading(FRACTION, read_fraction(name));
    }
    if patterns::is_leading_zero_digits(name) {
        return reading(6, numbers::digits(name));
    }
    if patterns::is_digits(name) {
        return reading(7, numbers::cardinal(name));
    }
    if patterns::is_double(name) {
        let sign = if name.starts_with('-') { MINUS } else { PLUS };
        return Reading { row: 8, sign, words: numbers::real(name) };
    }
    if patterns::is_ordinal(name) {
        return reading(9, numbers::ordinal(&name[..name.len() - 2]));
    }
    if let Some(before) = name.strip_suffix('%') {
        return reading(10, joined(read(before).words, said("per cent")));
    }
    if let Some((number, unit)) = patterns::split_unit(name) {
        let word = patterns::unit_word(unit).expect("a unit has a word");
        return reading(11, joined(numbers::cardinal(number), said(word)));
    }
    reading(12, vec![name.to_ascii_lowercase()])
}

fn joined(mut words: Vec<String>, more: Vec<String>) -> Vec<String> {
    words.extend(more);
    words
}

/// The words of a phrase.
fn said(phrase: &str) -> Vec<String> {
    phrase.split(' ').map(str::to_string).collect()
}

/// The two parts of a range. "Digits, hyphen, digits" of document 02, A2: no other character, and one hyphen.
fn split_range(name: &str) -> Option<(&str, &str)> {
    let parts: Vec<&str> = name.split('-').collect();
    let [left, right] = parts[..] else { return None };
    let is_number = |part: &str| !part.is_empty() && part.chars().all(|c| c.is_ascii_digit());
    (is_number(left) && is_number(right)).then_some((left, right))
}

/// Document 02, A2: the first and the last run of digits are numerator and denominator.
fn read_fraction(name: &str) -> Vec<String> {
    if name == "1/2" {
        return said("a half");
    }
    let mut runs = name.split(|c: char| !c.is_ascii_digit()).filter(|run| !run.is_empty());
    let numerator = runs.next().expect("digits before the slash");
    let denominator = runs.next_back().expect("digits behind the slash");
    let words = numbers::cardinal(numerator);
    if !is_below(numerator, denominator) {
        return [words, said("slash"), numbers::cardinal(denominator)].concat();
    }
    let plural = if is_below("1", numerator) { said("'s") } else { Vec::new() };
    [words, numbers::ordinal(denominator), plural].concat()
}

/// Whether the first number is the smaller one, at any length: with zeros put before the shorter of the two, the order of the
/// characters is that of the values.
fn is_below(first: &str, second: &str) -> bool {
    let width = first.len().max(second.len());
    let drawn_out = |digits: &str| "0".repeat(width - digits.len()) + digits;
    drawn_out(first) < drawn_out(second)
}

/// Each row takes one of these names; the first takes no name but the empty one.
pub fn check_taken(names: &[&str]) {
    for row in 1..=FRACTION {
        assert!(names.iter().chain(&[""]).any(|name| read(name).row == row), "no name of row {row}");
    }
}

/// `read_clock` of normalize.rs, which the reference does not make public, and the word for a minute of "00" that document 02, A1,
/// adds to row 4.
fn read_clock(hour: &str, minute: &str, full: Option<&str>) -> Vec<String> {
    let mut out = numbers::cardinal(hour);
    if minute != "00" {
        out.extend(numbers::year(minute));
    } else {
        out.extend(full.map(str::to_string));
    }
    out
}

/// A token's record, the count of its words, and its line. A name above the limit is not read.
pub struct Line {
    too_long: bool,
    row: u8,
    sign: u8,
    words: usize,
    pub bytes: Vec<u8>,
}

impl Line {
    fn of(starts: u8, name: &str) -> Self {
        if name.len() > NAME_LIMIT {
            return Line { too_long: true, row: 0, sign: 0, words: 0, bytes: Vec::new() };
        }
        let Reading { row, sign, words } = read(name);
        let mut bytes = vec![if starts == 1 { b'+' } else { b'-' }];
        for word in &words {
            bytes.push(b' ');
            bytes.extend_from_slice(word.as_bytes());
        }
        bytes.push(b'\n');
        Line { too_long: false, row, sign, words: words.len(), bytes }
    }
}

/// What the Rust calls a sheet with, if there is room for all of it.
pub struct Called {
    refusal: u8,
    pub lines: Vec<Line>,
}

impl Called {
    pub fn of(admitted: Admitted) -> Self {
        let tokenized = Tokenized::of(admitted);
        let text = admitted.unwrap_or("");
        let names = tokenized.places().map(|[_, _, (at, len), _]| &text[at..at + len]);
        let lines = names.zip(&tokenized.starts).map(|(name, &starts)| Line::of(starts, name)).collect();
        Called { refusal: tokenized.refusal, lines }
    }

    /// The whole call sheet, if no name is too long.
    pub fn sheet(&self) -> Vec<u8> {
        self.lines.iter().flat_map(|line| line.bytes.iter().copied()).collect()
    }

    /// The answer of the whole sheet's call in a buffer of `len` bytes, if the call sheet has `exact` bytes.
    pub fn whole(&self, exact: usize, len: usize) -> CalledSheet {
        let refused = |refusal| CalledSheet { refusal, ..CalledSheet::default() };
        if self.refusal > 0 {
            return refused(self.refusal);
        }
        if self.lines.iter().any(|line| line.too_long) {
            return refused(NAME_TOO_LONG);
        }
        if len < exact {
            return refused(BUFFER_TOO_SHORT);
        }
        let words = self.lines.iter().map(|line| line.words).sum();
        CalledSheet { refusal: 0, tokens: self.lines.len(), words, bytes: exact }
    }

    /// The answer of one entry's call, and the bytes that it leaves at the front of the buffer.
    pub fn entry(&self, number: usize, len: usize) -> (CalledEntry, &[u8]) {
        let refused = |refusal| (CalledEntry { refusal, ..CalledEntry::default() }, &b""[..]);
        if self.refusal > 0 {
            return refused(self.refusal);
        }
        let Some(line) = self.lines.get(number) else {
            return refused(NO_SUCH_ENTRY);
        };
        if line.too_long {
            return refused(NAME_TOO_LONG);
        }
        if len < line.bytes.len() {
            return refused(BUFFER_TOO_SHORT);
        }
        let answer =
            CalledEntry { refusal: 0, row: line.row, sign: line.sign, words: line.words, bytes: line.bytes.len() };
        (answer, &line.bytes)
    }
}
