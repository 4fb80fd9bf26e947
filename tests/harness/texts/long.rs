//! Long texts that keep a function scanning, with or without a flaw, and lengths around the limit.

use crate::comparison::Comparison;
use crate::corners::pieces::{rare_control_byte, PIECES};
use crate::expected::answers::TEXT_LIMIT;
use crate::random::Random;

/// A beginning, what is repeated after it, and an end.
pub type Pattern = (&'static str, &'static str, &'static str);

#[rustfmt::skip]
const PATTERNS: &[Pattern] = &[
    ("", "5", ""), ("", "0", ""), ("0", "5", ""), ("", "a", ""), ("", "zA", ""),
    ("-", "5", ".5e+5"), ("", "5", "e5"), (".", "5", "e-55"), ("1e", "5", ""), ("-5.", "0", ""), ("", "-", "5"),
    ("1", ",000", ""), ("12", ",345", ""), ("123", ",456", ""), ("", ",", ""), ("1234", ",567", ""),
    ("1", ",", "th"), ("1", "1,", "ST"), ("", "5", "nd"), ("5", "t", "h"),
    ("$", "5", ""), ("$", "5", ".00"), ("$", ",", ""), ("$1.", "5", ""), ("$", "1,", ".5"),
    ("", "m", "illion"), ("", "é", "illion"), ("", "illion", ""),
    ("X", "XVI", ""), ("", "X", ""), ("", "I", ""), ("", "V", "III"),
    ("", "st", ""), ("", "5", "s"), ("5", "s", ""),
    ("555-", "1", ""), ("", "5", "-1234"), ("", "9", ":30"), ("9:", "3", ""), ("9", ":", "30"),
    ("", "9", ":30am"), ("9:30", "a", "m"), (".", ".", "30pm"), ("9:", "5", "am"), ("", "a", "m"),
    ("", "a.", "a"), ("", "a.", ""), ("", "Z.", "."), ("", ".", ""), ("", "a.b", ""),
    ("5/", "5", ""), ("", "5", "/5"), ("5", "/", "5"),
    ("5", "-", "6"), ("", "5-", ""), ("", "-", ""), ("", "-5", "6"), ("", "12-", "34"),
    ("", "5", "kg"), ("", "5,", "KHz"), ("", ",", "5mm"), ("5", "k", ""), ("", "kg", ""), ("5", "kg", "5kg"),
    ("", "é", ""), ("", "€", ""), ("", "𐍈", ""), ("", "aé", ""), ("5", "é", "5kg"), ("", "é.", ""),
    ("", "abcdefghijklmno€", ""), ("", "The quick brown fox, \n", ""), ("", "\0", ""), ("", "\t", ""), ("", "~", ""),
];

/// What may stand at the very end: nothing more, whole characters, and characters cut short.
#[rustfmt::skip]
const ENDINGS: &[&[u8]] = &[
    b"", b"5", b"x", b" ", b"\xc3\xa9", b"\xe2\x82\xac", b"\xf0\x90\x8d\x88", b"\xc3", b"\xe2", b"\xe2\x82", b"\xf0",
    b"\xf0\x90", b"\xf0\x90\x8d", b"\xa9", b"\xed\xa0\x80", b"\xff",
];

/// Lengths on both sides of the limit, with each pattern and each ending.
pub fn limits(comparison: &mut Comparison) {
    comparison.begin("lengths around the limit");
    for pattern in PATTERNS {
        for len in TEXT_LIMIT - 2..=TEXT_LIMIT + 2 {
            comparison.every_shape(&of_length(pattern, len, b""), 0);
        }
    }
    for (number, ending) in ENDINGS.iter().enumerate() {
        for len in TEXT_LIMIT - 4..=TEXT_LIMIT + 4 {
            let pattern = &PATTERNS[(number + len) % PATTERNS.len()];
            comparison.every_shape(&of_length(pattern, len, ending), 0);
        }
    }
    for len in [2 * TEXT_LIMIT - 1, 2 * TEXT_LIMIT, 2 * TEXT_LIMIT + 1, 1 << 20] {
        comparison.every_shape(&of_length(&PATTERNS[0], len, b""), 0);
    }
}

/// Texts of some blocks of 64 bytes, with one byte wrong, at every place.
pub fn flaw_at_each_place(comparison: &mut Comparison) {
    comparison.begin("one byte wrong, at each place");
    for pattern in PATTERNS {
        let whole = of_length(pattern, 400, b"");
        for place in 0..whole.len() {
            for byte in [b'x', b'5', b'.', 0xff] {
                let mut text = whole.clone();
                text[place] = byte;
                comparison.every_shape(&text, 0);
            }
        }
    }
}

/// Texts of random length up to just over the limit, most of them with a flaw somewhere.
pub fn random(comparison: &mut Comparison, random: &mut Random, texts: usize) {
    comparison.begin("random long texts");
    for _ in 0..texts {
        let len = random.length(TEXT_LIMIT);
        let mut text = of_length(random.one_of(PATTERNS), len, b"");
        for _ in 0..random.below(3) {
            flaw(random, &mut text);
        }
        comparison.every_shape(&text, random.below(64));
    }
}

/// The pattern with its middle drawn out so that text and ending have `len` bytes; a character may be cut.
pub fn of_length(pattern: &Pattern, len: usize, ending: &[u8]) -> Vec<u8> {
    let (front, middle, back) = pattern;
    let drawn = len.saturating_sub(front.len() + back.len() + ending.len());
    let mut text = front.as_bytes().to_vec();
    text.extend(middle.bytes().cycle().take(drawn));
    text.extend_from_slice(back.as_bytes());
    text.extend_from_slice(ending);
    text
}

/// Writes a piece over the bytes near the front, near the back, or anywhere. A rare one is a control byte.
fn flaw(random: &mut Random, text: &mut Vec<u8>) {
    let len = text.len();
    let place = match random.below(3) {
        0 => random.below(8).min(len),
        1 => len - random.below(8).min(len),
        _ => random.below(len + 1),
    };
    let piece = rare_control_byte(random).unwrap_or_else(|| random.one_of(PIECES).to_string()).into_bytes();
    let replaced = if random.below(4) == 0 { 0 } else { piece.len() };
    text.splice(place..(place + replaced).min(len), piece);
}
