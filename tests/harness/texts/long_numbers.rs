//! Long texts for the readings, on both sides of the limit, with as many words as they can have and with none.

use crate::comparison::Comparison;
use crate::corners::pieces::rare_control_byte;
use crate::expected::answers::TEXT_LIMIT;
use crate::random::Random;
use crate::texts::long::{of_length, Pattern};

#[rustfmt::skip]
const PATTERNS: &[Pattern] = &[
    ("", "7", ""), ("", "0", ""), ("", "3,", ""), ("", "x5", ""), ("", ",", "5"), ("12", "x", "34"), ("1984", "é", ""), ("123456789012", " ", ""),
    ("", "0700", ""), ("", "77", "2005"), ("", "19", "1900"), ("", "00", "07"),
    ("", "-", ""), ("", "+-", "1"), ("", "e", ""), ("", "E-", ""), ("", ".", ""), ("", "7777777777e", ""), ("", "-1.50e+", "7"),
    ("1.", "5", ""), ("", "5", ".5"), ("", "5.", ""), ("", "-5", ""), ("", "e.", ""),
    ("", "a", ""), ("", "A", ""), ("", "zQ", ""), ("", "é", ""), ("", "€", ""), ("", "𐍈", ""), ("", "aé€𐍈", ""), ("", "\0", ""), ("", "\t", ""),
    ("", "M", ""), ("", "I", ""), ("", "I", "M"), ("M", "I", ""), ("", "MDCLXVI", ""), ("", "IVXLCDM", ""), ("", "mI", ""), ("", "M", "a"),
    ("", "V", "X"), ("", "DM", ""),
];

/// The last length that is read, and the first that is refused, with whole and with cut characters.
pub fn limits(comparison: &mut Comparison) {
    comparison.begin("numbers at the limit");
    for (number, pattern) in PATTERNS.iter().enumerate() {
        comparison.every_reading(&of_length(pattern, TEXT_LIMIT, b""), 0);
        comparison.every_reading(&of_length(pattern, TEXT_LIMIT + 1, b""), number);
    }
    for pattern in &PATTERNS[..4] {
        for len in [TEXT_LIMIT - 1, TEXT_LIMIT + 2, 2 * TEXT_LIMIT] {
            comparison.every_reading(&of_length(pattern, len, b""), 0);
        }
        comparison.every_reading(&of_length(pattern, TEXT_LIMIT, b"\xc3"), 0);
        comparison.every_reading(&of_length(pattern, TEXT_LIMIT + 1, b"\xc3"), 0);
    }
}

/// Each pattern at each length of up to 80 bytes, and at lengths at which a number of the table takes one byte more.
pub fn growing(comparison: &mut Comparison) {
    comparison.begin("numbers of growing length");
    for pattern in PATTERNS {
        for len in (0..=80).chain([250, 255, 256, 257, 300, 511, 512, 513]) {
            comparison.every_reading(&of_length(pattern, len, b""), 0);
        }
        comparison.every_reading(&of_length(pattern, 14_000, b""), 3);
    }
}

/// Patterns of random length, each with another one behind it. A rare one has a control byte.
pub fn random(comparison: &mut Comparison, random: &mut Random, texts: usize) {
    comparison.begin("random long numbers");
    for _ in 0..texts {
        let len = random.length(TEXT_LIMIT / 8);
        let back = of_length(random.one_of(PATTERNS), random.length(len), b"");
        let mut text = of_length(random.one_of(PATTERNS), len.max(back.len()), &back);
        if let Some(byte) = rare_control_byte(random) {
            let place = random.below(text.len() + 1);
            text.splice(place..place, byte.bytes());
        }
        comparison.every_reading(&text, random.below(64));
    }
}
