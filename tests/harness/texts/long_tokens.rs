//! Sheets of up to 65,536 bytes and just over: many tokens and few, long names, long runs of marks and of whitespace.

use crate::comparison::Comparison;
use crate::corners::pieces::rare_control_byte;
use crate::corners::tokens::PIECES;
use crate::expected::answers::TEXT_LIMIT;
use crate::random::Random;
use crate::texts::long::{of_length, Pattern};

#[rustfmt::skip]
const PATTERNS: &[Pattern] = &[
    ("", "a ", ""), ("", " ", ""), ("", "\n", ""), ("", "a", ""), ("", "\"", ""), ("", "\"", " "), ("", "\"", "a"),
    ("", "(", "."), ("", ".", ""), ("a", ".", ""), ("a", "!", " b"), ("", " ", "a"), ("a", " ", ""), ("a.", " ", "B"),
    ("a", "\n", "b"), ("a\n", " ", "\nb"), ("a", "a", "Z. A"), ("Z", "a", ". A"), ("yahoo", "o", "! a"), ("yahoo", "!", " a"),
    ("yahoo!\n", " ", "a"), ("", "é", ""), ("", "é ", ""), ("", "€", ". A"), ("", "𐍈", "! a"), ("(", "é", ")"),
    ("ab.", ")", " C"), ("ab", ")", ". C"), ("ab!", ";", " c"), ("ab", ",", ": c"), ("", "\u{a0}", ""), ("", "\u{2028}a ", ""),
    ("", ". ", ""), ("", "? ", ""), ("", "\" ", ""), ("", "a! ", ""), ("", "A. ", ""), ("", "abcd. A\n\n", ""),
    ("", "Yahoo! it ", ""), ("", "\r\n", "a"), ("", "\t", "\"'`"), ("", "Bar 12 at 9:30. Rack 5mm (21st)\n", ""),
    ("", "The cat sat. It slept! Did it? Yes: it did.\n\n", ""), ("", "abcdefgh ", ""), ("", "\"'`({[a\"'`.,:;!?(){}[] ", ""),
];

/// Lengths on both sides of the limit, with each pattern, and with whole and cut characters at the end.
pub fn limits(comparison: &mut Comparison) {
    comparison.begin("sheets at the limit");
    for (number, pattern) in PATTERNS.iter().enumerate() {
        for len in TEXT_LIMIT - 1..=TEXT_LIMIT + 1 {
            comparison.every_token(&of_length(pattern, len, b""), number % 3);
        }
    }
    for ending in [&b"\xc3"[..], b"\xc3\xa9", b"\xff", b" \xc3", b"\xe2\x82", b"\xf0\x90\x8d\x88", b"\x80"] {
        for len in TEXT_LIMIT - 1..=TEXT_LIMIT + 2 {
            comparison.every_token(&of_length(&PATTERNS[len % 2], len, ending), 0);
        }
    }
    comparison.every_token(&of_length(&PATTERNS[0], 2 * TEXT_LIMIT, b""), 0);
}

/// As many tokens as a text can have, in buffers of every size.
pub fn many_tokens(comparison: &mut Comparison) {
    comparison.begin("many tokens, every buffer");
    for len in [255, 256, 257, 510, 511, 512, 513, 4_096] {
        PATTERNS.iter().for_each(|pattern| comparison.every_token_room(&of_length(pattern, len, b""), 0));
    }
    for len in [TEXT_LIMIT - 1, TEXT_LIMIT, TEXT_LIMIT + 1] {
        comparison.every_token_room(&of_length(&("a. ", "b ", ""), len, b""), 0);
    }
}

/// Each pattern at each length of up to 80 bytes, and at lengths at which a count of one byte would start anew.
pub fn growing(comparison: &mut Comparison) {
    comparison.begin("sheets of growing length");
    for pattern in PATTERNS {
        let lengths = (0..=80).chain(250..=275).chain(510..=530);
        lengths.for_each(|len| comparison.every_token(&of_length(pattern, len, b""), 0));
    }
}

/// Sheets of some blocks of 64 bytes, with one byte changed, at every place.
pub fn changed_at_each_place(comparison: &mut Comparison) {
    comparison.begin("sheets with one byte changed, at each place");
    for pattern in PATTERNS {
        let whole = of_length(pattern, 140, b"");
        for place in 0..whole.len() {
            for byte in [b' ', b'\n', b'"', b'.', b'A', 0xff] {
                let mut text = whole.clone();
                text[place] = byte;
                comparison.every_token(&text, 0);
            }
        }
    }
}

/// Sheets of random pieces and of patterns, of any length up to the limit; some are damaged, and some have a control byte.
pub fn random(comparison: &mut Comparison, random: &mut Random, texts: usize) {
    comparison.begin("random sheets");
    for _ in 0..texts {
        let len = random.length(TEXT_LIMIT);
        let mut text = some_sheet(random, len);
        if random.below(8) == 0 && !text.is_empty() {
            let place = random.below(text.len());
            text[place] = *random.one_of(&[0x80, 0xc3, 0xe2, 0xf0, 0xff]);
        }
        if let Some(byte) = rare_control_byte(random) {
            let place = random.below(text.len() + 1);
            text.splice(place..place, byte.bytes());
        }
        comparison.every_token(&text, random.below(64));
    }
}

/// Stretches of random pieces; between them a pattern, so that long names and long runs come up.
fn some_sheet(random: &mut Random, len: usize) -> Vec<u8> {
    let mut text = Vec::new();
    while text.len() < len {
        for _ in 0..random.below(200) {
            text.extend_from_slice(random.one_of(PIECES).as_bytes());
        }
        if random.below(4) == 0 {
            let drawn = random.length(1 + len / 4);
            text.extend(of_length(random.one_of(PATTERNS), drawn, b""));
        }
    }
    cut(text, len)
}

/// The front of the text, up to `len` bytes, with no character cut that was whole.
fn cut(mut text: Vec<u8>, len: usize) -> Vec<u8> {
    let mut end = len.min(text.len());
    while end > 0 && text.get(end).is_some_and(|byte| byte & 0xc0 == 0x80) {
        end -= 1;
    }
    text.truncate(end);
    text
}
