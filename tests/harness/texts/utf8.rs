//! Whole and damaged UTF-8, against the Rust's from_utf8.

use crate::comparison::{Comparison, CALLS};
use crate::expected::answers::TEXT_LIMIT;
use crate::random::Random;

// The bytes on both sides of every bound in RFC 3629's table, and one that is accepted in place of the control bytes among them.
#[rustfmt::skip]
const FIRST: &[u8] = &[
    0x00, 0x7e, 0x7f, 0x80, 0xbf, 0xc0, 0xc1, 0xc2, 0xdf, 0xe0, 0xe1, 0xec, 0xed, 0xee, 0xef, 0xf0, 0xf1, 0xf3, 0xf4, 0xf5,
    0xf7, 0xf8, 0xff,
];
const SECOND: &[u8] = &[0x00, 0x7e, 0x7f, 0x80, 0x8f, 0x90, 0x9f, 0xa0, 0xbf, 0xc0, 0xff];
const LATER: &[u8] = &[0x00, 0x7e, 0x7f, 0x80, 0xbf, 0xc0, 0xff];

/// The neighbours of a character: one to four bytes each.
const FILLERS: &[&str] = &["a", "é", "€", "𐍈"];

const MIXES: &[&str] = &[
    "plain words, 1,234 of them; no sign above 127 ",
    "Zähler 5kg um 9:30am, später 21st ",
    "éüßøñµ¼",
    "漢字かな交じり文",
    "𐍈𝄞😀🎼",
    "a\u{80}b\u{7ff}\u{800}c\u{d7ff}\u{e000}\u{ffff}\u{10000}\u{10ffff}",
];

/// Every text of up to 3 bytes, and of 4 bytes every first and second byte.
pub fn exhaustive(comparison: &mut Comparison) {
    comparison.begin("all bytes up to 2");
    for first in 0..=255 {
        comparison.every_call(&[first], 0);
        (0..=255).for_each(|second| comparison.every_call(&[first, second], 0));
    }
    comparison.begin("all of 3 bytes, one call each");
    for number in 0..1_usize << 24 {
        let bytes = [(number >> 16) as u8, (number >> 8) as u8, number as u8];
        comparison.one_call(&bytes, 0, number % CALLS);
    }
    comparison.begin("4 bytes at the bounds, one call each");
    let mut call = 0;
    for number in 0..1_usize << 16 {
        for third in LATER {
            for fourth in LATER {
                comparison.one_call(&[(number >> 8) as u8, number as u8, *third, *fourth], 0, call % CALLS);
                call += 1;
            }
        }
    }
}

/// Every sequence at the bounds, at every place of a text that is longer than two blocks of 64 bytes.
pub fn placed(comparison: &mut Comparison) {
    comparison.begin("bounds at each place, one call each");
    let sequences = sequences();
    let mut call = 0;
    for filler in FILLERS {
        let padding = filler.repeat(132 / filler.len());
        for place in (0..=padding.len()).step_by(filler.len()) {
            for sequence in &sequences {
                let text = [&padding.as_bytes()[..place], sequence, &padding.as_bytes()[place..]].concat();
                comparison.one_call(&text, call % 64, call % CALLS);
                call += 1;
            }
        }
    }
}

/// Texts of random length, at a random alignment, whole or damaged in one place.
pub fn damaged(comparison: &mut Comparison, random: &mut Random, texts: usize) {
    comparison.begin("random UTF-8, whole and damaged");
    for _ in 0..texts {
        let mut text = some_utf8(random);
        if random.below(4) > 0 {
            damage(random, &mut text);
        }
        comparison.one_call(&text, random.below(64), random.below(CALLS));
    }
}

/// All sequences of one to four bytes over the bytes at the bounds.
fn sequences() -> Vec<Vec<u8>> {
    let mut all: Vec<Vec<u8>> = FIRST.iter().map(|&first| vec![first]).collect();
    let mut longest = all.clone();
    for next in [SECOND, LATER, LATER] {
        longest =
            longest.iter().flat_map(|front| next.iter().map(move |&byte| [&front[..], &[byte]].concat())).collect();
        all.extend_from_slice(&longest);
    }
    all
}

/// A text cut out of a mix of characters, up to the limit and never inside a character.
fn some_utf8(random: &mut Random) -> Vec<u8> {
    let len = random.length(TEXT_LIMIT);
    let mut text = String::new();
    let mut mix = *random.one_of(MIXES);
    while text.len() + mix.len() <= len {
        text.push_str(mix);
        if random.below(8) == 0 {
            mix = *random.one_of(MIXES);
        }
    }
    text.into_bytes()
}

/// Changes, drops or puts in one byte, or cuts the text there.
fn damage(random: &mut Random, text: &mut Vec<u8>) {
    let place = random.below(text.len() + 1);
    let byte = *random.one_of(&[FIRST, SECOND].concat());
    match random.below(5) {
        0 if place < text.len() => text[place] ^= 1 << random.below(8),
        1 if place < text.len() => drop(text.remove(place)),
        2 if place < text.len() => text[place] = byte,
        3 => text.truncate(place),
        _ => text.insert(place, byte),
    }
}
