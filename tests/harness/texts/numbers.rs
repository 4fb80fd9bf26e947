//! Short texts for the readings: corners in buffers of every size, every text of a few pieces, and random ones.

use crate::calls::readings::{LETTERS, REAL, ROMAN_VALUE};
use crate::comparison::Comparison;
use crate::corners;
use crate::corners::pieces::{slip, some_pieces};
use crate::random::Random;
use crate::texts::exhaustive::each_text;

/// An alphabet, and how many of its pieces a text has at most.
struct Theme {
    name: &'static str,
    most: usize,
    pieces: &'static [&'static str],
}

// "é" has two bytes, "€" three and "𐍈" four.
#[rustfmt::skip]
const THEMES: &[Theme] = &[
    Theme {
        name: "digits, signs and letters",
        most: 4,
        pieces: &[
            "0", "1", "7", ",", ".", "e", "E", "+", "-", " ", "a", "A", "b", "i", "v", "x", "I", "V", "X", "M", "/", ":", "é", "€", "𐍈",
        ],
    },
    Theme { name: "decimal numbers", most: 6, pieces: &["0", "1", ".", "e", "E", "+", "-"] },
    Theme { name: "groups of three", most: 5, pieces: &["000", "005", "010", "100", "777", "0", "00", "12", ","] },
    Theme { name: "pairs", most: 6, pieces: &["00", "07", "10", "19", "77", "0", "5", "x"] },
    Theme { name: "letters", most: 4, pieces: &["a", "A", "z", "Z", "@", "[", "`", "{", "_", "5", " ", "\0", "\t", "é", "€", "𐍈"] },
];

// Roman numerals in both cases, and a letter that is none.
const NUMERALS: &[&str] = &["I", "V", "X", "L", "C", "D", "M", "i", "v", "x", "l", "c", "d", "m", "a"];

/// Named corners in buffers of every size. A damaged one is refused with its number whatever the buffers are.
pub fn named(comparison: &mut Comparison) {
    comparison.begin("corners of numbers, every buffer");
    number_corners().for_each(|text| comparison.every_room(text.as_bytes(), 0));
    let shapes = corners::shapes::LISTS.iter().flat_map(|list| list.iter());
    shapes.for_each(|text| comparison.every_room(text.as_bytes(), 1));
    corners::shapes::DAMAGED.iter().for_each(|text| comparison.every_room(text, 0));
}

/// Each corner with each of its bytes replaced by every byte.
pub fn one_byte_changed(comparison: &mut Comparison) {
    comparison.begin("corners of numbers, one byte changed");
    for corner in number_corners() {
        for place in 0..corner.len() {
            let mut text = corner.as_bytes().to_vec();
            for byte in 0..=255 {
                text[place] = byte;
                comparison.every_reading(&text, 0);
            }
        }
    }
}

/// Every string of up to six digits, and every text of a few pieces.
pub fn exhaustive(comparison: &mut Comparison) {
    comparison.begin("all digits up to 6");
    let digits = ["0", "1", "2", "3", "4", "5", "6", "7", "8", "9"];
    each_text(&mut Vec::new(), 6, &digits, &mut |text| comparison.every_reading(text, 0));
    for theme in THEMES {
        comparison.begin(theme.name);
        each_text(&mut Vec::new(), theme.most, theme.pieces, &mut |text| comparison.every_reading(text, 0));
    }
}

/// Longer texts for three readings that look at few characters.
pub fn exhaustive_for_one(comparison: &mut Comparison, numerals: usize) {
    comparison.begin("decimal numbers, real alone");
    each_text(&mut Vec::new(), 7, THEMES[1].pieces, &mut |text| comparison.one_call(text, 0, REAL));
    comparison.begin("roman numerals, roman_value alone");
    each_text(&mut Vec::new(), numerals, NUMERALS, &mut |text| comparison.one_call(text, 0, ROMAN_VALUE));
    comparison.begin("all ASCII up to 3 bytes, letters alone");
    let ascii: Vec<String> = (0..128_u8).map(|byte| char::from(byte).to_string()).collect();
    let ascii: Vec<&str> = ascii.iter().map(String::as_str).collect();
    each_text(&mut Vec::new(), 3, &ascii, &mut |text| comparison.one_call(text, 0, LETTERS));
}

/// Strings of up to 20 digits; some have a zero in most places.
pub fn random_digits(comparison: &mut Comparison, random: &mut Random, texts: usize) {
    comparison.begin("random digits up to 20");
    for _ in 0..texts {
        let zeros = random.below(4);
        let digit = |random: &mut Random| if random.below(4) < zeros { b'0' } else { b'0' + random.below(10) as u8 };
        let text: Vec<u8> = (0..random.below(21)).map(|_| digit(random)).collect();
        comparison.every_reading(&text, random.below(64));
    }
}

pub fn random_pieces(comparison: &mut Comparison, random: &mut Random, texts: usize) {
    comparison.begin("random pieces of numbers");
    for _ in 0..texts {
        let text = some_pieces(random, corners::numbers::PIECES, 40);
        comparison.every_reading(text.as_bytes(), random.below(64));
    }
}

/// Corners with up to three slips, in buffers of every size.
pub fn slips(comparison: &mut Comparison, random: &mut Random, texts: usize) {
    comparison.begin("numbers with slips, every buffer");
    let corners: Vec<&str> = number_corners().collect();
    for _ in 0..texts {
        let mut text = random.one_of(&corners).to_string();
        for _ in 0..random.below(4) {
            text = slip(random, corners::numbers::PIECES, &text);
        }
        comparison.every_room(text.as_bytes(), random.below(64));
    }
}

fn number_corners() -> impl Iterator<Item = &'static str> {
    corners::numbers::LISTS.iter().flat_map(|list| list.iter().copied())
}
