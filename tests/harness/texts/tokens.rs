//! Short texts for tokens and sentences: corners in buffers of every size, every character in every place, every text of a
//! few pieces, and random ones.

use crate::comparison::Comparison;
use crate::corners;
use crate::corners::pieces::{slip, some_pieces};
use crate::corners::tokens::PIECES;
use crate::random::Random;
use crate::texts::exhaustive::each_text;

/// An alphabet, and how many of its pieces a text has at most.
struct Theme {
    name: &'static str,
    most: usize,
    pieces: &'static [&'static str],
}

/// What decides between tokens and between sentences, in eleven characters; "é" has two bytes.
const ELEVEN: &[&str] = &[" ", "\n", "\"", "(", ".", "!", ":", "a", "A", "1", "é"];

#[rustfmt::skip]
const THEMES: &[Theme] = &[
    Theme { name: "eleven characters", most: 6, pieces: ELEVEN },
    Theme { name: "whitespace", most: 5, pieces: &[" ", "\t", "\n", "\r", "\u{85}", "\u{a0}", "a", "A", ".", "\""] },
    Theme { name: "leading marks", most: 5, pieces: &["\"", "'", "`", "(", "{", "[", ")", ".", "a", " "] },
    Theme {
        name: "trailing marks",
        most: 4,
        pieces: &["\"", "'", "`", ".", ",", ":", ";", "!", "?", "(", ")", "{", "}", "[", "]", "a", "A", " ", "é"],
    },
    Theme { name: "breaks", most: 6, pieces: &[".", ":", "?", "!", "a", "A", " ", "\n"] },
    Theme { name: "yahoo", most: 5, pieces: &["yahoo", "YaHoO", "yaho", "o", "!", ".", " ", "\n", "a", "A", "1", "\""] },
    Theme { name: "abbreviations", most: 5, pieces: &["A", "b", "Dr", "abc", "Abcd", "abcD", ".", " ", "\n", "(", "é"] },
];

/// The places of a character %: alone, first, inside and last, after and before marks, before the end and before whitespace.
#[rustfmt::skip]
const PLACES: &[&str] = &[
    "%", "% ", " %", " % ", "\n%", "%\n", "%%", "%% ", "%%%", "%a", "a%", "a%a", "a% ", "a% b", "a% B", "%a B", "a%%", "a%% B",
    "(%", "(% ", "(%)", "(%a", "(a%", "(%%", "%.", "%. ", "%. A", "%! a", "%: 1", ".%", ".% ", "..%", "a.%", "a.% ", "a.% A",
    "a.%. A", "a%. A", "a%! a", "a%.) A", "a. %", "a.  %", "a. %a", "a! %", "ab. (%", "ab.%B", "ab. % B", "ab.%\nB",
    "ab.\n%\nB", "a\n%\nb", "a\n\n%", "yahoo! %", "yahoo% a", "yahoo!% a", "%ahoo! a", "yaho%! a", "yahoo%! a", "%yahoo! a",
    "%bc. A", "ab%. A", "%bcd. A", "abc%. A", "%\"", "%\" ", "\"%", "\"% ", "%(", "%( ", "% (", "% ( ",
];

/// Places of two characters in a row.
const PAIRS: &[&str] = &["%", "a% b", "(%", "a.% B", "ab! %"];

// Characters of several bytes: whitespace and marks elsewhere, and such as share bits with those that matter here.
#[rustfmt::skip]
const CHARACTERS: &[char] = &[
    '\u{80}', '\u{85}', '\u{89}', '\u{8a}', '\u{8d}', '\u{a0}', '\u{a1}', '\u{a2}', '\u{a7}', '\u{a8}', '\u{ac}', '\u{ae}',
    '\u{ba}', '\u{bb}', '\u{bf}', '\u{c1}', 'é', 'É', 'ß', '\u{db}', '\u{e1}', '\u{fb}', '\u{10a}', '\u{120}', '\u{122}',
    '\u{12e}', '\u{161}', '\u{17f}', '\u{212a}', '\u{7ff}', '\u{800}', '\u{820}', '\u{a0a}', '\u{1680}', '\u{2000}', '\u{2003}',
    '\u{200b}', '\u{2018}', '\u{2019}', '\u{201c}', '\u{201d}', '\u{2020}', '\u{2026}', '\u{2028}', '\u{2029}', '\u{202e}',
    '\u{202f}', '\u{205f}', '\u{2121}', '\u{2e2e}', '\u{3000}', '\u{3001}', '\u{3002}', '\u{feff}', '\u{ff01}', '\u{ff08}',
    '\u{ff1a}', '\u{ff1f}', '\u{ff21}', '\u{ff41}', '\u{ffff}', '\u{10000}', '𐍈', '\u{1f600}', '\u{10ffff}', '٣', '\u{3a3}',
    '\u{431}',
];

/// Named corners in buffers of every size. A damaged one is refused with its number whatever the buffer is.
pub fn named(comparison: &mut Comparison) {
    comparison.begin("corners of tokens, every buffer");
    token_corners().for_each(|text| comparison.every_token_room(text.as_bytes(), 0));
    corners::shapes::DAMAGED.iter().for_each(|text| comparison.every_token_room(text, 0));
    corners::shapes::LISTS.iter().flat_map(|list| list.iter()).for_each(|text| comparison.every_token(text.as_bytes(), 1));
}

/// Each short corner with each of its bytes replaced by every byte, left out, and with every ASCII byte put before it.
pub fn one_byte_changed(comparison: &mut Comparison) {
    comparison.begin("corners of tokens, one byte changed");
    for corner in token_corners().map(str::as_bytes).filter(|corner| corner.len() <= 12) {
        for place in 0..=corner.len() {
            let (front, back) = corner.split_at(place);
            let after = back.get(1..).unwrap_or(b"");
            comparison.every_token(&[front, after].concat(), 0);
            for byte in 0..=255 {
                comparison.every_token(&[front, &[byte], after].concat(), 0);
            }
            for byte in 0..128 {
                comparison.every_token(&[front, &[byte], back].concat(), 0);
            }
        }
    }
}

/// Every ASCII character and some others in every place, and every pair of them in some.
pub fn placed(comparison: &mut Comparison) {
    comparison.begin("each character in each place, every buffer");
    let ascii = (0..128_u8).map(char::from);
    let singles: Vec<String> = ascii.clone().chain(CHARACTERS.iter().copied()).map(String::from).collect();
    for place in PLACES {
        singles.iter().for_each(|one| comparison.every_token_room(place.replace('%', one).as_bytes(), 0));
    }
    comparison.begin("each pair of ASCII in some places");
    for pair in ascii.clone().flat_map(|first| ascii.clone().map(move |second| format!("{first}{second}"))) {
        PAIRS.iter().for_each(|place| comparison.every_token(place.replace('%', &pair).as_bytes(), 0));
    }
}

/// If the run is long, one piece more than a theme says.
pub fn exhaustive(comparison: &mut Comparison, long: bool) {
    for theme in THEMES {
        comparison.begin(theme.name);
        let most = theme.most + usize::from(long);
        each_text(&mut Vec::new(), most, theme.pieces, &mut |text| comparison.every_token(text, 0));
    }
}

/// Two tokens: every kind of name, mark and whitespace of the first with every kind of the second.
pub fn neighbours(comparison: &mut Comparison) {
    comparison.begin("two tokens, all that decides a break");
    for name in corners::tokens::yahoos().iter().map(String::as_str).chain(NAMES.iter().copied()) {
        for marks in ["", ".", ":", "?", "!", ",", "!.", ".)", "?!", "!)", "\"", ";.\""] {
            for blank in [" ", "  ", "\t", "\n", "\n\n", " \n", "\r\n", "\r\n\r\n", "\n\t\n", "\n\n\n"] {
                for next in ["a", "A", "z", "Z", "1", "é", "(a", "\"A", "\"", "( b", "?", ".A"] {
                    comparison.every_token([name, marks, blank, next].concat().as_bytes(), 0);
                }
            }
        }
    }
}

// Names of one to six bytes, with capitals in front, at the end, inside and nowhere.
#[rustfmt::skip]
const NAMES: &[&str] = &[
    "a", "A", "1", "ab", "Ab", "aB", "AB", "abc", "Abc", "abC", "aBc", "abcd", "Abcd", "abcD", "ABCD", "abcde", "Abcde",
    "abcdE", "é", "Aé", "éA", "Abé", "yaho", "Yaho", "yahooo", "yahoos", "yahou", "éahoo",
];

/// Every text of seven of the eleven characters that starts with two random ones.
pub fn seven(comparison: &mut Comparison, random: &mut Random) {
    comparison.begin("seven of the eleven characters");
    let mut beginning = [*random.one_of(ELEVEN), *random.one_of(ELEVEN)].concat().into_bytes();
    each_text(&mut beginning, 5, ELEVEN, &mut |text| comparison.every_token(text, 0));
}

/// Longer texts over the eleven characters.
pub fn random_eleven(comparison: &mut Comparison, random: &mut Random, texts: usize) {
    comparison.begin("8 to 12 of the eleven characters");
    for _ in 0..texts {
        let text: String = (0..8 + random.below(5)).map(|_| *random.one_of(ELEVEN)).collect();
        comparison.every_token(text.as_bytes(), random.below(64));
    }
}

pub fn random_pieces(comparison: &mut Comparison, random: &mut Random, texts: usize) {
    comparison.begin("random pieces of sentences");
    for _ in 0..texts {
        let text = some_pieces(random, PIECES, 40);
        comparison.every_token(text.as_bytes(), random.below(64));
    }
}

/// Corners with up to three slips, in buffers of every size.
pub fn slips(comparison: &mut Comparison, random: &mut Random, texts: usize) {
    comparison.begin("sentences with slips, every buffer");
    let corners: Vec<&str> = token_corners().collect();
    for _ in 0..texts {
        let mut text = random.one_of(&corners).to_string();
        for _ in 0..random.below(4) {
            text = slip(random, PIECES, &text);
        }
        comparison.every_token_room(text.as_bytes(), random.below(64));
    }
}

fn token_corners() -> impl Iterator<Item = &'static str> {
    corners::tokens::LISTS.iter().flat_map(|list| list.iter().copied())
}
