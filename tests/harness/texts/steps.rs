//! Texts for the step form. They need not be the parts of any text's tokens. Some are refused, alone and between others.

use crate::comparison::Comparison;
use crate::corners::pieces::some_pieces;
use crate::corners::tokens::{yahoos, BLANKS, MARKS, NAMES, PIECES};
use crate::expected::answers::TEXT_LIMIT;
use crate::random::Random;
use crate::steps::{Fed, Steps};
use crate::texts::step_states::ODD;

/// Names of a second step: their first byte decides whether it breaks.
#[rustfmt::skip]
const SECOND: &[&str] = &[
    "", "a", "z", "A", "Z", "1", "@", "[", "`", "{", "é", "É", ".", "\"", " a", " A", "\n", "Abc", "yahoo", "\0A", "\tA",
];

/// Any name and punctuation, then any whitespace and name.
pub fn pairs(comparison: &mut Comparison) {
    comparison.begin("two steps, free texts");
    for name in NAMES {
        for marks in MARKS {
            for blank in BLANKS {
                for next in SECOND {
                    two_steps(comparison, [name, marks, blank, next]);
                }
            }
        }
    }
    comparison.begin("two steps, yahoo");
    for name in yahoos() {
        for marks in MARKS {
            for blank in ["", " ", "  ", "\n", "\n\n", "a\nb\nc"] {
                for next in ["", "a", "A", "z", "Z", "1", "é", " a", "`", "{", "@", "["] {
                    two_steps(comparison, [&name, marks, blank, next]);
                }
            }
        }
    }
}

/// Only the Rust makes the first step. The second is compared, from the state after the first.
fn two_steps(comparison: &mut Comparison, [name, marks, blank, next]: [&str; 4]) {
    let mut steps = Steps::new();
    steps.push(fed(["", name, marks]));
    comparison.next_step(&mut steps, fed([blank, next, marks]), 0);
}

pub fn fed(texts: [&str; 3]) -> Fed<'_> {
    let [whitespace, name, punctuation] = texts.map(str::as_bytes);
    Fed { whitespace, name, punctuation }
}

/// Each of the three texts whole, at the limit, over it, damaged, with a control byte, and two or all three of these at once: the
/// first test in their order wins, whichever text does not pass it.
pub fn refusals(comparison: &mut Comparison) {
    comparison.begin("steps that are refused");
    let repeated = |len: usize, byte: u8| vec![byte; len];
    let damaged = [repeated(TEXT_LIMIT - 1, b'a'), b"\xc3".to_vec()].concat();
    let kinds = [
        b"Abc.".to_vec(),
        repeated(TEXT_LIMIT, b'\n'),
        repeated(TEXT_LIMIT + 1, b'a'),
        b"a\xff".to_vec(),
        repeated(TEXT_LIMIT + 1, 0xff),
        damaged,
        b"a\x1f".to_vec(),
        [repeated(TEXT_LIMIT - 1, b'a'), b"\x7f".to_vec()].concat(),
        repeated(TEXT_LIMIT + 1, 0),
        b"\x0b\xff".to_vec(),
    ];
    for number in 0..kinds.len().pow(3) {
        let kind = |place: u32| &kinds[number / kinds.len().pow(place) % kinds.len()];
        let fed = Fed { whitespace: kind(0), name: kind(1), punctuation: kind(2) };
        comparison.step_from(ODD[number % ODD.len()], fed, 0);
    }
    for whole in ["a", "é", "€", "𐍈"] {
        for len in 0..=whole.len() {
            let part = &whole.as_bytes()[..len];
            for state in ODD {
                comparison.step_from(*state, Fed { whitespace: part, name: b"A", punctuation: b"." }, 0);
                comparison.step_from(*state, Fed { whitespace: b"\n\n", name: part, punctuation: b"." }, 0);
                comparison.step_from(*state, Fed { whitespace: b" ", name: b"A", punctuation: part }, 0);
            }
        }
    }
}

/// Long texts, of lengths at which a count of one or two bytes would start anew.
pub fn long(comparison: &mut Comparison) {
    comparison.begin("steps with long texts");
    for byte in *b"\n aA.!" {
        for len in (250..=262).chain(510..=518).chain(TEXT_LIMIT - 3..=TEXT_LIMIT + 1) {
            let text = vec![byte; len];
            let (alone, ended) = (&text[..], &[&text[..len - 1], b"Z"].concat()[..]);
            for (name, punctuation) in [(alone, &b"."[..]), (ended, b"."), (b"ab", alone), (b"ab", ended)] {
                let mut steps = Steps::new();
                comparison.next_step(&mut steps, Fed { whitespace: b"", name, punctuation }, 0);
                comparison.next_step(&mut steps, Fed { whitespace: b" ", name: b"B", punctuation }, 0);
                comparison.next_step(&mut steps, Fed { whitespace: alone, name, punctuation: b"." }, 0);
                comparison.next_step(&mut steps, Fed { whitespace: alone, name: b"b", punctuation: b"" }, 0);
            }
        }
    }
}

/// A character that is cut in two by the end of one text and the start of the next is damaged in both.
pub fn cut_characters(comparison: &mut Comparison) {
    comparison.begin("steps with a character cut between texts");
    for (front, back) in [(&b"\xc3"[..], &b"\xa9"[..]), (b"\xe2", b"\x82\xac"), (b"\xf0\x90", b"\x8d\x88")] {
        for state in ODD {
            comparison.step_from(*state, Fed { whitespace: front, name: back, punctuation: b"." }, 0);
            comparison.step_from(*state, Fed { whitespace: b" ", name: front, punctuation: back }, 0);
            comparison.step_from(*state, Fed { whitespace: front, name: b"", punctuation: back }, 0);
        }
    }
}

/// One in ten steps has a damaged text, and one in twenty a control byte.
pub fn refused_or<'a>(random: &mut Random, fed: Fed<'a>) -> Fed<'a> {
    match random.below(60) {
        0..2 => Fed { whitespace: b"\n\n\xff", ..fed },
        2..4 => Fed { name: b"A\xc3", ..fed },
        4..6 => Fed { punctuation: b"!\xe2\x82", ..fed },
        6 => Fed { whitespace: b"\n\n\x0b", ..fed },
        7 => Fed { name: b"\0A", ..fed },
        8 => Fed { punctuation: b"!\x7f", ..fed },
        _ => fed,
    }
}

/// Sequences of steps, some of them refused: the Rust's push sees the others.
pub fn sequences(comparison: &mut Comparison, random: &mut Random, sequences: usize) {
    comparison.begin("sequences of steps");
    let too_long = vec![b'a'; TEXT_LIMIT + 1];
    for number in 0..sequences {
        let mut steps = Steps::new();
        for _ in 0..random.below(30) {
            let texts = [free_text(random, BLANKS), free_text(random, NAMES), free_text(random, MARKS)];
            let [whitespace, name, punctuation] = texts.each_ref().map(String::as_bytes);
            let mut fed = refused_or(random, Fed { whitespace, name, punctuation });
            match random.below(100) {
                0 => fed.whitespace = &too_long,
                1 => fed.name = &too_long,
                2 => fed.punctuation = &too_long,
                _ => (),
            }
            comparison.next_step(&mut steps, fed, number % 64);
        }
    }
}

fn free_text(random: &mut Random, texts: &[&str]) -> String {
    match random.below(4) {
        0 => some_pieces(random, PIECES, 6),
        _ => random.one_of(texts).to_string(),
    }
}
