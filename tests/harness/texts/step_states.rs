//! Steps from any state, also from those that no step leaves: any values of the fields are a state.

use crate::comparison::Comparison;
use crate::corners::tokens::{BLANKS, MARKS, NAMES};
use crate::expected::tokens::State;
use crate::random::Random;
use crate::texts::steps::{fed, refused_or};

// States with odd lengths, bytes and flags.
#[rustfmt::skip]
pub const ODD: &[State] = &[
    State::FRESH,
    State { fresh: 0, ..State::FRESH },
    State { len: usize::MAX, head: [0xff; 5], last: 0xff, point: 0xff, colon: 0xff, question: 0xff, exclamation: 0xff, fresh: 0xff },
    State { len: usize::MAX, head: [0xff; 5], last: 0xff, point: 2, fresh: 0, ..State::FRESH },
    State { head: *b"Abcde", last: b'x', point: 1, fresh: 0, ..State::FRESH },
    State { len: 5, head: *b"yahoo", last: b'Z', point: 128, colon: 3, question: 0, exclamation: 4, fresh: 0 },
    State { len: 5 + (1 << 32), head: *b"yahoo", last: b'o', exclamation: 1, fresh: 0, ..State::FRESH },
    State { len: 3 + (1 << 32), head: *b"Abc\0\0", last: b'c', point: 1, fresh: 0, ..State::FRESH },
    State { len: 7, head: [0; 5], last: b'A', point: 1, question: 7, fresh: 2, ..State::FRESH },
    State { len: 4, head: *b"yahoo", last: b'o', exclamation: 255, fresh: 0, ..State::FRESH },
    State { len: 3, head: *b"end\0\0", last: b'd', point: 1, colon: 1, question: 1, exclamation: 1, fresh: 0 },
];

#[rustfmt::skip]
const LENGTHS: &[usize] = &[
    0, 1, 2, 3, 4, 5, 6, 255, 256, 261, 65_536, 65_541, 1 << 32, (1 << 32) + 3, (1 << 32) + 5, usize::MAX,
];

#[rustfmt::skip]
const HEADS: &[[u8; 5]] = &[
    *b"yahoo", *b"YAHOO", *b"yAhOo", *b"yahop", *b"Yahoo", *b"y\0\0\0\0", *b"Abcde", *b"abcde", [0; 5], *b"Zbc\0\0", *b"@bcde",
    *b"[bcde", [0xff; 5], *b"yaho\xef", *b"\xf9\xe1\xe8\xef\xef", *b"9ahoo", *b"yaho/", *b"yahoO",
];

const LASTS: &[u8] = &[0, b'a', b'A', b'Z', b'@', b'[', b'o', b'1', 0x80, 0xc1, 0xff];

/// 0 is no, and every other value is yes.
const FLAGS: &[u8] = &[0, 1, 2, 16, 127, 128, 255];

/// Every length, head and last byte with every choice of flags. The texts of the step take turns.
pub fn every_choice(comparison: &mut Comparison) {
    comparison.begin("steps from states made by hand");
    let mut rotation = 0;
    for &len in LENGTHS {
        for &head in HEADS {
            for &last in LASTS {
                for choice in 0..32 {
                    rotation += 1;
                    let flag = |place: usize| if choice >> place & 1 == 0 { 0 } else { FLAGS[1 + (rotation + place) % 6] };
                    let [point, colon, question, exclamation, fresh] = [0, 1, 2, 3, 4].map(flag);
                    let state = State { len, head, last, point, colon, question, exclamation, fresh };
                    for blank in [" ", "  ", "\n\n"] {
                        for next in ["a", "A", ["", "1", "é", "."][rotation % 4]] {
                            comparison.step_from(state, fed([blank, next, MARKS[rotation % MARKS.len()]]), 0);
                        }
                    }
                }
            }
        }
    }
}

/// Random states: fields from the lists above, and in one state of four any length and bytes.
pub fn random(comparison: &mut Comparison, random: &mut Random, steps: usize) {
    comparison.begin("steps from any state");
    for number in 0..steps {
        let mut flag = |of: usize| if random.below(of) == 0 { *random.one_of(FLAGS) } else { 0 };
        let [point, colon, question, exclamation, fresh] = [flag(1), flag(4), flag(4), flag(3), flag(8)];
        let (len, head, last) = (*random.one_of(LENGTHS), *random.one_of(HEADS), *random.one_of(LASTS));
        let mut state = State { len, head, last, point, colon, question, exclamation, fresh };
        if random.below(4) == 0 {
            state.len = random.next() as usize;
            state.head[random.below(5)] = random.next() as u8;
            state.last = random.next() as u8;
        }
        let texts = [*random.one_of(BLANKS), *random.one_of(NAMES), *random.one_of(MARKS)];
        comparison.step_from(state, refused_or(random, fed(texts)), number % 64);
    }
}
