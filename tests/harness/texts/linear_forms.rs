//! The linear forms compared with the Rust's own, mostly on texts that are not too long for it.

use reference::numbers;

use crate::expected::answers::TEXT_LIMIT;
use crate::expected::linear;
use crate::random::Random;

const PIECES: &[&str] = &["0", "7", "19", "00", "-", "+", "e", "E", ".", ",", "I", "V", "x", "M", "d", "é"];
const PIECES_IN_TEXT: usize = 3;
const TEXTS: usize = 2_000;

/// Repeated to some lengths. At the limit each takes the Rust a second, so only the first two are in every run.
const REPEATED: &[&str] = &["7", "-7e", "0", "-", "e", "5.", "I", "M", "IM"];
const LENGTHS: &[usize] = &[400, 16_384];

/// Both must give the same words and values. A difference is a fault of these tests, and ends them.
pub fn check(long: bool) {
    let mut random = Random::new(1);
    for number in 0..TEXTS {
        let pieces: Vec<&str> = (0..PIECES_IN_TEXT).map(|_| *random.one_of(PIECES)).collect();
        alike(&(0..number % 300).map(|_| *random.one_of(&pieces)).collect::<String>());
    }
    for length in LENGTHS {
        REPEATED.iter().for_each(|piece| alike(&piece.repeat(length / piece.len())));
    }
    let at_limit = if long { REPEATED } else { &REPEATED[..2] };
    at_limit.iter().for_each(|piece| alike(&piece.repeat(TEXT_LIMIT / piece.len())));
}

fn alike(text: &str) {
    assert_eq!(linear::year(text), numbers::year(text), "year of {text:?}");
    assert_eq!(linear::real(text), numbers::real(text), "real of {text:?}");
    assert_eq!(linear::roman_value(text), numbers::roman_value(text), "roman_value of {text:?}");
}
