//! The Rust's year, real and roman_value in linear time, over its own cardinal and digits.
//!
//! The originals copy what was read at each step, or look through the rest of the text at each letter, which takes seconds for
//! one long text. texts/linear_forms.rs compares these three with the originals.

use reference::numbers::{self, cardinal, digits};

/// Pairs up to the last four digits, which the Rust reads.
pub fn year(text: &str) -> Vec<String> {
    let all: String = text.chars().filter(char::is_ascii_digit).collect();
    let mut rest = &all[..];
    let mut words = Vec::new();
    while rest.len() > 4 {
        let (front, back) = rest.split_at(2 - rest.len() % 2);
        words.extend(cardinal(front));
        rest = back;
    }
    words.extend(numbers::year(rest));
    words
}

/// What stands between two letters "e" is read by itself, its own signs first.
pub fn real(text: &str) -> Vec<String> {
    let mut words = Vec::new();
    for (number, part) in text.split(['e', 'E']).enumerate() {
        if number > 0 {
            words.push("e".to_string());
        }
        let plain = part.trim_start_matches(['-', '+']);
        let signs = part[..part.len() - plain.len()].chars();
        words.extend(signs.map(|sign| if sign == '-' { "minus" } else { "plus" }.to_string()));
        words.extend(decimal(plain));
    }
    words
}

fn decimal(text: &str) -> Vec<String> {
    let Some((whole, fraction)) = text.split_once('.') else {
        return cardinal(text);
    };
    [cardinal(whole), vec!["point".to_string()], digits(fraction)].concat()
}

/// From the end, with the largest letter seen so far.
pub fn roman_value(text: &str) -> u32 {
    let values: Vec<u32> = text.chars().map(|letter| numbers::roman_value(letter.encode_utf8(&mut [0; 4]))).collect();
    if values.contains(&0) {
        return 0;
    }
    let (mut total, mut largest) = (0_i64, 0);
    for value in values.into_iter().rev() {
        total += if value < largest { -i64::from(value) } else { i64::from(value) };
        largest = largest.max(value);
    }
    total.max(0) as u32
}
