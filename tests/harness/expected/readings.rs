//! What the Rust reads aloud for any bytes, in the types and buffers of include/howhakiru.h.

use reference::numbers;

use crate::expected::answers::{Admitted, BUFFER_TOO_SHORT};
use crate::expected::linear;

#[repr(C)]
#[derive(Clone, Copy, Debug, Default, PartialEq, Eq)]
pub struct Words {
    pub refusal: u8,
    pub words: usize,
    pub bytes: usize,
}

#[repr(C)]
#[derive(Clone, Copy, Debug, Default, PartialEq, Eq)]
pub struct Number {
    pub refusal: u8,
    pub value: u32,
}

pub type Read = fn(&str) -> Vec<String>;

/// The readings, in the order of the header.
pub const READINGS: [(&str, Read); 6] = [
    ("cardinal", numbers::cardinal),
    ("ordinal", numbers::ordinal),
    ("year", numbers::year),
    ("digits", numbers::digits),
    ("real", numbers::real),
    ("letters", numbers::letters),
];

/// From this length on linear.rs stands in for the Rust's year, real and roman_value, which take quadratic time.
const LONG: usize = 1_024;

fn words(call: usize, text: &str) -> Vec<String> {
    match READINGS[call] {
        ("year", _) if text.len() >= LONG => linear::year(text),
        ("real", _) if text.len() >= LONG => linear::real(text),
        (_, read) => read(text),
    }
}

/// A reading with room for all of it: the words end to end, and their table.
#[derive(Default)]
pub struct Reading {
    pub refusal: u8,
    pub store: Vec<u8>,
    pub table: Vec<u8>,
}

impl Reading {
    pub fn of(admitted: Admitted, call: usize) -> Self {
        match admitted {
            Err(refusal) => Reading { refusal, ..Reading::default() },
            Ok(text) => Self::of_words(&words(call, text)),
        }
    }

    fn of_words(words: &[String]) -> Self {
        let mut reading = Reading::default();
        for word in words {
            reading.put(reading.store.len());
            reading.put(word.len());
            reading.store.extend_from_slice(word.as_bytes());
        }
        reading
    }

    /// A number of the table.
    fn put(&mut self, number: usize) {
        let number = u32::try_from(number).expect("a store below 4 GiB");
        self.table.extend_from_slice(&number.to_le_bytes());
    }

    /// The answer in buffers of these lengths.
    pub fn answer(&self, store_len: usize, table_len: usize) -> Words {
        if self.refusal > 0 {
            return Words { refusal: self.refusal, ..Words::default() };
        }
        if store_len < self.store.len() || table_len < self.table.len() {
            return Words { refusal: BUFFER_TOO_SHORT, ..Words::default() };
        }
        Words { refusal: 0, words: self.table.len() / 8, bytes: self.store.len() }
    }

    /// Whether the header's HWK_WORDS_STORE_MOST and HWK_WORDS_TABLE_MOST suffice for a text of `len` bytes.
    pub fn fits_most(&self, len: usize) -> bool {
        self.store.len() <= 11 * len + 11 && self.table.len() <= 16 * len + 16
    }
}

pub fn roman_value(admitted: Admitted) -> Number {
    match admitted {
        Err(refusal) => Number { refusal, value: 0 },
        Ok(text) if text.len() >= LONG => Number { refusal: 0, value: linear::roman_value(text) },
        Ok(text) => Number { refusal: 0, value: numbers::roman_value(text) },
    }
}
