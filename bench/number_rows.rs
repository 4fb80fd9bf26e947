//! The readings. Ours writes words and table into lent buffers; the Rust makes a `Vec<String>`, which is dropped again.

use std::hint::black_box;
use std::str::from_utf8;

use crate::expected::readings::READINGS;
use crate::howhakiru;
use crate::inputs::{repeated, KIB};
use crate::timing::{compared, in_turn};
use crate::Row;

const ROMAN_VALUE: &str = "roman_value";

/// Room for every reading of 64 KiB.
const STORE: usize = 11 * 64 * KIB + 11;
const TABLE: usize = 16 * 64 * KIB + 16;

/// A reading and a text for it.
#[rustfmt::skip]
const SHORT: &[(&str, &str)] = &[
    ("cardinal", "7"), ("cardinal", "123456"), ("cardinal", "777777777777"), ("ordinal", "21"), ("ordinal", "123456"), ("year", "1984"),
    ("year", "2005"), ("digits", "5550123"), ("real", "-1.50"), ("real", "6.02e+23"), ("letters", "U.S.A."), (ROMAN_VALUE, "MCMLXXIV"),
];

/// Readings whose time is linear in the Rust too.
const LONG: &[(&str, &str)] = &[("digits", "7"), ("cardinal", "7"), ("letters", "Zurich "), ("letters", "aé€𐍈")];

/// Read in buffers of the exact size too, so that ours measures before it writes.
const EXACT: &[(&str, &str, usize)] = &[("cardinal", "123456", 6), ("cardinal", "777777777777", 12), ("digits", "7", 64 * KIB)];

/// A reading, and what its text repeats. The Rust's year, real and roman_value are quadratic, so the Rust is timed at 8 KiB only.
#[rustfmt::skip]
const DOUBLED: &[(&str, &str)] = &[
    ("digits", "7"), ("cardinal", "7"), ("letters", "Zurich "), ("year", "77"), ("real", "-1.5e"), ("real", "-"), (ROMAN_VALUE, "MDCLXVI"),
    (ROMAN_VALUE, "I"),
];

const SIZES: [usize; 4] = [8 * KIB, 16 * KIB, 32 * KIB, 64 * KIB];

pub fn rows() -> Vec<Row> {
    let mut rows: Vec<Row> =
        SHORT.iter().map(|&(call, text)| row(call, format!("`{text}`"), text.as_bytes())).collect();
    for &(call, piece) in LONG {
        rows.push(row(call, format!("64 KiB of `{piece}`"), &repeated(piece, 64 * KIB)));
    }
    for &(call, piece, len) in EXACT {
        rows.push(exact_row(call, format!("{len} bytes of `{piece}`, exact buffers"), &repeated(piece, len)));
    }
    rows
}

/// A table of our times at four sizes, each twice the one before, and of the Rust's at the smallest.
pub fn doubling() {
    println!("| Call | Text | 8 KiB, ns | 16 KiB | 32 KiB | 64 KiB | 64 to 8 KiB | Rust at 8 KiB, ns |");
    println!("|---|---|---:|---:|---:|---:|---:|---:|");
    for &(call, piece) in DOUBLED {
        let (mut ours, rust) = (Sides::new(call), Sides::new(call));
        let times = in_turn(SIZES.map(|size| repeated(piece, size)), |text| ours.ours(text));
        let smallest = repeated(piece, SIZES[0]);
        let (_, rust) = compared(call, &smallest, |text| ours.ours(text), |text| rust.rust(text));
        let columns = times.map(|time| format!("{time:.0}")).join(" | ");
        println!("| {call} | `{piece}` | {columns} | {:.1} | {rust:.0} |", times[3] / times[0]);
    }
}

fn row(call: &'static str, input: String, text: &[u8]) -> Row {
    let (mut ours, rust) = (Sides::new(call), Sides::new(call));
    let (ours, rust) = compared(&input, text, |text| ours.ours(text), |text| rust.rust(text));
    Row { call, input, ours, rust }
}

fn exact_row(call: &'static str, input: String, text: &[u8]) -> Row {
    let (mut ours, rust) = (Sides::new(call), Sides::new(call));
    ours.cut_to(text);
    let (ours, rust) = compared(&input, text, |text| ours.ours(text), |text| rust.rust(text));
    Row { call, input, ours, rust }
}

/// Both sides of one call, and the buffers of ours. Each side answers a number that must be the same.
struct Sides {
    reading: Option<usize>,
    store: Vec<u8>,
    table: Vec<u8>,
}

impl Sides {
    fn new(call: &str) -> Self {
        let reading = READINGS.iter().position(|(name, _)| *name == call);
        assert!(reading.is_some() || call == ROMAN_VALUE, "no call {call}");
        Sides { reading, store: vec![0; STORE], table: vec![0; TABLE] }
    }

    /// Leaves the buffers just the room for the reading of `text`.
    fn cut_to(&mut self, text: &[u8]) {
        let words = READINGS[self.reading.expect("a reading")].1(from_utf8(text).expect("UTF-8"));
        self.store.truncate(words.iter().map(String::len).sum());
        self.table.truncate(8 * words.len());
    }

    fn ours(&mut self, text: &[u8]) -> usize {
        let Some(reading) = self.reading else {
            return unsafe { howhakiru::hwk_roman_value(text.as_ptr(), text.len()) }.value as usize;
        };
        let (store, table) = (black_box(&mut self.store), black_box(&mut self.table));
        let read = howhakiru::READINGS[reading];
        let words = unsafe {
            read(text.as_ptr(), text.len(), store.as_mut_ptr(), store.len(), table.as_mut_ptr(), table.len())
        };
        words.words
    }

    fn rust(&self, text: &[u8]) -> usize {
        let Ok(text) = from_utf8(text) else { return 0 };
        match self.reading {
            None => reference::numbers::roman_value(text) as usize,
            Some(reading) => black_box(READINGS[reading].1(text)).len(),
        }
    }
}
