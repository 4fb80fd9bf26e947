//! The call sheet. Ours writes into a lent buffer; the Rust side is the same fourteen rows over the Rust's functions, with its
//! tokens from `tokenize`, and writes into a `Vec`.

use std::hint::black_box;
use std::str::from_utf8;

use reference::text;

use crate::expected::rows;
use crate::howhakiru;
use crate::inputs::{repeated, KIB};
use crate::timing::{compared, in_turn};
use crate::Row;

/// A kind of sheet, and what it repeats.
fn sheets() -> Vec<(&'static str, String)> {
    let mixed = "Bar 12 at 9:30. Rack 5mm (21st)\nNo. 7 draw 1,250 ends at 12:05pm, 12.5% of 3kg: A.B. then 0005 -1.5 stop!\n";
    let sheets = vec![
        ("mixed entries", mixed.to_string()),
        ("digits", "12 7 1984 250000 ".to_string()),
        ("12 digits", "777777777777 ".to_string()),
        ("words", "Carriage rack beam gauge draw ".to_string()),
        ("names of one %", "% ".to_string()),
        ("names of 4,095 %", "%".repeat(4_095) + " "),
        ("names of 2,048 digits and 2,047 %", "7".repeat(2_048) + &"%".repeat(2_047) + " "),
        ("leading marks", "(".repeat(4_095) + " "),
        ("marks in runs", "(\"?!).' [; ".to_string()),
        ("names of one -", "- ".to_string()),
        ("names of 4,095 -", "-".repeat(4_095) + " "),
        ("ranges", "12-18 7-12 100-250 007-5 ".to_string()),
        ("fractions", "5/8 1/2 11/16 8/5 ".to_string()),
        ("names of two digits and -", "12- ".to_string()),
        ("names of two digits and /", "12/ ".to_string()),
    ];
    let long = LONG_NAMES.iter().map(|&(name, of_length)| (name, of_length(LONGEST_NAME) + " "));
    sheets.into_iter().chain(long).collect()
}

/// With the space behind it, a whole number of these names is as long as each of `SIZES`.
const LONGEST_NAME: usize = 4_095;
const NAME_SIZES: [usize; 3] = [1_023, 2_047, LONGEST_NAME];

type LongName = (&'static str, fn(usize) -> String);

/// Ranges, fractions and near-misses of a length or a byte less.
const LONG_NAMES: [LongName; 10] = [
    ("long names of digits and -", |len| "7".repeat(len - 1) + "-"),
    ("long names of digits and /", |len| "7".repeat(len - 1) + "/"),
    ("long names of 1-", |len| "1-".repeat(len / 2) + "1"),
    ("long names of 1/", |len| "1/".repeat(len / 2) + "1"),
    ("long ranges", |len| two(len, "7", "-", "7")),
    ("long fractions, equal", |len| two(len, "7", "/", "7")),
    ("long fractions, equal up to the last digit", |len| two(len - 2, "7", "7/", "7") + "8"),
    ("long fractions of zeros", |len| two(len, "0", "/", "0")),
    (RANGES_OF_PERCENTS, |len| two(len / 2, "7", "-", "7") + &"%".repeat(len / 2)),
    (FRACTIONS_OF_PERCENTS, |len| two(len / 2, "7", "/", "7") + &"%".repeat(len / 2)),
];

const RANGES_OF_PERCENTS: &str = "long ranges with as many %";
const FRACTIONS_OF_PERCENTS: &str = "long fractions with as many %";

/// As many digits on each side of what stands between.
fn two(len: usize, left: &str, between: &str, right: &str) -> String {
    [&left.repeat((len - 1) / 2), between, &right.repeat((len - 1) / 2)].concat()
}

/// Sheets on which the Rust side takes seconds a call, or much of the stack: ours is timed alone.
const OURS_ALONE: [&str; 4] = [
    "names of 4,095 %",
    "names of 2,048 digits and 2,047 %",
    RANGES_OF_PERCENTS,
    FRACTIONS_OF_PERCENTS,
];

const LONGEST: usize = 64 * KIB;
const SIZES: [usize; 3] = [16 * KIB, 32 * KIB, LONGEST];

/// Room for every call sheet of 64 KiB.
const AMPLE: usize = 11 * LONGEST + 11;

/// The bytes of the call sheet.
fn ours(out: &mut [u8], text: &[u8]) -> usize {
    let out = black_box(out);
    unsafe { howhakiru::hwk_call_sheet(text.as_ptr(), text.len(), out.as_mut_ptr(), out.len()) }.bytes
}

fn rust(text: &[u8]) -> usize {
    let Ok(text) = from_utf8(text) else { return 0 };
    let mut out = Vec::new();
    for sentence in text::tokenize(text) {
        for (number, token) in sentence.iter().enumerate() {
            out.push(if number == 0 { b'+' } else { b'-' });
            for word in rows::read(&token.name).words {
                out.push(b' ');
                out.extend_from_slice(word.as_bytes());
            }
            out.push(b'\n');
        }
    }
    black_box(out).len()
}

pub fn rows() -> Vec<Row> {
    let mut rows = Vec::new();
    for (sheet, piece) in sheets() {
        let text = repeated(&piece, LONGEST);
        if OURS_ALONE.contains(&sheet) {
            continue;
        }
        let exact = rust(&text);
        for (room, len) in [("", AMPLE), (", exact buffer", exact)] {
            let mut out = vec![0; len];
            let input = format!("64 KiB, {sheet}{room}");
            let (ours, rust) = compared(&input, &text, |text| ours(&mut out, text), rust);
            rows.push(Row { call: "call_sheet", input, ours, rust });
        }
    }
    rows
}

/// A table of our times at three sizes, each twice the one before.
pub fn doubling() {
    println!("| Call | Sheet | 16 KiB, ns | 32 KiB | 64 KiB | 64 to 16 KiB |");
    println!("|---|---|---:|---:|---:|---:|");
    for (sheet, piece) in sheets() {
        let mut out = vec![0; AMPLE];
        let times = in_turn(SIZES.map(|size| repeated(&piece, size)), |text| ours(&mut out, text));
        let columns = times.map(|time| format!("{time:.0}")).join(" | ");
        println!("| call_sheet | {sheet} | {columns} | {:.1} |", times[2] / times[0]);
    }
}

/// A table of our times on one name at three lengths, each twice the one before.
pub fn lengthening() {
    println!("| Call | Name | 1,023 bytes, ns | 2,047 | 4,095 | 4,095 to 1,023 |");
    println!("|---|---|---:|---:|---:|---:|");
    for (name, of_length) in LONG_NAMES {
        let mut out = vec![0; AMPLE];
        let times = in_turn(NAME_SIZES.map(|len| of_length(len).into_bytes()), |text| ours(&mut out, text));
        let columns = times.map(|time| format!("{time:.0}")).join(" | ");
        println!("| call_sheet | {name} | {columns} | {:.1} |", times[2] / times[0]);
    }
}

/// One entry of a sheet of one name, beside the Rust's reading of it and its line.
#[rustfmt::skip]
pub fn entry_rows() -> Vec<Row> {
    let names = [
        "12", "1984", "777777777777", "9:30", "9:00", "12:05pm", "12-18", "5/8", "1/2", "5mm", "21st", "-1.5", "12.5%", "A.B.C", "0005", "Rack",
    ];
    let mut out = vec![0; AMPLE];
    let mut rows = Vec::new();
    for name in names {
        let call = |text: &[u8]| {
            let out = black_box(&mut out[..512]);
            unsafe { howhakiru::hwk_call_entry(text.as_ptr(), text.len(), 0, out.as_mut_ptr(), out.len()) }.bytes
        };
        let (ours, rust) = compared(name, name.as_bytes(), call, rust);
        rows.push(Row { call: "call_entry", input: format!("sheet of one entry, {name}"), ours, rust });
    }
    rows
}
