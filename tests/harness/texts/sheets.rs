//! Sheets for the call sheet: entries of every kind and near-misses, alone, changed in one byte, and in random company; names and
//! sheets at their limits; and names for the verdict on clear ones.

use crate::comparison::Comparison;
use crate::corners::entries::{some_entries, NAMES};
use crate::corners::pieces::{slip, some_pieces};
use crate::corners::shapes::DAMAGED;
use crate::expected::answers::TEXT_LIMIT;
use crate::expected::rows::NAME_LIMIT;
use crate::random::Random;
use crate::texts::exhaustive::each_text;
use crate::texts::long::{of_length, Pattern};

const ALPHABETS: &[(&str, usize, &[&str])] = &[
    ("rows: numbers", 5, &["0", "1", "12", ".", ",", "-", "+", "e", "%", "000"]),
    ("rows: times and units", 4, &["0", "9", "12", ":", ".", "30", "00", "am", "PM", "%", "mm", "LBS", ",", "-"]),
    ("rows: ordinals and letters", 4, &["1", "2", "11", "0", ",", "st", "TH", "nd", "A", "b", ".", "%", "é"]),
    ("rows: ranges, fractions and others", 4, &["0", "1", "2", "12", "007", "-", "/", "%", "mm", "th", "am", ":30", ",", ".", " ", "é", "１"]),
    ("sheets of short entries", 5, &["5", "0", "A", "b", ".", ":", "%", "(", " ", "\n", "!"]),
];

const CLEAR_ALPHABETS: &[(&str, usize, &[&str])] = &[
    ("clear: numbers", 6, &["0", "1", "9", ".", "-", "+", "e", "E", "%", ","]),
    ("clear: times", 5, &["0", "1", "9", "5", "6", ":", ".", "am", "pm", "AM", "m", "%", "00"]),
    ("clear: ranges", 6, &["0", "1", "00", "-", "%", "e", "/", ".", "é"]),
    ("clear: ordinals", 5, &["0", "1", "2", "3", "4", "st", "nd", "rd", "th", "TH", ",", "s", "t"]),
    ("clear: units", 4, &["0", "5", "LB", "LBS", "lb", "lbs", "ft", "FT", "kg", "km", "cm", "mm", "ml", "oz", "hz", "Hz", "HZ", "KHz",
        "MHz", "GHz", "KB", "GB", "MB", "TB", ",", "S", "m"]),
    ("clear: initials", 6, &["A", "Z", "B", "a", "z", ".", "1", "@", "[", "é"]),
    ("clear: words", 5, &["a", "z", "one", "ten", "ty", "th", "hundred", "thousand", "first", "oh", "to", "A", "`", "{", "1", "é"]),
];

/// Each alone, in buffers of every size, and as the verdict's name; then in company.
pub fn named(comparison: &mut Comparison) {
    comparison.begin("entries, every buffer");
    for name in NAMES {
        comparison.every_call_room(name.as_bytes(), 0);
        comparison.clear_name(name.as_bytes(), 0);
        comparison.every_call_room(format!(" ({name}). {name}!\n\n\"{name}").as_bytes(), 1);
    }
    comparison.begin("damaged sheets");
    for text in DAMAGED {
        comparison.every_call_room(text, 0);
        comparison.every_call_room(&[&b"Bar 12 "[..], text, b" at 9:30."].concat(), 0);
    }
}

/// Each short one with each of its bytes replaced by every byte, left out, and with every ASCII byte put before it.
pub fn one_byte_changed(comparison: &mut Comparison) {
    comparison.begin("entries, one byte changed");
    for name in NAMES.iter().map(|name| name.as_bytes()).filter(|name| name.len() <= 20) {
        for place in 0..=name.len() {
            let (front, back) = name.split_at(place);
            let after = back.get(1..).unwrap_or(b"");
            comparison.every_call_of_sheet(&[front, after].concat(), 0);
            for byte in 0..=255 {
                comparison.every_call_of_sheet(&[front, &[byte], after].concat(), 0);
            }
            for byte in 0..128 {
                comparison.every_call_of_sheet(&[front, &[byte], back].concat(), 0);
            }
        }
    }
}

/// Two entries beside each other, with what may stand between.
pub fn pairs(comparison: &mut Comparison) {
    comparison.begin("two entries");
    for first in NAMES {
        for second in NAMES.iter().step_by(3) {
            comparison.every_call_of_sheet(format!("{first} {second}").as_bytes(), 0);
            comparison.every_call_of_sheet(format!("{first}. {second}").as_bytes(), 0);
        }
    }
}

pub fn exhaustive(comparison: &mut Comparison, long: bool) {
    for &(name, most, pieces) in ALPHABETS {
        comparison.begin(name);
        each_text(&mut Vec::new(), most + usize::from(long), pieces, &mut |text| comparison.every_call_of_sheet(text, 0));
    }
    for &(name, most, pieces) in CLEAR_ALPHABETS {
        comparison.begin(name);
        each_text(&mut Vec::new(), most + usize::from(long), pieces, &mut |text| comparison.clear_name(text, 0));
    }
}

/// What a long name repeats.
#[rustfmt::skip]
const LONG_NAMES: &[Pattern] = &[
    ("", "%", ""), ("5", "%", ""), ("", "7", ""), ("", "7", "%"), ("", "0", ""), ("0", "7", ""), ("", "a", ""), ("", "Z", ""), ("", "-", ""),
    ("", "A.", "A"), ("", "a.", ""), ("1", ",000", ""), ("-", "7", ".5"), ("1.", "7", ""), ("1", "7", "e5"), ("1e", "7", ""), ("", "7", "th"),
    ("", "7", "mm"), ("1", ",", "mm"), ("", "é", ""), ("", "7%", ""), ("-7", "e7", ""), ("", "e", ""), ("x", "!", "x"), ("", "a%", ""),
    ("", "7", "-7"), ("7-", "7", ""), ("0-", "7", "%"), ("", "7-", ""), ("", "7-", "7"),
    ("", "7", "/7"), ("7/", "7", ""), ("7/", "0", "8%"), ("", "7/", ""), ("", "7/", "7"),
];

/// Names of 4,095 to 4,097 bytes, alone and with marks and neighbours, which do not count.
pub fn long_names(comparison: &mut Comparison) {
    comparison.begin("names at the limit");
    for pattern in LONG_NAMES {
        for len in NAME_LIMIT - 1..=NAME_LIMIT + 1 {
            let name = of_length(pattern, len, b"");
            comparison.every_call_of_sheet(&name, 0);
            comparison.every_call_of_sheet(&[b"Bar (", &name[..], b"!!) 5mm"].concat(), 0);
        }
    }
    let long = "x".repeat(NAME_LIMIT + 1);
    for sheet in [format!("a {long}"), format!("{long} a"), format!("a {long} b {long}."), format!("\"{long}\" a\u{e9}")] {
        comparison.every_call_of_sheet(sheet.as_bytes(), 0);
    }
    let wide = "\u{e9}".repeat(NAME_LIMIT / 2);
    comparison.every_call_of_sheet(wide.as_bytes(), 0);
    comparison.every_call_of_sheet(format!("{wide}a 5").as_bytes(), 0);
    comparison.every_call_of_sheet(format!("{} x", "(".repeat(NAME_LIMIT + 1)).as_bytes(), 0);
    comparison.every_call_of_sheet("(".repeat(NAME_LIMIT + 1).as_bytes(), 0);
}

/// What a long sheet repeats.
#[rustfmt::skip]
const LONG_SHEETS: &[Pattern] = &[
    ("", "7 ", ""), ("", "777777777777 ", ""), ("", "% ", ""), ("", "-1.5e-10% ", ""), ("", "Bar 12 at 9:30. Rack 5mm (21st)\n", ""),
    ("", "( ", ""), ("", "\n", ""), ("", ". ", ""), ("", "A.B.C. 007 1,000 ", ""), ("", "9:00pm 00:00 000,000 ", ""), ("", "é ", ""),
    ("", "9:00 ", ""), ("", "21:00% ", ""), ("", "word ", ""), ("", "- ", ""), ("", "5mm!\n\n", ""), ("", "12-18 ", ""), ("", "007-5% ", ""),
    ("", "5/8 ", ""), ("", "1/2 8/5 00/00% ", ""), ("", "5- ", ""), ("", "5/ ", ""), ("", "777777777777-7/7 ", ""),
];

/// Sheets of 65,535 to 65,537 bytes.
pub fn long_sheets(comparison: &mut Comparison) {
    comparison.begin("call sheets at the limit");
    for (number, pattern) in LONG_SHEETS.iter().enumerate() {
        for len in TEXT_LIMIT - 1..=TEXT_LIMIT + 1 {
            comparison.every_call_of_sheet(&of_length(pattern, len, b""), number % 3);
        }
        comparison.every_call_of_sheet(&of_length(pattern, TEXT_LIMIT, b"\xc3"), 0);
    }
}

/// Sheets of random entries, most of them with a slip somewhere.
pub fn random(comparison: &mut Comparison, random: &mut Random, texts: usize) {
    comparison.begin("sheets of random entries");
    for _ in 0..texts {
        let most = if random.below(50) == 0 { 1_000 } else { 12 };
        let mut sheet = some_entries(random, most);
        for _ in 0..random.below(3) {
            sheet = slip(random, NAMES, &sheet);
        }
        comparison.every_call_of_sheet(sheet.as_bytes(), random.below(64));
    }
}

/// Random bytes, of which few are UTF-8, and random pieces.
pub fn random_pieces(comparison: &mut Comparison, random: &mut Random, texts: usize) {
    comparison.begin("sheets of random pieces");
    for _ in 0..texts {
        let text = some_pieces(random, NAMES, 8);
        comparison.every_call_of_sheet(text.as_bytes(), random.below(64));
        let bytes: Vec<u8> = (0..random.below(12)).map(|_| random.below(256) as u8).collect();
        comparison.every_call_of_sheet(&bytes, random.below(64));
    }
}
