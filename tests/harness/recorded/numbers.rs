//! numbers.txt: the readings.
//!
//! A line has eight fields with a tab between: HEAD CARDINAL ORDINAL YEAR DIGITS REAL LETTERS ROMAN
//! HEAD is REPEAT BYTE TAIL REFUSAL. The six after it hold the words of that reading, with a space between. An empty field has
//! no words; so have all six if the text is refused. In a word a byte that is not from 21 to 7e in hex, and the backslash itself,
//! is written as a backslash and two hex digits; every other byte stands for itself. A single backslash stands for a field that
//! is left out, since it has more than 64 words. ROMAN is the value, in decimal.

use reference::numbers::roman_value;

use crate::corners::{self, pieces};
use crate::expected::answers;
use crate::expected::readings::{Read, READINGS};
use crate::random::Random;
use crate::recorded::text::{each_once, RecordedText};

const SEED: u64 = 1905;

/// The most words of a field.
const WORDS: usize = 64;

/// Every third corner of the shapes is read too.
const SOME: usize = 3;

/// Texts that are mostly one byte repeated: a byte, what follows, the length of both together.
#[rustfmt::skip]
const AT_THE_LIMIT: &[(u8, &[u8], usize)] = &[
    (b',', b"5", 65_535), (b',', b"5", 65_536), (b',', b"5", 65_537), (b'x', b"1984", 65_536), (b'x', b"1984", 65_537),
    (b' ', b"-1.50", 65_536), (b'.', b"", 65_536), (b'.', b"", 65_537), (b'x', b"e", 65_536), (b'x', b"e5", 65_537), (b'5', b"", 65_537),
    (b'a', b"", 65_537), (b'-', b"", 65_537), (b'e', b"", 65_537), (b'0', b"", 131_072), (b'M', b"", 65_535), (b'M', b"", 65_536),
    (b'M', b"", 65_537), (b'I', b"M", 65_536), (b'I', b"", 65_536), (b'm', b"I", 65_536), (b'M', b"a", 65_536), (b'V', b"X", 65_536),
    (b'X', b"M", 101), (b'I', b"M", 1_000), (b'I', b"M", 1_001), (b'I', b"M", 1_002),
    (b',', b"5\xc3", 65_536), (b',', b"5\xc3", 65_537), (b',', b"5\xc3\xa9", 65_536), (b',', b"5\xff", 65_536), (0xff, b"", 65_536),
    (0xff, b"", 65_537), (b'M', b"\xff", 65_536), (b'M', b"\xff", 65_537), (b'M', b"\xc3\xa9", 65_536),
    // a control byte at the end, and what is tested before it
    (b',', b"5\0", 65_536), (b'M', b"\x1f", 65_536), (b'x', b"1984\x7f", 65_536), (b'M', b"\0", 65_537),
    (b',', b"\x0b\xff", 65_536), (0, b"", 65_536), (b'\t', b"5", 65_536), (b'5', b"\0", 64), (b'5', b"\x7f", 65),
    // as many words as a field holds, and lengths at which a number of the table takes a second byte
    (b'5', b"", 31), (b'5', b"", 32), (b'5', b"", 63), (b'5', b"", 64), (b'5', b"", 65), (b'5', b"7", 64), (b'-', b"7", 63), (b'-', b"", 64),
    (b'a', b"", 63), (b'a', b"", 64), (b'A', b"\xc3\xa9", 65), (b'e', b"7", 63), (b'0', b"7", 64), (b'7', b"2005", 60), (b'7', b"1900", 61),
];

pub fn lines() -> Vec<String> {
    let mut texts: Vec<RecordedText> = Vec::new();
    let corners = corners::numbers::LISTS.iter().flat_map(|list| list.iter());
    texts.extend(corners.map(|text| RecordedText::plain(text.as_bytes())));
    let shapes = corners::shapes::LISTS.iter().flat_map(|list| list.iter().step_by(SOME));
    texts.extend(shapes.map(|text| RecordedText::plain(text.as_bytes())));
    texts.extend(corners::shapes::DAMAGED.iter().chain(corners::control_bytes::TEXTS).map(|text| RecordedText::plain(text)));
    texts.extend(AT_THE_LIMIT.iter().map(RecordedText::of_length));
    texts.extend(random_texts().iter().map(|text| RecordedText::plain(text.as_bytes())));
    each_once(texts).iter().map(line).collect()
}

/// Strings of digits, corners with slips, and texts of random pieces.
fn random_texts() -> Vec<String> {
    let mut random = Random::new(SEED);
    let corners: Vec<&str> = corners::numbers::LISTS.iter().flat_map(|list| list.iter().copied()).collect();
    let mut texts = Vec::new();
    for number in 0..300 {
        let digits = |random: &mut Random| char::from(b'0' + random.below(10) as u8);
        texts.push((0..number % 15).map(|_| digits(&mut random)).collect());
        texts.push((0..number % 15).map(|_| *random.one_of(&["0", "0", "0", "5", "1"])).collect());
        let corner = random.one_of(&corners);
        texts.push(pieces::slip(&mut random, corners::numbers::PIECES, corner));
        texts.push(pieces::some_pieces(&mut random, corners::numbers::PIECES, 8));
    }
    texts
}

fn line(recorded: &RecordedText) -> String {
    let text = recorded.text();
    let admitted = answers::admit(&text);
    let fields: Vec<String> =
        READINGS.iter().map(|(_, read)| admitted.map_or(String::new(), |text| field(text, *read))).collect();
    let roman = admitted.map_or(0, roman_value);
    format!("{}\t{}\t{roman}\n", recorded.head(), fields.join("\t"))
}

fn field(text: &str, read: Read) -> String {
    let words = read(text);
    if words.len() > WORDS {
        return "\\".to_string();
    }
    let words: Vec<String> = words.iter().map(|word| word.bytes().map(escaped).collect()).collect();
    words.join(" ")
}

fn escaped(byte: u8) -> String {
    if byte.is_ascii_graphic() && byte != b'\\' {
        return char::from(byte).to_string();
    }
    format!("\\{byte:02x}")
}
