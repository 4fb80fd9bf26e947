//! calls.txt: the call sheet and the verdict on clear names.
//!
//! A line has three fields and one for each entry, with a tab between: HEAD CLEAR SHEET ENTRY...
//! HEAD is REPEAT BYTE TAIL REFUSAL. CLEAR is 1 if the text, taken as a name, is clear, else 0. SHEET is the whole sheet's call:
//! REFUSAL TOKENS WORDS LINES. LINES are the lines of all entries, end to end; a refused entry has none. If the sheet is not
//! refused they are the call sheet. They are written in pieces COUNTxHEX with a comma between: the bytes HEX, COUNT times.
//! - stands for no lines. An ENTRY is one entry's call: REFUSAL ROW SIGN WORDS BYTES. Its line is the next BYTES bytes of LINES.

use crate::corners;
use crate::corners::entries::{some_entries, NAMES};
use crate::corners::pieces;
use crate::corners::shapes::DAMAGED;
use crate::expected::answers;
use crate::expected::clear::{self, BARRED};
use crate::expected::rows::{self, Called};
use crate::random::Random;
use crate::recorded::text::{each_once, hex, RecordedText};

const SEED: u64 = 2112;

/// Document 01's example.
const SHEET: &str = "Bar 12 at 9:30. Rack 5mm (21st)\n";
const CALL_SHEET: &str = "+ bar\n- twelve\n- at\n- nine thirty\n+ rack\n- five millimeters\n- twenty first\n";

/// One in so many corners of the tokens is called too.
const SOME: usize = 5;

/// Texts that are mostly one byte repeated: a byte, what follows, the length of both together.
#[rustfmt::skip]
const AT_THE_LIMIT: &[(u8, &[u8], usize)] = &[
    // names, alone and with what does not count
    (b'a', b"", 4_095), (b'a', b"", 4_096), (b'a', b"", 4_097), (b'Z', b"", 4_096), (b'Z', b"", 4_097), (b'7', b"", 4_095), (b'7', b"", 4_096),
    (b'7', b"", 4_097), (b'0', b"", 4_096), (b'0', b"", 4_097), (b'%', b"", 4_095), (b'%', b"", 4_096), (b'%', b"", 4_097), (b'-', b"", 4_096),
    (b'7', b"%", 4_096), (b'7', b"%", 4_097), (b'7', b"th", 4_096), (b'7', b"th", 4_097), (b'7', b"mm", 4_096), (b'7', b"mm", 4_097),
    (b'7', b".5e5", 4_096), (b'7', b".5e5", 4_097), (b'7', b",000", 4_096), (b',', b"5th", 4_096), (b',', b"5mm", 4_096), (b'9', b":30", 4_096),
    (b'7', b"-5", 4_096), (b'7', b"-5", 4_097), (b'0', b"-05", 4_096), (b'7', b"-5%", 4_096), (b'7', b"-", 4_096), (b'5', b"-6-7", 4_096),
    (b'7', b"/5", 4_096), (b'7', b"/5", 4_097), (b'0', b"/8", 4_096), (b'0', b"5/8", 4_096), (b'0', b"1/2", 4_096), (b'0', b"/00", 4_096),
    (b'7', b"/5%", 4_096), (b'7', b"/", 4_096), (b'1', b"/2/3", 4_096), (b'/', b"5", 4_096),
    (b'0', b".0", 4_096), (b'a', b"\xc3\xa9", 4_096), (b'a', b"\xc3\xa9", 4_097), (b'.', b"x", 4_096), (b'.', b"x", 4_097),
    (b'a', b"! b", 4_099), (b'a', b"! B", 4_099), (b'a', b"! B", 4_100), (b'a', b" b. 5% C", 4_104), (b'a', b" b. 5% C", 4_105),
    (b'7', b". 5mm (21st)", 4_108), (b'7', b". 5mm (21st)", 4_109), (b'%', b" 007", 4_100), (b'%', b" 007", 4_101), (b'(', b"x", 4_098),
    (b'(', b"", 4_096), (b'(', b"", 4_097), (b'(', b" ", 4_098), (b' ', b"1st", 4_100), (b'!', b" x", 4_099), (b'!', b"x y", 4_098),
    (b'!', b"x y", 4_099),
    // sheets
    (b'a', b"", 65_535), (b'a', b"", 65_536), (b'a', b"", 65_537), (b'7', b"", 65_536), (b'7', b"", 65_537), (b'7', b"%", 65_536),
    (b'7', b"th", 65_536), (b'7', b"th", 65_537), (b'7', b"mm", 65_536), (b'0', b"", 65_536), (b'%', b"", 65_536), (b'%', b"", 65_537),
    (b' ', b"", 65_536), (b' ', b"", 65_537), (b'\n', b"9:30 am", 65_536), (b'\n', b"9:30 am", 65_537), (b' ', b"\xc3\xa9", 65_536),
    (b' ', b"\xc3\xa9", 65_537), (b' ', b"\xc3", 65_536), (b' ', b"\xff", 65_537), (b'"', b"5mm. A.B.", 65_536), (b'"', b"", 65_536),
    (b'.', b"", 65_536), (b'.', b" A", 65_536), (b'!', b" 21st%", 65_536), (b'\t', b"a! b\r\n\r\nc", 65_536), (b'a', b" \xff", 65_536),
    (b'a', b" 5", 65_536), (b'a', b" 5", 65_537), (0xff, b"", 65_536), (0xff, b"", 65_537), (0, b"", 4_096),
    // a control byte, in names and sheets at the limit
    (b'a', b"\0", 4_096), (b'a', b"\0", 4_097), (b'a', b" \x1f", 4_099), (b'7', b"% b\x7f", 4_100), (b'a', b"\x0b", 65_536),
    (b'a', b"\x0b", 65_537), (b' ', b"5mm\x0c", 65_536), (b'\n', b"9:30\0 am", 65_537), (b' ', b"\0\xff", 65_536),
    (0x7f, b"", 65_536), (b'~', b"", 4_096), (b'\t', b"5", 65_536),
];

pub fn lines() -> Vec<String> {
    let called = Called::of(Ok(SHEET)).sheet();
    assert_eq!(called, CALL_SHEET.as_bytes(), "document 01's example");
    rows::check_taken(NAMES);
    each_once(texts()).iter().map(line).collect()
}

fn texts() -> Vec<RecordedText> {
    let mut texts = vec![RecordedText::plain(b""), RecordedText::plain(SHEET.as_bytes())];
    texts.extend(NAMES.iter().chain(BARRED).map(|name| RecordedText::plain(name.as_bytes())));
    texts.extend(NAMES.iter().step_by(2).map(|name| RecordedText::plain(format!("({name}). \"{name}!\n").as_bytes())));
    let corners = corners::tokens::LISTS.iter().flat_map(|list| list.iter().step_by(SOME));
    texts.extend(corners.map(|text| RecordedText::plain(text.as_bytes())));
    texts.extend(DAMAGED.iter().step_by(2).chain(corners::control_bytes::TEXTS).map(|text| RecordedText::plain(text)));
    texts.extend(DAMAGED.iter().step_by(4).map(|text| RecordedText::plain(&[&b"Bar 12 "[..], text, b" 5mm"].concat())));
    texts.extend(AT_THE_LIMIT.iter().map(RecordedText::of_length));
    texts.extend(random_texts().iter().map(|text| RecordedText::plain(text.as_bytes())));
    texts
}

/// Sheets of a few entries, such sheets with a slip, and entries with a slip.
fn random_texts() -> Vec<String> {
    let mut random = Random::new(SEED);
    let mut texts = Vec::new();
    for _ in 0..380 {
        let sheet = some_entries(&mut random, 6);
        texts.push(pieces::slip(&mut random, NAMES, &sheet));
        texts.push(sheet);
        let name = random.one_of(NAMES);
        texts.push(pieces::slip(&mut random, pieces::PIECES, name));
    }
    texts
}

fn line(recorded: &RecordedText) -> String {
    let text = recorded.text();
    let admitted = answers::admit(&text);
    let clear = answers::verdict(admitted, clear::is_clear).yes;
    let called = Called::of(admitted);
    let lines = called.sheet();
    let whole = called.whole(lines.len(), lines.len());
    let counts = format!("{} {} {}", whole.refusal, whole.tokens, whole.words);
    let mut line = format!("{}\t{clear}\t{counts} {}", recorded.head(), pieces_of(&lines));
    for number in 0..called.lines.len() {
        let (entry, _) = called.entry(number, lines.len());
        line += &format!("\t{} {} {} {} {}", entry.refusal, entry.row, entry.sign, entry.words, entry.bytes);
    }
    line + "\n"
}

/// A run repeats at most UNIT_MOST bytes, and has RUN_LEAST bytes at least.
const UNIT_MOST: usize = 12;
const RUN_LEAST: usize = 64;

/// Pieces COUNTxHEX with a comma between.
fn pieces_of(lines: &[u8]) -> String {
    if lines.is_empty() {
        return "-".to_string();
    }
    let pieces: Vec<String> = runs(lines).iter().map(|(unit, count)| format!("{count}x{}", hex(unit))).collect();
    pieces.join(",")
}

/// The bytes as runs: some bytes, and how many times they stand there in a row.
fn runs(bytes: &[u8]) -> Vec<(&[u8], usize)> {
    let mut runs = Vec::new();
    let (mut from, mut at) = (0, 0);
    while at < bytes.len() {
        let Some((unit, count)) = run(&bytes[at..]) else {
            at += 1;
            continue;
        };
        runs.push((&bytes[from..at], 1));
        runs.push((unit, count));
        at += unit.len() * count;
        from = at;
    }
    runs.push((&bytes[from..], 1));
    runs.retain(|(unit, _)| !unit.is_empty());
    runs
}

/// The run that the bytes start with, if it is long enough.
fn run(bytes: &[u8]) -> Option<(&[u8], usize)> {
    let units = (1..=UNIT_MOST.min(bytes.len())).map(|len| &bytes[..len]);
    let mut runs = units.map(|unit| (unit, bytes.chunks(unit.len()).take_while(|&chunk| chunk == unit).count()));
    runs.find(|(unit, count)| unit.len() * count >= RUN_LEAST)
}
