//! patterns.txt: the calls about shapes.
//!
//! A line: REPEAT BYTE TAIL REFUSAL BITS T0 T1 T2 T3 U0 U1 U2 W0 W1 WORD
//! BITS are the 16 verdicts of patterns.rs in its order, then is_n_digits of 0 to 9 and of the text's length. T is
//! split_time_meridiem: yes, the hour's length, the minute's place, the meridiem's place. U is split_unit: yes, the unit's
//! place and length. W is unit_word: yes, the word's length, the word in hex, - for none.

use crate::corners::{self, pieces};
use crate::expected::answers::{self, Admitted};
use crate::random::Random;
use crate::recorded::text::{each_once, hex, RecordedText};

const SEED: u64 = 1984;

/// Texts that are mostly one byte repeated: a byte, what follows, the length of both together.
#[rustfmt::skip]
const AT_THE_LIMIT: &[(u8, &[u8], usize)] = &[
    (b'5', b"", 65_535), (b'5', b"", 65_536), (b'5', b"", 65_537), (b'5', b"", 65_538), (b'5', b"", 131_072),
    (b'a', b"", 65_535), (b'a', b"", 65_536), (b'a', b"", 65_537), (b'0', b"", 65_536), (b'0', b"", 65_537),
    (b'5', b"e5", 65_536), (b'5', b"e5", 65_537), (b'5', b".5", 65_536), (b'5', b"e", 65_536), (b'-', b"5", 65_536),
    (b'5', b",000", 65_536), (b',', b"", 65_536), (b',', b"th", 65_536), (b'5', b"th", 65_536), (b'5', b"th", 65_537),
    (b'5', b"ST", 65_535), (b'$', b"", 65_536), (b'm', b"illion", 65_536), (b'm', b"illion", 65_537), (b'X', b"", 65_536),
    (b'X', b"VI", 65_536), (b'X', b"L", 65_536), (b'X', b"", 65_537), (b'5', b"s", 65_536), (b'5', b"s", 65_537),
    (b'5', b"-1234", 65_536), (b'9', b":30", 65_536), (b'9', b":30am", 65_536), (b'a', b"m", 65_536), (b'.', b"", 65_536),
    (b'5', b"/5", 65_536), (b'5', b"/5", 65_537), (b'/', b"5", 65_536), (b'5', b"-6", 65_536), (b'5', b"-6", 65_537),
    (b'-', b"5-6", 65_536), (b'-', b"", 65_536), (b'5', b"kg", 65_536), (b'5', b"kg", 65_537), (b'5', b"KHz", 65_535),
    (b',', b"5mm", 65_536), (b',', b"kg", 65_536), (b'5', b"kgs", 65_536), (b'k', b"g", 65_536), (0, b"", 65_536),
    // characters that end at the limit, or are cut by it
    (b'a', b"\xc3\xa9", 65_536), (b'a', b"\xc3\xa9", 65_537), (b'a', b"\xc3", 65_536), (b'a', b"\xc3", 65_537),
    (b'5', b"\xe2\x82\xac", 65_536), (b'5', b"\xe2\x82", 65_536), (b'5', b"\xe2", 65_536),
    (b'5', b"\xf0\x90\x8d\x88", 65_536), (b'5', b"\xf0\x90\x8d", 65_536), (b'5', b"\xf0\x90\x8d\x88", 65_537),
    (b'5', b"\xed\xa0\x80", 65_536), (b'5', b"\xff", 65_536), (b'5', b"\xff", 65_537), (0xff, b"", 65_536), (0xff, b"", 65_537),
    (0x80, b"", 65_536), (0xc3, b"", 65_536), (b'5', b"\x80", 65_535), (b'5', b"\xc3\xa9th", 65_536),
    // a control byte at the end, and what is tested before it
    (b'5', b"\0", 65_536), (b'5', b"\x1f", 65_536), (b'a', b"\x7f", 65_536), (b'5', b"\0", 65_537), (b'5', b"\0\xff", 65_536),
    (0xff, b"\0", 65_536), (0x0b, b"", 65_536), (0x7f, b"", 65_537), (0x1f, b"5kg", 4_096), (b'\t', b"", 65_536),
    (b'~', b"", 65_536),
    // lengths on both sides of a block
    (b'5', b"", 31), (b'5', b"", 32), (b'5', b"", 33), (b'5', b"", 63), (b'5', b"", 64), (b'5', b"", 65), (b'5', b"", 127),
    (b'5', b"", 128), (b'5', b"", 129), (b'5', b"x", 64), (b'5', b"\xc3\xa9", 64), (b'5', b"\xc3\xa9", 65), (b'5', b"\xc3", 64),
    (b'5', b"\xe2\x82\xac", 65), (b'5', b"\xe2\x82\xac", 66), (b'5', b"\xf0\x90\x8d\x88", 65), (b'5', b"\xf0\x90\x8d\x88", 66),
    (b'5', b"\xf0\x90\x8d\x88", 67), (b'5', b"th", 64), (b'5', b"th", 65), (b'5', b"kg", 4_096), (b'5', b"kg", 4_097),
];

pub fn lines() -> Vec<String> {
    let mut texts: Vec<RecordedText> = Vec::new();
    let corners = corners::shapes::LISTS.iter().flat_map(|list| list.iter());
    texts.extend(corners.map(|text| RecordedText::plain(text.as_bytes())));
    texts.extend(corners::shapes::DAMAGED.iter().chain(corners::control_bytes::TEXTS).map(|text| RecordedText::plain(text)));
    texts.extend(AT_THE_LIMIT.iter().map(RecordedText::of_length));
    texts.extend(random_texts().iter().map(|text| RecordedText::plain(text)));
    each_once(texts).iter().map(line).collect()
}

/// Corners with slips, texts of random pieces, and texts of random bytes.
fn random_texts() -> Vec<Vec<u8>> {
    let mut random = Random::new(SEED);
    let corners: Vec<&str> = corners::shapes::LISTS.iter().flat_map(|list| list.iter().copied()).collect();
    let mut texts = Vec::new();
    for _ in 0..600 {
        let corner = random.one_of(&corners);
        texts.push(pieces::slip(&mut random, pieces::PIECES, corner).into_bytes());
        texts.push(pieces::some_pieces(&mut random, pieces::PIECES, 8).into_bytes());
    }
    for _ in 0..150 {
        texts.push((0..random.below(6)).map(|_| random.next() as u8).collect());
    }
    texts
}

fn line(recorded: &RecordedText) -> String {
    let text = recorded.text();
    let admitted = answers::admit(&text);
    let time = answers::split_time_meridiem(admitted);
    let unit = answers::split_unit(admitted);
    let (word, written) = answers::unit_word(admitted, usize::MAX);
    format!(
        "{} {} {} {} {} {} {} {} {} {} {} {}\n",
        recorded.head(),
        bits(admitted, text.len()),
        time.yes,
        time.hour_len,
        time.minute_at,
        time.meridiem_at,
        unit.yes,
        unit.offset,
        unit.len,
        word.yes,
        word.len,
        hex(written)
    )
}

fn bits(admitted: Admitted, len: usize) -> String {
    let shapes = answers::SHAPES.iter().map(|&(_, shape)| answers::verdict(admitted, shape));
    let counts = (0..=9).chain([len]).map(|n| answers::is_n_digits(admitted, n));
    shapes.chain(counts).map(|verdict| if verdict.yes == 1 { '1' } else { '0' }).collect()
}
