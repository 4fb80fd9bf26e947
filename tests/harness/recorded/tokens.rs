//! tokens.txt: the token table and the sentence starts.
//!
//! A line is HEAD and a field for each token, with a tab between. HEAD is REPEAT BYTE TAIL REFUSAL. A token has nine numbers in
//! decimal, with a space between: the offset and the length of whitespace, prepunctuation, name and punctuation, as the token
//! table has them, and 1 if the token starts a sentence, else 0. A text without tokens, or a refused one, is HEAD alone.

use crate::corners::{self, pieces};
use crate::expected::answers;
use crate::expected::tokens::Tokenized;
use crate::random::Random;
use crate::recorded::text::{each_once, RecordedText};

const SEED: u64 = 1801;

/// Texts that are mostly one byte repeated: a byte, what follows, the length of both together.
#[rustfmt::skip]
const AT_THE_LIMIT: &[(u8, &[u8], usize)] = &[
    (b'a', b"", 65_535), (b'a', b"", 65_536), (b'a', b"", 65_537), (b' ', b"", 65_535), (b' ', b"", 65_536), (b' ', b"", 65_537),
    (b'\n', b"a", 65_536), (b'\n', b"a b", 65_536), (b'\n', b"a", 65_537), (b'"', b"", 65_536), (b'"', b" ", 65_536), (b'"', b"a", 65_536),
    (b'"', b". A", 65_536), (b'"', b"", 65_537), (b'.', b"", 65_536), (b'.', b" A", 65_536), (b'!', b" a", 65_536), (b'?', b" a b! c", 65_536),
    (b'a', b". B", 65_536), (b'a', b"Z. B", 65_536), (b'A', b". B", 65_536), (b'A', b".  B", 65_536), (b'A', b"b. B", 65_536),
    (b'a', b"\n\nb", 65_536), (b'a', b"! b", 65_537), (b'(', b"a) b", 65_536), (b'\r', b"a\r\nb", 65_536), (b'\t', b"\"", 65_536),
    (b'a', b" \"", 65_536), (b'a', b" \" ", 65_536), (b'o', b"! a", 65_536), (0, b"", 65_536), (0, b" \0", 65_536),
    // characters that end at the limit, or are cut by it
    (b'a', b"\xc3\xa9", 65_536), (b'a', b"\xc3\xa9", 65_537), (b'a', b"\xc3", 65_536), (b'a', b"\xc3", 65_537), (b' ', b"\xff", 65_536),
    (b' ', b"\xff", 65_537), (b'.', b"\xe2\x82\xac", 65_536), (b'.', b"\xe2\x82", 65_536), (0xff, b"", 65_536), (0xff, b"", 65_537),
    // a control byte at the end, and what is tested before it
    (b'a', b"\0", 65_536), (b'a', b"! \x1f", 65_536), (b'\n', b"\x7f", 65_536), (b'a', b"\0", 65_537),
    (b' ', b"\x0b\xff", 65_536), (0xff, b"\0", 65_536), (b'.', b"\x08", 65_536), (0x0c, b"", 65_536), (0x1b, b"", 65_537),
    (b'~', b"", 65_536), (b'a', b"! b\0", 1_000),
    // offsets and lengths that take a second and a third byte
    (b'a', b" b", 256), (b'a', b" b", 257), (b'a', b" b", 258), (b' ', b"b", 256), (b' ', b"b", 257), (b'(', b"b", 257), (b'.', b"b.", 258),
    (b'a', b"! b c", 1_000), (b'a', b" b", 65_535), (b'a', b" b", 65_536),
];

pub fn lines() -> Vec<String> {
    let mut texts: Vec<RecordedText> = Vec::new();
    let corners = corners::tokens::LISTS.iter().flat_map(|list| list.iter());
    texts.extend(corners.map(|text| RecordedText::plain(text.as_bytes())));
    let yahoos = corners::tokens::yahoos();
    texts.extend(yahoos.iter().flat_map(|name| beside_yahoo(name)).map(|text| RecordedText::plain(text.as_bytes())));
    texts.extend(corners::shapes::DAMAGED.iter().chain(corners::control_bytes::TEXTS).map(|text| RecordedText::plain(text)));
    texts.extend(corners::shapes::DAMAGED.iter().step_by(4).map(|text| RecordedText::plain(&[&b"Dr. ("[..], text, b") A"].concat())));
    texts.extend(AT_THE_LIMIT.iter().map(RecordedText::of_length));
    texts.extend(random_texts().iter().map(|text| RecordedText::plain(text.as_bytes())));
    each_once(texts).iter().map(line).collect()
}

fn beside_yahoo(name: &str) -> [String; 3] {
    [format!("{name}! a"), format!("{name}! A"), format!("{name}. A")]
}

/// Corners with slips, texts of a few tokens, and texts of random pieces.
fn random_texts() -> Vec<String> {
    let mut random = Random::new(SEED);
    let corners: Vec<&str> = corners::tokens::LISTS.iter().flat_map(|list| list.iter().copied()).collect();
    let mut texts = Vec::new();
    for _ in 0..250 {
        let corner = random.one_of(&corners);
        texts.push(pieces::slip(&mut random, corners::tokens::PIECES, corner));
        texts.push(some_tokens(&mut random));
        texts.push(pieces::some_pieces(&mut random, corners::tokens::PIECES, 12));
    }
    texts
}

/// Two to four tokens: each a choice from these, in their order.
#[rustfmt::skip]
const PARTS: &[&[&str]] = &[
    &["", "", "", "\"", "(", "'[", "`{"],
    &["a", "A", "Dr", "Abc", "abcd", "Abcd", "abcD", "yahoo", "Yahoo", "5mm", "9:30", "é", "É"],
    &["", "", ".", ".", "!", "?", ":", ",", ".)", "!\"", ";]}"],
    &[" ", " ", "  ", "\n", "\n\n", "\r\n", "\t", "\n \n"],
];

fn some_tokens(random: &mut Random) -> String {
    let tokens = 2 + random.below(3);
    (0..tokens * PARTS.len()).map(|number| *random.one_of(PARTS[number % PARTS.len()])).collect()
}

fn line(recorded: &RecordedText) -> String {
    let tokenized = Tokenized::of(answers::admit(&recorded.text()));
    let mut line = recorded.head();
    for (parts, start) in tokenized.places().zip(&tokenized.starts) {
        let numbers: Vec<String> = parts.iter().map(|(offset, len)| format!("{offset} {len}")).collect();
        line += &format!("\t{} {start}", numbers.join(" "));
    }
    line + "\n"
}
