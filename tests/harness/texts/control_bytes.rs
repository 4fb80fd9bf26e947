//! Control bytes, which document 02, A3, keeps out of every text: alone, beside what earlier and later tests look for, and beside
//! characters that are none.

use crate::comparison::{Comparison, CALLS};
use crate::corners::control_bytes::{CONTROL_BYTES, TEXTS};
use crate::expected::answers::{self, TEXT_LIMIT};
use crate::expected::rows::NAME_LIMIT;
use crate::howhakiru;
use crate::steps::Fed;
use crate::texts::step_states::ODD;

/// A text that some call takes, of each kind: names of each row, clear ones and others, and sheets.
#[rustfmt::skip]
const KINDS: &[&str] = &[
    "", "a", "5", "007", "1984", "-1.50", "1e5", "1,234", "21st", "$1.50", "million", "XIV", "Dr", "60s", "555-1234", "9:30",
    "9:30am", "U.S.", "12-18", "5/8", "5%", "5mm", "kg", "rack", "é€𐍈", " \t\r\n", "\"a\".", "yahoo! a",
    "Bar 12 at 9:30. Rack\n\n(21st)",
];

/// The list of the bytes must be that of the test, on which all answers stand.
pub fn check_list() {
    let refused = |byte: &u8| answers::admit(&[*byte]) == Err(answers::CONTROL_BYTE);
    assert!((0..=255).filter(refused).eq(CONTROL_BYTES.iter().copied()), "the control bytes");
}

/// The corners that the recorder writes down, in buffers of every size.
pub fn named(comparison: &mut Comparison) {
    comparison.begin("control bytes, every buffer");
    for text in TEXTS {
        comparison.every_call(text, 0);
        comparison.every_room(text, 0);
        comparison.every_token_room(text, 0);
        comparison.every_call_room(text, 0);
    }
}

/// Every byte at every place of each kind, put in and in the place of another; every call.
pub fn each_place(comparison: &mut Comparison) {
    comparison.begin("each byte at each place, every call");
    for (number, kind) in KINDS.iter().enumerate() {
        for place in 0..=kind.len() {
            let (front, back) = kind.as_bytes().split_at(place);
            for byte in 0..=255 {
                comparison.every_call(&[front, &[byte], back].concat(), number);
                if let Some(after) = back.get(1..) {
                    comparison.every_call(&[front, &[byte], after].concat(), number);
                }
            }
        }
    }
}

/// Two bytes in a row, of which one at least is a control byte, in sheets; in buffers of every size.
pub fn beside_each_other(comparison: &mut Comparison) {
    comparison.begin("control bytes beside each byte, every buffer");
    for control in CONTROL_BYTES {
        for other in 0..=255 {
            for pair in [[*control, other], [other, *control]] {
                comparison.every_call_room(&[b"Bar 12", &pair[..], b". 5mm"].concat(), 0);
                comparison.every_token_room(&[b"(a. ", &pair[..], b"B"].concat(), 0);
                comparison.every_room(&[b"1.5", &pair[..], b"e5"].concat(), 0);
            }
        }
    }
}

/// What a long text is filled with.
const FILLERS: &[&str] = &["a", "5 ", "é"];

/// A control byte near the ends and the middle of texts at the limit, which is refused, and of longer ones, of which the length
/// is refused. All other bytes there too, in the verdicts.
pub fn long(comparison: &mut Comparison) {
    comparison.begin("control bytes in long texts, one call each");
    let mut call = 0;
    for filler in FILLERS {
        for len in TEXT_LIMIT - 1..=TEXT_LIMIT + 1 {
            let (front, back) = ([0, 1, 31, 32, 63, 64], [65, 64, 33, 32, 2, 1].map(|behind| len - behind));
            for place in front.into_iter().chain([len / 2 - 1, len / 2]).chain(back) {
                for byte in CONTROL_BYTES {
                    comparison.one_call(&with_byte(filler, len, place, *byte), call % 64, call % CALLS);
                    call += 1;
                }
            }
        }
    }
    comparison.begin("control bytes in long texts, every call");
    for len in TEXT_LIMIT..=TEXT_LIMIT + 1 {
        for place in [0, len / 2, len - 1] {
            CONTROL_BYTES.iter().for_each(|byte| comparison.every_call(&with_byte("a", len, place, *byte), 0));
        }
    }
    comparison.begin("each byte in long texts");
    for len in TEXT_LIMIT..=TEXT_LIMIT + 1 {
        for place in [0, len / 2, len - 1] {
            for byte in 0..=255 {
                let verdict = usize::from(byte) % howhakiru::VERDICTS.len();
                comparison.one_call(&with_byte("a", len, place, byte), 0, verdict);
            }
        }
    }
}

/// A text of `len` bytes with this one at `place`, filled before and behind it.
fn with_byte(filler: &str, len: usize, place: usize, byte: u8) -> Vec<u8> {
    [&filled(filler, place)[..], &[byte], &filled(filler, len - place - 1)].concat()
}

/// Whole characters of the filler, and then bytes of one each.
fn filled(filler: &str, len: usize) -> Vec<u8> {
    let mut text = filler.repeat(len / filler.len()).into_bytes();
    text.resize(len, b'a');
    text
}

/// What is no UTF-8: lone, cut and overlong, and a surrogate.
#[rustfmt::skip]
const BROKEN: &[&[u8]] = &[
    b"\xff", b"\xc3", b"\xe2\x82", b"\xf0\x90\x8d", b"\x80", b"\xc0\x80", b"\xe0\x80\x80", b"\xed\xa0\x80",
    b"\xf4\x90\x80\x80",
];

/// Broken UTF-8 before and behind a control byte, near and far: it is tested first, and the length before it.
pub fn with_broken_utf8(comparison: &mut Comparison) {
    comparison.begin("control bytes and broken UTF-8");
    for broken in BROKEN {
        for control in CONTROL_BYTES {
            let control = &[*control][..];
            for between in [0, 1, 31, 32, 63, 64, 200] {
                let between = &filled("a", between)[..];
                comparison.every_call(&[b"Bar ", *broken, between, control, b" 5mm"].concat(), 0);
                comparison.every_call(&[b"Bar ", control, between, *broken, b" 5mm"].concat(), 0);
            }
            comparison.every_call(&[control, *broken, control].concat(), 0);
            comparison.every_call(&[*broken, control, *broken].concat(), 0);
        }
        for len in TEXT_LIMIT..=TEXT_LIMIT + 1 {
            let between = &filled("a", len - broken.len() - 1)[..];
            for control in [&b"\0"[..], b"\x1f", b"\x7f"] {
                comparison.every_call(&[*broken, between, control].concat(), 0);
                comparison.every_call(&[control, between, *broken].concat(), 0);
            }
        }
    }
}

/// Characters of several bytes that are controls or line ends elsewhere, or share bits with the control bytes.
#[rustfmt::skip]
const CHARACTERS: &[char] = &[
    '\u{a0}', '\u{ad}', '\u{bf}', '\u{c0}', '\u{ff}', '\u{100}', '\u{11f}', '\u{17f}', '\u{7ff}', '\u{800}', '\u{200b}',
    '\u{200e}', '\u{2028}', '\u{2029}', '\u{2400}', '\u{2421}', '\u{fdd0}', '\u{fe00}', '\u{feff}', '\u{ffff}', '\u{10000}',
    '\u{1007f}', '\u{e0001}', '\u{e007f}', '\u{10ffff}',
];

/// U+0080 to U+009F and the characters above are accepted: alone, in each kind, and many of them. Beside a control byte none is.
pub fn other_controls(comparison: &mut Comparison) {
    comparison.begin("characters that are no control bytes");
    for character in ('\u{80}'..='\u{9f}').chain(CHARACTERS.iter().copied()) {
        let one = character.to_string();
        for kind in KINDS {
            comparison.every_call(format!("{one}{kind}").as_bytes(), 0);
            comparison.every_call(format!("{kind}{one}").as_bytes(), 0);
            comparison.every_call(format!("{kind}{one}{kind}").as_bytes(), 0);
        }
        for control in CONTROL_BYTES {
            let control = char::from(*control);
            comparison.every_call(format!("{control}{one}").as_bytes(), 0);
            comparison.every_call(format!("{one}{control}").as_bytes(), 0);
        }
        let many = one.repeat(TEXT_LIMIT / one.len());
        (0..CALLS).step_by(3).for_each(|call| comparison.one_call(many.as_bytes(), 0, call));
    }
}

/// Every byte at every place of each of a step's texts, from states of every kind.
pub fn steps(comparison: &mut Comparison) {
    comparison.begin("steps with each byte at each place");
    let whole = [&b"\n \n"[..], b"Yahoo", b".:?!"];
    let mut rotation = 0;
    for text in 0..whole.len() {
        for place in 0..=whole[text].len() {
            for byte in 0..=255 {
                let (front, back) = whole[text].split_at(place);
                let put_in = [front, &[byte], back].concat();
                let [mut whitespace, mut name, mut punctuation] = whole;
                *[&mut whitespace, &mut name, &mut punctuation][text] = &put_in;
                for _ in 0..3 {
                    comparison.step_from(ODD[rotation % ODD.len()], Fed { whitespace, name, punctuation }, rotation % 64);
                    rotation += 1;
                }
            }
        }
    }
}

/// Refusals of the two calls that are tested later: no such entry, a name that is too long, a buffer that is too short.
pub fn before_later_tests(comparison: &mut Comparison) {
    comparison.begin("control bytes before later tests");
    let long = "x".repeat(NAME_LIMIT + 1);
    for control in CONTROL_BYTES.iter().map(|byte| char::from(*byte)) {
        let sheets = [
            format!("{control}"),
            format!("{control} "),
            format!(" {control}"),
            format!("Bar{control}"),
            format!("Bar {control} 12"),
            format!("{control}{long}"),
            format!("{long}{control}"),
            format!("{long} {control}"),
            format!("{control} {long}"),
            format!("a {long} b{control}"),
            format!("a{control} {long} b"),
            format!("a {long}!{control} {long}"),
        ];
        for sheet in sheets {
            comparison.every_call_room(sheet.as_bytes(), 0);
        }
    }
}
