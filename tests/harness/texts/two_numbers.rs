//! Ranges and fractions, and near-misses of both: every short name, long ones whose two numbers differ in one digit or in the
//! zeros before them, and random ones.

use crate::comparison::Comparison;
use crate::corners::entries::some_pair;
use crate::expected::answers::TEXT_LIMIT;
use crate::expected::rows::NAME_LIMIT;
use crate::random::Random;
use crate::texts::exhaustive::each_text;

/// Names of so many pieces at most; in a long run one more.
const MOST: usize = 7;
const PIECES: &[&str] = &["0", "1", "2", "5", "9", "-", "/", "%"];

/// Each entry of a sheet of so many names is called by itself too.
const NAMES_A_SHEET: usize = 16;

/// The verdict on each name, and the calls of sheets that are made of them.
pub fn exhaustive(comparison: &mut Comparison, long: bool) {
    comparison.begin("all names of two numbers");
    let mut sheet = Sheet::default();
    each_text(&mut Vec::new(), MOST + usize::from(long), PIECES, &mut |name| {
        comparison.clear_name(name, 0);
        sheet.add(comparison, name);
    });
    sheet.call(comparison);
}

/// Names that are not called yet, with a space behind each.
#[derive(Default)]
struct Sheet {
    text: Vec<u8>,
    names: usize,
}

impl Sheet {
    fn add(&mut self, comparison: &mut Comparison, name: &[u8]) {
        self.text.extend_from_slice(name);
        self.text.push(b' ');
        self.names += 1;
        if self.names == NAMES_A_SHEET {
            self.call(comparison);
        }
    }

    fn call(&mut self, comparison: &mut Comparison) {
        comparison.every_call_of_sheet(&self.text, 0);
        *self = Sheet::default();
    }
}

const SEPARATORS: [&str; 2] = ["-", "/"];

/// Two numbers of up to thousands of digits: the same, or all but one or two digits, and with zeros in front.
pub fn long(comparison: &mut Comparison) {
    comparison.begin("two long numbers");
    for digit in ['0', '1', '7', '9'] {
        for len in [13, 2_000, NAME_LIMIT / 2 - 1] {
            let first = digit.to_string().repeat(len);
            two(comparison, &first, &first);
            for place in [0, 1, len / 2, len - 2, len - 1] {
                let second = with_digit(&first, place, if digit == '9' { '8' } else { '9' });
                two(comparison, &first, &second);
                two(comparison, &first, &with_digit(&second, 0, '0'));
            }
        }
    }
}

/// Both orders, both separators, and zeros in front of the second number.
fn two(comparison: &mut Comparison, first: &str, second: &str) {
    for zeros in ["", "0", "000", &"0".repeat(90)] {
        let drawn_out = format!("{zeros}{second}");
        for separator in SEPARATORS {
            for name in [[first, separator, &drawn_out].concat(), [&drawn_out, separator, first].concat()] {
                called(comparison, &name);
            }
        }
    }
}

fn with_digit(digits: &str, place: usize, digit: char) -> String {
    let mut digits = digits.to_string();
    digits.replace_range(place..=place, &digit.to_string());
    digits
}

/// The call of the name, and the verdict on it.
fn called(comparison: &mut Comparison, name: &str) {
    comparison.every_call_of_sheet(name.as_bytes(), 0);
}

/// One long number and a short one, and names of digits and one or more separators, of 4,000 bytes and on both sides of the limit.
/// The verdict on clear names has the limit of texts alone.
pub fn at_the_limit(comparison: &mut Comparison) {
    comparison.begin("names of two numbers at the limit");
    for separator in SEPARATORS {
        for (front, back) in [("", "7"), ("", "07"), ("7", ""), ("07", ""), ("", ""), ("0", "0%"), ("1", "2"), ("", "7mm")] {
            for len in [4_000, NAME_LIMIT - 1, NAME_LIMIT, NAME_LIMIT + 1] {
                for digit in ["0", "1", "7"] {
                    let drawn = digit.repeat(len - front.len() - back.len() - 1);
                    called(comparison, &[front, separator, &drawn, back].concat());
                    called(comparison, &[front, &drawn, separator, back].concat());
                    called(comparison, &format!("Bar ({front}{drawn}{separator}{back}). 5mm"));
                }
            }
        }
        let digits = "7".repeat(4_000);
        called(comparison, &[&digits, separator, &digits].concat());
        for piece in ["1", "12", "0", ""] {
            let several = format!("{piece}{separator}").repeat(NAME_LIMIT / (piece.len() + 1));
            called(comparison, &several);
            called(comparison, &several[1..]);
            called(comparison, &several[..several.len() - 1]);
        }
        for len in TEXT_LIMIT - 1..=TEXT_LIMIT + 1 {
            let half = "7".repeat(len / 2);
            let name = [&half, separator, &"7".repeat(len - len / 2 - 1)].concat();
            comparison.clear_name(name.as_bytes(), 0);
        }
    }
}

/// Sheets of a few random names, and one name of two long numbers, of which the second is often near the first.
pub fn random(comparison: &mut Comparison, random: &mut Random, texts: usize) {
    comparison.begin("random names of two numbers");
    for number in 0..texts {
        let names: Vec<String> = (0..1 + random.below(8)).map(|_| some_pair(random)).collect();
        names.iter().for_each(|name| comparison.clear_name(name.as_bytes(), random.below(64)));
        comparison.every_call_of_sheet(names.join(" ").as_bytes(), random.below(64));
        if number % 50 == 0 {
            called(comparison, &some_long_pair(random));
        }
    }
}

fn some_long_pair(random: &mut Random) -> String {
    let len = 1 + random.length(NAME_LIMIT / 2);
    let few = *random.one_of(&["07", "01", "9", "0123456789"]);
    let first: String = (0..len).map(|_| char::from(*random.one_of(few.as_bytes()))).collect();
    let mut second = first.clone();
    for _ in 0..random.below(3) {
        second = with_digit(&second, random.below(len), char::from(b'0' + random.below(10) as u8));
    }
    let separator = *random.one_of(&SEPARATORS);
    let mut zeros = || "0".repeat(random.below(4) * random.below(4));
    [&zeros(), &first[..], separator, &zeros(), &second].concat()
}
