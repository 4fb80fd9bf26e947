//! Clear names, as document 01's list has them, with the full hours and the ranges that document 02, A1 and A2, adds. No function
//! of the reference or of the library is used; the words of the tables are written out here.

/// ONES, TEENS, TENS and their ordinal forms, and SCALES. No other word is by itself an answer of `cardinal` or `ordinal`.
#[rustfmt::skip]
pub const BARRED: &[&str] = &[
    "zero", "one", "two", "three", "four", "five", "six", "seven", "eight", "nine",
    "ten", "eleven", "twelve", "thirteen", "fourteen", "fifteen", "sixteen", "seventeen", "eighteen", "nineteen",
    "twenty", "thirty", "forty", "fifty", "sixty", "seventy", "eighty", "ninety",
    "zeroth", "first", "second", "third", "fourth", "fifth", "sixth", "seventh", "eighth", "ninth",
    "tenth", "eleventh", "twelfth", "thirteenth", "fourteenth", "fifteenth", "sixteenth", "seventeenth", "eighteenth",
    "nineteenth", "twentieth", "thirtieth", "fortieth", "fiftieth", "sixtieth", "seventieth", "eightieth", "ninetieth",
    "billion", "million", "thousand",
];

/// The first abbreviation of each unit word in the table's order.
#[rustfmt::skip]
pub const UNITS: &[&str] = &[
    "LB", "ft", "kg", "km", "cm", "mm", "ml", "oz", "hz", "KHz", "MHz", "GHz", "KB", "GB", "MB", "TB",
];

pub fn is_clear(name: &str) -> bool {
    is_number(name)
        || name.strip_suffix('%').is_some_and(is_number)
        || is_time(name)
        || is_meridiem(name)
        || is_range(name)
        || is_ordinal(name)
        || UNITS.iter().any(|unit| name.strip_suffix(unit).is_some_and(is_plain))
        || is_initials(name)
        || is_word(name)
}

fn is_digits(text: &str) -> bool {
    !text.is_empty() && text.chars().all(|c| ('0'..='9').contains(&c))
}

/// Digits, "0" or with no leading zero.
fn is_plain(text: &str) -> bool {
    is_digits(text) && (text == "0" || !text.starts_with('0'))
}

/// One or more digits; or optional minus, plain digits, optional point with digits, optional e with optional sign and plain digits.
fn is_number(name: &str) -> bool {
    if is_digits(name) {
        return true;
    }
    let unsigned = name.strip_prefix('-').unwrap_or(name);
    let (mantissa, exponent) = match unsigned.split_once('e') {
        None => (unsigned, None),
        Some((mantissa, exponent)) => (mantissa, Some(exponent)),
    };
    let exponent_clear = exponent.is_none_or(|text| is_plain(text.strip_prefix(['+', '-']).unwrap_or(text)));
    let mantissa_clear = match mantissa.split_once('.') {
        None => is_plain(mantissa),
        Some((whole, fraction)) => is_plain(whole) && is_digits(fraction),
    };
    mantissa_clear && exponent_clear
}

/// The hour is plain and has 1 or 2 digits, the minute is 00 to 59.
fn is_time(name: &str) -> bool {
    name.split_once(':').is_some_and(|(hour, minute)| {
        is_plain(hour) && hour.len() <= 2 && minute.len() == 2 && is_digits(minute) && minute < "60"
    })
}

fn is_meridiem(name: &str) -> bool {
    name.strip_suffix("am").or_else(|| name.strip_suffix("pm")).is_some_and(is_time)
}

/// Digits, a hyphen, digits; zeros may lead.
fn is_range(name: &str) -> bool {
    name.split_once('-').is_some_and(|(left, right)| is_digits(left) && is_digits(right))
}

/// th after a tens digit 1, else st, nd, rd for 1, 2, 3, else th.
fn is_ordinal(name: &str) -> bool {
    let Some(place) = name.len().checked_sub(2).filter(|&place| name.is_char_boundary(place)) else {
        return false;
    };
    let (number, suffix) = name.split_at(place);
    let mut backwards = number.chars().rev();
    let (ones, tens) = (backwards.next(), backwards.next());
    let right = match (tens, ones) {
        (Some('1'), _) => "th",
        (_, Some('1')) => "st",
        (_, Some('2')) => "nd",
        (_, Some('3')) => "rd",
        _ => "th",
    };
    is_plain(number) && suffix == right
}

/// Two or more capitals with single dots between.
fn is_initials(name: &str) -> bool {
    let mut letters = name.split('.');
    let capitals = |part: &str| part.len() == 1 && part.chars().all(|c| c.is_ascii_uppercase());
    name.contains('.') && letters.all(capitals)
}

fn is_word(name: &str) -> bool {
    name.len() >= 2 && name.chars().all(|c| ('a'..='z').contains(&c)) && !BARRED.contains(&name)
}

/// The lists above, held to the Rust: each unit is the first of its word in the Rust's table, and each answer of one word, on all
/// short numbers and some long ones, is barred.
pub fn check_tables() {
    use reference::numbers::{cardinal, ordinal};
    use reference::patterns::UNIT_ABBREVIATIONS;
    let is_first = |place: usize| UNIT_ABBREVIATIONS[..place].iter().all(|(_, word)| *word != UNIT_ABBREVIATIONS[place].1);
    let first = (0..UNIT_ABBREVIATIONS.len()).filter(|&place| is_first(place)).map(|place| UNIT_ABBREVIATIONS[place].0);
    assert!(first.eq(UNITS.iter().copied()), "the first abbreviation of each unit word");
    let numbers = (0..20_000_u64).chain((4..=13).flat_map(|power| [10_u64.pow(power), 7 * 10_u64.pow(power)]));
    for number in numbers {
        for digits in [number.to_string(), format!("0{number}"), format!("000{number}")] {
            for words in [cardinal(&digits), ordinal(&digits)] {
                if let [word] = &words[..] {
                    assert!(BARRED.contains(&word.as_str()), "{word} alone answers {digits}");
                }
            }
        }
    }
}
