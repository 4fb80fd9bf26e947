//! What the Rust reference answers for any bytes, in the types of include/howhakiru.h.

use reference::patterns;

pub const TEXT_LIMIT: usize = 65_536;
pub const TEXT_TOO_LONG: u8 = 1;
pub const NOT_UTF8: u8 = 2;
pub const BUFFER_TOO_SHORT: u8 = 5;
pub const CONTROL_BYTE: u8 = 6;

/// The tests of a text, in their order.
pub const TEXT_TESTS: [u8; 3] = [TEXT_TOO_LONG, NOT_UTF8, CONTROL_BYTE];

#[repr(C)]
#[derive(Clone, Copy, Debug, Default, PartialEq, Eq)]
pub struct Verdict {
    pub refusal: u8,
    pub yes: u8,
}

#[repr(C)]
#[derive(Clone, Copy, Debug, Default, PartialEq, Eq)]
pub struct Time {
    pub refusal: u8,
    pub yes: u8,
    pub hour_at: usize,
    pub hour_len: usize,
    pub minute_at: usize,
    pub minute_len: usize,
    pub meridiem_at: usize,
    pub meridiem_len: usize,
}

#[repr(C)]
#[derive(Clone, Copy, Debug, Default, PartialEq, Eq)]
pub struct Part {
    pub refusal: u8,
    pub yes: u8,
    pub offset: usize,
    pub len: usize,
}

#[repr(C)]
#[derive(Clone, Copy, Debug, Default, PartialEq, Eq)]
pub struct Word {
    pub refusal: u8,
    pub yes: u8,
    pub len: usize,
}

/// The verdicts that take the text alone, in the order of patterns.rs.
pub const SHAPES: [(&str, fn(&str) -> bool); 16] = [
    ("is_digits", patterns::is_digits),
    ("is_alpha", patterns::is_alpha),
    ("is_double", patterns::is_double),
    ("is_comma_int", patterns::is_comma_int),
    ("is_ordinal", patterns::is_ordinal),
    ("is_us_money", patterns::is_us_money),
    ("is_illion", patterns::is_illion),
    ("is_roman", patterns::is_roman),
    ("is_dr_or_st", patterns::is_dr_or_st),
    ("is_number_s", patterns::is_number_s),
    ("is_leading_zero_digits", patterns::is_leading_zero_digits),
    ("is_seven_digit_phone", patterns::is_seven_digit_phone),
    ("is_time", patterns::is_time),
    ("is_dotted_abbrev", patterns::is_dotted_abbrev),
    ("is_digits_slash_digits", patterns::is_digits_slash_digits),
    ("is_digits_dash_digits", patterns::is_digits_dash_digits),
];

/// The text as the Rust takes it, or the number of the refusal.
pub type Admitted<'a> = Result<&'a str, u8>;

pub fn admit(text: &[u8]) -> Admitted<'_> {
    if text.len() > TEXT_LIMIT {
        return Err(TEXT_TOO_LONG);
    }
    let text = std::str::from_utf8(text).map_err(|_| NOT_UTF8)?;
    if text.bytes().any(is_control_byte) {
        return Err(CONTROL_BYTE);
    }
    Ok(text)
}

/// Document 02, A3: 0x00 to 0x1F but for 0x09, 0x0A and 0x0D, and 0x7F.
fn is_control_byte(byte: u8) -> bool {
    match byte {
        0x09 | 0x0A | 0x0D => false,
        0x7F => true,
        _ => byte <= 0x1F,
    }
}

pub fn verdict(admitted: Admitted, shape: impl Fn(&str) -> bool) -> Verdict {
    match admitted {
        Err(refusal) => Verdict { refusal, yes: 0 },
        Ok(text) => Verdict { refusal: 0, yes: u8::from(shape(text)) },
    }
}

pub fn is_n_digits(admitted: Admitted, n: usize) -> Verdict {
    verdict(admitted, |text| patterns::is_n_digits(text, n))
}

pub fn split_time_meridiem(admitted: Admitted) -> Time {
    let text = match admitted {
        Err(refusal) => return Time { refusal, ..Time::default() },
        Ok(text) => text,
    };
    let Some((hour, minute, meridiem)) = patterns::split_time_meridiem(text) else {
        return Time::default();
    };
    Time {
        refusal: 0,
        yes: 1,
        hour_at: place(text, hour),
        hour_len: hour.len(),
        minute_at: place(text, minute),
        minute_len: minute.len(),
        meridiem_at: place(text, meridiem),
        meridiem_len: meridiem.len(),
    }
}

pub fn split_unit(admitted: Admitted) -> Part {
    let text = match admitted {
        Err(refusal) => return Part { refusal, ..Part::default() },
        Ok(text) => text,
    };
    let Some((number, unit)) = patterns::split_unit(text) else {
        return Part::default();
    };
    // The header says that the number is the bytes before the unit.
    assert_eq!((place(text, number), number.len()), (0, place(text, unit)));
    Part { refusal: 0, yes: 1, offset: place(text, unit), len: unit.len() }
}

/// The answer, and the bytes that it leaves at the front of the store.
pub fn unit_word(admitted: Admitted, store_len: usize) -> (Word, &'static [u8]) {
    let text = match admitted {
        Err(refusal) => return (Word { refusal, ..Word::default() }, b""),
        Ok(text) => text,
    };
    match patterns::unit_word(text) {
        None => (Word::default(), b""),
        Some(word) if word.len() > store_len => (Word { refusal: BUFFER_TOO_SHORT, ..Word::default() }, b""),
        Some(word) => (Word { refusal: 0, yes: 1, len: word.len() }, word.as_bytes()),
    }
}

/// Where a part of the text starts in it.
fn place(text: &str, part: &str) -> usize {
    part.as_ptr() as usize - text.as_ptr() as usize
}
