//! The texts that are timed.

pub const KIB: usize = 1_024;

const LONG: usize = 64 * KIB;

pub struct Input {
    pub name: &'static str,
    pub text: Vec<u8>,
}

/// A call with texts for it: a short yes, a short no, a name of up to 32 bytes, and 64 KiB that it scans to the end.
pub struct Call {
    pub name: &'static str,
    yes: &'static str,
    no: &'static str,
    name_of_32: &'static str,
    /// A beginning, what is repeated, an end.
    long: [&'static str; 3],
}

#[rustfmt::skip]
pub const CALLS: &[Call] = &[
    call("is_digits", "1998", "199x", "12345678901234567890123456789012", ["", "5", ""]),
    call("is_alpha", "rack", "rack5", "abcdefghijklmnopqrstuvwxyzabcdef", ["", "a", ""]),
    call("is_double", "-1.5e10", "1.5e", "-123456789012345.678901234567e89", ["-5.", "5", "e5"]),
    call("is_comma_int", "1,234", "12,34", "12,345,678,901,234,567,890,123", ["1", ",000", ""]),
    call("is_ordinal", "21st", "21sx", "123456789012345678901234567890th", ["", "5", "th"]),
    call("is_us_money", "$1,500.00", "$1,500.", "$1,234,567,890,123,456,789,01.50", ["$", "5", ".00"]),
    call("is_illion", "million", "millions", "a rather long word for a zillion", ["", "m", "illion"]),
    call("is_roman", "XIV", "XIL", "XVIXVIXVIXVIXVIXVIXVIXVIXVIXVIXV", ["", "X", ""]),
    call("is_dr_or_st", "Dr", "Mr", "streetstreetstreetstreetstreetst", ["", "st", ""]),
    call("is_number_s", "1990s", "1990", "1234567890123456789012345678901s", ["", "5", "s"]),
    call("is_leading_zero_digits", "007", "107", "01234567890123456789012345678901", ["", "0", ""]),
    call("is_seven_digit_phone", "555-1234", "555-123", "5555555555555555555555555555-123", ["", "5", ""]),
    call("is_n_digits", "1998", "199x", "12345678901234567890123456789012", ["", "5", ""]),
    call("is_time", "9:30", "9:60", "12345678901234567890123456789:30", ["", "9", ""]),
    call("split_time_meridiem", "9:30am", "9:60am", "123456789012345678901234567:30am", ["", "9", "am"]),
    call("is_dotted_abbrev", "U.S.A.", "U.SA", "a.b.c.d.e.f.g.h.i.j.k.l.m.n.o.p.", ["", "a.", ""]),
    call("is_digits_slash_digits", "3/4", "3/4/5", "123456789012345/1234567890123456", ["5/", "5", ""]),
    call("is_digits_dash_digits", "1998-1999", "1998-x", "555-123-4567-555-123-4567-555-12", ["", "5-", "5"]),
    call("split_unit", "5kg", "5kgs", "123456789012345678901234567890kg", ["", "5", "kg"]),
    call("unit_word", "kg", "kgs", "kilogramskilogramskilogramskilog", ["", "k", "g"]),
];

const fn call(
    name: &'static str,
    yes: &'static str,
    no: &'static str,
    name_of_32: &'static str,
    long: [&'static str; 3],
) -> Call {
    Call { name, yes, no, name_of_32, long }
}

impl Call {
    pub fn inputs(&self) -> Vec<Input> {
        let [front, middle, back] = self.long;
        vec![
            input("short, yes", self.yes),
            input("short, no", self.no),
            input("short, up to 32 bytes", self.name_of_32),
            Input { name: "64 KiB", text: drawn_out(front, middle, back) },
        ]
    }
}

/// Texts that only admission looks at from end to end: is_illion reads no more than the last bytes.
pub fn admission() -> Vec<Input> {
    vec![
        Input { name: "64 KiB of ASCII", text: drawn_out("", "The quick brown fox. ", "") },
        Input { name: "64 KiB, 1 of 20 of two bytes", text: drawn_out("", "nineteen plain ones é", "") },
        Input { name: "64 KiB of two bytes each", text: drawn_out("", "éüßøñµ¼", "") },
        Input { name: "64 KiB of four bytes each", text: drawn_out("", "𐍈𝄞😀🎼", "") },
    ]
}

fn input(name: &'static str, text: &str) -> Input {
    Input { name, text: text.as_bytes().to_vec() }
}

/// As much of the middle as fits into 64 KiB, in whole repetitions.
fn drawn_out(front: &str, middle: &str, back: &str) -> Vec<u8> {
    let times = (LONG - front.len() - back.len()) / middle.len();
    [front, &middle.repeat(times), back].concat().into_bytes()
}

/// The piece repeated, as often as it fits whole.
pub fn repeated(piece: &str, len: usize) -> Vec<u8> {
    piece.repeat(len / piece.len()).into_bytes()
}
