//! The calls about shapes.

use std::hint::black_box;
use std::str::from_utf8;

use reference::patterns;

use crate::howhakiru;
use crate::inputs::{self, Input};
use crate::timing::compared;
use crate::Row;

pub fn rows() -> Vec<Row> {
    let mut rows = Vec::new();
    for call in inputs::CALLS {
        rows.extend(call.inputs().iter().map(|input| row(call.name, input)));
    }
    for input in inputs::admission() {
        rows.push(Row { call: "admission (is_illion)", ..row("is_illion", &input) });
    }
    rows
}

/// Times one verdict; both sides are called directly, so that the Rust may be inlined.
macro_rules! verdict {
    ($input:expr, $ours:ident, $rust:expr) => {
        compared(
            $input.name,
            &$input.text,
            |text| unsafe { howhakiru::$ours(text.as_ptr(), text.len()) }.yes as usize,
            |text| from_utf8(text).is_ok_and($rust) as usize,
        )
    };
}

fn row(call: &'static str, input: &Input) -> Row {
    let (ours, rust) = match call {
        "is_digits" => verdict!(input, hwk_is_digits, patterns::is_digits),
        "is_alpha" => verdict!(input, hwk_is_alpha, patterns::is_alpha),
        "is_double" => verdict!(input, hwk_is_double, patterns::is_double),
        "is_comma_int" => verdict!(input, hwk_is_comma_int, patterns::is_comma_int),
        "is_ordinal" => verdict!(input, hwk_is_ordinal, patterns::is_ordinal),
        "is_us_money" => verdict!(input, hwk_is_us_money, patterns::is_us_money),
        "is_illion" => verdict!(input, hwk_is_illion, patterns::is_illion),
        "is_roman" => verdict!(input, hwk_is_roman, patterns::is_roman),
        "is_dr_or_st" => verdict!(input, hwk_is_dr_or_st, patterns::is_dr_or_st),
        "is_number_s" => verdict!(input, hwk_is_number_s, patterns::is_number_s),
        "is_leading_zero_digits" => verdict!(input, hwk_is_leading_zero_digits, patterns::is_leading_zero_digits),
        "is_seven_digit_phone" => verdict!(input, hwk_is_seven_digit_phone, patterns::is_seven_digit_phone),
        "is_time" => verdict!(input, hwk_is_time, patterns::is_time),
        "is_dotted_abbrev" => verdict!(input, hwk_is_dotted_abbrev, patterns::is_dotted_abbrev),
        "is_digits_slash_digits" => verdict!(input, hwk_is_digits_slash_digits, patterns::is_digits_slash_digits),
        "is_digits_dash_digits" => verdict!(input, hwk_is_digits_dash_digits, patterns::is_digits_dash_digits),
        "is_n_digits" => n_digits(input),
        "split_time_meridiem" => split_time_meridiem(input),
        "split_unit" => split_unit(input),
        "unit_word" => unit_word(input),
        _ => panic!("no call {call}"),
    };
    Row { call, input: input.name.to_string(), ours, rust }
}

fn n_digits(input: &Input) -> (f64, f64) {
    let n = input.text.len();
    compared(
        input.name,
        &input.text,
        |text| unsafe { howhakiru::hwk_is_n_digits(text.as_ptr(), text.len(), black_box(n)) }.yes as usize,
        |text| from_utf8(text).is_ok_and(|text| patterns::is_n_digits(text, black_box(n))) as usize,
    )
}

/// The answers are compared by the meridiem's place, with 1 added if there is one.
fn split_time_meridiem(input: &Input) -> (f64, f64) {
    compared(
        input.name,
        &input.text,
        |text| {
            let time = unsafe { howhakiru::hwk_split_time_meridiem(text.as_ptr(), text.len()) };
            time.meridiem_at + time.yes as usize
        },
        |text| {
            let parts = from_utf8(text).ok().and_then(patterns::split_time_meridiem);
            parts.map_or(0, |(hour, minute, _)| hour.len() + 1 + minute.len() + 1)
        },
    )
}

/// The answers are compared by the unit's place.
fn split_unit(input: &Input) -> (f64, f64) {
    compared(
        input.name,
        &input.text,
        |text| unsafe { howhakiru::hwk_split_unit(text.as_ptr(), text.len()) }.offset,
        |text| from_utf8(text).ok().and_then(patterns::split_unit).map_or(0, |(number, _)| number.len()),
    )
}

/// Ours copies the word to a store; so that both do the same, the Rust's is copied too.
fn unit_word(input: &Input) -> (f64, f64) {
    let (mut ours, mut rust) = ([0_u8; 11], [0_u8; 11]);
    compared(
        input.name,
        &input.text,
        |text| {
            let store = black_box(&mut ours);
            unsafe { howhakiru::hwk_unit_word(text.as_ptr(), text.len(), store.as_mut_ptr(), store.len()) }.len
        },
        |text| {
            let word = from_utf8(text).ok().and_then(patterns::unit_word).unwrap_or("");
            black_box(&mut rust)[..word.len()].copy_from_slice(word.as_bytes());
            word.len()
        },
    )
}
