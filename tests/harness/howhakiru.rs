//! The calls of include/howhakiru.h, as Rust sees them.

use crate::expected::answers::{Part, Time, Verdict, Word};
use crate::expected::readings::{Number, Words};
use crate::expected::rows::{CalledEntry, CalledSheet};
use crate::expected::tokens::{State, Step, Tokens};

/// A call that takes the text alone and answers a verdict.
pub type VerdictCall = unsafe extern "C" fn(*const u8, usize) -> Verdict;

/// A call that reads a text aloud: the text, the store, the table.
pub type ReadCall = unsafe extern "C" fn(*const u8, usize, *mut u8, usize, *mut u8, usize) -> Words;

/// A call that takes a text and fills one buffer.
pub type TokenCall = unsafe extern "C" fn(*const u8, usize, *mut u8, usize) -> Tokens;

extern "C" {
    pub fn hwk_is_digits(s: *const u8, s_len: usize) -> Verdict;
    pub fn hwk_is_alpha(s: *const u8, s_len: usize) -> Verdict;
    pub fn hwk_is_double(s: *const u8, s_len: usize) -> Verdict;
    pub fn hwk_is_comma_int(s: *const u8, s_len: usize) -> Verdict;
    pub fn hwk_is_ordinal(s: *const u8, s_len: usize) -> Verdict;
    pub fn hwk_is_us_money(s: *const u8, s_len: usize) -> Verdict;
    pub fn hwk_is_illion(s: *const u8, s_len: usize) -> Verdict;
    pub fn hwk_is_roman(s: *const u8, s_len: usize) -> Verdict;
    pub fn hwk_is_dr_or_st(s: *const u8, s_len: usize) -> Verdict;
    pub fn hwk_is_number_s(s: *const u8, s_len: usize) -> Verdict;
    pub fn hwk_is_leading_zero_digits(s: *const u8, s_len: usize) -> Verdict;
    pub fn hwk_is_seven_digit_phone(s: *const u8, s_len: usize) -> Verdict;
    pub fn hwk_is_n_digits(s: *const u8, s_len: usize, n: usize) -> Verdict;
    pub fn hwk_is_time(s: *const u8, s_len: usize) -> Verdict;
    pub fn hwk_is_dotted_abbrev(s: *const u8, s_len: usize) -> Verdict;
    pub fn hwk_is_digits_slash_digits(s: *const u8, s_len: usize) -> Verdict;
    pub fn hwk_is_digits_dash_digits(s: *const u8, s_len: usize) -> Verdict;
    pub fn hwk_split_time_meridiem(s: *const u8, s_len: usize) -> Time;
    pub fn hwk_split_unit(s: *const u8, s_len: usize) -> Part;
    pub fn hwk_unit_word(s: *const u8, s_len: usize, store: *mut u8, store_len: usize) -> Word;
    pub fn hwk_roman_value(s: *const u8, s_len: usize) -> Number;
    pub fn hwk_tokenize(s: *const u8, s_len: usize, table: *mut u8, table_len: usize) -> Tokens;
    pub fn hwk_sentences(s: *const u8, s_len: usize, starts: *mut u8, starts_len: usize) -> Tokens;
    pub fn hwk_fresh() -> State;
    pub fn hwk_push(
        state: State,
        whitespace: *const u8,
        whitespace_len: usize,
        name: *const u8,
        name_len: usize,
        punctuation: *const u8,
        punctuation_len: usize,
    ) -> Step;
    pub fn hwk_call_sheet(s: *const u8, s_len: usize, out: *mut u8, out_len: usize) -> CalledSheet;
    pub fn hwk_call_entry(s: *const u8, s_len: usize, number: usize, out: *mut u8, out_len: usize) -> CalledEntry;
    pub fn hwk_is_clear(s: *const u8, s_len: usize) -> Verdict;
}

/// The readings have one signature.
macro_rules! readings {
    ($($name:ident)*) => {
        extern "C" {
            $(pub fn $name(
                s: *const u8, s_len: usize, store: *mut u8, store_len: usize, table: *mut u8, table_len: usize,
            ) -> Words;)*
        }

        /// The same order as `readings::READINGS`.
        pub const READINGS: [ReadCall; 6] = [$($name),*];
    };
}

readings! { hwk_cardinal hwk_ordinal hwk_year hwk_digits hwk_real hwk_letters }

/// The same order as `answers::SHAPES`.
pub const VERDICTS: [VerdictCall; 16] = [
    hwk_is_digits,
    hwk_is_alpha,
    hwk_is_double,
    hwk_is_comma_int,
    hwk_is_ordinal,
    hwk_is_us_money,
    hwk_is_illion,
    hwk_is_roman,
    hwk_is_dr_or_st,
    hwk_is_number_s,
    hwk_is_leading_zero_digits,
    hwk_is_seven_digit_phone,
    hwk_is_time,
    hwk_is_dotted_abbrev,
    hwk_is_digits_slash_digits,
    hwk_is_digits_dash_digits,
];
