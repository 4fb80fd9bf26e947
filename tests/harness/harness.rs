//! Compares every call of the static library with the Rust reference.
//!
//! harness SECONDS SEED: the fixed groups run whole, the random ones for what is left of the time, once at least. Three threads
//! share the calls.
//!
//! calls/ makes each call and compares its answer with that of expected/, a step's with that of steps.rs. texts/ has the texts,
//! some of them from corners/.

use std::process;
use std::thread;
use std::time::{Duration, Instant};

mod calls;
mod comparison;
mod corners;
mod expected;
mod howhakiru;
mod lent;
mod random;
mod steps;
mod texts;

use comparison::{Comparison, Counts};
use expected::{clear, rows};
use random::Random;
use texts::{control_bytes, distinguish, exhaustive, linear_forms, long, long_numbers, long_tokens, short, step_states};
use texts::{two_numbers, utf8};

/// From this many seconds on there is time for texts of one piece more.
const LONG: u64 = 600;

/// The Rust's year and real call themselves for each pair, sign or "e" of a text, so a long text takes much stack.
const STACK: usize = 256 << 20;

fn main() {
    let arguments: Vec<u64> = std::env::args().skip(1).filter_map(|word| word.parse().ok()).collect();
    let [seconds, seed] = arguments[..] else {
        eprintln!("usage: harness SECONDS SEED");
        process::exit(2);
    };
    println!("compare: seed {seed}, {seconds} seconds");
    let shares = [NAMES, SHEETS, CALL_SHEETS].map(|share| {
        let run = move || compare(share, seconds, seed);
        thread::Builder::new().stack_size(STACK).spawn(run).expect("a thread")
    });
    let [names, sheets, calls] = shares.map(|share| share.join().unwrap_or_else(|_| process::exit(1)));
    names.and(sheets).and(calls).finish(seed);
}

/// A share of the calls, on a thread of its own: its fixed groups, and a round of its random ones.
#[derive(Clone, Copy)]
struct Share {
    name: &'static str,
    /// The time is divided by this, so that the longest share has a core for itself in the end.
    divisor: u64,
    fixed: fn(&mut Comparison, bool),
    round: fn(&mut Comparison, &mut Random),
}

const NAMES: Share = Share { name: "shapes and numbers", divisor: 1, fixed: names, round: names_round };
const SHEETS: Share = Share { name: "tokens and control bytes", divisor: 2, fixed: tokens_and_controls, round: tokens_round };
const CALL_SHEETS: Share = Share { name: "call sheets", divisor: 2, fixed: calls, round: calls_round };

fn compare(share: Share, seconds: u64, seed: u64) -> Counts {
    let start = Instant::now();
    let mut comparison = Comparison::new(seed);
    (share.fixed)(&mut comparison, seconds >= LONG);
    println!("compare: fixed groups of {} took {} s", share.name, start.elapsed().as_secs());
    let mut random = Random::new(seed);
    loop {
        (share.round)(&mut comparison, &mut random);
        if start.elapsed() >= Duration::from_secs(seconds / share.divisor) {
            return comparison.counts;
        }
    }
}

fn names(comparison: &mut Comparison, long: bool) {
    shapes(comparison, if long { 5 } else { 4 });
    numbers(comparison, long);
}

/// `most` bounds the texts over the one alphabet of every piece.
fn shapes(comparison: &mut Comparison, most: usize) {
    comparison.null_pointers();
    short::named(comparison);
    short::one_byte_changed(comparison);
    exhaustive::run(comparison, most);
    utf8::exhaustive(comparison);
    utf8::placed(comparison);
    long::limits(comparison);
    long::flaw_at_each_place(comparison);
}

fn numbers(comparison: &mut Comparison, long: bool) {
    linear_forms::check(long);
    texts::numbers::named(comparison);
    texts::numbers::one_byte_changed(comparison);
    texts::numbers::exhaustive(comparison);
    texts::numbers::exhaustive_for_one(comparison, if long { 6 } else { 5 });
    long_numbers::growing(comparison);
    long_numbers::limits(comparison);
}

fn tokens_and_controls(comparison: &mut Comparison, long: bool) {
    tokens(comparison, long);
    controls(comparison);
}

/// In a long run texts have one piece more. So all texts of seven of the eleven characters are in it; else each round takes some.
fn tokens(comparison: &mut Comparison, long: bool) {
    texts::tokens::named(comparison);
    texts::tokens::one_byte_changed(comparison);
    texts::tokens::placed(comparison);
    texts::tokens::exhaustive(comparison, long);
    texts::tokens::neighbours(comparison);
    long_tokens::growing(comparison);
    long_tokens::changed_at_each_place(comparison);
    long_tokens::many_tokens(comparison);
    long_tokens::limits(comparison);
    texts::steps::pairs(comparison);
    texts::steps::refusals(comparison);
    texts::steps::long(comparison);
    texts::steps::cut_characters(comparison);
    step_states::every_choice(comparison);
}

/// Control bytes in every call, and not only in those about tokens, since this share takes the least time.
fn controls(comparison: &mut Comparison) {
    control_bytes::check_list();
    control_bytes::named(comparison);
    control_bytes::each_place(comparison);
    control_bytes::beside_each_other(comparison);
    control_bytes::long(comparison);
    control_bytes::with_broken_utf8(comparison);
    control_bytes::other_controls(comparison);
    control_bytes::steps(comparison);
    control_bytes::before_later_tests(comparison);
}

/// Sheets, entries and clear names; and that call sheets distinguish their sheets, on pairs.
fn calls(comparison: &mut Comparison, long: bool) {
    clear::check_tables();
    rows::check_taken(corners::entries::NAMES);
    texts::sheets::named(comparison);
    texts::sheets::one_byte_changed(comparison);
    texts::sheets::pairs(comparison);
    texts::sheets::exhaustive(comparison, long);
    texts::sheets::long_names(comparison);
    texts::sheets::long_sheets(comparison);
    two_numbers::exhaustive(comparison, long);
    two_numbers::long(comparison);
    two_numbers::at_the_limit(comparison);
    distinguish::names(comparison);
    distinguish::fractions(comparison);
}

/// Each random group for some tenths of a second.
fn names_round(comparison: &mut Comparison, random: &mut Random) {
    short::random(comparison, random, 50_000);
    short::slips(comparison, random, 100_000);
    long::random(comparison, random, 100);
    utf8::damaged(comparison, random, 10_000);
    texts::numbers::random_digits(comparison, random, 50_000);
    texts::numbers::random_pieces(comparison, random, 20_000);
    texts::numbers::slips(comparison, random, 5_000);
    long_numbers::random(comparison, random, 100);
}

fn tokens_round(comparison: &mut Comparison, random: &mut Random) {
    texts::tokens::seven(comparison, random);
    texts::tokens::random_eleven(comparison, random, 50_000);
    texts::tokens::random_pieces(comparison, random, 20_000);
    texts::tokens::slips(comparison, random, 3_000);
    long_tokens::random(comparison, random, 500);
    step_states::random(comparison, random, 100_000);
    texts::steps::sequences(comparison, random, 2_000);
}

fn calls_round(comparison: &mut Comparison, random: &mut Random) {
    texts::sheets::random(comparison, random, 5_000);
    texts::sheets::random_pieces(comparison, random, 10_000);
    two_numbers::random(comparison, random, 5_000);
    distinguish::sheets(comparison, random, 10_000);
}
