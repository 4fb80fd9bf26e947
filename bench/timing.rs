//! How a call is timed: the median of samples, each of many calls.

use std::hint::black_box;
use std::time::{Duration, Instant};

const SAMPLES: usize = 31;
const SAMPLE_TIME: Duration = Duration::from_micros(500);

/// The medians of both sides, which must answer alike.
pub fn compared(
    name: &str,
    text: &[u8],
    mut ours: impl FnMut(&[u8]) -> usize,
    mut rust: impl FnMut(&[u8]) -> usize,
) -> (f64, f64) {
    assert_eq!(ours(text), rust(text), "the two sides differ on {name}");
    let (our_calls, rust_calls) = (calls_in_a_sample(&mut ours, text), calls_in_a_sample(&mut rust, text));
    let mut times = (Vec::new(), Vec::new());
    for _ in 0..SAMPLES {
        times.0.push(sample(&mut ours, text, our_calls));
        times.1.push(sample(&mut rust, text, rust_calls));
    }
    (median(times.0), median(times.1))
}

/// The medians of one side on several texts, which take turns.
pub fn in_turn<const N: usize>(texts: [Vec<u8>; N], mut call: impl FnMut(&[u8]) -> usize) -> [f64; N] {
    let calls = texts.each_ref().map(|text| calls_in_a_sample(&mut call, text));
    let mut times = texts.each_ref().map(|_| Vec::new());
    for _ in 0..SAMPLES {
        for (text, (calls, times)) in texts.iter().zip(calls.iter().zip(&mut times)) {
            times.push(sample(&mut call, text, *calls));
        }
    }
    times.map(median)
}

/// How many calls take about `SAMPLE_TIME`.
fn calls_in_a_sample(call: &mut impl FnMut(&[u8]) -> usize, text: &[u8]) -> u32 {
    let mut calls = 1;
    while sample(call, text, calls) * f64::from(calls) < SAMPLE_TIME.as_nanos() as f64 {
        calls *= 2;
    }
    calls
}

/// Nanoseconds a call.
fn sample(call: &mut impl FnMut(&[u8]) -> usize, text: &[u8], calls: u32) -> f64 {
    let start = Instant::now();
    for _ in 0..calls {
        black_box(call(black_box(text)));
    }
    start.elapsed().as_nanos() as f64 / f64::from(calls)
}

fn median(mut times: Vec<f64>) -> f64 {
    times.sort_by(f64::total_cmp);
    times[times.len() / 2]
}
