//! Records the Rust's answers on four samples of texts, one line each, for the replays that need no Rust at hand. The same
//! texts come out at every run. record FOLDER: writes patterns.txt, numbers.txt, tokens.txt and calls.txt there.
//!
//! A line of each file starts with REPEAT BYTE TAIL REFUSAL, with a space between. The text is BYTE repeated REPEAT times, then
//! TAIL; bytes are in hex, and - stands for none. The files of recorded/ say what follows.

use std::fs;
use std::process;

// The harness uses all of these three.
#[allow(dead_code)]
mod corners;
#[allow(dead_code)]
mod expected;
#[allow(dead_code)]
mod random;
mod recorded;

fn main() {
    let Some(folder) = std::env::args().nth(1) else {
        eprintln!("usage: record FOLDER");
        process::exit(2);
    };
    write(&folder, "patterns.txt", &recorded::shapes::lines(), 250_000);
    write(&folder, "numbers.txt", &recorded::numbers::lines(), 400_000);
    write(&folder, "tokens.txt", &recorded::tokens::lines(), 250_000);
    write(&folder, "calls.txt", &recorded::calls::lines(), 450_000);
}

fn write(folder: &str, name: &str, lines: &[String], most: usize) {
    let recorded = lines.concat();
    assert!(recorded.len() <= most, "{name}: {} bytes are too many", recorded.len());
    if let Err(error) = fs::write(format!("{folder}/{name}"), &recorded) {
        eprintln!("record: {folder}/{name}: {error}");
        process::exit(1);
    }
    println!("record: {name}: {} lines, {} bytes", lines.len(), recorded.len());
}
