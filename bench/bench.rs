//! Times each call of the static library beside the Rust's from_utf8 and function, on the same bytes.
//!
//! bench [shapes] [numbers] [tokens] [calls]: all four unless some are named. Writes Markdown tables. A time is the median of the
//! samples; the two sides take turns at each sample.
//!
//! Safety of the calls: each gets a text, and some get buffers, that live through the call and overlap nothing.

mod call_rows;
#[allow(dead_code)]
#[path = "../tests/harness/expected/mod.rs"]
mod expected;
#[allow(dead_code)]
#[path = "../tests/harness/howhakiru.rs"]
mod howhakiru;
mod inputs;
mod number_rows;
mod shape_rows;
mod timing;
mod token_rows;

/// One row of a table, in nanoseconds a call.
pub struct Row {
    call: &'static str,
    input: String,
    ours: f64,
    rust: f64,
}

fn main() {
    let chosen: Vec<String> = std::env::args().skip(1).collect();
    let wanted = |part: &str| chosen.is_empty() || chosen.iter().any(|word| word == part);
    if wanted("shapes") {
        let shapes = shape_rows::rows();
        table(&shapes);
        sum_up(&shapes);
        println!();
    }
    if wanted("numbers") {
        table(&number_rows::rows());
        println!();
        number_rows::doubling();
        println!();
    }
    if wanted("tokens") {
        table(&token_rows::rows());
        println!();
        token_rows::doubling();
        println!();
        table(&token_rows::step_rows());
        println!();
    }
    if wanted("calls") {
        table(&call_rows::rows());
        println!();
        call_rows::doubling();
        println!();
        call_rows::lengthening();
        println!();
        table(&call_rows::entry_rows());
    }
}

fn table(rows: &[Row]) {
    println!("| Call | Text | Ours, ns | Rust, ns | Ours / Rust |");
    println!("|---|---|---:|---:|---:|");
    for Row { call, input, ours, rust } in rows {
        println!("| {call} | {input} | {ours:.1} | {rust:.1} | {:.2} |", ours / rust);
    }
}

fn sum_up(rows: &[Row]) {
    let short = rows.iter().filter(|row| row.input.starts_with("short"));
    let worst = short.max_by(|a, b| (a.ours / a.rust).total_cmp(&(b.ours / b.rust)));
    if let Some(row) = worst {
        println!("\nSlowest beside the Rust on a short name: {}, {}, {:.2}.", row.call, row.input, row.ours / row.rust);
    }
}
