//! The Rust and the proved calls side by side: the same inputs, the same answers, the time of each.
//! Words: none measures all rows; `ROW rust|ours N` runs one row N times and prints nothing, for counting instructions.
#![allow(async_fn_in_trait)]

#[macro_use]
mod macros;

#[path = "../../oracle/src/alloc.rs"]
#[allow(dead_code)]
mod alloc;
#[path = "../../oracle/src/config.rs"]
#[allow(dead_code)]
mod config;
#[path = "../../oracle/src/errors.rs"]
mod errors;
mod file;
mod flash;
mod hits;
mod ours;
#[path = "../../oracle/src/page.rs"]
#[allow(dead_code)]
mod page;
#[path = "../../bindings/src/raw.rs"]
#[allow(dead_code)]
mod raw;
mod rows;
#[path = "../../oracle/src/types.rs"]
mod types;

use rows::{Row, Side};
use std::time::Instant;

const REPEATS: usize = 101;

/// Median of the repeats' times per operation, in nanoseconds.
fn median(mut times: Vec<f64>) -> f64 {
    times.sort_by(f64::total_cmp);
    times[times.len() / 2]
}

fn time(side: &mut Side, row: Row) -> f64 {
    side.prepare(row);
    let start = Instant::now();
    let done = side.run(row);
    start.elapsed().as_nanos() as f64 / done as f64
}

fn measure(row: Row) {
    let (mut rust, mut ours) = (Side::rust(row), Side::ours(row));
    // warm-up, and both sides do the same
    for side in [&mut rust, &mut ours] {
        side.prepare(row);
        side.run(row);
    }
    assert!(rust.outcome() == ours.outcome(), "{}: the two sides disagree", row.name());
    let (mut a, mut b) = (Vec::new(), Vec::new());
    for _ in 0..REPEATS {
        a.push(time(&mut rust, row));
        b.push(time(&mut ours, row));
    }
    let least = |l: &[f64]| l.iter().copied().fold(f64::MAX, f64::min);
    let (low_a, low_b) = (least(&a), least(&b));
    let (a, b) = (median(a), median(b));
    println!("| {} | {low_a:.0} | {low_b:.0} | {:.2} | {a:.0} | {b:.0} | {:.2} |", row.name(), low_b / low_a, b / a);
}

fn main() {
    let words: Vec<String> = std::env::args().skip(1).collect();
    if let [row, side, count] = &words[..] {
        let row = Row::ALL.into_iter().find(|r| r.word() == row).expect("a row's word");
        let mut side = if side == "rust" { Side::rust(row) } else { Side::ours(row) };
        for _ in 0..count.parse().expect("a count") {
            side.prepare(row);
            side.run(row);
        }
        return;
    }
    println!("| row | Rust ns | ours ns | ratio | Rust median | ours median | ratio of medians |");
    println!("|---|---|---|---|---|---|---|");
    Row::ALL.into_iter().for_each(measure);
    println!("least and median of {REPEATS} repeats, per operation; both sides gave the same answers, image and map");
}
