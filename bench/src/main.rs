//! The proved library against plain Rust, in one run: both do the same calls on the same inputs, in turns.

// 16 bytes before all other code, kept by the flag R.
#[cfg(feature = "shifted")]
std::arch::global_asm!(
    ".pushsection .text.unlikely.shift, \"axR\", @progbits",
    ".p2align 4",
    ".skip 16, 0x90",
    ".popsection"
);

mod ours;
mod rows;
mod same;

use rows::Row;
use std::env;
use std::process::ExitCode;
use std::time::{Duration, Instant};

/// How long one round of calls takes, and how many rounds each side has.
const ROUND: Duration = Duration::from_millis(5);
const ROUNDS: usize = 15;

/// Nanoseconds for each of so many calls.
fn round(calls: u32, call: &mut dyn FnMut()) -> f64 {
    let start = Instant::now();
    (0..calls).for_each(|_| call());
    start.elapsed().as_nanos() as f64 / calls as f64
}

/// As many calls as fill a round.
fn calls_in_a_round(call: &mut dyn FnMut()) -> u32 {
    let mut calls = 1;
    while round(calls, call) * (calls as f64) < ROUND.as_nanos() as f64 {
        calls *= 2;
    }
    calls
}

/// The least times of both sides, over rounds that take turns.
fn time(row: &mut Row) {
    let [our_calls, rust_calls] = [&mut row.ours, &mut row.rust].map(|call| calls_in_a_round(call));
    let (mut ours, mut rust) = (f64::MAX, f64::MAX);
    for _ in 0..ROUNDS {
        ours = ours.min(round(our_calls, &mut row.ours));
        rust = rust.min(round(rust_calls, &mut row.rust));
    }
    println!("{}\t{}\t{ours:.1}\t{rust:.1}", row.name, row.bytes);
}

/// So many calls of one side of one row, for a program that counts instructions.
fn calls(words: &[String]) -> Option<()> {
    let [name, side, calls] = words else {
        return None;
    };
    let mut row = rows::all().into_iter().find(|row| row.name == *name)?;
    let call = match side.as_str() {
        "ours" => &mut row.ours,
        "rust" => &mut row.rust,
        _ => return None,
    };
    (0..calls.parse().ok()?).for_each(|_: u32| call());
    Some(())
}

fn main() -> ExitCode {
    let words: Vec<String> = env::args().skip(1).collect();
    match words.first().map(String::as_str) {
        None => rows::all().iter_mut().for_each(time),
        Some("--rows") => rows::all()
            .iter()
            .for_each(|row| println!("{}\t{}", row.name, row.bytes)),
        Some("--calls") if calls(&words[1..]).is_some() => {}
        Some(_) => {
            eprintln!("usage: bench [--rows | --calls ROW ours|rust COUNT]");
            return ExitCode::FAILURE;
        }
    }
    ExitCode::SUCCESS
}
