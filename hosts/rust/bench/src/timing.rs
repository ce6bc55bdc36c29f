//! How long a call takes: part and reference in turns, on the same inputs.

use additional_pension::raw;
use std::hint::black_box;
use std::time::{Duration, Instant};

/// Different inputs of one kind, so that no call finds everything as the one before left it.
pub const INPUTS: usize = 64;
const ROUNDS: usize = 15;
const ROUND: Duration = Duration::from_millis(15);

/// Every answer fits.
pub type Answer = [u8; raw::SETTLE_BYTES];

/// Nanoseconds per call over one round of at least [`ROUND`].
fn round<Input>(inputs: &[Input], call: impl Fn(&Input, &mut Answer)) -> f64 {
    let mut out = [0; raw::SETTLE_BYTES];
    let mut calls = 0;
    let start = Instant::now();
    while start.elapsed() < ROUND {
        for _ in 0..16 {
            for input in inputs {
                call(black_box(input), &mut out);
                black_box(&mut out);
            }
        }
        calls += 16 * inputs.len();
    }
    start.elapsed().as_nanos() as f64 / calls as f64
}

pub fn print_heading() {
    println!("{:<32}{:>10}{:>12}{:>9}", "nanoseconds per call", "part", "reference", "ratio");
}

/// Measures and prints one kind of input, given the part's call and the reference's. The value is the ratio of their speeds.
pub fn measure<Input>(
    name: &str,
    inputs: &[Input],
    part_call: impl Fn(&Input, &mut Answer),
    reference_call: impl Fn(&Input, &mut Answer),
) -> f64 {
    let (mut part, mut reference) = (f64::INFINITY, f64::INFINITY);
    for _ in 0..ROUNDS {
        part = part.min(round(inputs, &part_call));
        reference = reference.min(round(inputs, &reference_call));
    }
    let ratio = reference / part;
    println!("{name:<32}{part:>10.1}{reference:>12.1}{ratio:>9.2}");
    ratio
}
