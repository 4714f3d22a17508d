//! Times functions over many inputs, and prints a line for each call, as bench/table.py reads it.

use std::hint::black_box;
use std::time::Instant;

const ROUNDS: usize = 40;

/// What a time is for, and how many of it every input has.
pub type Unit = (&'static str, usize);

/// Nanoseconds for f over all inputs, and the sum of its results. Each result is used, so no call is left out.
fn time<I>(inputs: &[I], f: &mut impl FnMut(&I) -> u32) -> (f64, u32) {
    let start = Instant::now();
    let mut sum = 0u32;
    for input in black_box(inputs) {
        sum = sum.wrapping_add(f(input));
    }
    let sum = black_box(sum);
    (start.elapsed().as_nanos() as f64, sum)
}

/// Prints a call, what its times are for, and the best times of ours and of theirs in ns; a dash where Rust has no such
/// function.
fn line<I>(call: &str, unit: Unit, inputs: &[I], ours: f64, theirs: Option<f64>) {
    let figure = |time: f64| format!("{:.3}", time / (unit.1 * inputs.len()) as f64);
    println!("{call}\t{}\t{}\t{}", unit.0, figure(ours), theirs.map_or_else(|| "-".to_string(), figure));
}

/// Times ours and theirs in turn, and says so where their results are not the same.
pub fn compare<I>(
    call: &str,
    unit: Unit,
    inputs: &[I],
    mut ours: impl FnMut(&I) -> u32,
    mut theirs: impl FnMut(&I) -> u32,
) {
    let mut best = [f64::INFINITY; 2];
    let mut same = true;
    for _ in 0..ROUNDS {
        let (our_time, our_sum) = time(inputs, &mut ours);
        let (their_time, their_sum) = time(inputs, &mut theirs);
        best = [best[0].min(our_time), best[1].min(their_time)];
        same &= our_sum == their_sum;
    }
    line(call, unit, inputs, best[0], Some(best[1]));
    if !same {
        eprintln!("bench: the results of {call} differ");
    }
}

/// Times ours where Rust has no such function.
#[cfg(drawing)]
pub fn alone<I>(call: &str, unit: Unit, inputs: &[I], mut ours: impl FnMut(&I) -> u32) {
    let best = (0..ROUNDS).map(|_| time(inputs, &mut ours).0).fold(f64::INFINITY, f64::min);
    line(call, unit, inputs, best, None);
}

/// Makes a call that is lent the places of its two counts, and gives how many numbers it wrote or needs.
#[cfg(drawing)]
pub fn numbers_counted(call: impl FnOnce(*mut usize, *mut usize) -> u32) -> u32 {
    let [mut codes, mut numbers] = [0; 2];
    let refusal = call(&mut codes, &mut numbers);
    assert_eq!(refusal, 0);
    numbers as u32
}
