//! Sines and cosines of whole numbers of sixteenths of a degree, worked out by whole numbers: a reading of document 02, since
//! the Rust rotates by a function of another library, whose body is in no file.

/// So many sixteenths are a right angle, and a whole turn.
const QUARTER: i64 = 1_440;
const TURN: i64 = 4 * QUARTER;

/// Numbers between the whole ones are given in parts of 2^-60.
const DIGITS: u32 = 60;
/// Pi, rounded down.
const PI: u128 = 0x3243_f6a8_885a_308d;

/// For each of 0 to 90 degrees by sixteenths the whole number nearest to 2^30 times the sine.
static SINES: [u32; QUARTER as usize + 1] = table();

const fn table() -> [u32; QUARTER as usize + 1] {
    let mut sines = [0; QUARTER as usize + 1];
    let mut k = 0;
    while k < sines.len() {
        sines[k] = nearest_sine(k as u128);
        k += 1;
    }
    sines
}

/// The sine by its Taylor sum, times 2^30, with a half added and rounded down.
const fn nearest_sine(k: u128) -> u32 {
    const HALF: u128 = 1 << (DIGITS - 31);
    const STEP: u128 = 1 << (DIGITS - 30);
    let sum = taylor_sum(k * PI / 2_880) + HALF;
    // Pi, its part and the terms are off by less than 100 parts together.
    assert!(sum % STEP >= 100 && sum % STEP <= STEP - 100);
    (sum / STEP) as u32
}

/// The sine of x parts in parts. The terms that are taken away are summed apart, so that no number is negative.
const fn taylor_sum(x: u128) -> u128 {
    let square = x * x >> DIGITS;
    let mut sums = [0, 0];
    let mut term = x;
    let mut n = 0;
    while term > 0 {
        sums[n % 2] += term;
        n += 1;
        term = (term * square >> DIGITS) / (2 * n * (2 * n + 1)) as u128;
    }
    sums[0] - sums[1]
}

/// An angle in degrees by sixteenths, half away from zero, and reduced by whole turns.
pub fn sixteenths(degrees: f32) -> i64 {
    ((16.0 * degrees).round() as i64).rem_euclid(TURN)
}

/// The f32 nearest to a sine of the table, with its sign in the whole turn. A sine of zero is +0.
pub fn sine(sixteenths: i64) -> f32 {
    let at = sixteenths.rem_euclid(TURN);
    let (quarter, rest) = (at / QUARTER, at % QUARTER);
    let place = if quarter % 2 == 0 { rest } else { QUARTER - rest };
    // Both steps: nearest with ties to even, and exact.
    let size = SINES[place as usize] as f32 / (1u32 << 30) as f32;
    if quarter >= 2 && place > 0 { -size } else { size }
}

pub fn cosine(sixteenths: i64) -> f32 {
    sine(sixteenths + QUARTER)
}
