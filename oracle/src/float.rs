//! Compares the float functions: Rust's own, and an exact root in whole numbers, against ours.

use crate::interface::{
    jengafir_abs, jengafir_ceil, jengafir_floor, jengafir_hypot,
    jengafir_mul_add, jengafir_rem_euclid_360, jengafir_round,
};
use crate::random::{Random, EDGES};
use crate::report::Report;
use crate::root::{exact_hypot, isqrt};
use crate::sample::{bits, line, Case};

pub fn compare(random: &mut Random, count: usize, report: &mut Report) {
    compare_edges(report);
    for _ in 0..count {
        mul_add(report, triple(random));
        hypot(report, pair(random));
        let x = around_half(random);
        floor(report, x);
        ceil(report, x);
        round(report, x);
        abs(report, random.float());
        rem_euclid_360(report, around_turn(random));
    }
}

/// Every call whose operands are all edges.
fn compare_edges(report: &mut Report) {
    let edges = EDGES.map(f32::from_bits);
    for a in edges {
        floor(report, a);
        ceil(report, a);
        round(report, a);
        abs(report, a);
        rem_euclid_360(report, a);
        for b in edges {
            hypot(report, [a, b]);
            for c in edges {
                mul_add(report, [a, b, c]);
            }
        }
    }
}

/// Built by oracle/run for any x86-64, f32::mul_add is a call of fmaf in C's maths library. That is
/// code that shares nothing with ours, and so a good judge.
fn mul_add(report: &mut Report, [a, b, c]: [f32; 3]) {
    let ours = unsafe { jengafir_mul_add(a, b, c) };
    report.compare("mul_add", &[a, b, c], ours, a.mul_add(b, c));
}

fn hypot(report: &mut Report, [x, y]: [f32; 2]) {
    let ours = unsafe { jengafir_hypot(x, y) };
    report.compare("hypot", &[x, y], ours, exact_hypot(x, y));
}

fn floor(report: &mut Report, x: f32) {
    report.compare("floor", &[x], unsafe { jengafir_floor(x) }, x.floor());
}

fn ceil(report: &mut Report, x: f32) {
    report.compare("ceil", &[x], unsafe { jengafir_ceil(x) }, x.ceil());
}

fn round(report: &mut Report, x: f32) {
    report.compare("round", &[x], unsafe { jengafir_round(x) }, x.round());
}

fn abs(report: &mut Report, x: f32) {
    report.compare("abs", &[x], unsafe { jengafir_abs(x) }, x.abs());
}

fn rem_euclid_360(report: &mut Report, x: f32) {
    let ours = unsafe { jengafir_rem_euclid_360(x) };
    report.compare("rem_euclid_360", &[x], ours, x.rem_euclid(360.0));
}

/// The operands of a sum: any floats, or some whose sum is hard to round.
fn triple(random: &mut Random) -> [f32; 3] {
    match random.bits(3) {
        0 | 1 => near_middle(random),
        2 => near_cancellation(random),
        3 => near_subnormal(random),
        4 => [random.with_exponent(-8, 8), random.with_exponent(-8, 8), random.with_exponent(-20, 20)],
        _ => [random.float(), random.float(), random.float()],
    }
}

/// A product that lies midway between two neighbours of the addend, or a hair beside that.
fn near_middle(random: &mut Random) -> [f32; 3] {
    let a = random.odd(24);
    let hair = random.between(0, 8) as u64 * 2 + 1;
    let hair = if random.bits(1) == 0 { hair } else { hair.wrapping_neg() };
    let b = hair.wrapping_mul(inverse(a)) % (1 << 24);
    let middle = (a * b).wrapping_sub(hair);
    let unit = 2u64 << middle.trailing_zeros().min(60);
    let scale = 2f32.powi(random.between(-100, 20) as i32);
    let c = random.odd(24) as f32 * unit as f32 * scale;
    [random.sign() * a as f32, b as f32 * scale, random.sign() * c]
}

/// The number whose product with an odd a is 1, modulo 2^64, by Newton's steps.
fn inverse(a: u64) -> u64 {
    let mut b = a;
    for _ in 0..5 {
        b = b.wrapping_mul(2u64.wrapping_sub(a.wrapping_mul(b)));
    }
    b
}

/// An addend that takes away the product, or all but its last places.
fn near_cancellation(random: &mut Random) -> [f32; 3] {
    let a = random.float();
    let b = random.float();
    [a, b, random.nudged(-(a * b))]
}

/// A product and an addend of a size around the least normal number.
fn near_subnormal(random: &mut Random) -> [f32; 3] {
    let exponent = random.between(-80, -60);
    let a = random.with_exponent(exponent, exponent);
    let b = random.with_exponent(-152 - exponent, -124 - exponent);
    let digits = random.between(1, 25) as u32;
    [a, b, random.sign() * f32::from_bits(random.bits(digits) as u32)]
}

/// Two legs: any floats, or a long one and one 10 to 15 binades shorter, or whole numbers.
fn pair(random: &mut Random) -> [f32; 2] {
    match random.bits(3) {
        0 | 1 => {
            let exponent = random.between(-100, 120);
            let shorter = exponent - random.between(10, 15);
            [random.with_exponent(exponent, exponent), random.with_exponent(shorter, shorter)]
        }
        2 | 3 => triangle(random),
        4 => [random.with_exponent(-8, 12), random.with_exponent(-8, 12)],
        _ => [random.float(), random.float()],
    }
}

/// The legs of a right triangle whose sides are whole numbers. Where the longest has 25 binary
/// digits, it lies midway between two floats.
fn triangle(random: &mut Random) -> [f32; 2] {
    let k = random.between(0, 63) as u64 * 2 + 1;
    let m = isqrt(((1 << 24 | random.bits(24)) / k) as u128) as u64;
    let n = random.bits(32) % m;
    let scale = 2f32.powi(random.between(-40, 40) as i32);
    [random.sign() * (k * (m * m - n * n)) as f32 * scale, (2 * k * m * n) as f32 * scale]
}

/// Any float, or one a few places from half a whole number.
fn around_half(random: &mut Random) -> f32 {
    if random.bits(1) == 0 {
        return random.float();
    }
    let digits = random.between(1, 25) as u32;
    let half = random.odd(digits) as f32 * 0.5;
    random.sign() * random.nudged(half)
}

/// Any float, or one a few places from a multiple of 360.
fn around_turn(random: &mut Random) -> f32 {
    if random.bits(1) == 0 {
        return random.float();
    }
    let digits = random.between(1, 24) as u32;
    let scale = 2f64.powi(random.between(0, 95) as i32);
    let turn = (random.bits(digits) as f64 * 360.0 * scale) as f32;
    random.sign() * random.nudged(turn)
}

// The sample.

/// So many calls of each function are sampled.
const SAMPLED: usize = 12;

pub fn sample(random: &mut Random) -> Vec<Case> {
    let mut cases = Vec::new();
    for _ in 0..SAMPLED {
        let [a, b, c] = triple(random);
        cases.push(case("mul_add", &[a, b, c], a.mul_add(b, c)));
        let [x, y] = pair(random);
        cases.push(case("hypot", &[x, y], exact_hypot(x, y)));
        let x = around_half(random);
        cases.push(case("floor", &[x], x.floor()));
        cases.push(case("ceil", &[x], x.ceil()));
        cases.push(case("round", &[x], x.round()));
        let x = random.float();
        cases.push(case("abs", &[x], x.abs()));
        let x = around_turn(random);
        cases.push(case("rem", &[x], x.rem_euclid(360.0)));
        let [x, y] = unlike(random);
        cases.push(case("min", &[x, y], x.min(y)));
        cases.push(case("max", &[x, y], x.max(y)));
        let (x, low, high) = around_range(random);
        cases.push(case("clamp", &[x, low, high], x.clamp(low, high)));
    }
    cases
}

/// A call whose result is printed on its own line; any NaN is `nan`.
fn case(word: &str, operands: &[f32], result: f32) -> Case {
    let call = line(word, bits(operands));
    let result = if result.is_nan() { "nan".to_string() } else { format!("{:08x}", result.to_bits()) };
    let printed = format!("{call} = {result}\n");
    Case { call, printed }
}

/// Whether Rust tells the smaller: of equal numbers it leaves that open, and of signalling NaNs.
fn is_told(x: f32, y: f32) -> bool {
    let is_signalling = |x: f32| x.is_nan() && x.to_bits() & 0x400000 == 0;
    x != y && !is_signalling(x) && !is_signalling(y)
}

/// Two numbers, beside each other half the time.
fn unlike(random: &mut Random) -> [f32; 2] {
    loop {
        let x = random.float();
        let y = if random.bits(1) == 0 { random.nudged(x) } else { random.float() };
        if is_told(x, y) {
            return [x, y];
        }
    }
}

/// A number and the ends of a range, which it is often beside.
fn around_range(random: &mut Random) -> (f32, f32, f32) {
    loop {
        let [low, high] = unlike(random);
        let x = if random.bits(1) == 0 { random.nudged(low) } else { random.float() };
        if low < high && is_told(x, low) && is_told(x, high) {
            return (x, low, high);
        }
    }
}
