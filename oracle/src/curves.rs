//! Compares the lengths of single curves whose coordinates are of the kinds on which a quick way may go wrong.

use crate::length::length;
use crate::lists::{accepted, LIMIT};
use crate::random::Random;
use crate::report::Report;
use source::Path;

const MOVE: u8 = 0;
const CUBIC: u8 = 2;
const QUAD: u8 = 4;

/// So many cubics are compared for each quad.
const CUBICS: usize = 5;

pub fn compare(random: &mut Random, count: usize, report: &mut Report) {
    for _ in 0..CUBICS * count {
        compare_curve(random, report, "length of a cubic", CUBIC, 8);
    }
    for _ in 0..count {
        compare_curve(random, report, "length of a quad", QUAD, 6);
    }
}

fn compare_curve(random: &mut Random, report: &mut Report, name: &'static str, code: u8, size: usize) {
    let numbers = coordinates(random, size);
    let list = Path { codes: vec![MOVE, code], numbers };
    let theirs = source::path_length(&list);
    let [refusal, ours] = length(&list);
    if refusal == 0 {
        report.compare(name, &list.numbers, f32::from_bits(ours), theirs);
    } else {
        report.count(false, || format!("{name} is refused with {refusal}"));
    }
}

/// The numbers of one curve, all of one kind; at times a point stands twice, or a number is a zero.
fn coordinates(random: &mut Random, size: usize) -> Vec<f32> {
    let kind = random.bits(3);
    let largest = random.between(-120, 21);
    let mut numbers: Vec<f32> = (0..size).map(|_| number(random, kind, largest)).collect();
    if random.bits(2) == 0 {
        let [from, to] = [0; 2].map(|_| 2 * (random.bits(32) as usize % (size / 2)));
        numbers.copy_within(from..from + 2, to);
    }
    if random.bits(2) == 0 {
        for x in &mut numbers {
            if random.bits(1) == 0 {
                *x = 0.0 * random.sign();
            }
        }
    }
    numbers
}

fn number(random: &mut Random, kind: u64, largest: i64) -> f32 {
    match kind {
        0 => random.with_exponent(-4, 12),
        1 => random.between(-1 << 24, 1 << 24) as f32 / 4096.0,
        2 => random.between(-1 << 23, 1 << 23) as f32 / 1024.0,
        // At most 13 binades apart, or just beyond.
        3 => random.with_exponent((largest - 13).max(-126), largest),
        4 => random.with_exponent((largest - 14).max(-126), largest),
        5 => random.with_exponent(-126, 21),
        6 => random.between(-20, 20) as f32,
        _ if random.bits(3) == 0 => LIMIT * random.sign(),
        _ => accepted(random.float()),
    }
}
