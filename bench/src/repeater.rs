//! Times repeaters, through the C interface, against the Rust's own functions over their stand-ins, of which document 02's
//! rotation is one.

use crate::interface::{jengafir_copy_order, jengafir_copy_transform};
use crate::timing::compare;
use crate::trim::bits;
use crate::unit_numbers;
use source::RepeaterStyle;
use std::hint::black_box;

const COPIES: usize = 4_096;
const COPY: usize = 4_000;
const REPEATERS: usize = 16;

/// Repeaters of 4,096 copies with scales around 100.
fn repeaters() -> Vec<[f32; 11]> {
    let mut unit = unit_numbers();
    let mut any = |_| {
        let mut numbers = [0.0; 11];
        numbers[0] = COPIES as f32;
        numbers[1] = unit();
        for x in &mut numbers[2..6] {
            *x = unit() * 64.0;
        }
        numbers[6] = 100.0 + unit() * 0.01;
        numbers[7] = 100.0;
        numbers[9] = 1.0;
        numbers
    };
    (0..REPEATERS).map(&mut any).collect()
}

/// The same, turned by 2 to 4 degrees a step.
fn turned(repeaters: &[[f32; 11]]) -> Vec<[f32; 11]> {
    let mut unit = unit_numbers();
    let mut repeaters = repeaters.to_vec();
    for numbers in &mut repeaters {
        numbers[8] = 3.0 + unit();
    }
    repeaters
}

fn style(numbers: &[f32; 11], mode: u8) -> RepeaterStyle {
    let &[copies, offset, ax, ay, px, py, sx, sy, rotation, start_opacity, end_opacity] = numbers;
    RepeaterStyle {
        copies,
        offset,
        mode,
        anchor: [ax, ay],
        position: [px, py],
        scale: [sx, sy],
        rotation,
        start_opacity,
        end_opacity,
    }
}

/// Puts the order down with ours, and gives the number of copies and the first of them, added up.
fn order(repeater: &[f32; 11], mode: u8, order: &mut [u32]) -> u32 {
    let mut count = 0;
    let refusal =
        unsafe { jengafir_copy_order(repeater.as_ptr(), mode, order.as_mut_ptr(), order.len(), &mut count) };
    assert_eq!(refusal, 0);
    count as u32 + order[0]
}

/// The Rust's order is a list of its own, as in its source.
fn their_order(repeater: &[f32; 11], mode: u8) -> u32 {
    let order = black_box(source::copy_order(&style(repeater, mode)));
    (order.len() + order[0]) as u32
}

fn transform(repeater: &[f32; 11]) -> u32 {
    let mut matrix = [0.0; 7];
    let mut count = 0;
    let refusal = unsafe { jengafir_copy_transform(repeater.as_ptr(), 1, COPY, matrix.as_mut_ptr(), 7, &mut count) };
    assert_eq!(refusal, 0);
    bits(&matrix)
}

fn their_transform(repeater: &[f32; 11]) -> u32 {
    let transform = source::copy_transform(&style(repeater, 1), COPY);
    bits(&transform.matrix.0).wrapping_add(transform.opacity.to_bits())
}

pub fn run() {
    let repeaters = repeaters();
    for (call, mode) in [("copy_order, mode 1", 1), ("copy_order, mode 2", 2)] {
        let mut places = [0; COPIES];
        let ours = |r: &[f32; 11]| order(r, mode, black_box(&mut places));
        compare(call, ("order", 1), &repeaters, ours, |r| their_order(r, mode));
    }
    compare("copy_transform, 4,000", ("call", 1), &repeaters, transform, their_transform);
    compare("copy_transform, 4,000 turned", ("call", 1), &turned(&repeaters), transform, their_transform);
}
