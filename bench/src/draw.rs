//! Times drawing vertex lists, through the C interface, against the Rust's own function over its stand-ins.

use crate::interface::jengafir_draw_path;
use crate::timing::{compare, numbers_counted, Unit};
use crate::unit_numbers;
use source::{BezierPath, BezierVertex};
use std::hint::black_box;

pub const VERTICES: usize = 1_024;
pub const A_VERTEX: Unit = ("vertex", VERTICES);
/// So many lists that no processor remembers which segments are lines.
const LISTS: usize = 64;

/// The kinds of lists, and in how many of 16 cases a segment is a line.
pub const KINDS: [(&str, u32); 3] = [("cubics", 0), ("half lines", 8), ("lines", 16)];

/// A closed list, in the form of either side.
pub struct Drawing {
    pub numbers: Vec<f32>,
    path: BezierPath,
}

/// Vertices from -4096 to 4096 with tangents up to 512; each segment is a line in so many of 16 cases.
fn drawing(unit: &mut impl FnMut() -> f32, lines_of_16: u32) -> Drawing {
    let mut numbers: Vec<f32> = (0..6 * VERTICES).map(|i| unit() * if i % 6 < 2 { 4096.0 } else { 512.0 }).collect();
    for i in 0..VERTICES {
        if (unit() + 1.0) * 8.0 < lines_of_16 as f32 {
            let next = (i + 1) % VERTICES;
            numbers[6 * i + 4..6 * i + 6].fill(0.0);
            numbers[6 * next + 2..6 * next + 4].fill(0.0);
        }
    }
    let vertices = numbers.chunks(6).map(|v| BezierVertex {
        vertex: [v[0], v[1]],
        in_tangent: [v[2], v[3]],
        out_tangent: [v[4], v[5]],
    });
    let path = BezierPath { closed: true, vertices: vertices.collect() };
    Drawing { numbers, path }
}

pub fn drawings(lines_of_16: u32) -> Vec<Drawing> {
    let mut unit = unit_numbers();
    (0..LISTS).map(|_| drawing(&mut unit, lines_of_16)).collect()
}

/// Draws with ours, and gives how many numbers were written.
fn draw(drawing: &Drawing, codes: &mut [u8], numbers: &mut [f32]) -> u32 {
    numbers_counted(|codes_written, numbers_written| unsafe {
        jengafir_draw_path(
            1,
            drawing.numbers.as_ptr(),
            drawing.numbers.len(),
            VERTICES,
            codes.as_mut_ptr(),
            codes.len(),
            numbers.as_mut_ptr(),
            numbers.len(),
            codes_written,
            numbers_written,
        )
    })
}

/// Draws with theirs, and gives how many numbers were written.
fn theirs(drawing: &Drawing) -> u32 {
    black_box(source::bezier_path(&drawing.path)).unwrap().numbers.len() as u32
}

pub fn run() {
    for (name, lines_of_16) in KINDS {
        let mut codes = [0; VERTICES + 2];
        let mut numbers = [0.0; 6 * VERTICES + 2];
        let ours = |d: &Drawing| draw(d, &mut codes, black_box(&mut numbers));
        compare(&format!("draw_path, {name}"), A_VERTEX, &drawings(lines_of_16), ours, theirs);
    }
}
