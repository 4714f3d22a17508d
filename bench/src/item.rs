//! Times drawing rectangles, through the C interface, against the Rust's own function over its stand-ins, and drawing
//! ellipses, whose walk the Rust has in no file.

use crate::interface::jengafir_draw_item;
use crate::timing::{alone, compare, numbers_counted, Unit};
use crate::unit_numbers;
use source::ShapeItem;
use std::hint::black_box;

pub const RC: u32 = 2;
pub const EL: u32 = 3;
pub const A_RECTANGLE: Unit = ("rectangle", 1);
const RECTANGLES: usize = 1_024;
/// No rectangle or ellipse has more codes or numbers.
const MOST_CODES: usize = 10;
const MOST_NUMBERS: usize = 34;

/// A rectangle, in the form of either side.
pub struct Rectangle {
    pub numbers: [f32; 5],
    pub item: ShapeItem,
}

/// From -4096 to 4096, up to 512 in size, with this part of half its smaller side as roundness.
pub fn rectangle(unit: &mut impl FnMut() -> f32, roundness: f32) -> Rectangle {
    let [x, y, width, height] = [unit() * 4096.0, unit() * 4096.0, 260.0 + unit() * 252.0, 260.0 + unit() * 252.0];
    let roundness = width.min(height) * 0.5 * roundness;
    let item = ShapeItem {
        item_type: "rc".to_string(),
        position: Some([x, y]),
        size: Some([width, height]),
        roundness: Some(roundness),
        ..ShapeItem::default()
    };
    Rectangle { numbers: [x, y, width, height, roundness], item }
}

/// The row of a rectangle, or of the ellipse in it, whose numbers stand first.
pub fn row(kind: u32) -> [u32; 6] {
    [kind, 0, 0, 0, 0, 0]
}

/// Draws a rectangle, or the ellipse in it, with ours, and gives how many numbers were written.
fn draw(kind: u32, rectangle: &Rectangle, codes: &mut [u8], numbers: &mut [f32]) -> u32 {
    let row = row(kind);
    numbers_counted(|codes_written, numbers_written| unsafe {
        jengafir_draw_item(
            row.as_ptr(),
            row.len(),
            rectangle.numbers.as_ptr(),
            rectangle.numbers.len(),
            codes.as_mut_ptr(),
            codes.len(),
            numbers.as_mut_ptr(),
            numbers.len(),
            codes_written,
            numbers_written,
        )
    })
}

/// Draws with theirs, and gives how many numbers were written.
fn theirs(rectangle: &Rectangle) -> u32 {
    black_box(source::rect_path(&rectangle.item)).unwrap().numbers.len() as u32
}

pub fn rectangles(roundness: f32) -> Vec<Rectangle> {
    let mut unit = unit_numbers();
    (0..RECTANGLES).map(|_| rectangle(&mut unit, roundness)).collect()
}

pub fn run() {
    let mut codes = [0; MOST_CODES];
    let mut numbers = [0.0; MOST_NUMBERS];
    for (call, roundness) in [("draw_item, plain", 0.0), ("draw_item, round", 0.5)] {
        let ours = |r: &Rectangle| draw(RC, r, &mut codes, black_box(&mut numbers));
        compare(call, A_RECTANGLE, &rectangles(roundness), ours, theirs);
    }
    let ours = |r: &Rectangle| draw(EL, r, &mut codes, black_box(&mut numbers));
    alone("draw_item, ellipse", ("ellipse", 1), &rectangles(0.0), ours);
}
