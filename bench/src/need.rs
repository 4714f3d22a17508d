//! Times telling the need of a drawing, through the C interface, on some of the inputs on which drawing is timed. Rust
//! has no such function.

use crate::draw::{drawings, Drawing, A_VERTEX, KINDS, VERTICES};
use crate::interface::{jengafir_item_need, jengafir_merge_need, jengafir_tray_need};
use crate::item::{self, row, Rectangle, A_RECTANGLE, RC};
use crate::merge::{self, Merge, A_MERGE};
use crate::timing::{alone, numbers_counted};

fn tray_need(drawing: &Drawing) -> u32 {
    let vertices = &drawing.numbers;
    numbers_counted(|codes, numbers| unsafe {
        jengafir_tray_need(1, vertices.as_ptr(), vertices.len(), VERTICES, codes, numbers)
    })
}

fn item_need(rectangle: &Rectangle) -> u32 {
    let row = row(RC);
    let items = &rectangle.numbers;
    numbers_counted(|codes, numbers| unsafe {
        jengafir_item_need(row.as_ptr(), row.len(), items.as_ptr(), items.len(), codes, numbers)
    })
}

fn merge_need(merge: &Merge) -> u32 {
    let (rows, items) = (&merge.rows, &merge.numbers);
    numbers_counted(|codes, numbers| unsafe {
        jengafir_merge_need(
            rows.as_ptr(),
            rows.len(),
            rows.len() / 6,
            items.as_ptr(),
            items.len(),
            codes,
            numbers,
        )
    })
}

pub fn run_paths() {
    for (name, lines_of_16) in KINDS {
        alone(&format!("tray_need, {name}"), A_VERTEX, &drawings(lines_of_16), tray_need);
    }
}

pub fn run_items() {
    alone("item_need, plain", A_RECTANGLE, &item::rectangles(0.0), item_need);
}

pub fn run_merges() {
    alone("merge_need, 100 plain", A_MERGE, &merge::rectangles(RC, 0.0), merge_need);
    alone("merge_need, 10 paths", A_MERGE, &merge::paths(), merge_need);
}
