//! Times merges, through the C interface, against the Rust's own function over its stand-ins; of ellipses, alone.

use crate::interface::jengafir_merge;
use crate::item::{rectangle, EL, RC};
use crate::timing::{alone, compare, numbers_counted, Unit};
use crate::unit_numbers;
use source::{BezierPath, BezierVertex, ShapeItem};
use std::hint::black_box;

const SH: u32 = 1;
const MM: u32 = 13;
const VERTICES: usize = 100;
pub const A_MERGE: Unit = ("merge", 1);
/// So many merges that no processor remembers which segments are lines.
const MERGES: usize = 64;
/// No merge here has more codes or numbers.
const MOST_CODES: usize = 1_100;
const MOST_NUMBERS: usize = 6_200;

/// A merge, in the form of either side.
pub struct Merge {
    pub rows: Vec<u32>,
    pub numbers: Vec<f32>,
    items: Vec<ShapeItem>,
}

impl Merge {
    /// So many sources and the merge after them; `source` appends the numbers of each and gives its item.
    fn new(kind: u32, count: usize, mut source: impl FnMut(&mut Vec<f32>) -> ShapeItem) -> Merge {
        let mut merge = Merge { rows: Vec::new(), numbers: Vec::new(), items: Vec::new() };
        let [closed, vertices] = if kind == SH { [1, VERTICES as u32] } else { [0, 0] };
        for _ in 0..count {
            merge.rows.extend([kind, 0, 0, closed, merge.numbers.len() as u32, vertices]);
            merge.items.push(source(&mut merge.numbers));
        }
        merge.rows.extend([MM, 0, 0, 1, 0, 0]);
        merge.items.push(ShapeItem { item_type: "mm".to_string(), mode: 1, ..ShapeItem::default() });
        merge
    }
}

/// Merges of rectangles with this part of half their smaller side as roundness, or of the ellipses in them.
pub fn rectangles(kind: u32, roundness: f32) -> Vec<Merge> {
    let mut unit = unit_numbers();
    let source = |numbers: &mut Vec<f32>| {
        let rectangle = rectangle(&mut unit, roundness);
        numbers.extend(rectangle.numbers);
        rectangle.item
    };
    merges(kind, 100, source)
}

/// Merges of closed paths of vertices from -4096 to 4096 with tangents up to 512.
pub fn paths() -> Vec<Merge> {
    let mut unit = unit_numbers();
    let source = |numbers: &mut Vec<f32>| {
        let start = numbers.len();
        numbers.extend((0..6 * VERTICES).map(|i| unit() * if i % 6 < 2 { 4096.0 } else { 512.0 }));
        let vertices = numbers[start..].chunks(6).map(|v| BezierVertex {
            vertex: [v[0], v[1]],
            in_tangent: [v[2], v[3]],
            out_tangent: [v[4], v[5]],
        });
        let path = BezierPath { closed: true, vertices: vertices.collect() };
        ShapeItem { item_type: "sh".to_string(), path: Some(path), ..ShapeItem::default() }
    };
    merges(SH, 10, source)
}

fn merges(kind: u32, count: usize, mut source: impl FnMut(&mut Vec<f32>) -> ShapeItem) -> Vec<Merge> {
    (0..MERGES).map(|_| Merge::new(kind, count, &mut source)).collect()
}

/// Merges with ours, and gives how many numbers were written.
fn join(merge: &Merge, codes: &mut [u8], numbers: &mut [f32]) -> u32 {
    numbers_counted(|codes_written, numbers_written| unsafe {
        jengafir_merge(
            merge.rows.as_ptr(),
            merge.rows.len(),
            merge.rows.len() / 6,
            merge.numbers.as_ptr(),
            merge.numbers.len(),
            codes.as_mut_ptr(),
            codes.len(),
            numbers.as_mut_ptr(),
            numbers.len(),
            codes_written,
            numbers_written,
        )
    })
}

/// Merges with theirs, and gives how many numbers were written.
fn theirs(merge: &Merge) -> u32 {
    black_box(source::merged_path(&merge.items)).unwrap().numbers.len() as u32
}

pub fn run() {
    let merges = [
        ("merge, 100 plain", rectangles(RC, 0.0)),
        ("merge, 100 round", rectangles(RC, 0.5)),
        ("merge, 10 paths", paths()),
    ];
    let mut codes = [0; MOST_CODES];
    let mut numbers = [0.0; MOST_NUMBERS];
    for (call, merges) in merges {
        let ours = |m: &Merge| join(m, &mut codes, black_box(&mut numbers));
        compare(call, A_MERGE, &merges, ours, theirs);
    }
    let ours = |m: &Merge| join(m, &mut codes, black_box(&mut numbers));
    alone("merge, 100 ellipses", A_MERGE, &rectangles(EL, 0.0), ours);
}
