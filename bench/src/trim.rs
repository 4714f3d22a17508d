//! Times trims, through the C interface, against the Rust's own functions over their stand-ins.

use crate::interface::{jengafir_trim_lengths, jengafir_trim_ranges};
use crate::length::{lists, A_COMMAND, KINDS};
use crate::timing::compare;
use crate::unit_numbers;
use source::{Path, TrimStyle};

const TRIMS: usize = 1 << 14;

/// Start and end from 0 to 100 and an offset within a turn of either sign, all in hundredths.
fn trims() -> Vec<TrimStyle> {
    let mut unit = unit_numbers();
    let mut hundredths = |most: f32| (unit() * most * 100.0).round() / 100.0;
    let any = |_| TrimStyle {
        start: hundredths(50.0) + 50.0,
        end: hundredths(50.0) + 50.0,
        offset_degrees: hundredths(360.0),
        mode: 1,
    };
    (0..TRIMS).map(any).collect()
}

/// The bits of all numbers, added up.
pub fn bits<'a>(numbers: impl IntoIterator<Item = &'a f32>) -> u32 {
    numbers.into_iter().fold(0, |sum, x| sum.wrapping_add(x.to_bits()))
}

fn ranges(trim: &TrimStyle) -> u32 {
    let mut ranges = [0.0; 4];
    let (mut count, mut whole) = (0, 0);
    let places = ranges.as_mut_ptr();
    let (start, end, offset) = (trim.start, trim.end, trim.offset_degrees);
    let refusal = unsafe { jengafir_trim_ranges(start, end, offset, places, &mut count, &mut whole) };
    assert_eq!(refusal, 0);
    bits(&ranges[..2 * count]).wrapping_add(whole)
}

/// The Rust's ranges are a list of their own, as in its source.
fn their_ranges(trim: &TrimStyle) -> u32 {
    let (ranges, full) = source::trim_ranges(trim);
    bits(ranges.iter().flat_map(|(start, end)| [start, end])).wrapping_add(full as u32)
}

/// A trim and the path that it trims.
type Trimmed = (TrimStyle, Path);

fn cuts((trim, path): &Trimmed) -> u32 {
    let mut cuts = [0.0; 6];
    let (mut count, mut whole) = (0, 0);
    let refusal = unsafe {
        jengafir_trim_lengths(
            trim.start,
            trim.end,
            trim.offset_degrees,
            trim.mode,
            path.codes.as_ptr(),
            path.codes.len(),
            path.numbers.as_ptr(),
            path.numbers.len(),
            cuts.as_mut_ptr(),
            &mut count,
            &mut whole,
        )
    };
    assert_eq!(refusal, 0);
    bits(&cuts[..3 * count])
}

/// The lengths that the Rust hands to its dashes. No path here is visible whole, so each is cut.
fn their_cuts((trim, path): &Trimmed) -> u32 {
    bits(&source::trimmed(path, trim).unwrap().numbers)
}

pub fn run() {
    compare("trim_ranges", ("trim", 1), &trims(), ranges, their_ranges);
    for (name, code) in KINDS {
        let trimmed: Vec<Trimmed> = trims().into_iter().zip(lists(code)).collect();
        compare(&format!("trim_lengths, {name}"), A_COMMAND, &trimmed, cuts, their_cuts);
    }
}
