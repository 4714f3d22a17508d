//! Compares trims: the Rust's own functions, under document 01's refusals, against ours.

use crate::draw::check;
use crate::interface::{jengafir_trim_lengths, jengafir_trim_ranges};
use crate::length::{judged, list_line, short_list, shown};
use crate::lists::any_list_or_ellipse;
use crate::random::Random;
use crate::report::{Outcomes, Report};
use crate::sample::{bits, filled, line, Case, OLD_NUMBER};
use source::{Path, TrimStyle};

/// So many ranges for each list that is trimmed.
const RANGES: usize = 4;

pub fn compare(random: &mut Random, count: usize, report: &mut Report) {
    let mut ranges: Outcomes = [0; 13];
    let mut lengths: Outcomes = [0; 13];
    compare_edges(report, &mut ranges);
    for _ in 0..count {
        for _ in 0..RANGES {
            compare_ranges(report, &mut ranges, &any_trim(random));
        }
    }
    for _ in 0..count.div_ceil(RANGES) {
        let trim = any_trim(random);
        compare_lengths(report, &mut lengths, &trim, &any_list_or_ellipse(random));
    }
    report.outcomes.push(("trim_ranges", ranges));
    report.outcomes.push(("trim_lengths", lengths));
}

// Trims.

/// Percentages around which a trim changes its form.
const PERCENTS: [f32; 13] = [0.0, 0.005, 0.01, 0.015, 0.02, 1.0, 25.0, 30.0, 50.0, 50.01, 75.0, 99.99, 100.0];

/// Numbers of any kind that stand for percentages and for offsets.
const ODDITIES: [f32; 14] = [
    -0.0, f32::MIN_POSITIVE, -1e-45, 1e-45, -0.0000001, 0.0000001, -1.0, 101.0, 12345.678, -1e30, f32::MAX, f32::INFINITY,
    f32::NEG_INFINITY, f32::NAN,
];

/// Offsets at multiples of 45, and at the steps of 0.0001 of a turn.
fn offsets() -> impl Iterator<Item = f32> {
    (-17..=17).map(|k| k as f32 * 45.0).chain([0.018, 0.036, 0.054, -0.018, -0.036, 359.964, 359.982, 72000.0])
}

/// The numbers and those up to two places beside them, with the oddities.
fn with_neighbours(numbers: impl Iterator<Item = f32>, places: i32) -> Vec<f32> {
    let beside = numbers.flat_map(|x| {
        (-places..=places).map(move |place| f32::from_bits(x.to_bits().wrapping_add(place as u32)))
    });
    beside.chain(ODDITIES).collect()
}

/// Every trim whose numbers are such.
fn compare_edges(report: &mut Report, outcomes: &mut Outcomes) {
    let percents = with_neighbours(PERCENTS.into_iter(), 2);
    let offsets = with_neighbours(offsets(), 1);
    for &start in &percents {
        for &end in &percents {
            for &offset_degrees in &offsets {
                compare_ranges(report, outcomes, &TrimStyle { start, end, offset_degrees, mode: 1 });
            }
        }
    }
}

fn any_percent(random: &mut Random) -> f32 {
    match random.bits(4) {
        0 => {
            let percent = PERCENTS[random.bits(32) as usize % PERCENTS.len()];
            random.nudged(percent)
        }
        1 => random.float(),
        2 => random.bits(24) as f32 / (1 << 24) as f32 * 100.0,
        3 => ODDITIES[random.bits(32) as usize % ODDITIES.len()],
        _ => random.between(-300, 10_300) as f32 / 100.0,
    }
}

fn any_offset(random: &mut Random) -> f32 {
    match random.bits(3) {
        0 => {
            let turn = random.between(-16, 16) as f32 * 90.0;
            random.nudged(turn)
        }
        1 => random.float(),
        2 => random.sign() * random.bits(24) as f32 / (1 << 24) as f32 * 720.0,
        3 => ODDITIES[random.bits(32) as usize % ODDITIES.len()],
        4 => 0.0,
        _ => random.between(-72_000, 72_000) as f32 / 100.0,
    }
}

fn any_trim(random: &mut Random) -> TrimStyle {
    let start = any_percent(random);
    let end = if random.bits(4) == 0 { random.nudged(start) } else { any_percent(random) };
    let offset_degrees = any_offset(random);
    let mode = if random.bits(3) == 0 { random.bits(8) as u8 } else { 1 + random.bits(1) as u8 };
    TrimStyle { start, end, offset_degrees, mode }
}

// The comparison.

/// All that a call leaves behind: the number, the count, the mark, and the bits in every place of the array.
#[derive(Debug, PartialEq)]
struct Left<const N: usize> {
    number: u32,
    count: usize,
    whole: u32,
    places: [u32; N],
}

impl<const N: usize> Left<N> {
    /// Before the call: each place has content of its own, which no answer has.
    fn before() -> Left<N> {
        Left { number: u32::MAX, count: usize::MAX, whole: 0x5a5a, places: std::array::from_fn(|i| 0xffc0_0000 + i as u32) }
    }

    /// What is to be left behind where this is answered: how many ranges, the mark, and the numbers.
    fn theirs(answer: Result<(usize, bool, Vec<f32>), u32>) -> Left<N> {
        let mut left = Left { number: 0, count: 0, ..Left::before() };
        match answer {
            Err(refusal) => left.number = refusal,
            Ok((count, whole, numbers)) => {
                left.count = count;
                left.whole = whole as u32;
                for (place, x) in left.places.iter_mut().zip(numbers) {
                    *place = x.to_bits();
                }
            }
        }
        left
    }
}

fn compare_ranges(report: &mut Report, outcomes: &mut Outcomes, trim: &TrimStyle) {
    let theirs = Left::<4>::theirs(visible(trim));
    let mut ours = Left::<4>::before();
    let places = ours.places.as_mut_ptr().cast();
    let (start, end, offset) = (trim.start, trim.end, trim.offset_degrees);
    ours.number = unsafe { jengafir_trim_ranges(start, end, offset, places, &mut ours.count, &mut ours.whole) };
    outcomes[theirs.number as usize] += 1;
    report.count(ours == theirs, || format!("ranges of {}: ours {ours:x?}, theirs {theirs:x?}", shown_trim(trim)));
}

fn compare_lengths(report: &mut Report, outcomes: &mut Outcomes, trim: &TrimStyle, list: &Path) {
    let theirs = Left::<6>::theirs(cut(trim, list));
    let mut ours = Left::<6>::before();
    let places = ours.places.as_mut_ptr().cast();
    let (codes, numbers) = (&list.codes, &list.numbers);
    ours.number = unsafe {
        jengafir_trim_lengths(
            trim.start,
            trim.end,
            trim.offset_degrees,
            trim.mode,
            codes.as_ptr(),
            codes.len(),
            numbers.as_ptr(),
            numbers.len(),
            places,
            &mut ours.count,
            &mut ours.whole,
        )
    };
    outcomes[theirs.number as usize] += 1;
    report.count(ours == theirs, || {
        format!("cuts by {} of {}: ours {ours:x?}, theirs {theirs:x?}", shown_trim(trim), shown(list))
    });
}

/// How many ranges are visible, whether they are the whole path, and their ends.
fn visible(trim: &TrimStyle) -> Result<(usize, bool, Vec<f32>), u32> {
    finite(trim)?;
    let (ranges, full) = source::trim_ranges(trim);
    let ends = ranges.iter().flat_map(|&(start, end)| [start, end]).collect();
    Ok((ranges.len(), full, ends))
}

/// The checks in document 01's order: 3, 4, those of the list, 8. Then what `trim_path` hands to its dashes.
fn cut(trim: &TrimStyle, list: &Path) -> Result<(usize, bool, Vec<f32>), u32> {
    finite(trim)?;
    check(trim.mode == 1 || trim.mode == 2, 4)?;
    judged(list)?;
    let trimmed = source::trimmed(list, trim).ok_or(8u32)?;
    let (ranges, full) = source::trim_ranges(trim);
    // The Rust hands a path that is visible whole over as it is, with no dash: its cut lengths are document 01's.
    let cuts = if full { vec![0.0, source::path_length(list), 0.0] } else { trimmed.numbers };
    // Rust leaves open whether the larger of -0 and +0 is +0, as document 01 has it.
    let cuts = cuts.into_iter().map(|x| if x == 0.0 { 0.0 } else { x }).collect();
    Ok((ranges.len(), full, cuts))
}

fn finite(trim: &TrimStyle) -> Result<(), u32> {
    check([trim.start, trim.end, trim.offset_degrees].iter().all(|x| x.is_finite()), 3)
}

fn shown_trim(trim: &TrimStyle) -> String {
    let numbers = [trim.start, trim.end, trim.offset_degrees].map(|x| format!("{x:e} ({:08x})", x.to_bits()));
    format!("{}, mode {}", numbers.join(", "), trim.mode)
}

// The sample.

/// So many trims are sampled by themselves, half of them beside a change of form, and so many with a path.
const SAMPLED_RANGES: usize = 80;
const SAMPLED_LENGTHS: usize = 40;

/// The places of the vectors program's buffer.
const PLACES: usize = 8;

pub fn sample(random: &mut Random) -> Vec<Case> {
    let mut cases = Vec::new();
    while cases.len() < SAMPLED_RANGES {
        let trim = if cases.len() % 2 == 0 { edge_trim(random) } else { any_trim(random) };
        if let Ok(answer) = visible(&trim) {
            cases.push(Case::new(line("ranges", header(&trim)), printed(answer)));
        }
    }
    while cases.len() < SAMPLED_RANGES + SAMPLED_LENGTHS {
        let trim = any_trim(random);
        let list = short_list(random);
        let answer = match cut(&trim, &list) {
            // The Rust cuts no path that is visible whole.
            Ok((_, true, _)) => continue,
            Ok(answer) => format!("length {:08x} {}", source::path_length(&list).to_bits(), printed(answer)),
            Err(8) => "refused 8\n".to_string(),
            Err(_) => continue,
        };
        cases.push(Case::new(list_line("lengths", &header(&trim), &list), answer));
    }
    cases
}

/// A trim whose numbers are at or beside those where the answer changes its form.
fn edge_trim(random: &mut Random) -> TrimStyle {
    let percents = with_neighbours(PERCENTS.into_iter(), 2);
    let offsets = with_neighbours(offsets(), 1);
    let mut one_of = |list: &[f32]| list[random.bits(32) as usize % list.len()];
    TrimStyle { start: one_of(&percents), end: one_of(&percents), offset_degrees: one_of(&offsets), mode: 1 }
}

fn header(trim: &TrimStyle) -> [u32; 4] {
    [trim.start.to_bits(), trim.end.to_bits(), trim.offset_degrees.to_bits(), trim.mode as u32]
}

fn printed((count, whole, numbers): (usize, bool, Vec<f32>)) -> String {
    let places = filled("numbers", bits(&numbers), PLACES - numbers.len(), OLD_NUMBER.to_bits());
    format!("{} {count} mark {} {places}\n", ["nothing", "one", "two"][count], whole as u32)
}
