//! Compares repeaters: the Rust's own functions, under document 01's refusals, against ours. One run has no rotation, and is
//! about the Rust alone. In a second one the copies are turned, by document 02's rotation put into the Rust.

use crate::draw::check;
use crate::interface::{jengafir_copy_order, jengafir_copy_transform};
use crate::random::Random;
use crate::report::{Outcomes, Report};
use crate::sample::{bits, filled, line, Case, OLD_NUMBER};
use source::RepeaterStyle;

const MOST: f32 = 4096.0;
const LIMIT: f32 = 1_048_576.0;
/// An order for so many copies that are compared: it may have 4,096 entries.
const ONE_ORDER_IN: usize = 16;

/// Makes the eleven numbers of a repeater, and its mode.
type Maker = fn(&mut Random) -> ([f32; 11], u8);

pub fn compare(random: &mut Random, count: usize, report: &mut Report) {
    compare_run(random, count, report, any_unturned, ["copy_order", "copy_transform"]);
    // More than half of these calls are accepted, so that at least as many copies as the count are worked out.
    compare_run(random, 2 * count, report, any_turned, ["copy_order, turned", "copy_transform, turned"]);
}

fn compare_run(random: &mut Random, count: usize, report: &mut Report, any: Maker, names: [&'static str; 2]) {
    let mut orders: Outcomes = [0; 13];
    let mut copies: Outcomes = [0; 13];
    for i in 0..count {
        let (numbers, mode) = any(random);
        if i % ONE_ORDER_IN == 0 {
            compare_order(random, report, &mut orders, &numbers, mode);
        }
        compare_copy(random, report, &mut copies, &numbers, mode);
    }
    report.outcomes.extend(names.into_iter().zip([orders, copies]));
}

// Repeaters.

/// Numbers at which a repeater changes its form, and numbers that it refuses.
const ODDITIES: [f32; 16] = [
    0.0, -0.0, 1.0, -1.0, 0.5, 1e-45, -1e-45, 1.1920929e-7, -1.1920929e-7, 1.1920930e-7, LIMIT, -LIMIT, 1_048_576.1,
    f32::INFINITY, f32::NEG_INFINITY, f32::NAN,
];

fn oddity(random: &mut Random) -> f32 {
    ODDITIES[random.bits(32) as usize % ODDITIES.len()]
}

fn any_copies(random: &mut Random) -> f32 {
    match random.bits(4) {
        0 => oddity(random),
        1 => random.nudged(MOST),
        2 => random.nudged(4095.0),
        3 => random.between(0, 4096) as f32,
        4 => {
            let whole = random.between(0, 20) as f32;
            random.nudged(whole)
        }
        5 => random.float(),
        _ => random.between(0, 200) as f32 / 10.0,
    }
}

fn any_offset(random: &mut Random) -> f32 {
    match random.bits(4) {
        0 => oddity(random),
        1 => random.sign() * random.nudged(MOST),
        2 => random.float(),
        3 => -(random.between(0, 20) as f32) + random.nudged(1.1920929e-7),
        4 | 5 => random.between(-40, 40) as f32,
        6 => random.sign() * random.bits(24) as f32 / 4096.0,
        _ => random.between(-3000, 3000) as f32 / 100.0,
    }
}

fn any_place(random: &mut Random) -> f32 {
    match random.bits(3) {
        0 => oddity(random),
        1 => random.float(),
        2 => random.sign() * 0.0,
        3 => random.between(-1 << 23, 1 << 23) as f32 / 1024.0,
        _ => random.with_exponent(-6, 12),
    }
}

fn any_scale(random: &mut Random) -> f32 {
    match random.bits(3) {
        0 => oddity(random),
        1 => random.sign() * random.bits(20) as f32,
        2 => random.nudged(100.0),
        3 | 4 => 100.0,
        5 => random.float(),
        _ => random.between(-2000, 30_000) as f32 / 100.0,
    }
}

fn bring_into_range(numbers: &mut [f32; 11]) {
    for x in numbers {
        if !(x.abs() <= LIMIT) {
            *x = 2.5;
        }
    }
}

/// The eleven numbers as C lends them, and the mode. Now and then one of them is of any kind, or the rotation is not zero.
fn any_repeater(random: &mut Random) -> ([f32; 11], u8) {
    let mut numbers = [0.0; 11];
    numbers[0] = any_copies(random);
    numbers[1] = any_offset(random);
    let alike = random.bits(1) == 0;
    for i in 2..6 {
        numbers[i] = any_place(random);
    }
    for i in 6..8 {
        numbers[i] = if alike { 100.0 } else { any_scale(random) };
    }
    numbers[8] = if random.bits(3) == 0 { oddity(random) } else { random.sign() * 0.0 };
    for i in 9..11 {
        numbers[i] = if random.bits(2) == 0 { any_place(random) } else { random.bits(10) as f32 / 1024.0 };
    }
    if random.bits(1) == 0 {
        bring_into_range(&mut numbers);
    }
    let mode = if random.bits(1) == 0 { 1 } else { random.bits(8) as u8 };
    (numbers, mode)
}

/// The same without a rotation, unless that is to be refused.
fn any_unturned(random: &mut Random) -> ([f32; 11], u8) {
    let (mut numbers, mode) = any_repeater(random);
    if numbers[8].abs() <= LIMIT {
        numbers[8] *= 0.0;
    }
    (numbers, mode)
}

/// Degrees: sixteenths, the middles between them, whole turns and parts of one, each at times with what is beside it;
/// any, huge and tiny ones.
fn any_rotation(random: &mut Random) -> f32 {
    let beside = random.bits(1) == 1;
    let exact = match random.bits(3) {
        0 => return oddity(random),
        1 => return random.between(-72_000, 72_000) as f32 / 100.0,
        2 => return random.with_exponent(-30, -4),
        3 => random.with_exponent(-5, 19),
        4 | 5 => random.between(-5_760, 5_760) as f32 / 16.0,
        6 => (2 * random.between(-5_800, 5_800) + 1) as f32 / 32.0,
        _ => 90.0 * random.between(-40, 40) as f32,
    };
    if beside { random.nudged(exact) } else { exact }
}

/// The same with a rotation, and mostly no other number that is refused. At times the offset is one by quarters, so that the
/// middle of two sixteenths is met by parts of a step as well.
fn any_turned(random: &mut Random) -> ([f32; 11], u8) {
    let (mut numbers, mode) = any_repeater(random);
    if random.bits(2) != 0 {
        bring_into_range(&mut numbers);
    }
    numbers[8] = any_rotation(random);
    if random.bits(2) == 0 {
        numbers[1] = random.between(-40, 40) as f32 / 4.0;
    }
    (numbers, mode)
}

fn style(numbers: &[f32; 11], mode: u8) -> RepeaterStyle {
    let &[copies, offset, ax, ay, px, py, sx, sy, rotation, start_opacity, end_opacity] = numbers;
    RepeaterStyle {
        copies,
        offset,
        mode,
        anchor: [ax, ay],
        position: [px, py],
        scale: [sx, sy],
        rotation,
        start_opacity,
        end_opacity,
    }
}

/// The checks in document 01's order: 2, 3. By document 02 a rotation is none of them.
fn sound(numbers: &[f32; 11]) -> Result<(), u32> {
    check(!(numbers[0].ceil() > MOST || numbers[1].abs() > MOST), 2)?;
    check(numbers.iter().all(|x| x.abs() <= LIMIT), 3)
}

fn count_of(numbers: &[f32; 11]) -> usize {
    numbers[0].ceil().max(0.0) as usize
}

fn order_answer(numbers: &[f32; 11], mode: u8) -> Result<Vec<u32>, u32> {
    sound(numbers)?;
    Ok(source::copy_order(&style(numbers, mode)).into_iter().map(|copy| copy as u32).collect())
}

/// The bits of a copy's seven numbers, or the refusal that comes before it is known whether they fit.
fn copy_answer(numbers: &[f32; 11], mode: u8, copy: usize) -> Result<Vec<u32>, u32> {
    sound(numbers)?;
    check(copy < count_of(numbers), 9)?;
    let transform = source::copy_transform(&style(numbers, mode), copy);
    let mut answer = transform.matrix.0.to_vec();
    answer.push(transform.opacity);
    check(answer.iter().all(|x| x.is_finite()), 10)?;
    Ok(answer.into_iter().map(f32::to_bits).collect())
}

// The comparison.

/// All that a call leaves behind: the number, the count, and every place of the buffer with a few past it.
#[derive(Debug, PartialEq)]
struct Left {
    number: u32,
    count: usize,
    places: Vec<u32>,
}

const PAST: usize = 3;

impl Left {
    fn before(length: usize) -> Left {
        let places = (0..length + PAST).map(|i| 0xffc0_0000 + i as u32).collect();
        Left { number: u32::MAX, count: usize::MAX, places }
    }

    /// What is to be left behind in a buffer of this length: the answer, if it fits.
    fn theirs(answer: Result<Vec<u32>, u32>, length: usize) -> Left {
        let mut left = Left { number: 0, count: 0, ..Left::before(length) };
        match answer {
            Err(refusal) => left.number = refusal,
            Ok(entries) if entries.len() <= length => {
                left.count = entries.len();
                left.places[..entries.len()].copy_from_slice(&entries);
            }
            Ok(_) => left.number = 11,
        }
        left
    }
}

/// A buffer that is ample, exactly full, one short or empty.
fn any_length(random: &mut Random, needed: usize) -> usize {
    match random.bits(3) {
        0 => needed.saturating_sub(1),
        1 => needed + random.between(1, 9) as usize,
        2 if random.bits(2) == 0 => 0,
        _ => needed,
    }
}

fn compare_order(random: &mut Random, report: &mut Report, outcomes: &mut Outcomes, numbers: &[f32; 11], mode: u8) {
    let answer = order_answer(numbers, mode);
    let length = any_length(random, answer.as_ref().map_or(4, Vec::len));
    let theirs = Left::theirs(answer, length);
    let mut ours = Left::before(length);
    ours.number = unsafe {
        jengafir_copy_order(numbers.as_ptr(), mode, ours.places.as_mut_ptr(), length, &mut ours.count)
    };
    outcomes[theirs.number as usize] += 1;
    report.count(ours == theirs, || format!("order of {numbers:?}, mode {mode}: ours {} {}, theirs {} {}", ours.number, ours.count, theirs.number, theirs.count));
}

fn compare_copy(random: &mut Random, report: &mut Report, outcomes: &mut Outcomes, numbers: &[f32; 11], mode: u8) {
    let copy = any_copy(random, sound(numbers).map_or(3, |()| count_of(numbers)));
    let answer = copy_answer(numbers, mode, copy);
    let length = any_length(random, 7);
    let theirs = Left::theirs(answer, length);
    let mut ours = Left::before(length);
    let places = ours.places.as_mut_ptr().cast();
    ours.number = unsafe { jengafir_copy_transform(numbers.as_ptr(), mode, copy, places, length, &mut ours.count) };
    outcomes[theirs.number as usize] += 1;
    report.count(ours == theirs, || format!("copy {copy} of {numbers:?}: ours {ours:x?}, theirs {theirs:x?}"));
}

/// Mostly a copy that is there, and mostly one of the first; at times one past the last, or a huge one.
fn any_copy(random: &mut Random, count: usize) -> usize {
    match random.bits(4) {
        0 => count,
        1 => count.saturating_sub(1),
        2 => usize::MAX >> random.bits(6),
        3 => random.bits(32) as usize % count.max(1),
        _ => random.bits(3) as usize % count.max(1),
    }
}

// The sample.

/// So many orders are sampled, of at most so many copies, and so many copies.
const SAMPLED_ORDERS: usize = 20;
const SAMPLED_ENTRIES: usize = 16;
const SAMPLED_COPIES: usize = 60;

fn is_turned(numbers: &[f32; 11]) -> bool {
    numbers[8] != 0.0
}

/// Only what is not turned is sampled: how the Rust rotates is not its own word here.
pub fn sample(random: &mut Random) -> Vec<Case> {
    let mut cases = Vec::new();
    while cases.len() < SAMPLED_ORDERS {
        let (numbers, mode) = any_repeater(random);
        let more = random.bits(1) as usize;
        let order = order_answer(&numbers, mode).ok().filter(|order| order.len() <= SAMPLED_ENTRIES);
        if let Some(order) = order.filter(|_| !is_turned(&numbers)) {
            cases.push(case("order", &[mode as u32], &numbers, &order, more, 0xeeee_eeee));
        }
    }
    while cases.len() < SAMPLED_ORDERS + SAMPLED_COPIES {
        let (numbers, mode) = any_repeater(random);
        let more = random.bits(1) as usize;
        let copy = any_copy(random, count_of(&numbers));
        let answer = copy_answer(&numbers, mode, copy).ok();
        if let Some(answer) = answer.filter(|_| !is_turned(&numbers)) {
            cases.push(case("copy", &[mode as u32, copy as u32], &numbers, &answer, more, OLD_NUMBER.to_bits()));
        }
    }
    cases
}

/// A call and what it writes to a buffer that is full or has so many places more.
fn case(word: &str, header: &[u32], numbers: &[f32; 11], answer: &[u32], more: usize, old: u32) -> Case {
    let length = (answer.len() + more) as u32;
    let call = line(word, header.iter().copied().chain([length]).chain(bits(numbers)));
    let places = filled("places", answer.iter().copied(), more, old);
    Case::new(call, format!("written {}\n{places}\n", answer.len()))
}
