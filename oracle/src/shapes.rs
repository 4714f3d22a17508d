//! Vertex lists, rectangles, ellipses and item rows of the kinds on which drawing goes wrong.

use crate::random::{Random, EDGES};

pub const MOST_VERTICES: usize = 1_024;
pub const SH: u32 = 1;
pub const RC: u32 = 2;
pub const EL: u32 = 3;

/// What is lent to a call, the buffers apart.
pub enum Input {
    Path { closed: u32, vertices: Vec<f32>, count: usize },
    Item { row: Vec<u32>, numbers: Vec<f32> },
}

/// Numbers around which a drawing changes its form: 0.0001, 0.0002 and 2^-23, with their neighbours,
/// halves of a place of coordinates, and the limit with the numbers below and past it.
const NEAR: [u32; 28] = [
    0x38d1b716, 0x38d1b717, 0x38d1b718, 0xb8d1b716, 0xb8d1b717, 0xb8d1b718, 0x3951b717, 0xb951b717, 0x3951b718,
    0x33ffffff, 0x34000000, 0x34000001, 0x34800000, 0x34800001, 0x38800000, 0x39000000, 0xb8800000, 0x40400000,
    0xc0800000, 0x44000000, 0x447fffff, 0x44800001, 0x497fffff, 0x49800000, 0xc9800000, 0x49800001, 0xc9800001,
    0x7fa00000,
];

/// Numbers that a drawing refuses.
const REFUSED: [u32; 10] = [
    0x49800001, 0xc9800001, 0x4a000000, 0x7f7fffff, 0xff7fffff, 0x7f800000, 0xff800000, 0x7fc00000, 0xffc00001,
    0x7f800001,
];

/// Every edge of arithmetic and of drawing.
pub fn edges() -> Vec<f32> {
    EDGES.iter().chain(&NEAR).map(|&bits| f32::from_bits(bits)).collect()
}

pub fn one_of(random: &mut Random, list: &[u32]) -> u32 {
    list[random.bits(32) as usize % list.len()]
}

fn refused(random: &mut Random) -> f32 {
    f32::from_bits(one_of(random, &REFUSED))
}

/// x, or 0 where x is not finite or past the limit of shapes.
fn accepted(x: f32) -> f32 {
    if x.abs() <= 1_048_576.0 { x } else { 0.0 }
}

/// What the numbers of a case are like.
#[derive(Clone, Copy)]
enum Kind {
    Random,
    Grid,
    Edge,
    Mixed,
}

fn any_kind(random: &mut Random) -> Kind {
    match random.bits(2) {
        0 => Kind::Random,
        1 => Kind::Grid,
        2 => Kind::Edge,
        _ => Kind::Mixed,
    }
}

/// A number within the limit.
fn number(random: &mut Random, kind: Kind) -> f32 {
    match kind {
        Kind::Random => random.with_exponent(-14, 19),
        Kind::Grid => random.between(-1 << 24, 1 << 24) as f32 / 1024.0,
        Kind::Edge if random.bits(1) == 0 => accepted(f32::from_bits(one_of(random, &EDGES))),
        Kind::Edge => accepted(f32::from_bits(one_of(random, &NEAR))),
        Kind::Mixed => accepted(random.float()),
    }
}

/// A tangent at x: none, one around the length at which a line becomes a curve, or any number.
fn tangent(random: &mut Random, kind: Kind, x: f32, straight: bool) -> f32 {
    if straight && random.bits(4) != 0 {
        return random.sign() * 0.0;
    }
    match random.bits(2) {
        0 => {
            let bound = if random.bits(1) == 0 { 0.0001 } else { 0.0002 };
            random.sign() * random.nudged(bound)
        }
        1 => {
            let place = f32::from_bits(x.abs().to_bits() + 1) - x.abs();
            let places = place * random.between(1, 8) as f32 / 4.0;
            random.sign() * random.nudged(places)
        }
        _ => number(random, kind),
    }
}

pub fn any_vertices(random: &mut Random, count: usize) -> Vec<f32> {
    let kind = any_kind(random);
    let straight = random.bits(1) == 0;
    let mut vertices = Vec::with_capacity(6 * count + 8);
    for _ in 0..count {
        let x = number(random, kind);
        let y = number(random, kind);
        vertices.extend([x, y]);
        for place in [x, y, x, y] {
            vertices.push(accepted(tangent(random, kind, place, straight)));
        }
    }
    vertices
}

/// A rectangle's five numbers, with a roundness around 0, 2^-23, half the smaller side, or any.
pub fn any_rectangle(random: &mut Random) -> Vec<f32> {
    let kind = any_kind(random);
    let mut numbers: Vec<f32> = (0..4).map(|_| number(random, kind)).collect();
    let half = numbers[2].abs().min(numbers[3].abs()) / 2.0;
    let roundness = match random.bits(3) {
        0 => random.sign() * 0.0,
        1 => random.nudged(f32::EPSILON),
        2 | 3 => random.nudged(half),
        4 | 5 => half * random.bits(24) as f32 / (1 << 24) as f32,
        _ => number(random, kind),
    };
    numbers.push(accepted(roundness));
    numbers
}

/// An ellipse's four numbers: of one kind or subnormal, with a centre and a size of one kind or of two, or flat.
pub fn any_ellipse(random: &mut Random) -> Vec<f32> {
    let mut numbers = Vec::new();
    for _ in ["centre", "size"] {
        let kind = any_kind(random);
        let subnormal = random.bits(2) == 0;
        numbers.extend((0..2).map(|_| if subnormal { random.subnormal() } else { number(random, kind) }));
    }
    if random.bits(3) == 0 {
        numbers[2 + random.bits(1) as usize] = random.sign() * 0.0;
    }
    if random.bits(4) == 0 {
        numbers[random.bits(1) as usize] = random.sign() * 0.0;
    }
    numbers
}

/// A number of vertices: mostly few, at times the most or one less.
fn any_count(random: &mut Random) -> usize {
    match random.bits(8) {
        0 => MOST_VERTICES,
        1 => MOST_VERTICES - 1,
        2..=5 => 10 + random.bits(5) as usize,
        6..=60 => 1,
        61..=110 => 2,
        111..=160 => 3,
        _ => random.between(4, 10) as usize,
    }
}

/// Numbers that are not to be read, of any kind.
pub fn unread(random: &mut Random) -> Vec<f32> {
    let count = random.between(0, 8);
    (0..count).map(|_| if random.bits(1) == 0 { refused(random) } else { random.float() }).collect()
}

/// A number other than 0 and 1, whose low bits may be 0 or 1.
pub fn wrong_flag(random: &mut Random) -> u32 {
    match random.bits(2) {
        0 => 2,
        1 => 256 << random.bits(4),
        2 => u32::MAX,
        _ => 2 + random.bits(31) as u32,
    }
}

/// Whether this damage is done: often, in the cases that are to be damaged.
fn damaged(random: &mut Random, damage: bool) -> bool {
    damage && random.bits(2) == 0
}

/// Puts a number that is refused first, last or anywhere.
pub fn spoil(random: &mut Random, numbers: &mut [f32]) {
    let at = match random.bits(2) {
        0 => 0,
        1 => numbers.len() - 1,
        _ => random.bits(32) as usize % numbers.len(),
    };
    numbers[at] = refused(random);
}

pub fn any_path(random: &mut Random) -> Input {
    let mut count = any_count(random);
    let mut vertices = any_vertices(random, count);
    let mut closed = random.bits(1) as u32;
    let damage = random.bits(1) == 0;
    if damaged(random, damage) {
        spoil(random, &mut vertices);
    }
    if damaged(random, damage) {
        let missing = if random.bits(1) == 0 { 1 } else { 1 + random.bits(32) as usize % vertices.len() };
        vertices.truncate(vertices.len() - missing);
    } else if random.bits(1) == 0 {
        vertices.extend(unread(random));
    }
    if damaged(random, damage) {
        closed = wrong_flag(random);
    }
    if damaged(random, damage) {
        count = wrong_count(random, &mut vertices);
    }
    Input::Path { closed, vertices, count }
}

/// No vertices, or more than the most; now and then the list has them all.
fn wrong_count(random: &mut Random, vertices: &mut Vec<f32>) -> usize {
    match random.bits(3) {
        0..=2 => 0,
        3 => usize::MAX >> random.bits(5),
        4 => 1 << 32 | random.bits(10) as usize,
        5 if random.bits(4) == 0 => {
            vertices.resize(6 * (MOST_VERTICES + 1), 1.0);
            MOST_VERTICES + 1
        }
        _ => MOST_VERTICES + 1 + random.bits(8) as usize,
    }
}

/// A row of a path or a rectangle, which may be damaged.
pub fn any_item(random: &mut Random) -> Input {
    if random.bits(1) == 0 {
        let count = any_count(random);
        let read = any_vertices(random, count);
        let mark = random.bits(1) as u32;
        placed(random, SH, mark, count, read)
    } else {
        let read = any_rectangle(random);
        placed(random, RC, 0, 0, read)
    }
}

/// A row of an ellipse, which may be damaged.
pub fn any_ellipse_item(random: &mut Random) -> Input {
    let read = any_ellipse(random);
    placed(random, EL, 0, 0, read)
}

/// A row of this kind whose numbers stand between others; either may be damaged.
fn placed(random: &mut Random, kind: u32, mark: u32, count: usize, mut read: Vec<f32>) -> Input {
    let damage = random.bits(1) == 0;
    if damaged(random, damage) {
        spoil(random, &mut read);
    }
    let mut numbers = unread(random);
    let place = numbers.len() as u32;
    numbers.append(&mut read);
    if damaged(random, damage) {
        numbers.pop();
    } else if random.bits(1) == 0 {
        numbers.extend(unread(random));
    }
    let mut row = vec![kind, random.bits(1) as u32, random.bits(32) as u32, mark, place, count as u32];
    if damage {
        damage_row(random, &mut row, numbers.len() as u32);
    }
    Input::Item { row, numbers }
}

/// Changes entries of a row, each now and then, or the number of its entries.
fn damage_row(random: &mut Random, row: &mut Vec<u32>, length: u32) {
    let is_path = row[0] == SH;
    if random.bits(2) == 0 {
        row[0] = 3 + random.bits(1) as u32;
        if random.bits(1) == 0 {
            row[3] = 0;
            row[5] = 0;
        }
    }
    if random.bits(3) == 0 {
        row[0] = one_of(random, &[0, 5, 12, 13, 14, 15, 256 | SH, u32::MAX]);
    }
    if random.bits(3) == 0 {
        row[1] = wrong_flag(random);
    }
    if random.bits(3) == 0 {
        row[3] = if is_path { wrong_flag(random) } else { 1 + random.bits(8) as u32 };
    }
    if random.bits(2) == 0 {
        row[4] = one_of(random, &[0, 1, length.saturating_sub(5), length, length + 1, 1 << 31, u32::MAX - 5, u32::MAX]);
    }
    if random.bits(2) == 0 {
        row[5] = one_of(random, &[0, 0, 0, 1, 1_025, 1_026, 0x2aaa_aaab, u32::MAX]);
    }
    match random.bits(5) {
        0 => row.truncate(random.between(0, 5) as usize),
        1..=8 => row.push(random.bits(32) as u32),
        _ => {}
    }
}
