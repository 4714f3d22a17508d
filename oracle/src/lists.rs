//! Command lists of the kinds on which reading and measuring go wrong.

use crate::draw::{answer, is_the_rusts};
use crate::random::{Random, EDGES};
use crate::shapes::{any_ellipse_item, any_item, any_path, one_of, Input};
use source::Path;

pub const MOST_COMMANDS: usize = 262_144;
pub const LIMIT: f32 = 4_194_304.0;

/// Numbers around the limit of command lists that pass, and numbers that do not.
const AT_LIMIT: [u32; 4] = [0x4a800000, 0xca800000, 0x4a7fffff, 0xca7fffff];
const REFUSED: [u32; 9] = [
    0x4a800001, 0xca800001, 0x4b000000, 0x7f7fffff, 0xff7fffff, 0x7f800000, 0xff800000, 0x7fc00000, 0xffc00001,
];

/// How many numbers a command has.
pub fn size(code: u8) -> usize {
    [2, 2, 6, 0, 4][code as usize]
}

/// What the numbers of a list are like.
#[derive(Clone, Copy)]
enum Kind {
    Drawing,
    Grid,
    Near,
    Edge,
    Mixed,
}

fn any_kind(random: &mut Random) -> Kind {
    match random.bits(3) {
        0 | 1 => Kind::Drawing,
        2 | 3 => Kind::Grid,
        4 => Kind::Near,
        5 => Kind::Edge,
        _ => Kind::Mixed,
    }
}

fn number(random: &mut Random, kind: Kind) -> f32 {
    match kind {
        Kind::Drawing => random.with_exponent(-4, 12),
        Kind::Grid => random.between(-1 << 24, 1 << 24) as f32 / 1024.0,
        Kind::Near => random.nudged(1000.0),
        Kind::Edge if random.bits(1) == 0 => f32::from_bits(one_of(random, &AT_LIMIT)),
        Kind::Edge => accepted(f32::from_bits(one_of(random, &EDGES))),
        Kind::Mixed => accepted(random.float()),
    }
}

/// x, or 0 where x is not finite or past the limit of command lists.
pub fn accepted(x: f32) -> f32 {
    if x.abs() <= LIMIT { x } else { 0.0 }
}

/// A list as it is drawn, or any sequence of commands: it may start without a move, and close again and again.
pub fn any_list(random: &mut Random) -> Path {
    let mut list = match random.bits(2) {
        0 => drawn(random),
        _ => any_commands(random),
    };
    if random.bits(2) == 0 {
        damage(random, &mut list);
    }
    list
}

/// The same, or now and then a list that an ellipse is drawn as.
pub fn any_list_or_ellipse(random: &mut Random) -> Path {
    if random.bits(3) != 0 {
        return any_list(random);
    }
    let mut list = first_drawn(random, any_ellipse_item, |_| true);
    if random.bits(3) == 0 {
        damage(random, &mut list);
    }
    list
}

fn drawn(random: &mut Random) -> Path {
    let any = |random: &mut Random| if random.bits(1) == 0 { any_path(random) } else { any_item(random) };
    first_drawn(random, any, is_the_rusts)
}

/// What the first input is drawn as that is drawn and wanted.
fn first_drawn(random: &mut Random, any: impl Fn(&mut Random) -> Input, wanted: fn(&Input) -> bool) -> Path {
    loop {
        let input = any(random);
        match answer(&input) {
            Ok(path) if wanted(&input) => return path,
            _ => {}
        }
    }
}

fn any_commands(random: &mut Random) -> Path {
    let count = match random.bits(6) {
        0 => 0,
        1 => random.between(30, 90),
        _ => random.between(1, 9),
    };
    let mut list = Path::default();
    let kind = any_kind(random);
    for _ in 0..count {
        let code = random.between(0, 4) as u8;
        list.codes.push(code);
        list.numbers.extend((0..size(code)).map(|_| number(random, kind)));
    }
    list
}

/// Does one or more of: a code that is not listed, a number that is refused, numbers missing, numbers left over.
fn damage(random: &mut Random, list: &mut Path) {
    if random.bits(1) == 0 && !list.codes.is_empty() {
        let at = random.bits(32) as usize % list.codes.len();
        list.codes[at] = match random.bits(2) {
            0 => 5,
            1 => 255,
            2 => 0x80 | random.bits(7) as u8,
            _ => random.bits(3) as u8,
        };
    }
    if random.bits(1) == 0 && !list.numbers.is_empty() {
        let at = random.bits(32) as usize % list.numbers.len();
        list.numbers[at] = f32::from_bits(one_of(random, &REFUSED));
    }
    match random.bits(2) {
        0 => {
            let kept = random.bits(32) as usize % (list.numbers.len() + 1);
            list.numbers.truncate(kept);
        }
        1 => {
            list.numbers.pop();
        }
        2 => {
            let more = random.between(1, 7);
            list.numbers.extend((0..more).map(|_| random.float()));
        }
        _ => {}
    }
}

/// Lists of the most commands that are read, and of one more.
pub fn longest() -> Vec<Path> {
    let mut lists = Vec::new();
    for count in [MOST_COMMANDS - 1, MOST_COMMANDS, MOST_COMMANDS + 1, MOST_COMMANDS + 2] {
        lists.push(Path { codes: vec![3; count], numbers: Vec::new() });
        lists.push(Path { codes: vec![3; count], numbers: vec![f32::NAN] });
        lists.push(Path { codes: vec![9; count], numbers: Vec::new() });
        let numbers = (0..2 * count).map(|i| (i * i % 8191) as f32 * 0.7).collect();
        lists.push(Path { codes: vec![1; count], numbers });
        let codes: Vec<u8> = (0..count).map(|i| [0, 2, 4, 3, 1][i % 5]).collect();
        let numbers = codes.iter().flat_map(|&code| vec![LIMIT, -LIMIT, 1.0, -LIMIT, LIMIT, 0.5][..size(code)].to_vec());
        let numbers = numbers.collect();
        lists.push(Path { codes, numbers });
    }
    lists
}
