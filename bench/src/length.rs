//! Times the length of command lists, through the C interface, against the Rust's own function over its stand-ins,
//! whether it is enough against a comparison of that, and finding a command, for which Rust has no function.

use crate::interface::{jengafir_command, jengafir_length, jengafir_length_reaches};
use crate::timing::{alone, compare, Unit};
use crate::unit_numbers;
use source::Path;

const COMMANDS: usize = 1_024;
const LISTS: usize = 16;
/// Of a list the commands after its move are counted.
pub const A_COMMAND: Unit = ("command", COMMANDS);
const A_CALL: Unit = ("call", 1);

/// A length that each list of cubics has after its first.
const SHORT: f32 = 1.0;
/// The most commands that are read of a list.
const MOST_COMMANDS: usize = 262_144;

const LINE: u8 = 1;
const CUBIC: u8 = 2;
const QUAD: u8 = 4;

/// The kinds of commands that draw, and their names.
pub const KINDS: [(&str, u8); 3] = [("lines", LINE), ("quads", QUAD), ("cubics", CUBIC)];

/// A move and so many commands of one kind, between points from -4096 to 4096.
fn list(unit: &mut impl FnMut() -> f32, code: u8, commands: usize) -> Path {
    let size = match code {
        CUBIC => 6,
        QUAD => 4,
        _ => 2,
    };
    let mut codes = vec![0];
    codes.resize(commands + 1, code);
    let numbers = (0..2 + commands * size).map(|_| unit() * 4096.0).collect();
    Path { codes, numbers }
}

pub fn lists(code: u8) -> Vec<Path> {
    let mut unit = unit_numbers();
    (0..LISTS).map(|_| list(&mut unit, code, COMMANDS)).collect()
}

fn length(list: &Path) -> u32 {
    let mut length = 0.0;
    let (codes, numbers) = (&list.codes, &list.numbers);
    let refusal =
        unsafe { jengafir_length(codes.as_ptr(), codes.len(), numbers.as_ptr(), numbers.len(), &mut length) };
    assert_eq!(refusal, 0);
    length.to_bits()
}

/// Whether a list is at least so long, and how many commands were read.
fn reaches(list: &Path, least: f32) -> [u32; 2] {
    let (mut reached, mut read) = (0, 0);
    let (codes, numbers) = (&list.codes, &list.numbers);
    let refusal = unsafe {
        jengafir_length_reaches(
            codes.as_ptr(),
            codes.len(),
            numbers.as_ptr(),
            numbers.len(),
            least,
            &mut reached,
            &mut read,
        )
    };
    assert_eq!(refusal, 0);
    [reached, read as u32]
}

/// How many commands are read of a list whose first cubic is long enough.
fn reaches_at_once(list: &Path) -> u32 {
    let [reached, read] = reaches(list, SHORT);
    assert_eq!([reached, read], [1, 2]);
    read
}

/// Where the numbers of the last command stand.
fn last_command(list: &Path) -> u32 {
    let (mut start, mut count) = (0, 0);
    let (codes, numbers) = (&list.codes, &list.numbers);
    let refusal = unsafe {
        jengafir_command(
            codes.as_ptr(),
            codes.len(),
            numbers.as_ptr(),
            numbers.len(),
            COMMANDS,
            &mut start,
            &mut count,
        )
    };
    assert_eq!(refusal, 0);
    (start + count) as u32
}

pub fn run() {
    for (name, code) in KINDS {
        let theirs = |list: &Path| source::path_length(list).to_bits();
        compare(&format!("length, {name}"), A_COMMAND, &lists(code), length, theirs);
    }
    // Asked for its own length a list is read to its last command.
    for (name, code) in KINDS {
        let asked: Vec<_> = lists(code).into_iter().map(|list| (source::path_length(&list), list)).collect();
        let ours = |(least, list): &(f32, Path)| reaches(list, *least)[0];
        let theirs = |(least, list): &(f32, Path)| (source::path_length(list) >= *least) as u32;
        compare(&format!("reaches, {name}"), A_COMMAND, &asked, ours, theirs);
    }
    // Rust measures a list whole, as in the lines before: it has no function that stops, and so no time here.
    alone("reaches, 1 of 1,024", A_CALL, &lists(CUBIC), reaches_at_once);
    let longest = [list(&mut unit_numbers(), CUBIC, MOST_COMMANDS - 1)];
    alone("reaches, 1 of 262,144", A_CALL, &longest, reaches_at_once);
    for (name, code) in KINDS {
        alone(&format!("command, {name}"), A_COMMAND, &lists(code), last_command);
    }
}
