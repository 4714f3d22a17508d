//! Compares lengths and the places of single commands: the Rust's own function, under document 01's refusals, against
//! ours.

use crate::draw::{check, shown_list};
use crate::interface::{jengafir_command, jengafir_length};
use crate::lists::{any_list, any_list_or_ellipse, longest, size, LIMIT, MOST_COMMANDS};
use crate::random::Random;
use crate::report::{Outcomes, Report};
use crate::sample::{bits, line, Case};
use source::Path;

pub fn compare(random: &mut Random, count: usize, report: &mut Report) {
    let mut lengths: Outcomes = [0; 13];
    let mut commands: Outcomes = [0; 13];
    for list in longest() {
        compare_list(random, report, &list, &mut lengths, &mut commands);
    }
    for _ in 0..count {
        let list = any_list_or_ellipse(random);
        compare_list(random, report, &list, &mut lengths, &mut commands);
    }
    report.outcomes.push(("length", lengths));
    report.outcomes.push(("command", commands));
}

fn compare_list(
    random: &mut Random,
    report: &mut Report,
    list: &Path,
    lengths: &mut Outcomes,
    commands: &mut Outcomes,
) {
    let judged = judged(list);
    let theirs = match judged {
        Ok(()) => [0, source::path_length(list).to_bits()],
        Err(refusal) => [refusal, BEFORE],
    };
    let ours = length(list);
    lengths[theirs[0] as usize] += 1;
    report.count(ours == theirs, || format!("length of {}: ours {ours:x?}, theirs {theirs:x?}", shown(list)));

    let k = any_index(random, list.codes.len());
    let theirs = match judged.and_then(|()| check(k < list.codes.len(), 12)) {
        Ok(()) => [0, list.codes[..k].iter().map(|&code| size(code)).sum(), size(list.codes[k])],
        Err(refusal) => [refusal as usize, 0, 0],
    };
    let ours = command(list, k);
    commands[theirs[0]] += 1;
    report.count(ours == theirs, || format!("command {k} of {}: ours {ours:?}, theirs {theirs:?}", shown(list)));
}

/// The checks of a command list in document 01's order: 2; of the first faulty command 4, 12, 3; then numbers left over.
pub fn judged(list: &Path) -> Result<(), u32> {
    check(list.codes.len() <= MOST_COMMANDS, 2)?;
    let mut rest = &list.numbers[..];
    for &code in &list.codes {
        check(code <= 4, 4)?;
        let numbers = rest.get(..size(code)).ok_or(12u32)?;
        check(numbers.iter().all(|x| x.abs() <= LIMIT), 3)?;
        rest = &rest[size(code)..];
    }
    check(rest.is_empty(), 12)
}

/// What the place for the length holds before a call: a number that is none.
const BEFORE: u32 = 0xffc0_1234;

/// The number and the length's bits.
pub fn length(list: &Path) -> [u32; 2] {
    let mut length = BEFORE;
    let place = (&mut length as *mut u32).cast();
    let (codes, numbers) = (&list.codes, &list.numbers);
    let number = unsafe { jengafir_length(codes.as_ptr(), codes.len(), numbers.as_ptr(), numbers.len(), place) };
    [number, length]
}

/// The number, the first place and the count.
fn command(list: &Path, k: usize) -> [usize; 3] {
    let (mut start, mut count) = (usize::MAX, usize::MAX);
    let (codes, numbers) = (&list.codes, &list.numbers);
    let number = unsafe {
        jengafir_command(codes.as_ptr(), codes.len(), numbers.as_ptr(), numbers.len(), k, &mut start, &mut count)
    };
    [number as usize, start, count]
}

/// Mostly the index of a command; at times one past the last, or a huge one.
fn any_index(random: &mut Random, length: usize) -> usize {
    match random.bits(4) {
        0 => length,
        1 => length.saturating_sub(1),
        2 => usize::MAX >> random.bits(6),
        _ => random.bits(32) as usize % length.max(1),
    }
}

pub fn shown(list: &Path) -> String {
    let codes = &list.codes[..list.codes.len().min(30)];
    format!("{} codes {codes:?}, {}", list.codes.len(), shown_list(&list.numbers))
}

// The sample.

/// So many lists are sampled, each of so many commands and of at most so many numbers.
const SAMPLED: usize = 80;
const SAMPLED_COMMANDS: std::ops::RangeInclusive<usize> = 2..=12;
const SAMPLED_NUMBERS: usize = 30;

pub fn sample(random: &mut Random) -> Vec<Case> {
    let lists = (0..SAMPLED).map(|_| short_list(random));
    let cases = lists.map(|list| {
        let length = source::path_length(&list);
        Case::new(list_line("measure", &[], &list), format!("length {:08x}\n", length.to_bits()))
    });
    cases.collect()
}

/// A short sound list.
pub fn short_list(random: &mut Random) -> Path {
    loop {
        let list = any_list(random);
        let is_short = SAMPLED_COMMANDS.contains(&list.codes.len()) && list.numbers.len() <= SAMPLED_NUMBERS;
        if is_short && judged(&list).is_ok() {
            return list;
        }
    }
}

/// The line of a call on a list: after its header the lengths, and how many codes are given.
pub fn list_line(word: &str, header: &[u32], list: &Path) -> String {
    let [codes, numbers] = [list.codes.len() as u32, list.numbers.len() as u32];
    let given = list.codes.iter().map(|&code| code as u32).chain(bits(&list.numbers));
    line(word, header.iter().copied().chain([codes, numbers, codes]).chain(given))
}
