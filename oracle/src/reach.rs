//! Compares replies whether a list is at least so long: document 02's definition, over the Rust's own length of the
//! first commands, against ours.

use crate::draw::check;
use crate::interface::jengafir_length_reaches;
use crate::length::{judged, shown};
use crate::lists::{any_list_or_ellipse, longest, size, MOST_COMMANDS};
use crate::random::Random;
use crate::report::{Outcomes, Report};
use source::Path;

/// Of the calls that are answered with yes, one in so many is made again with all altered that is not seen.
const ONE_IN: u64 = 10;

/// How often which reply was expected, and how often a list was altered.
#[derive(Default)]
struct Replies {
    yes: u64,
    no: u64,
    altered: u64,
}

pub fn compare(random: &mut Random, count: usize, report: &mut Report) {
    let mut outcomes: Outcomes = [0; 13];
    let mut replies = Replies::default();
    for list in longest() {
        compare_list(random, report, &list, &mut outcomes, &mut replies);
    }
    for _ in 0..count {
        let list = any_list_or_ellipse(random);
        compare_list(random, report, &list, &mut outcomes, &mut replies);
    }
    let Replies { yes, no, altered } = replies;
    println!("oracle: yes expected {yes} times, no {no} times; {altered} lists altered past the stopping place");
    report.outcomes.push(("length_reaches", outcomes));
}

// What the call has to answer.

/// The first n commands as a list by themselves, with just their numbers, where that list is sound.
fn first(list: &Path, n: usize) -> Option<Path> {
    let codes = &list.codes[..n];
    let count = codes.iter().filter(|&&code| code <= 4).map(|&code| size(code)).sum();
    let first = Path { codes: codes.to_vec(), numbers: list.numbers.iter().copied().take(count).collect() };
    judged(&first).is_ok().then_some(first)
}

/// How many commands from the first on are sound. All that are fewer are sound too, so it is enough to halve.
fn sound(list: &Path) -> usize {
    let counts: Vec<usize> = (1..=list.codes.len()).collect();
    counts.partition_point(|&n| first(list, n).is_some())
}

/// The length of the first n commands, which are sound.
fn first_length(list: &Path, n: usize) -> f32 {
    source::path_length(&first(list, n).unwrap())
}

/// Of so many sound commands each of the first is measured, from none on.
const FEW: usize = 16;

/// The fewest commands, of those that are sound, whose length is at least so much. Lengths never fall, so of many
/// commands it is enough to halve.
fn fewest(list: &Path, sound: usize, least: f32) -> Option<usize> {
    let reaches = |&n: &usize| first_length(list, n) >= least;
    if sound <= FEW {
        return (0..=sound).find(reaches);
    }
    let counts: Vec<usize> = (0..=sound).collect();
    let n = counts.partition_point(|n| !reaches(n));
    (n <= sound).then_some(n)
}

/// Whether the length is reached, and how many commands are read for it.
fn answer(list: &Path, sound: usize, least: f32) -> Result<(bool, usize), u32> {
    check(list.codes.len() <= MOST_COMMANDS, 2)?;
    check(least.is_finite() && least >= 0.0, 3)?;
    if let Some(n) = fewest(list, sound, least) {
        return Ok((true, n));
    }
    judged(list)?;
    Ok((false, list.codes.len()))
}

// Lengths that are asked for.

const ODDITIES: [f32; 7] = [f32::NAN, f32::INFINITY, f32::NEG_INFINITY, f32::MAX, 1e-45, -1e-45, -1.0];

/// Mostly the length of some first commands or beside it; at times between two, far off, or no length at all.
fn any_least(random: &mut Random, list: &Path, sound: usize) -> f32 {
    let n = random.bits(32) as usize % (sound + 1);
    match random.bits(4) {
        0 => 0.0 * random.sign(),
        1 => random.float(),
        2 => random.float().abs(),
        3 => ODDITIES[random.bits(32) as usize % ODDITIES.len()],
        4 | 5 => between(first_length(list, n), first_length(list, (n + 1).min(sound))),
        _ => beside(first_length(list, n), random.between(-1, 1)).max(0.0),
    }
}

fn between(x: f32, y: f32) -> f32 {
    x + (y - x) / 2.0
}

/// The float so many places from x in the order of bit patterns.
fn beside(x: f32, places: i64) -> f32 {
    f32::from_bits(x.to_bits().wrapping_add(places as u32))
}

// The comparison.

/// All that a call leaves behind: the number, the reply and the count.
type Left = (u32, u32, usize);

/// What the place for the reply holds before a call.
const BEFORE: u32 = 0x5a5a;

fn theirs(answer: Result<(bool, usize), u32>) -> Left {
    match answer {
        Ok((reached, read)) => (0, reached as u32, read),
        Err(refusal) => (refusal, BEFORE, 0),
    }
}

fn ours(list: &Path, least: f32) -> Left {
    let (mut reached, mut read) = (BEFORE, usize::MAX);
    let (codes, numbers) = (&list.codes, &list.numbers);
    let number = unsafe {
        jengafir_length_reaches(
            codes.as_ptr(),
            codes.len(),
            numbers.as_ptr(),
            numbers.len(),
            least,
            &mut reached,
            &mut read,
        )
    };
    (number, reached, read)
}

/// Compares a call, and gives what ours left behind.
fn expect(report: &mut Report, list: &Path, least: f32, theirs: Left) -> Left {
    let ours = ours(list, least);
    report.count(ours == theirs, || {
        format!("reaching {}: ours {ours:?}, theirs {theirs:?}", shown_call(list, least))
    });
    ours
}

fn shown_call(list: &Path, least: f32) -> String {
    format!("{least:e} ({:08x}) by {}", least.to_bits(), shown(list))
}

fn compare_list(
    random: &mut Random,
    report: &mut Report,
    list: &Path,
    outcomes: &mut Outcomes,
    replies: &mut Replies,
) {
    let sound = sound(list);
    let least = any_least(random, list, sound);
    let answer = answer(list, sound, least);
    let (_, reached, _) = expect(report, list, least, theirs(answer));
    outcomes[answer.err().unwrap_or(0) as usize] += 1;
    if answer.is_ok() && judged(list).is_ok() {
        let is_enough = source::path_length(list) >= least;
        report.count(reached == is_enough as u32, || {
            format!("reaching {}: the whole length gives {is_enough}", shown_call(list, least))
        });
    }
    match answer {
        Ok((true, read)) => {
            replies.yes += 1;
            if random.bits(32) % ONE_IN == 0 {
                replies.altered += 1;
                expect(report, &altered(random, list, read), least, theirs(answer));
            }
        }
        Ok((false, _)) => replies.no += 1,
        Err(_) => {}
    }
}

/// The first n commands, which are sound, and after them codes and numbers of any kind and count.
fn altered(random: &mut Random, list: &Path, n: usize) -> Path {
    let Path { mut codes, mut numbers } = first(list, n).unwrap();
    let more = (random.bits(4) as usize).min(MOST_COMMANDS - n);
    codes.extend((0..more).map(|_| if random.bits(1) == 0 { random.bits(8) as u8 } else { random.bits(2) as u8 }));
    let more = random.bits(5);
    numbers.extend((0..more).map(|_| if random.bits(2) == 0 { f32::NAN } else { random.float() }));
    Path { codes, numbers }
}
