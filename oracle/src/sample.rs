//! A sample of the Rust's answers, in the lines that the vectors programs read and print: kept in oracle/samples.

use crate::random::Random;
use crate::report::Report;
use std::fs;

/// The line of a call, and the lines that are printed for it.
pub struct Case {
    pub call: String,
    pub printed: String,
}

#[cfg(drawing)]
impl Case {
    /// A call whose answer is printed on the lines after its own.
    pub fn new(call: String, answer: String) -> Case {
        let printed = format!("{call}\n{answer}");
        Case { call, printed }
    }
}

/// Makes the sample of one vectors program.
type Maker = fn(&mut Random) -> Vec<Case>;

const SAMPLES: &[(&str, Maker)] = &[
    ("float", crate::float::sample),
    #[cfg(drawing)]
    ("draw", crate::draw::sample),
    #[cfg(drawing)]
    ("merge", crate::merge::sample),
    #[cfg(drawing)]
    ("length", crate::length::sample),
    #[cfg(drawing)]
    ("trim", crate::trim::sample),
    #[cfg(drawing)]
    ("repeater", crate::repeater::sample),
];

const SEED: u64 = 20240606;
const FOLDER: &str = "oracle/samples";

fn paths(name: &str) -> [String; 2] {
    ["in", "out"].map(|kind| format!("{FOLDER}/{name}.{kind}"))
}

/// Writes the calls of each sample to one file, and what is printed for them to another.
pub fn write() -> std::io::Result<()> {
    fs::create_dir_all(FOLDER)?;
    for (name, make) in SAMPLES {
        let cases = make(&mut Random::new(SEED));
        let [calls, printed] = paths(name);
        fs::write(calls, cases.iter().map(|case| case.call.clone() + "\n").collect::<String>())?;
        fs::write(printed, cases.iter().map(|case| case.printed.as_str()).collect::<String>())?;
        println!("oracle: sample of {name}, {} cases written", cases.len());
    }
    Ok(())
}

/// Compares what is kept with the samples made again, a case at a time.
pub fn compare(report: &mut Report) {
    for (name, make) in SAMPLES {
        let cases = make(&mut Random::new(SEED));
        let [calls, printed] = paths(name).map(|path| fs::read_to_string(path).unwrap_or_default());
        let [mut calls, mut printed] = [calls.lines(), printed.lines()];
        for case in &cases {
            let made: Vec<&str> = case.printed.lines().collect();
            let call = calls.next();
            let kept: Vec<&str> = printed.by_ref().take(made.len()).collect();
            report.count(call == Some(&case.call) && kept == made, || {
                format!("sample of {name}: kept {call:?} {kept:?}, made {made:?}")
            });
        }
        let more = calls.count() + printed.count();
        report.count(more == 0, || format!("sample of {name}: {more} lines more are kept than made"));
        println!("oracle: sample of {name}, {} cases compared with what is kept", cases.len());
    }
}

/// A word and numbers of eight hexadecimal digits.
pub fn line(word: &str, numbers: impl IntoIterator<Item = u32>) -> String {
    numbers.into_iter().fold(word.to_string(), |line, number| format!("{line} {number:08x}"))
}

pub fn bits(numbers: &[f32]) -> impl Iterator<Item = u32> + '_ {
    numbers.iter().map(|x| x.to_bits())
}

/// What a place of a buffer for numbers holds before a call.
#[cfg(drawing)]
pub const OLD_NUMBER: f32 = -77.25;

/// The numbers, and a few places after them that hold what they held.
#[cfg(drawing)]
pub fn filled(word: &str, numbers: impl IntoIterator<Item = u32>, more: usize, old: u32) -> String {
    line(word, numbers.into_iter().chain(std::iter::repeat_n(old, more)))
}
