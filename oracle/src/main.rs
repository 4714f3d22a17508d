//! Compares the library with Rust's own functions on seeded random and edge inputs.

#[cfg(drawing)]
mod curves;
#[cfg(drawing)]
mod draw;
mod float;
#[allow(dead_code)]
mod interface;
#[cfg(drawing)]
mod length;
#[cfg(drawing)]
mod lists;
#[cfg(drawing)]
mod merge;
#[cfg(drawing)]
mod need;
#[cfg(drawing)]
mod plate;
mod random;
#[cfg(drawing)]
mod reach;
#[cfg(drawing)]
mod repeater;
mod report;
mod root;
#[cfg(drawing)]
mod rows;
mod sample;
#[cfg(drawing)]
mod shapes;
#[cfg(drawing)]
mod trim;

use random::Random;
use report::Report;

/// Compares one part of the library on about this many inputs for each function.
type Part = fn(&mut Random, usize, &mut Report);

const PARTS: &[Part] = &[
    float::compare,
    #[cfg(drawing)]
    draw::compare,
    #[cfg(drawing)]
    merge::compare,
    #[cfg(drawing)]
    need::compare,
    #[cfg(drawing)]
    length::compare,
    #[cfg(drawing)]
    reach::compare,
    #[cfg(drawing)]
    curves::compare,
    #[cfg(drawing)]
    trim::compare,
    #[cfg(drawing)]
    repeater::compare,
    #[cfg(drawing)]
    plate::compare,
];

const SEED: u64 = 1;
const COUNT: usize = 1_000_000;

fn argument<T: std::str::FromStr>(place: usize, otherwise: T) -> T {
    let Some(word) = std::env::args().nth(place) else { return otherwise };
    word.parse().unwrap_or_else(|_| {
        eprintln!("oracle: '{word}' is not a number; the arguments are [seed] [count], or sample");
        std::process::exit(2);
    })
}

/// What C calls, by the declarations of the header.
fn exported() -> Vec<&'static str> {
    let after_prefix = include_str!("../../include/jengafir.h").split("jengafir_").skip(1);
    let names = after_prefix.filter_map(|text| {
        let end = text.find(|c: char| !c.is_ascii_alphanumeric() && c != '_')?;
        text[end..].starts_with('(').then_some(&text[..end])
    });
    names.collect()
}

/// Writes the sample of the Rust's answers, all of it or none.
fn write_sample() {
    if !cfg!(drawing) {
        eprintln!("oracle: the sample is not written, since the Rust text is not here");
        std::process::exit(1);
    }
    if let Err(error) = sample::write() {
        eprintln!("oracle: the sample is not written: {error}");
        std::process::exit(1);
    }
}

fn main() {
    if std::env::args().nth(1).as_deref() == Some("sample") {
        return write_sample();
    }
    let seed = argument(1, SEED);
    let count = argument(2, COUNT);
    let mut report = Report::new();
    for part in PARTS {
        part(&mut Random::new(seed), count, &mut report);
    }
    sample::compare(&mut report);
    report.print_functions();
    let (compared, others): (Vec<&str>, Vec<&str>) = exported().into_iter().partition(|name| report.has(name));
    if cfg!(drawing) {
        for name in others {
            report.count(false, || format!("jengafir_{name} is compared with nothing"));
        }
    }
    println!(
        "oracle: {} comparisons over {} exported functions, {} differences, seed {seed}, count {count}",
        report.comparisons,
        compared.len(),
        report.differences,
    );
    if report.differences > 0 {
        std::process::exit(1);
    }
}
