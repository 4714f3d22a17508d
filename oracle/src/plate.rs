//! Compares the program `plate` on whole texts: what it prints, against the Rust's own functions under document 01's
//! rules for its text.

use crate::draw::answer;
use crate::random::Random;
use crate::report::{Outcomes, Report};
use crate::shapes::{any_path, Input};
use std::io::Write;
use std::process::{Command, Stdio};

const PROGRAM: &str = "target/bin/plate";
const MOST_VERTICES: usize = 256;
/// A text for so many of the comparisons that are asked for: each is a process of its own.
const ONE_IN: usize = 400;

pub fn compare(random: &mut Random, count: usize, report: &mut Report) {
    let mut outcomes: Outcomes = [0; 13];
    for _ in 0..count / ONE_IN {
        let text = any_text(random);
        let (refusal, theirs) = expected(&text);
        let ours = printed(&text);
        outcomes[refusal as usize] += 1;
        report.count(ours == theirs, || {
            let [text, ours, theirs] = [&text, &ours, &theirs].map(|bytes| String::from_utf8_lossy(bytes));
            format!("plate on {text:?}: ours {ours:?}, theirs {theirs:?}")
        });
    }
    report.outcomes.push(("plate", outcomes));
}

/// What the program prints.
fn printed(text: &[u8]) -> Vec<u8> {
    let program = Command::new(PROGRAM).stdin(Stdio::piped()).stdout(Stdio::piped()).spawn();
    let mut program = program.expect("the program plate is built");
    // The program may stop reading before a long text ends.
    let _ = program.stdin.take().unwrap().write_all(text);
    program.wait_with_output().unwrap().stdout
}

/// The refusal, 0 for none, and what is to be printed.
fn expected(text: &[u8]) -> (u32, Vec<u8>) {
    let path = read(text).and_then(|input| answer(&input));
    match path {
        Err(refusal) => (refusal, line(8, &[refusal])),
        Ok(path) => {
            let length = source::path_length(&path);
            let mut bits = path.numbers.iter().map(|x| x.to_bits());
            let mut printed = Vec::new();
            for code in path.codes {
                let numbers: Vec<u32> = bits.by_ref().take([2, 2, 6, 0, 4][code as usize]).collect();
                printed.extend(line(code, &numbers));
            }
            printed.extend(line(9, &[length.to_bits()]));
            (0, printed)
        }
    }
}

fn line(code: u8, numbers: &[u32]) -> Vec<u8> {
    let mut line = format!("{code:2}");
    for number in numbers {
        line += &format!("{number:11}");
    }
    (line + "\n").into_bytes()
}

/// The flag and the vertices of a text in form. Out of form is 4, more vertices than are read is 2.
fn read(text: &[u8]) -> Result<Input, u32> {
    let (closed, mut rest) = fields(text, 1)?;
    let mut vertices = Vec::new();
    for _ in 0..MOST_VERTICES {
        if rest.is_empty() {
            break;
        }
        let (patterns, after) = fields(rest, 6)?;
        vertices.extend(patterns.into_iter().map(f32::from_bits));
        rest = after;
    }
    if !rest.is_empty() {
        return Err(2);
    }
    Ok(Input::Path { closed: closed[0], count: vertices.len() / 6, vertices })
}

/// The values of so many fields and a newline, and the text after them.
fn fields(text: &[u8], count: usize) -> Result<(Vec<u32>, &[u8]), u32> {
    let line = text.get(..11 * count).ok_or(4u32)?;
    if text.get(11 * count) != Some(&b'\n') {
        return Err(4);
    }
    let values: Option<Vec<u32>> = line.chunks(11).map(value).collect();
    Ok((values.ok_or(4u32)?, &text[11 * count + 1..]))
}

fn value(field: &[u8]) -> Option<u32> {
    let digits = field.iter().position(|&b| b != b' ').map(|start| &field[start..])?;
    if !digits.iter().all(u8::is_ascii_digit) {
        return None;
    }
    std::str::from_utf8(digits).ok()?.parse().ok()
}

/// The text of any vertex list, whole or damaged.
fn any_text(random: &mut Random) -> Vec<u8> {
    let Input::Path { closed, vertices, .. } = any_path(random) else { unreachable!() };
    let mut text = format!("{closed:11}\n");
    for vertex in vertices.chunks_exact(6).take(MOST_VERTICES + 2) {
        for x in vertex {
            text += &format!("{:11}", x.to_bits());
        }
        text += "\n";
    }
    let mut text = text.into_bytes();
    if random.bits(1) == 0 {
        for _ in 0..random.between(1, 2) {
            damage(random, &mut text);
        }
    }
    text
}

/// Changes, removes or puts in a byte, cuts the text off, or puts more behind it.
fn damage(random: &mut Random, text: &mut Vec<u8>) {
    let at = random.bits(32) as usize % text.len().max(1);
    let byte = b"0123456789  \n\r\t-+.aX\0\xff"[random.bits(32) as usize % 22];
    match random.bits(3) {
        0 | 1 if !text.is_empty() => text[at] = byte,
        2 if !text.is_empty() => {
            text.remove(at);
        }
        3 => text.insert(at, byte),
        4 => text.truncate(at),
        5 => {
            text.pop();
        }
        6 => text.push(byte),
        _ => {
            let line = format!("{:11}\n", random.bits(40)).repeat(1 + random.bits(2) as usize);
            text.extend(line.bytes());
        }
    }
}
