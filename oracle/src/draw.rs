//! Compares the drawing calls: the Rust's own functions, under document 01's refusals, against ours. Of ellipses the box is
//! the Rust's, and the walk a reading of document 02 (`ellipse_path` in source.rs).

use crate::interface::{jengafir_draw_item, jengafir_draw_path};
use crate::random::Random;
use crate::report::{Outcomes, Report};
use crate::sample::{bits, filled, line, Case, OLD_NUMBER};
use crate::shapes::{any_ellipse_item, any_item, any_path, edges, Input, EL, MOST_VERTICES, RC, SH};
use source::{BezierPath, BezierVertex, Path, ShapeItem};

const LIMIT: f32 = 1_048_576.0;

pub fn compare(random: &mut Random, count: usize, report: &mut Report) {
    let mut paths: Outcomes = [0; 13];
    let mut items: Outcomes = [0; 13];
    for_each_edge_path(|path| judge(random, report, &mut paths, path));
    for_each_edge_rectangle(|item| judge(random, report, &mut items, item));
    for _ in 0..count {
        let path = any_path(random);
        judge(random, report, &mut paths, &path);
        let item = any_item(random);
        judge(random, report, &mut items, &item);
    }
    report.outcomes.push(("draw_path", paths));
    report.outcomes.push(("draw_item", items));
    compare_ellipses(random, count, report);
}

fn compare_ellipses(random: &mut Random, count: usize, report: &mut Report) {
    let mut items: Outcomes = [0; 13];
    let edges = edges();
    for &x in &edges {
        for &y in &edges {
            for &width in &edges {
                let height = edges[random.between(0, edges.len() as i64 - 1) as usize];
                let numbers = vec![x, y, width, height];
                judge(random, report, &mut items, &Input::Item { row: vec![EL, 0, 0, 0, 0, 0], numbers });
            }
        }
    }
    for _ in 0..count {
        let item = any_ellipse_item(random);
        judge(random, report, &mut items, &item);
    }
    report.outcomes.push(("draw_item of ellipses", items));
}

/// Paths of two vertices whose numbers are edges.
pub fn for_each_edge_path(mut f: impl FnMut(&Input)) {
    let edges = edges();
    for &x in &edges {
        for &tangent in &edges {
            let vertices = vec![x, 0.0, 0.0, 0.0, tangent, 0.0, 1.0, x, 0.0, 0.0, 0.0, 0.0];
            f(&Input::Path { closed: 0, vertices, count: 2 });
            let vertices = vec![1.0, 2.0, 0.0, 0.0, 0.0, 0.0, 3.0, x, 0.0, tangent, 0.0, 0.0];
            f(&Input::Path { closed: 1, vertices, count: 2 });
        }
    }
}

/// Rectangles whose numbers are edges.
pub fn for_each_edge_rectangle(mut f: impl FnMut(&Input)) {
    let edges = edges();
    for &x in &edges {
        for &y in &edges {
            for &z in &edges {
                for numbers in [vec![1.0, -3.0, x, y, z], vec![x, z, y, 3.0, 0.5]] {
                    f(&Input::Item { row: vec![RC, 0, 0, 0, 0, 0], numbers });
                }
            }
        }
    }
}

// What the call has to answer.

/// The path that the Rust builds, or the refusal that comes before it is known whether the path fits.
pub fn answer(input: &Input) -> Result<Path, u32> {
    match input {
        Input::Path { closed, vertices, count } => path_answer(*closed, vertices, *count),
        Input::Item { row, numbers } => item_answer(row, numbers),
    }
}

/// The checks of a vertex list in document 01's order: 1, 2, 4, 12, 3.
fn path_answer(closed: u32, vertices: &[f32], count: usize) -> Result<Path, u32> {
    check(count != 0, 1)?;
    check(count <= MOST_VERTICES, 2)?;
    check(closed <= 1, 4)?;
    let vertices = vertices.get(..6 * count).ok_or(12u32)?;
    check(all_within(vertices), 3)?;
    Ok(bezier_path(closed, vertices))
}

/// The checks of one row to be drawn in document 01's order: 4, then those of a source.
fn item_answer(row: &[u32], numbers: &[f32]) -> Result<Path, u32> {
    let &[kind, hidden, _, mark, place, count, ..] = row else { return Err(12) };
    let is_path = kind == SH;
    check((1..=4).contains(&kind) && hidden <= 1, 4)?;
    check(if is_path { mark <= 1 } else { mark == 0 && count == 0 }, 4)?;
    let numbers = source_numbers(kind, place, count, numbers)?;
    Ok(match kind {
        SH => bezier_path(mark, numbers),
        RC => rect_path(numbers),
        _ => source::ellipse_path(&ellipse(numbers)).unwrap(),
    })
}

/// The numbers of a source, after its checks in document 01's order: 5, 1, 2, 12, 3.
pub fn source_numbers(kind: u32, place: u32, count: u32, numbers: &[f32]) -> Result<&[f32], u32> {
    check(kind <= EL, 5)?;
    check(kind != SH || count != 0, 1)?;
    check(count as usize <= MOST_VERTICES, 2)?;
    let place = place as usize;
    let numbers = numbers.get(place..place + entries(kind, count)).ok_or(12u32)?;
    check(all_within(numbers), 3)?;
    Ok(numbers)
}

/// How many numbers a source has.
pub fn entries(kind: u32, count: u32) -> usize {
    match kind {
        SH => 6 * count as usize,
        RC => 5,
        EL => 4,
        _ => 0,
    }
}

pub fn check(holds: bool, refusal: u32) -> Result<(), u32> {
    if holds { Ok(()) } else { Err(refusal) }
}

fn all_within(numbers: &[f32]) -> bool {
    numbers.iter().all(|x| x.is_finite() && x.abs() <= LIMIT)
}

fn bezier_path(closed: u32, vertices: &[f32]) -> Path {
    source::bezier_path(&vertex_list(closed, vertices)).unwrap()
}

pub fn vertex_list(closed: u32, vertices: &[f32]) -> BezierPath {
    let vertices = vertices.chunks(6).map(|v| BezierVertex {
        vertex: [v[0], v[1]],
        in_tangent: [v[2], v[3]],
        out_tangent: [v[4], v[5]],
    });
    BezierPath { closed: closed == 1, vertices: vertices.collect() }
}

fn rect_path(numbers: &[f32]) -> Path {
    source::rect_path(&rectangle(numbers)).unwrap()
}

pub fn rectangle(numbers: &[f32]) -> ShapeItem {
    ShapeItem {
        position: Some([numbers[0], numbers[1]]),
        size: Some([numbers[2], numbers[3]]),
        roundness: Some(numbers[4]),
        ..ShapeItem::default()
    }
}

pub fn ellipse(numbers: &[f32]) -> ShapeItem {
    ShapeItem {
        position: Some([numbers[0], numbers[1]]),
        size: Some([numbers[2], numbers[3]]),
        ..ShapeItem::default()
    }
}

// The comparison.

/// All that a call leaves behind. The lists are the buffers and a few places past what is lent.
#[derive(PartialEq)]
pub struct Outcome {
    pub refusal: u32,
    written: [usize; 2],
    codes: Vec<u8>,
    numbers: Vec<u32>,
}

/// Places past the end of each buffer that are not lent.
const PAST: usize = 4;

impl Outcome {
    /// Before the call: each place has content of its own, which no answer has.
    pub fn before(lengths: [usize; 2]) -> Outcome {
        Outcome {
            refusal: u32::MAX,
            written: [usize::MAX; 2],
            codes: (0..lengths[0] + PAST).map(|i| 0x80 | i as u8).collect(),
            numbers: (0..lengths[1] + PAST).map(|i| 0xffc0_0000 + i as u32).collect(),
        }
    }

    /// What is to be left behind where this is answered: the answer, if it fits.
    pub fn theirs(answer: &Result<Path, u32>, lengths: [usize; 2]) -> Outcome {
        let mut outcome = Outcome { refusal: 11, written: [0, 0], ..Outcome::before(lengths) };
        match answer {
            Err(refusal) => outcome.refusal = *refusal,
            Ok(path) if path.codes.len() <= lengths[0] && path.numbers.len() <= lengths[1] => {
                outcome.refusal = 0;
                outcome.written = [path.codes.len(), path.numbers.len()];
                outcome.codes[..path.codes.len()].copy_from_slice(&path.codes);
                for (place, x) in outcome.numbers.iter_mut().zip(&path.numbers) {
                    *place = x.to_bits();
                }
            }
            Ok(_) => {}
        }
        outcome
    }

    /// What a call leaves behind that is lent two buffers and the places of the counts.
    pub fn ours(lengths: [usize; 2], call: impl FnOnce(*mut u8, *mut f32, *mut usize, *mut usize) -> u32) -> Outcome {
        let mut outcome = Outcome::before(lengths);
        let [codes_written, numbers_written] = &mut outcome.written;
        let numbers = outcome.numbers.as_mut_ptr().cast();
        outcome.refusal = call(outcome.codes.as_mut_ptr(), numbers, codes_written, numbers_written);
        outcome
    }
}

fn called(input: &Input, lengths: [usize; 2]) -> Outcome {
    let [codes_len, numbers_len] = lengths;
    Outcome::ours(lengths, |codes, numbers, codes_written, numbers_written| match input {
        Input::Path { closed, vertices, count } => unsafe {
            jengafir_draw_path(
                *closed,
                vertices.as_ptr(),
                vertices.len(),
                *count,
                codes,
                codes_len,
                numbers,
                numbers_len,
                codes_written,
                numbers_written,
            )
        },
        Input::Item { row, numbers: items } => unsafe {
            jengafir_draw_item(
                row.as_ptr(),
                row.len(),
                items.as_ptr(),
                items.len(),
                codes,
                codes_len,
                numbers,
                numbers_len,
                codes_written,
                numbers_written,
            )
        },
    })
}

fn judge(random: &mut Random, report: &mut Report, outcomes: &mut Outcomes, input: &Input) {
    let answer = answer(input);
    let lengths = lengths(random, &answer);
    let theirs = Outcome::theirs(&answer, lengths);
    outcomes[theirs.refusal as usize] += 1;
    expect(report, input, lengths, &theirs);
}

pub fn expect(report: &mut Report, input: &Input, lengths: [usize; 2], theirs: &Outcome) {
    let ours = called(input, lengths);
    report.count(ours == *theirs, || {
        format!("{}, buffers of {lengths:?}: {}", shown_input(input), shown_difference(&ours, theirs))
    });
}

/// The lengths of the buffers: ample, exactly full, one short, or empty.
pub fn lengths(random: &mut Random, answer: &Result<Path, u32>) -> [usize; 2] {
    let [codes, numbers] = match answer {
        Ok(path) => [path.codes.len(), path.numbers.len()],
        Err(_) => [random.between(0, 8) as usize, random.between(0, 20) as usize],
    };
    match random.between(0, 15) {
        0 => [codes.saturating_sub(1), numbers],
        1 => [codes, numbers.saturating_sub(1)],
        2 => [codes.saturating_sub(1), numbers + 9],
        3 => [codes + 9, numbers.saturating_sub(1)],
        4 if random.bits(2) == 0 => [0, 0],
        5 if random.bits(2) == 0 => [0, numbers],
        6 if random.bits(2) == 0 => [codes, 0],
        7..=10 => [codes + random.between(0, 9) as usize, numbers + random.between(0, 9) as usize],
        _ => [codes, numbers],
    }
}

pub fn shown_input(input: &Input) -> String {
    match input {
        Input::Path { closed, vertices, count } => {
            format!("draw_path closed {closed}, {count} vertices in {}", shown_list(vertices))
        }
        Input::Item { row, numbers } => format!("draw_item {row:?} in {}", shown_list(numbers)),
    }
}

pub fn shown_list(list: &[f32]) -> String {
    let first: Vec<String> = list.iter().take(30).map(|x| format!("{:08x}", x.to_bits())).collect();
    let rest = if list.len() > 30 { " .." } else { "" };
    format!("{} numbers ({}{rest})", list.len(), first.join(" "))
}

pub fn shown_difference(ours: &Outcome, theirs: &Outcome) -> String {
    let mut shown = format!("ours {} {:?}, theirs {} {:?}", ours.refusal, ours.written, theirs.refusal, theirs.written);
    if let Some(i) = (0..ours.codes.len()).find(|&i| ours.codes[i] != theirs.codes[i]) {
        shown += &format!("; code {i} is {}, not {}", ours.codes[i], theirs.codes[i]);
    }
    if let Some(i) = (0..ours.numbers.len()).find(|&i| ours.numbers[i] != theirs.numbers[i]) {
        shown += &format!("; number {i} is {:08x}, not {:08x}", ours.numbers[i], theirs.numbers[i]);
    }
    shown
}

// The sample.

/// So many paths are sampled, and so many item rows, each with at most so many numbers.
const SAMPLED: usize = 40;
const SAMPLED_NUMBERS: usize = 32;

pub fn sample(random: &mut Random) -> Vec<Case> {
    let paths: Vec<Case> = (0..SAMPLED).map(|_| sampled(random, any_path)).collect();
    let items = (0..SAMPLED).map(|_| sampled(random, any_item));
    paths.into_iter().chain(items).collect()
}

/// Whether the drawing is the Rust's whole: an ellipse's walk is not.
pub fn is_the_rusts(input: &Input) -> bool {
    !matches!(input, Input::Item { row, .. } if row.first() == Some(&EL))
}

/// The first short input that the Rust draws, and what is drawn.
fn sampled(random: &mut Random, any: fn(&mut Random) -> Input) -> Case {
    loop {
        let input = any(random);
        let answer = answer(&input);
        let (word, numbers) = match &input {
            Input::Path { vertices, .. } => ("path", vertices),
            Input::Item { numbers, .. } => ("item", numbers),
        };
        if answer.is_ok() && is_the_rusts(&input) && numbers.len() <= SAMPLED_NUMBERS {
            let header = match &input {
                Input::Path { closed, count, .. } => vec![*closed, *count as u32],
                Input::Item { row, .. } => [&[6], &row[..6]].concat(),
            };
            return drawn_case(random, word, &header, numbers.len(), numbers, &answer);
        }
    }
}

/// A call that draws, with buffers that are full or have a place or two more. The numbers given are lent over and over,
/// so many as the length says.
pub fn drawn_case(
    random: &mut Random,
    word: &str,
    header: &[u32],
    length: usize,
    given: &[f32],
    answer: &Result<Path, u32>,
) -> Case {
    let nothing = Path::default();
    let (told, Path { codes, numbers }) = match answer {
        Ok(path) => (format!("written {} {}", path.codes.len(), path.numbers.len()), path),
        Err(refusal) => (format!("refused {refusal}"), &nothing),
    };
    let more = [random.bits(1) as usize, random.between(0, 2) as usize];
    let lengths = [length, codes.len() + more[0], numbers.len() + more[1]].map(|n| n as u32);
    let call = line(word, header.iter().copied().chain(lengths).chain(bits(given)));
    let codes = codes.iter().chain(std::iter::repeat_n(&0xee, more[0]));
    let codes: String = codes.map(|code| format!(" {code:02x}")).collect();
    let numbers = filled("numbers", bits(numbers), more[1], OLD_NUMBER.to_bits());
    Case::new(call, format!("{told}\ncodes{codes}\n{numbers}\n"))
}
