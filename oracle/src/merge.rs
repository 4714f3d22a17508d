//! Compares merges: the Rust's own functions, under document 01's refusals, against ours. An ellipse among the sources is
//! drawn in the Rust's box by a reading of document 02; that it is joined, and where, is the Rust's.

use crate::draw::Outcome;
use crate::draw::{check, drawn_case, ellipse, entries, lengths, rectangle, source_numbers, vertex_list};
use crate::draw::{shown_difference, shown_list};
use crate::interface::jengafir_merge;
use crate::random::Random;
use crate::report::{Outcomes, Report};
use crate::rows::{SHORT_GIVEN, SHORT_LENGTH};
use crate::rows::{altered, any_list, short_list, List, Row, Stock, GR, MM, MOST_DEPTH, MOST_ROWS, OTHER, SR};
use crate::sample::Case;
use crate::shapes::{EL, MOST_VERTICES, RC, SH};
use source::{Path, ShapeItem};
use std::rc::Rc;

/// So many lists are made of one stock of numbers.
const LISTS_OF_A_STOCK: usize = 256;

pub fn compare(random: &mut Random, count: usize, report: &mut Report) {
    let mut tally = Tally { lists: 0, joined: 0, outcomes: [0; 13] };
    for_each_surrounded(|list| judge(random, report, &mut tally, list));
    for_each_fault(|list| (0..8).for_each(|_| judge(random, report, &mut tally, list)));
    for_each_largest(|list| (0..3).for_each(|_| judge(random, report, &mut tally, list)));
    for_each_any(random, count, |random, list| judge(random, report, &mut tally, list));
    println!("oracle: merge joins in {} of {} lists", tally.joined, tally.lists);
    report.outcomes.push(("merge", tally.outcomes));
}

/// So many lists of every kind.
pub fn for_each_any(random: &mut Random, count: usize, mut f: impl FnMut(&mut Random, &List)) {
    let mut stock = Stock::any(random);
    for i in 0..count {
        if i % LISTS_OF_A_STOCK == 0 {
            stock = Stock::any(random);
        }
        let list = any_list(random, &stock);
        f(random, &list);
    }
}

struct Tally {
    lists: u64,
    /// How often sources are joined, whether or not each can be drawn and fits.
    joined: u64,
    outcomes: Outcomes,
}

// What the call has to answer.

/// What the rows settle and what the answer is.
pub struct Settled {
    /// The rows that are joined; none where the rows are refused.
    pub joined: Vec<usize>,
    /// The path, or the refusal that comes before it is known whether the path fits.
    pub answer: Result<Path, u32>,
}

pub fn settle(list: &List) -> Settled {
    match joined_rows(list) {
        Err(refusal) => Settled { joined: Vec::new(), answer: Err(refusal) },
        Ok((rows, joined)) => {
            let answer = merged_path(&rows, &joined, list.lent_items());
            Settled { joined, answer }
        }
    }
}

/// The rows, and which of them are joined, after the checks in document 01's order: 1, 2, 12, 2, 4, 6, 7.
fn joined_rows(list: &List) -> Result<(Vec<Row>, Vec<usize>), u32> {
    check(list.row_count != 0, 1)?;
    check(list.row_count <= MOST_ROWS, 2)?;
    let entries = list.rows.get(..6 * list.row_count).ok_or(12u32)?;
    let rows: Vec<Row> = entries.chunks(6).map(Row::of).collect();
    check(rows.iter().all(|row| row.depth <= MOST_DEPTH), 2)?;
    check(rows.iter().all(Row::is_listed), 4)?;
    check(rows[0].depth == 0 && rows.windows(2).all(|pair| may_follow(&pair[0], &pair[1])), 6)?;
    let joined = source::joined_rows(&nested(&rows, None)).ok_or(7u32)?;
    Ok((rows, joined))
}

/// Whether a row may stand after a row: not deeper, or one deeper in a group.
fn may_follow(before: &Row, row: &Row) -> bool {
    row.depth <= before.depth || before.kind == GR && row.depth == before.depth + 1
}

/// The checks of each source in order, and then the path of all.
fn merged_path(rows: &[Row], joined: &[usize], items: &[f32]) -> Result<Path, u32> {
    for &row in joined {
        let Row { kind, place, count, .. } = rows[row];
        source_numbers(kind, place, count, items)?;
    }
    Ok(source::merged_path(&nested(rows, Some(items))).unwrap())
}

const TYPES: [&str; 14] = ["sh", "rc", "el", "sr", "gr", "tr", "fl", "st", "gf", "gs", "tm", "rp", "mm", "rd"];

/// The items of sound rows, a group's in it; with numbers where the sources are to be drawn.
fn nested(rows: &[Row], numbers: Option<&[f32]>) -> Vec<ShapeItem> {
    let mut open: Vec<Vec<ShapeItem>> = vec![Vec::new()];
    for (i, row) in rows.iter().enumerate() {
        close(&mut open, row.depth as usize + 1);
        open.last_mut().unwrap().push(item(i, row, numbers));
        open.push(Vec::new());
    }
    close(&mut open, 1);
    open.pop().unwrap()
}

/// Puts the innermost items into the last item of the list around them, until so many lists are left.
fn close(open: &mut Vec<Vec<ShapeItem>>, left: usize) {
    while open.len() > left {
        let items = open.pop().unwrap();
        if let Some(group) = open.last_mut().unwrap().last_mut() {
            group.items = items;
        }
    }
}

/// The item of a row. A source that cannot be drawn, since it is not to be, has no geometry.
fn item(i: usize, row: &Row, numbers: Option<&[f32]>) -> ShapeItem {
    let drawn = numbers.and_then(|numbers| source_numbers(row.kind, row.place, row.count, numbers).ok());
    let mut item = match (row.kind, drawn) {
        (RC, Some(numbers)) => rectangle(numbers),
        (EL, Some(numbers)) => ellipse(numbers),
        (SH, Some(numbers)) => ShapeItem { path: Some(vertex_list(row.mark, numbers)), ..ShapeItem::default() },
        _ => ShapeItem::default(),
    };
    item.item_type = TYPES[row.kind as usize - 1].to_string();
    item.hidden = row.hidden == 1;
    item.mode = if row.kind == MM { row.mark as u8 } else { 0 };
    item.row = i;
    item
}

// The comparison.

fn called(list: &List, lengths: [usize; 2]) -> Outcome {
    Outcome::ours(lengths, |codes, numbers, codes_written, numbers_written| unsafe {
        jengafir_merge(
            list.rows.as_ptr(),
            list.rows.len(),
            list.row_count,
            list.items.as_ptr(),
            list.items_len,
            codes,
            lengths[0],
            numbers,
            lengths[1],
            codes_written,
            numbers_written,
        )
    })
}

fn judge(random: &mut Random, report: &mut Report, tally: &mut Tally, list: &List) {
    let settled = settle(list);
    let lengths = lengths(random, &settled.answer);
    let theirs = Outcome::theirs(&settled.answer, lengths);
    tally.lists += 1;
    tally.joined += u64::from(!settled.joined.is_empty());
    tally.outcomes[theirs.refusal as usize] += 1;
    for_each_alike(random, list, &settled.joined, |list| expect(report, list, lengths, &theirs));
}

/// The list, and now and then the list with all altered that is not read.
pub fn for_each_alike(random: &mut Random, list: &List, joined: &[usize], mut f: impl FnMut(&List)) {
    f(list);
    if random.bits(2) == 0 {
        let mut list = altered(random, list);
        f(&list);
        if random.bits(3) == 0 {
            spoil_unread(random, &mut list, joined);
            f(&list);
        }
    }
}

pub fn expect(report: &mut Report, list: &List, lengths: [usize; 2], theirs: &Outcome) {
    let ours = called(list, lengths);
    report.count(ours == *theirs, || {
        format!("{}, buffers of {lengths:?}: {}", shown_merge(list), shown_difference(&ours, theirs))
    });
}

pub fn shown_merge(list: &List) -> String {
    let rows: Vec<String> = list.rows.chunks(6).take(16).map(|row| format!("{row:?}")).collect();
    let rest = if list.rows.len() > 6 * 16 { " .." } else { "" };
    format!("merge of {} rows in {}{rest}, {}", list.row_count, rows.join(" "), shown_list(list.lent_items()))
}

/// Puts anything in the place of each number that is no joined source's.
fn spoil_unread(random: &mut Random, list: &mut List, joined: &[usize]) {
    let mut read = vec![false; list.items.len()];
    for &i in joined {
        let row = Row::of(&list.rows[6 * i..6 * i + 6]);
        let start = (row.place as usize).min(read.len());
        let end = start.saturating_add(entries(row.kind, row.count)).min(read.len());
        read[start..end].fill(true);
    }
    let spoiled = list.items.iter().zip(read).map(|(&x, read)| if read { x } else { random.float() });
    list.items = Rc::new(spoiled.collect());
}

// Every short list.

/// Every row of a kind, with both modes for mm, hidden or not, at two depths from this one on.
fn every_row(depth: u32) -> Vec<Row> {
    let mut rows = Vec::new();
    for kind in SH..=OTHER {
        for hidden in [0, 1] {
            for depth in [depth, depth + 1] {
                let marks = if kind == MM { vec![1, 2] } else { vec![0] };
                rows.extend(marks.into_iter().map(|mark| Row::new(kind, hidden, depth, mark)));
            }
        }
    }
    rows
}

/// Every list of up to three rows: alone, after a merge, before the two sources of a merge, and in a group there.
pub fn for_each_surrounded(mut f: impl FnMut(&List)) {
    let items: Rc<Vec<f32>> = Rc::new((0..80).map(|i| (i * i % 97) as f32 * 0.75 - 20.0).collect());
    let merge = [Row::new(RC, 0, 0, 0), Row::new(SH, 0, 0, 0), Row::new(MM, 0, 0, 1)];
    let group = [Row::new(GR, 0, 0, 0)];
    let surroundings: [(&[Row], u32, &[Row]); 4] =
        [(&[], 0, &[]), (&merge, 0, &[]), (&[], 0, &merge), (&group, 1, &merge)];
    for (before, depth, after) in surroundings {
        for_each_short(&every_row(depth), |rows| {
            let mut rows = [before, rows, after].concat();
            rows.iter_mut().enumerate().for_each(|(i, row)| locate(i as u32, row));
            if !rows.is_empty() {
                f(&List::new(&rows, &items));
            }
        });
    }
}

/// Gives a source numbers of its own.
fn locate(i: u32, row: &mut Row) {
    row.place = if row.is_source() { 7 * i } else { 0 };
    if row.kind == SH {
        row.mark = i % 2;
        row.count = 1 + i % 3;
    }
}

fn for_each_short(every: &[Row], mut f: impl FnMut(&[Row])) {
    f(&[]);
    for &a in every {
        f(&[a]);
        for &b in every {
            f(&[a, b]);
            every.iter().for_each(|&c| f(&[a, b, c]));
        }
    }
}

// Faults, two and more at once.

/// What may be wrong with a source, in the order in which it counts: first nothing, and then an ellipse, sound or not.
const SOURCE_FAULTS: [fn(&mut Row); 8] = [
    |_| {},
    |row| *row = Row { place: 4, ..Row::new(EL, 0, 0, 0) },
    |row| *row = Row { place: 5, ..Row::new(EL, 0, 0, 0) },
    |row| *row = Row::new(SR, 0, 0, 0),
    |row| row.count = 0,
    |row| row.count = MOST_VERTICES as u32 + 1,
    |row| row.place = 1_000,
    |row| row.place = 8,
];

/// What may be wrong with the rows.
const LIST_FAULTS: [fn(&mut List); 12] = [
    |_| {},
    |list| list.row_count = 0,
    |list| list.row_count = MOST_ROWS + 1,
    |list| list.row_count = usize::MAX / 3,
    |list| list.rows.truncate(6 * 4 - 1),
    |list| list.rows[2] = MOST_DEPTH + 1,
    |list| list.rows[6 * 3 + 2] = MOST_DEPTH + 1,
    |list| list.rows[1] = 2,
    |list| list.rows[6 * 3 + 3] = 1,
    |list| list.rows[2] = 1,
    |list| list.rows[6 * 3 + 2] = 1,
    |list| list.rows[6 * 2 + 3] = 2,
];

/// Every two faults of sources together with every two of the rows.
pub fn for_each_fault(mut f: impl FnMut(&List)) {
    // The number at 8 is the first that is not finite; the sources have theirs before it.
    let items: Rc<Vec<f32>> = Rc::new((0..40).map(|i| if i < 8 || i > 20 { i as f32 } else { f32::NAN }).collect());
    let sound = [Row { count: 1, ..Row::new(SH, 0, 0, 1) }, Row { place: 21, count: 3, ..Row::new(SH, 0, 0, 0) }];
    for first in SOURCE_FAULTS {
        for second in SOURCE_FAULTS {
            let mut rows = [sound[0], sound[1], Row::new(MM, 0, 0, 1), Row::new(7, 0, 0, 0)];
            first(&mut rows[0]);
            second(&mut rows[1]);
            for one in LIST_FAULTS {
                for other in LIST_FAULTS {
                    let mut list = List::new(&rows, &items);
                    one(&mut list);
                    other(&mut list);
                    f(&list);
                }
            }
        }
    }
}

/// The most sources of the most vertices, and one row more.
pub fn for_each_largest(mut f: impl FnMut(&List)) {
    let items: Rc<Vec<f32>> = Rc::new((0..6 * MOST_VERTICES).map(|i| (i * i % 8191) as f32).collect());
    let source = Row { count: MOST_VERTICES as u32, ..Row::new(SH, 0, 0, 1) };
    let mut rows = vec![source; MOST_ROWS];
    rows[MOST_ROWS - 1] = Row::new(MM, 0, 0, 1);
    f(&List::new(&rows, &items));
    rows.push(Row::new(7, 0, 0, 0));
    f(&List::new(&rows, &items));
}

// The sample.

/// So many lists are sampled in which the Rust joins, and so many in which it does not.
const SAMPLED: [usize; 2] = [60, 20];

pub fn sample(random: &mut Random) -> Vec<Case> {
    let mut left = SAMPLED;
    let mut cases = Vec::new();
    while left != [0, 0] {
        let list = short_list(random);
        let Settled { joined, answer } = settle(&list);
        let left = match answer {
            // The walk of an ellipse is not the Rust's.
            Ok(_) if joined.iter().any(|&row| list.rows[6 * row] == EL) => continue,
            Ok(_) => &mut left[0],
            Err(7) => &mut left[1],
            Err(_) => continue,
        };
        if *left > 0 {
            *left -= 1;
            let given = &list.items[..SHORT_GIVEN];
            cases.push(drawn_case(random, "merge", &header(&list), SHORT_LENGTH, given, &answer));
        }
    }
    cases
}

/// What a line has before its numbers: how many rows, how many entries, no entry to change, and the rows.
fn header(list: &List) -> Vec<u32> {
    let rows = list.rows.chunks(6).map(|entries| packed(&Row::of(entries)));
    let count = list.row_count as u32;
    [count, 6 * count, u32::MAX, 0, count].into_iter().chain(rows).collect()
}

/// A row as one number, by hexadecimal digits: kind, hidden, depth, two of the mark, two of the place, and the count.
fn packed(row: &Row) -> u32 {
    row.kind << 28 | row.hidden << 24 | row.depth << 20 | row.mark << 12 | row.place << 4 | row.count
}
