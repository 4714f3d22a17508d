//! Compares the needs that are told with what the Rust draws and with the room that is always enough, and draws in buffers
//! of just the need, and of a place less.

use crate::draw::{self, answer, for_each_edge_path, for_each_edge_rectangle, shown_input, Outcome};
use crate::interface::{jengafir_item_need, jengafir_merge_need, jengafir_tray_need};
use crate::merge::{self, for_each_alike, for_each_any, for_each_fault, for_each_largest, for_each_surrounded};
use crate::merge::{settle, shown_merge, Settled};
use crate::random::Random;
use crate::report::{Outcomes, Report};
use crate::rows::{List, Row};
use crate::shapes::{any_ellipse_item, any_item, any_path, Input, RC, SH};
use source::Path;

/// The number of the refusal, or 0, and how many codes and numbers are needed.
type Need = (u32, [usize; 2]);

/// Of the count that is asked for, one in so many is a list, a row and an ellipse. Merges have all of it, since most are
/// refused.
const ONE_IN: usize = 3;

pub fn compare(random: &mut Random, count: usize, report: &mut Report) {
    let mut paths: Outcomes = [0; 13];
    let mut items: Outcomes = [0; 13];
    let mut merges: Outcomes = [0; 13];
    for_each_edge_path(|path| judge(report, &mut paths, path));
    for_each_edge_rectangle(|item| judge(report, &mut items, item));
    for _ in 0..count / ONE_IN {
        judge(report, &mut paths, &any_path(random));
        judge(report, &mut items, &any_item(random));
        judge(report, &mut items, &any_ellipse_item(random));
    }
    for_each_surrounded(|list| judge_merge(random, report, &mut merges, list));
    for_each_fault(|list| judge_merge(random, report, &mut merges, list));
    for_each_largest(|list| judge_merge(random, report, &mut merges, list));
    for_each_any(random, count, |random, list| judge_merge(random, report, &mut merges, list));
    let [lists, rows, joined] = [paths[0], items[0], merges[0]];
    println!("oracle: buffers of just the need lent for {lists} lists, {rows} rows and {joined} merges");
    report.outcomes.push(("tray_need", paths));
    report.outcomes.push(("item_need", items));
    report.outcomes.push(("merge_need", merges));
}

// What the call has to answer.

/// As many codes and numbers as the path has, or its refusal and none.
fn need_of(answer: &Result<Path, u32>) -> Need {
    match answer {
        Ok(path) => (0, [path.codes.len(), path.numbers.len()]),
        Err(refusal) => (*refusal, [0, 0]),
    }
}

/// Room that is always enough for a shape of this kind, as the header has it for fixed arrays.
fn enough(kind: u32, count: usize) -> [usize; 2] {
    match kind {
        SH => [count + 2, 6 * count + 2],
        RC => [10, 34],
        _ => [6, 26],
    }
}

/// The room of the list, or of the row, that is drawn.
fn enough_for(input: &Input) -> [usize; 2] {
    match input {
        Input::Path { count, .. } => enough(SH, *count),
        Input::Item { row, .. } => enough(row[0], row[5] as usize),
    }
}

/// The rooms of the joined rows, added up.
fn enough_to_join(list: &List, joined: &[usize]) -> [usize; 2] {
    let rows = joined.iter().map(|row| Row::of(&list.rows[6 * row..6 * row + 6]));
    let rooms = rows.map(|row| enough(row.kind, row.count as usize));
    rooms.fold([0, 0], |sum, room| [sum[0] + room[0], sum[1] + room[1]])
}

/// Lengths of buffers: just the need, and a place less in either.
fn tight([codes, numbers]: [usize; 2]) -> [[usize; 2]; 3] {
    [[codes, numbers], [codes.saturating_sub(1), numbers], [codes, numbers.saturating_sub(1)]]
}

// The comparison.

fn told(call: impl FnOnce(*mut usize, *mut usize) -> u32) -> Need {
    let [mut codes, mut numbers] = [usize::MAX; 2];
    let refusal = call(&mut codes, &mut numbers);
    (refusal, [codes, numbers])
}

fn told_for(input: &Input) -> Need {
    told(|codes, numbers| match input {
        Input::Path { closed, vertices, count } => unsafe {
            jengafir_tray_need(*closed, vertices.as_ptr(), vertices.len(), *count, codes, numbers)
        },
        Input::Item { row, numbers: items } => unsafe {
            jengafir_item_need(row.as_ptr(), row.len(), items.as_ptr(), items.len(), codes, numbers)
        },
    })
}

fn told_to_join(list: &List) -> Need {
    let (rows, items) = (&list.rows, &list.items);
    told(|codes, numbers| unsafe {
        jengafir_merge_need(
            rows.as_ptr(),
            rows.len(),
            list.row_count,
            items.as_ptr(),
            list.items_len,
            codes,
            numbers,
        )
    })
}

fn judge(report: &mut Report, outcomes: &mut Outcomes, input: &Input) {
    let answer = answer(input);
    let theirs = need_of(&answer);
    outcomes[theirs.0 as usize] += 1;
    expect(report, told_for(input), theirs, || shown_input(input));
    if theirs.0 == 0 {
        expect_room(report, theirs.1, enough_for(input), || shown_input(input));
        for lengths in tight(theirs.1) {
            draw::expect(report, input, lengths, &Outcome::theirs(&answer, lengths));
        }
    }
}

/// Compares a list, and its need now and then with all altered that is not read.
fn judge_merge(random: &mut Random, report: &mut Report, outcomes: &mut Outcomes, list: &List) {
    let Settled { joined, answer } = settle(list);
    let theirs = need_of(&answer);
    outcomes[theirs.0 as usize] += 1;
    for_each_alike(random, list, &joined, |list| {
        expect(report, told_to_join(list), theirs, || shown_merge(list));
    });
    if theirs.0 == 0 {
        expect_room(report, theirs.1, enough_to_join(list, &joined), || shown_merge(list));
        for lengths in tight(theirs.1) {
            merge::expect(report, list, lengths, &Outcome::theirs(&answer, lengths));
        }
    }
}

fn expect(report: &mut Report, ours: Need, theirs: Need, shown: impl FnOnce() -> String) {
    report.count(ours == theirs, || format!("need of {}: ours {ours:?}, theirs {theirs:?}", shown()));
}

fn expect_room(report: &mut Report, need: [usize; 2], room: [usize; 2], shown: impl FnOnce() -> String) {
    report.count(need[0] <= room[0] && need[1] <= room[1], || {
        format!("need of {}: {need:?} is over the room of {room:?}", shown())
    });
}
