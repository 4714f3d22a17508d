//! Lists of item rows of the kinds on which a merge goes wrong.

use crate::random::Random;
use crate::shapes::{any_ellipse, any_rectangle, any_vertices, one_of, spoil, unread, wrong_flag};
use crate::shapes::{EL, MOST_VERTICES, RC, SH};
use std::rc::Rc;

pub const MOST_ROWS: usize = 256;
pub const MOST_DEPTH: u32 = 8;
pub const SR: u32 = 4;
pub const GR: u32 = 5;
pub const TR: u32 = 6;
pub const MM: u32 = 13;
pub const OTHER: u32 = 14;

/// What may stand after a merge: fl, st, gf, gs, tr, tm and rp.
const AFTER: [u32; 7] = [7, 8, 9, 10, TR, 11, 12];

#[derive(Clone, Copy, Debug, Default, PartialEq)]
pub struct Row {
    pub kind: u32,
    pub hidden: u32,
    pub depth: u32,
    pub mark: u32,
    pub place: u32,
    pub count: u32,
}

impl Row {
    pub fn new(kind: u32, hidden: u32, depth: u32, mark: u32) -> Row {
        Row { kind, hidden, depth, mark, ..Row::default() }
    }

    pub fn of(entries: &[u32]) -> Row {
        let &[kind, hidden, depth, mark, place, count] = entries else { panic!("a row has six entries") };
        Row { kind, hidden, depth, mark, place, count }
    }

    pub fn entries(&self) -> [u32; 6] {
        [self.kind, self.hidden, self.depth, self.mark, self.place, self.count]
    }

    pub fn is_source(&self) -> bool {
        (SH..=SR).contains(&self.kind)
    }

    /// Whether the entries are listed in document 01. Depth and nesting are apart.
    pub fn is_listed(&self) -> bool {
        (SH..=OTHER).contains(&self.kind)
            && self.hidden <= 1
            && self.mark <= most_mark(self.kind)
            && (self.count == 0 || self.kind == SH)
    }
}

fn most_mark(kind: u32) -> u32 {
    match kind {
        SH => 1,
        MM => 255,
        _ => 0,
    }
}

/// What is lent to a merge, the buffers apart.
#[derive(Clone)]
pub struct List {
    pub rows: Vec<u32>,
    pub row_count: usize,
    pub items: Rc<Vec<f32>>,
    /// How many of the items are lent.
    pub items_len: usize,
}

impl List {
    pub fn new(rows: &[Row], items: &Rc<Vec<f32>>) -> List {
        let row_count = rows.len();
        let rows = rows.iter().flat_map(Row::entries).collect();
        List { rows, row_count, items: items.clone(), items_len: items.len() }
    }

    pub fn lent_items(&self) -> &[f32] {
        &self.items[..self.items_len]
    }
}

// Numbers of sources.

/// Numbers, and rows that have their numbers among them.
pub struct Stock {
    pub items: Rc<Vec<f32>>,
    sound: Vec<Row>,
    /// A row whose numbers are many.
    largest: Row,
    /// Rows with a number that is refused.
    spoiled: Vec<Row>,
}

impl Stock {
    pub fn any(random: &mut Random) -> Stock {
        let mut items = Vec::new();
        let mut sound = Vec::new();
        let mut spoiled = Vec::new();
        for i in 0..24 {
            items.extend(unread(random));
            let (kind, count) = match i {
                0..=6 => (RC, 0),
                7..=11 => (EL, 0),
                12..=16 => (SH, random.between(1, 3) as usize),
                _ => (SH, random.between(1, 7) as usize),
            };
            sound.push(stocked(random, &mut items, kind, count, false));
            if i % 3 == 0 {
                spoiled.push(stocked(random, &mut items, kind, count, true));
            }
        }
        let count = random.between(200, MOST_VERTICES as i64) as usize;
        let largest = stocked(random, &mut items, SH, count, false);
        let last = [(RC, 0), (EL, 0), (SH, 1), (SH, 2)][random.bits(2) as usize];
        sound.push(stocked(random, &mut items, last.0, last.1, false));
        Stock { items: items.into(), sound, largest, spoiled }
    }

    /// Rows that have their numbers among few, which stand there over and over.
    fn short(random: &mut Random) -> Stock {
        let mut given = any_vertices(random, 1);
        given.extend(any_rectangle(random));
        let items: Vec<f32> = given.iter().copied().cycle().take(SHORT_LENGTH).collect();
        let mut sound = Vec::new();
        for count in [0, 0, 0, 1, 1, 2, 2, 3] {
            let needed = if count == 0 { 5 } else { 6 * count };
            let place = random.between(0, (SHORT_LENGTH - needed) as i64) as u32;
            sound.push(Row { kind: if count == 0 { RC } else { SH }, place, count: count as u32, ..Row::default() });
        }
        Stock { items: items.into(), largest: sound[0], sound, spoiled: Vec::new() }
    }

    fn source(&self, random: &mut Random) -> Row {
        let list = &self.sound;
        if random.bits(13) == 0 {
            return self.largest;
        }
        let row = list[random.bits(32) as usize % list.len()];
        Row { mark: if row.kind == SH { random.bits(1) as u32 } else { 0 }, ..row }
    }

    /// A source with one fault or more.
    fn faulty(&self, random: &mut Random) -> Row {
        let length = self.items.len() as u32;
        let mut row = self.source(random);
        for _ in 0..1 + random.bits(1) {
            match random.bits(3) {
                0 => row = Row::new(EL + random.bits(1) as u32, 0, row.depth, 0),
                1 if row.kind == SH => row.count = 0,
                2 if row.kind == SH => row.count = one_of(random, &[1_025, 1_026, 0x2aaa_aaab, u32::MAX]),
                3 if row.kind == SH => row.count = 1_024,
                4 | 5 => row = self.spoiled[random.bits(32) as usize % self.spoiled.len()],
                _ => row.place = one_of(random, &[length - 4, length - 3, length, length + 1, 1 << 31, u32::MAX - 5, u32::MAX]),
            }
        }
        row
    }
}

/// Appends the numbers of a source of this kind, and gives their row.
fn stocked(random: &mut Random, items: &mut Vec<f32>, kind: u32, count: usize, spoiled: bool) -> Row {
    let mut numbers = match kind {
        RC => any_rectangle(random),
        EL => any_ellipse(random),
        _ => any_vertices(random, count),
    };
    if spoiled {
        spoil(random, &mut numbers);
    }
    let row = Row { kind, place: items.len() as u32, count: count as u32, ..Row::default() };
    items.append(&mut numbers);
    row
}

// Lists that join, if nothing is changed in them.

/// Rows on the way, with how many more there may be.
struct Builder<'a> {
    stock: &'a Stock,
    rows: Vec<Row>,
    left: usize,
}

impl Builder<'_> {
    fn push(&mut self, row: Row) {
        if self.left > 0 {
            self.left -= 1;
            self.rows.push(row);
        }
    }

    /// A row of any kind, with any rows in it where it is a group.
    fn any(&mut self, random: &mut Random, hidden: u32, depth: u32) {
        let kind = match random.bits(2) {
            0 => GR,
            1 => MM,
            _ => random.between(SH as i64, OTHER as i64) as u32,
        };
        let mut row = Row::new(kind, hidden, depth, 0);
        if kind == MM {
            row.mark = any_mode(random);
        } else if kind == SH || kind == RC {
            row = Row { hidden, depth, ..self.stock.source(random) };
        }
        self.push(row);
        while kind == GR && depth < MOST_DEPTH && self.left > 0 && random.bits(2) != 0 {
            let hidden = random.bits(1) as u32;
            self.any(random, hidden, depth + 1);
        }
    }

    fn empty_group(&mut self, random: &mut Random, depth: u32) {
        self.push(Row::new(GR, 0, depth, 0));
        while depth < MOST_DEPTH && self.left > 0 && random.bits(2) != 0 {
            match random.bits(2) {
                0 => self.push(Row::new(TR, random.bits(1) as u32, depth + 1, 0)),
                1 => self.any(random, 1, depth + 1),
                _ => self.empty_group(random, depth + 1),
            }
        }
    }

    fn before_merge(&mut self, random: &mut Random, sources: usize) {
        let mut sources = sources;
        while sources > 0 && self.left > 1 {
            match random.bits(3) {
                0 => self.push(Row::new(TR, 0, 0, 0)),
                1 => self.empty_group(random, 0),
                2 => self.any(random, 1, 0),
                _ => {
                    let source = self.stock.source(random);
                    self.push(source);
                    sources -= 1;
                }
            }
        }
    }

    fn after_merge(&mut self, random: &mut Random) {
        let mut merges = true;
        while self.left > 0 && random.bits(2) != 0 {
            match random.bits(2) {
                0 => self.any(random, 1, 0),
                1 if merges => self.push(Row::new(MM, 0, 0, any_mode(random))),
                2 => self.push(Row::new(TR, 0, 0, 0)),
                _ => {
                    merges = random.bits(4) == 0;
                    self.push(Row::new(one_of(random, &AFTER), 0, 0, 0));
                }
            }
        }
    }
}

fn any_mode(random: &mut Random) -> u32 {
    match random.bits(2) {
        0 => 1,
        1 => random.bits(8) as u32,
        _ => random.bits(2) as u32,
    }
}

fn joining(random: &mut Random, stock: &Stock) -> Vec<Row> {
    let left = match random.bits(8) {
        0 => MOST_ROWS,
        1..=7 => random.between(20, MOST_ROWS as i64) as usize,
        8..=119 => random.between(3, 8) as usize,
        _ => random.between(4, 20) as usize,
    };
    let mut builder = Builder { stock, rows: Vec::new(), left };
    let sources = match random.bits(3) {
        0 if left > 20 => random.between(2, left as i64) as usize,
        0 | 1 => random.between(0, 5) as usize,
        _ => random.between(2, 4) as usize,
    };
    builder.before_merge(random, sources);
    builder.push(Row::new(MM, 0, 0, 1));
    builder.after_merge(random);
    builder.rows
}

// Lists that are changed here and there.

/// A list that joins, or one with a few changes, and rows past its number that are not to be read.
pub fn any_list(random: &mut Random, stock: &Stock) -> List {
    let mut rows = joining(random, stock);
    if random.bits(2) == 0 {
        for _ in 0..1 + random.bits(1) {
            replace_source(random, stock, &mut rows);
        }
    }
    if random.bits(1) == 0 {
        for _ in 0..1 + random.bits(1) {
            change(random, stock, &mut rows);
        }
    }
    let mut list = List::new(&rows, &stock.items);
    match random.bits(6) {
        0 => list.rows.truncate(random.bits(32) as usize % (list.rows.len() + 1)),
        1 => {
            list.rows.pop();
        }
        2 => list.row_count = one_of_counts(random),
        3 => list.items_len -= random.bits(4) as usize,
        4..=23 => list.rows.extend(unread_rows(random)),
        _ => {}
    }
    list
}

/// How many numbers a short list has, and how many of them differ: those of one vertex and one rectangle.
pub const SHORT_LENGTH: usize = 40;
pub const SHORT_GIVEN: usize = 6 + 5;
const SHORT_ROWS: usize = 12;

/// A list of few rows and few numbers that joins, or one with a change.
pub fn short_list(random: &mut Random) -> List {
    let stock = Stock::short(random);
    loop {
        let mut rows = joining(random, &stock);
        if random.bits(1) == 0 {
            change(random, &stock, &mut rows);
        }
        if rows.len() <= SHORT_ROWS {
            return List::new(&rows, &stock.items);
        }
    }
}

fn one_of_counts(random: &mut Random) -> usize {
    match random.bits(2) {
        0 => 0,
        1 => MOST_ROWS + 1,
        2 => usize::MAX >> random.bits(5),
        _ => 1 << 32 | random.bits(3) as usize,
    }
}

/// Entries of rows past those that are read: whole rows, which may be sound, or fewer entries.
fn unread_rows(random: &mut Random) -> Vec<u32> {
    match random.bits(2) {
        0 => Row::new(RC, 0, 0, 0).entries().to_vec(),
        1 => Row::new(0, 2, 9, 0).entries().to_vec(),
        _ => (0..random.bits(4)).map(|_| random.bits(32) as u32).collect(),
    }
}

/// Gives a visible source of depth 0 a fault.
fn replace_source(random: &mut Random, stock: &Stock, rows: &mut [Row]) {
    let sources: Vec<usize> = (0..rows.len()).filter(|&i| is_joinable(&rows[i])).collect();
    if !sources.is_empty() {
        rows[sources[random.bits(32) as usize % sources.len()]] = stock.faulty(random);
    }
}

fn is_joinable(row: &Row) -> bool {
    row.is_source() && row.hidden == 0 && row.depth == 0
}

fn change(random: &mut Random, stock: &Stock, rows: &mut Vec<Row>) {
    let at = random.bits(32) as usize % rows.len();
    let other = random.bits(32) as usize % rows.len();
    let row = &mut rows[at];
    match random.bits(4) {
        0 | 1 => *row = changed_kind(random, stock, row),
        2 | 3 => row.hidden ^= 1,
        4 => row.depth = row.depth.wrapping_add(1 - 2 * random.bits(1) as u32),
        5 => row.depth = random.between(0, 9) as u32,
        6 if row.kind == MM => row.mark = any_mode(random),
        6 => row.mark = 1 + random.bits(8) as u32,
        7 => *row = unlisted(random, *row),
        8 => {
            rows.remove(at);
            if rows.is_empty() {
                rows.push(Row::new(MM, 0, 0, 1));
            }
        }
        9 => rows.swap(at, other),
        10 | 11 => {
            let row = rows[other];
            rows.insert(at, row);
        }
        12 => rows[at].depth = one_of(random, &[9, 10, 255, 256, 1 << 31, u32::MAX]),
        13 => {
            let depth = rows[at].depth;
            rows.insert(at, Row::new(random.between(1, 14) as u32, 0, depth, 0));
        }
        14 => rows.truncate(at + 1),
        _ => rows.rotate_left(at),
    }
}

fn changed_kind(random: &mut Random, stock: &Stock, row: &Row) -> Row {
    let kind = random.between(SH as i64, OTHER as i64) as u32;
    let changed = match kind {
        SH | RC => stock.source(random),
        MM => Row::new(MM, 0, 0, any_mode(random)),
        _ => Row::new(kind, 0, 0, 0),
    };
    Row { hidden: row.hidden, depth: row.depth, ..changed }
}

fn unlisted(random: &mut Random, row: Row) -> Row {
    match random.bits(2) {
        0 => Row { kind: one_of(random, &[0, 15, 256 | RC, 1 << 16 | MM, u32::MAX]), ..row },
        1 => Row { hidden: wrong_flag(random), ..row },
        2 => Row { mark: most_mark(row.kind) + 1 + (random.bits(31) >> random.bits(5)) as u32, ..row },
        _ => Row { count: 1 + random.bits(11) as u32, ..row },
    }
}

/// The same list to a merge, with another place and count in every row but the visible sources of depth 0, another
/// mark in hidden rows, and something else past the rows.
pub fn altered(random: &mut Random, list: &List) -> List {
    let mut list = list.clone();
    let read = list.row_count.saturating_mul(6).min(list.rows.len());
    for entries in list.rows[..read].chunks_exact_mut(6) {
        let mut row = Row::of(entries);
        if !row.is_listed() || is_joinable(&row) {
            continue;
        }
        row.place = random.bits(32) as u32;
        row.count = if row.kind == SH { random.bits(32) as u32 } else { 0 };
        if row.hidden == 1 {
            row.mark = random.bits(8) as u32 % (most_mark(row.kind) + 1);
        }
        entries.copy_from_slice(&row.entries());
    }
    if read == list.row_count.saturating_mul(6) {
        list.rows.truncate(read);
        list.rows.extend(unread_rows(random));
    }
    list
}
