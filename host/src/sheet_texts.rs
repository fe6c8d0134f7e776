//! Sheets for tests and benchmarks: seeded ones, the same with numbers at and beyond the
//! edges, both as texts and damaged, and named ones at the limits of a text.

use crate::generate::{damaged_by, table_text, Random};
use crate::reference::{MAX_EDGES, MAX_TEXT};
use crate::sheet::{Line, NUMBERS, SHEET_BYTES, SHEET_NAMES};
use std::collections::BTreeMap;

/// The largest number of 18 digits.
pub const LONGEST_VALUE: i64 = 999_999_999_999_999_999;
const LAST_NUMBER: i64 = NUMBERS as i64 - 1;

// Texts

/// The text of lines, its columns in this order.
pub fn text_with_columns(lines: &[Line], columns: &[usize]) -> Vec<u8> {
    let row = |line: &Line| vec![line.initiator, line.block, line.base, line.size];
    let rows: Vec<Vec<i64>> = lines.iter().map(row).collect();
    table_text(&SHEET_NAMES, &rows, columns).into_bytes()
}

/// The text with the columns in the document's order.
pub fn plain_text(lines: &[Line]) -> Vec<u8> {
    text_with_columns(lines, &[0, 1, 2, 3])
}

/// The text with the columns in any order.
pub fn mixed_text(random: &mut Random, lines: &[Line]) -> Vec<u8> {
    text_with_columns(lines, &random.shuffled(SHEET_NAMES.count()))
}

/// A text of exactly that many bytes: bases are made longer digit by digit.
pub fn filled_text(mut lines: Vec<Line>, length: usize) -> Vec<u8> {
    const LONG: i64 = 100_000_000_000_000;
    let mut missing = length - plain_text(&lines).len();
    for line in &mut lines {
        while missing > 0 && line.base < LONG {
            // The base 0 takes one byte already.
            line.base = if line.base == 0 { 10 } else { line.base * 10 };
            missing -= 1;
        }
    }
    assert_eq!(missing, 0, "too few lines");
    plain_text(&lines)
}

// Seeded sheets

/// How far from byte 0 the lines of a sheet are.
#[derive(Clone, Copy, PartialEq, Eq)]
pub enum Span {
    /// All within NEAR_BYTES, so that many touch and overlap.
    Near,
    /// Up to the last byte of an initiator.
    Far,
}

pub const NEAR_BYTES: i64 = 48;

fn size(random: &mut Random, span: Span) -> i64 {
    let shorter = random.between(0, 47);
    match random.below(4) {
        0 => 1,
        _ if span == Span::Near => random.between(1, NEAR_BYTES / 4),
        1 => SHEET_BYTES - random.between(0, 1),
        _ => random.between(1, SHEET_BYTES >> shorter),
    }
}

fn base(random: &mut Random, span: Span, size: i64) -> i64 {
    let bytes = if span == Span::Near { NEAR_BYTES } else { SHEET_BYTES };
    match random.below(4) {
        0 => 0,
        1 => bytes - size,
        _ => random.between(0, bytes - size),
    }
}

/// Numbers of initiators or of blocks; those at the edges are frequent.
fn numbers(random: &mut Random, count: usize) -> Vec<i64> {
    let number = |_| match random.below(3) {
        0 => random.pick(&[0, 1, 9, 10, 99, 100, LAST_NUMBER - 1, LAST_NUMBER]),
        _ => random.between(0, LAST_NUMBER),
    };
    (0..count).map(number).collect()
}

/// That many lines, none of which a refusal concerns, of at most so many initiators and so
/// many blocks. Some lines are equal.
pub fn sheet(random: &mut Random, lines: usize, most_numbers: usize, span: Span) -> Vec<Line> {
    let initiators = numbers(random, most_numbers);
    let blocks = numbers(random, most_numbers);
    let sizes: BTreeMap<i64, i64> =
        blocks.iter().map(|&block| (block, size(random, span))).collect();
    let mut sheet = Vec::new();
    for _ in 0..lines {
        let (initiator, block) = (random.pick(&initiators), random.pick(&blocks));
        let size = sizes[&block];
        let line = Line { initiator, block, base: base(random, span, size), size };
        let repeated = !sheet.is_empty() && random.chance(10);
        sheet.push(if repeated { random.pick(&sheet) } else { line });
    }
    sheet
}

/// A sheet of few lines.
pub fn small_sheet(random: &mut Random, span: Span) -> Vec<Line> {
    let (lines, most_numbers) = (random.below(12), random.between(1, 4) as usize);
    sheet(random, lines, most_numbers, span)
}

/// The lines with numbers at or beyond the edges of what they may be. Some changes leave
/// the sheet valid.
pub fn disturbed(random: &mut Random, lines: &[Line]) -> Vec<Line> {
    const FAR: i64 = LONGEST_VALUE;
    let mut lines = lines.to_vec();
    for _ in 0..random.pick(&[1, 1, 2, 3]).min(lines.len()) {
        let place = random.below(lines.len());
        let line = &mut lines[place];
        let (last_base, most_size) = (SHEET_BYTES - line.size, SHEET_BYTES - line.base);
        let number = random.pick(&[-1, 0, LAST_NUMBER, LAST_NUMBER + 1, FAR, -FAR]);
        let base = random.pick(&[-1, 0, last_base, last_base + 1, FAR, -FAR]);
        let other_size = random.pick(&[line.size - 1, line.size + 1]);
        let size = random.pick(&[-1, 0, 1, other_size, most_size, most_size + 1, FAR, -FAR]);
        match random.below(5) {
            0 => line.initiator = number,
            1 => line.block = number,
            2 => line.base = base.clamp(-FAR, FAR),
            _ => line.size = size.clamp(-FAR, FAR),
        }
    }
    lines
}

/// Fields to put in the place of others, parted by single spaces; the first is empty.
pub const WRONG_FIELDS: &str = " - -0 00 01 -01 --1 1- 1-1 a initiator block base size sizes \
    siz range -1 0 1 2 16 999 1000 999999999999999999 1000000000000000000 -999999999999999999 \
    -1000000000000000000 9223372036854775808 18446744073709551617 281474976710655 \
    281474976710656 281474976710657 -281474976710656";

/// A text with one fault, often with more; some faults leave it valid.
pub fn damaged(random: &mut Random, text: &[u8]) -> Vec<u8> {
    damaged_by(random, text, WRONG_FIELDS)
}

// Named sheets

/// That many lines of eight bytes each, all equal.
pub fn short_lines(count: usize) -> Vec<Line> {
    vec![Line { initiator: 0, block: 0, base: 0, size: 1 }; count]
}

/// As many as a text has room for.
pub fn most_short_lines() -> Vec<Line> {
    let bytes = |count: usize| plain_text(&short_lines(count)).len();
    short_lines((MAX_TEXT - bytes(0)) / (bytes(1) - bytes(0)))
}

/// Lines of all numbers from the highest down: of any 1,000 that follow one another, no two
/// have an initiator or a block in common.
pub fn all_numbers(count: usize) -> Vec<Line> {
    let line = |place: usize| {
        let initiator = LAST_NUMBER - (place % NUMBERS) as i64;
        let block = LAST_NUMBER - (place * 3 % NUMBERS) as i64;
        Line { initiator, block, base: (place % 2) as i64, size: 1_000 + block }
    };
    (0..count).map(line).collect()
}

/// The same lines with one block for all of them.
fn one_block(count: usize) -> Vec<Line> {
    let of_block = |line| Line { block: LAST_NUMBER, size: 4_096, ..line };
    all_numbers(count).into_iter().map(of_block).collect()
}

/// The lines with another size on the last.
fn other_size_at_the_end(mut lines: Vec<Line>) -> Vec<Line> {
    lines.last_mut().expect("there is a line").size += 1;
    lines
}

pub struct Sheet {
    pub name: &'static str,
    pub text: Vec<u8>,
}

impl Sheet {
    /// Its lines of values.
    pub fn lines(&self) -> usize {
        self.text.split(|&byte| byte == b'\n').count() - 2
    }
}

/// From tiny to as long as a text may be.
pub fn sheets() -> Vec<Sheet> {
    let full = |name, lines| Sheet { name, text: filled_text(lines, MAX_TEXT) };
    vec![
        Sheet { name: "5 lines", text: plain_text(&all_numbers(5)) },
        full("1,000 initiators, 1,000 blocks", all_numbers(MAX_EDGES)),
        full("1,000 initiators, one block", one_block(MAX_EDGES)),
        full("18 at the last line", other_size_at_the_end(all_numbers(MAX_EDGES))),
        full("one block, 18 at the last line", other_size_at_the_end(one_block(MAX_EDGES))),
        full("as many lines as fit", most_short_lines()),
        full("as many lines as fit, 18 at the last", other_size_at_the_end(most_short_lines())),
    ]
}
