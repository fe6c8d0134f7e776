//! Walks over the tables that sheets make, held to one sentence: byte base + i of an
//! initiator reaches byte i of the block, for every line and every i below its size, and
//! nothing that no line gives.

use crate::asking::{check, unlimited};
use host::bitwalk::{self, Reached};
use host::generate::Random;
use host::reference::{self, Record, KINDS};
use host::sheet::Line;
use host::sheet_texts::{mixed_text, sheet, sheets, small_sheet, Span, NEAR_BYTES};
use std::collections::BTreeSet;

const SHEETS: u64 = 800;
const LONG_SHEETS: u64 = 40;
/// The last bit of an initiator, which has 2^48 bytes.
const LAST_BIT: i64 = (1 << 51) - 1;

/// The numbers of one column.
fn numbers(lines: &[Line], column: fn(&Line) -> i64) -> BTreeSet<i64> {
    lines.iter().map(column).collect()
}

/// All initiators and all blocks, each with its node row: the initiators by their numbers,
/// then the blocks by theirs.
fn rows(lines: &[Line]) -> [Vec<(i64, usize)>; 2] {
    let initiators = numbers(lines, |line| line.initiator);
    let blocks = numbers(lines, |line| line.block);
    let behind = initiators.len();
    [initiators.into_iter().zip(0..).collect(), blocks.into_iter().zip(behind..).collect()]
}

/// The bits of a block that the lines give for a bit of an initiator.
fn given(lines: &[Line], initiator: i64, block: i64, bit: i64) -> BTreeSet<i64> {
    let (byte, bit_of_byte) = (bit.div_euclid(8), bit.rem_euclid(8));
    let of_both = |line: &&Line| line.initiator == initiator && line.block == block;
    let i = |line: &Line| Some(byte - line.base).filter(|i| (0..line.size).contains(i));
    lines.iter().filter(of_both).filter_map(i).map(|i| i * 8 + bit_of_byte).collect()
}

/// All bits that the lines give for an initiator and a block, with the initiator's.
fn all_given(lines: &[Line], initiator: i64, block: i64) -> Reached {
    let mut reached = Reached::new();
    for line in lines.iter().filter(|line| line.initiator == initiator && line.block == block) {
        for i in 0..line.size {
            let bits = (0..8).map(|bit| ((line.base + i) * 8 + bit, i * 8 + bit));
            reached.extend(bits);
        }
    }
    reached
}

/// The tables of a sheet by its text, which nothing refuses.
fn made(random: &mut Random, lines: &[Line]) -> [Vec<i64>; 2] {
    let text = mixed_text(random, lines);
    let answer = unlimited(&text);
    check(&text, &answer);
    let [nodes, edges] = answer.expect("the sheet is taken");
    let [initiators, blocks] = rows(lines);
    assert_eq!(nodes.len(), 5 * (initiators.len() + blocks.len()));
    assert_eq!(edges.len(), 3 * lines.len());
    check_graph(&nodes, &edges);
    [nodes, edges]
}

/// The graph is taken by the check of one graph.
fn check_graph(nodes: &[i64], edges: &[i64]) {
    assert_eq!(reference::check(nodes, edges), Ok(()));
    #[cfg(benchcalls_library)]
    assert_eq!(host::library::check(nodes, edges), 0);
}

/// The bits that each kind of walk reaches.
fn walked(tables: &[Vec<i64>; 2], root: usize, leaf: usize, bit: i64) -> [BTreeSet<i64>; 2] {
    KINDS.map(|kind| bitwalk::walk(&tables[0], &tables[1], root, leaf, bit, kind))
}

/// The calls on one graph take the rows as those of a root and a leaf, and give these bits.
fn check_walk(
    tables: &[Vec<i64>; 2], root: usize, leaf: usize, bit: i64, expected: &BTreeSet<i64>,
) {
    let [nodes, edges] = tables;
    let (root, leaf) = (root as i64, leaf as i64);
    let expected = Vec::from_iter(expected.iter().copied());
    for kind in KINDS {
        let bits = reference::walk(nodes, edges, root, leaf, bit, kind, usize::MAX);
        assert_eq!(bits.as_deref(), Ok(&expected[..]));
        #[cfg(benchcalls_library)]
        {
            let mut bits = vec![-1; expected.len()];
            let kind = host::library::kind_number(kind);
            let count = host::library::walk(nodes, edges, root, leaf, bit, kind, &mut bits);
            assert_eq!((count, &bits), (expected.len() as i64, &expected));
        }
    }
}

/// The calls on one graph list these records.
fn check_list(tables: &[Vec<i64>; 2], root: usize, leaf: usize, expected: &[Record]) {
    let [nodes, edges] = tables;
    let (root, leaf) = (root as i64, leaf as i64);
    for kind in KINDS {
        let listed = reference::list(nodes, edges, root, leaf, kind, usize::MAX);
        assert_eq!(listed.as_deref(), Ok(expected));
        #[cfg(benchcalls_library)]
        {
            let numbers: Vec<i64> =
                expected.iter().flat_map(|r| [r.first, r.last, r.displacement]).collect();
            let mut written = vec![-1; numbers.len()];
            let kind = host::library::kind_number(kind);
            let count = host::library::list(nodes, edges, root, leaf, kind, &mut written);
            assert_eq!((count, written), (expected.len() as i64, numbers));
        }
    }
}

/// Every bit of the first bytes, of each initiator to each block.
#[test]
fn every_bit_of_near_sheets() {
    for seed in 0..SHEETS {
        let random = &mut Random::new(seed);
        let lines = small_sheet(random, Span::Near);
        let tables = made(random, &lines);
        let [initiators, blocks] = rows(&lines);
        for &(initiator, root) in &initiators {
            for &(block, leaf) in &blocks {
                let mut reached = Reached::new();
                for bit in -8..(NEAR_BYTES + 2) * 8 {
                    let [bits, written] = walked(&tables, root, leaf, bit);
                    assert_eq!(bits, given(&lines, initiator, block, bit));
                    assert_eq!(bits, written);
                    reached.extend(bits.into_iter().map(|leaf_bit| (bit, leaf_bit)));
                }
                assert_eq!(reached, all_given(&lines, initiator, block), "{lines:?}");
                check_list(&tables, root, leaf, &bitwalk::list(&reached));
            }
        }
    }
}

/// All bits of the bytes at and around both ends of each line and of one between, some bits
/// anywhere, and those at and around the ends of an initiator.
fn bits_to_walk(random: &mut Random, lines: &[Line]) -> Vec<i64> {
    let mut bits = vec![i64::MIN, -1, 0, LAST_BIT, LAST_BIT + 1, i64::MAX];
    for Line { base, size, .. } in lines {
        let end = base + size;
        let within = random.between(*base, end - 1);
        for byte in [base - 1, *base, within, end - 1, end] {
            bits.extend((0..8).map(|bit| byte * 8 + bit));
        }
    }
    bits.extend((0..8).map(|_| random.between(0, LAST_BIT)));
    bits.sort_unstable();
    bits.dedup();
    bits
}

#[test]
fn ends_of_far_sheets() {
    let (mut reached, mut several) = (0, 0);
    for seed in 0..SHEETS {
        let random = &mut Random::new(seed);
        let lines = small_sheet(random, Span::Far);
        let tables = made(random, &lines);
        let bits = bits_to_walk(random, &lines);
        let [initiators, blocks] = rows(&lines);
        for &(initiator, root) in &initiators {
            for &(block, leaf) in &blocks {
                for &bit in &bits {
                    let expected = given(&lines, initiator, block, bit);
                    for bits in walked(&tables, root, leaf, bit) {
                        assert_eq!(bits, expected, "{lines:?}, bit {bit}");
                    }
                    check_walk(&tables, root, leaf, bit, &expected);
                    reached += u64::from(!expected.is_empty());
                    several += u64::from(expected.len() > 1);
                }
            }
        }
    }
    println!("bits that reach a bit {reached}, that reach several {several}");
    assert!(several > SHEETS && reached > 10 * SHEETS, "{reached} {several}");
}

/// Some bits of some lines, to the block of the line and to another.
fn check_some(random: &mut Random, lines: &[Line], tables: &[Vec<i64>; 2]) {
    let [initiators, blocks] = rows(lines);
    let row_of = |rows: &[(i64, usize)], number: i64| {
        rows.iter().find(|(other, _)| *other == number).expect("the number is on the sheet").1
    };
    for _ in 0..12 {
        let (line, other) = (random.pick(lines), random.pick(lines));
        let root = row_of(&initiators, line.initiator);
        for block in [line.block, other.block] {
            let leaf = row_of(&blocks, block);
            for bit in bits_to_walk(random, &[line, other]) {
                let expected = given(lines, line.initiator, block, bit);
                for bits in walked(tables, root, leaf, bit) {
                    assert_eq!(bits, expected, "bit {bit}");
                }
            }
        }
    }
}

#[test]
fn some_bits_of_long_sheets() {
    for seed in 0..LONG_SHEETS {
        let random = &mut Random::new(seed);
        let most_numbers = random.pick(&[20, 1_000]);
        let count = random.between(500, 1_500) as usize;
        let lines = sheet(random, count, most_numbers, Span::Far);
        let tables = made(random, &lines);
        check_some(random, &lines, &tables);
    }
    for sheet in sheets() {
        if let Ok([nodes, edges]) = unlimited(&sheet.text) {
            check_graph(&nodes, &edges);
            let lines = host::sheet::parse(&sheet.text).expect("the sheet is taken");
            check_some(&mut Random::new(1), &lines, &[nodes, edges]);
        }
    }
}
