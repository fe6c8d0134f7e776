//! The global address sheet in the straightforward way: its lines, the refusals that it
//! meets in their order, and the two tables of the specification graph that it makes.

use crate::reference::{check_bytes, columns, lines_of, refusal, values, Names, Refusal};
use crate::reference::{
    BLOCK, MAX_EDGES, NODE_WIDTH, OUTPUT, READ_AND_WRITE, SPACE, SPEC_EDGES, TEXT,
};

pub const SHEET_NAMES: Names =
    Names { required: &["initiator", "block", "base", "size"], optional: &[] };

/// Numbers that initiators have, and blocks, from 0 on.
pub const NUMBERS: usize = 1_000;
/// Bytes that an initiator addresses. The limits of lent tables are others.
pub const SHEET_BYTES: i64 = 1 << 48;
/// Bits of a byte, the unit of every node.
const BYTE: i64 = 8;

/// A line of a sheet; base and size are bytes.
#[derive(Clone, Copy, Debug, PartialEq, Eq)]
pub struct Line {
    pub initiator: i64,
    pub block: i64,
    pub base: i64,
    pub size: i64,
}

impl Line {
    /// Refusal 17 does not concern the line.
    fn is_valid(&self) -> bool {
        let numbers = 0..NUMBERS as i64;
        numbers.contains(&self.initiator)
            && numbers.contains(&self.block)
            && self.base >= 0
            && self.size >= 1
            // A sum of two values may be too large for their type; this never is.
            && self.size <= SHEET_BYTES - self.base
    }
}

/// The lines of a sheet: refusals 12 to 14, 17 and 18, all but the first line by line.
pub fn parse(text: &[u8]) -> Result<Vec<Line>, Refusal> {
    check_bytes(text)?;
    let lines = lines_of(text);
    let names = lines.first().and_then(|line| columns(line, &SHEET_NAMES));
    let columns = names.ok_or(refusal(13, TEXT, 1))?;
    let mut sheet = Vec::new();
    let mut sizes = [None; NUMBERS];
    for (place, line) in lines.iter().enumerate().skip(1) {
        let refused = |number| refusal(number, TEXT, place + 1);
        let [initiator, block, base, size, ..] = values(line, &columns).ok_or(refused(14))?;
        let line = Line { initiator, block, base, size };
        if !line.is_valid() {
            return Err(refused(17));
        }
        if *sizes[block as usize].get_or_insert(size) != size {
            return Err(refused(18));
        }
        sheet.push(line);
    }
    Ok(sheet)
}

/// Each number once, ascending.
fn ascending(numbers: impl Iterator<Item = i64>) -> Vec<i64> {
    let mut numbers: Vec<i64> = numbers.collect();
    numbers.sort_unstable();
    numbers.dedup();
    numbers
}

/// The node table and the edge table that lines of one size for each block make.
pub fn tables(lines: &[Line]) -> [Vec<i64>; 2] {
    let initiators = ascending(lines.iter().map(|line| line.initiator));
    let blocks = ascending(lines.iter().map(|line| line.block));
    let row_in = |numbers: &[i64], number| numbers.partition_point(|&other| other < number);
    let mut nodes = [SPACE, 0, SHEET_BYTES, BYTE, READ_AND_WRITE].repeat(initiators.len());
    nodes.extend([BLOCK, 0, 0, BYTE, READ_AND_WRITE].repeat(blocks.len()));
    let mut edges = Vec::new();
    for Line { initiator, block, base, size } in lines {
        let from = row_in(&initiators, *initiator);
        let to = initiators.len() + row_in(&blocks, *block);
        nodes[to * NODE_WIDTH + 2] = *size;
        edges.extend([from as i64, to as i64, *base]);
    }
    [nodes, edges]
}

/// Reads a sheet into the front of two lent buffers: how many numbers the node table and
/// the edge table have.
pub fn read_sheet(
    text: &[u8], nodes: &mut [i64], edges: &mut [i64],
) -> Result<[usize; 2], Refusal> {
    let lines = parse(text)?;
    if lines.len() > MAX_EDGES {
        return Err(refusal(1, SPEC_EDGES, 0));
    }
    let tables = tables(&lines);
    let lengths = [tables[0].len(), tables[1].len()];
    if nodes.len() < lengths[0] || edges.len() < lengths[1] {
        return Err(refusal(11, OUTPUT, 0));
    }
    nodes[..lengths[0]].copy_from_slice(&tables[0]);
    edges[..lengths[1]].copy_from_slice(&tables[1]);
    Ok(lengths)
}
