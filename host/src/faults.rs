//! Faults of a small map in the order in which refusals are told: first those of
//! the tables, then those of the text, for tests with two faults at once.

use crate::generate::{tables, Draft, SEGMENT};
use crate::reference::{refusal, Refusal, Tables};
use crate::reference::{IMPL_NODES, MAX_AT, MAX_TEXT, MAX_UNITS, NODE_WIDTH, SPEC_NODES};
use crate::reference::{READ_AND_WRITE, READ_ONLY, WRITE_ONLY};

/// Two roots and three leaves, each root joined with each leaf, and both sides alike but for
/// the first leaf, which the implementation has in two banks, in the first and last leaf row.
/// The second root is write only and the last leaf read only, so that no walk joins them.
pub fn base() -> Tables {
    let mut spec = Draft::default();
    let roots = [spec.root(0, 64, 8), spec.root(8, 32, 16)];
    let leaves = [spec.leaf(0, 16, 8), spec.leaf(4, 8, 32), spec.leaf(0, 1, 128)];
    for (from, to) in roots.into_iter().flat_map(|root| leaves.map(|leaf| (root, leaf))) {
        spec.join(from, to, 2);
    }
    spec.nodes[roots[1]].access = WRITE_ONLY;
    spec.nodes[leaves[2]].access = READ_ONLY;
    let mut implementation = spec.clone();
    implementation.nodes[leaves[0]].range = 8;
    let bank = implementation.bank(0, 8, 8, 64);
    roots.iter().for_each(|&root| implementation.join(root, bank, 10));
    spec.leaves.push(leaves[0]);
    tables(&spec, &implementation)
}

/// The same with every node open to both kinds of walks.
pub fn open_base() -> Tables {
    let mut tables = base();
    for table in [SPEC_NODES, IMPL_NODES] {
        tables[table].chunks_mut(NODE_WIDTH).for_each(|node| node[4] = READ_AND_WRITE);
    }
    tables
}

pub type TableFault = Box<dyn Fn(&mut Tables)>;
pub type TextFault = Box<dyn Fn(&mut Vec<u8>)>;

fn put(table: usize, place: usize, number: i64) -> TableFault {
    Box::new(move |tables| {
        if let Some(old) = tables[table].get_mut(place) {
            *old = number;
        }
    })
}

fn append(table: usize, numbers: Vec<i64>) -> TableFault {
    Box::new(move |tables| tables[table].extend(&numbers))
}

fn clear(table: usize) -> TableFault {
    Box::new(move |tables| tables[table].clear())
}

/// A row of nodes.
const SEGMENT_ROW: [i64; NODE_WIDTH] = [SEGMENT, 0, 1, 8, READ_AND_WRITE];

/// Adds a chain of that many edges between nodes of its own; `closed` leads it back.
fn add_chain(node_table: usize, edges: i64, closed: bool) -> TableFault {
    Box::new(move |tables| {
        let start = (tables[node_table].len() / NODE_WIDTH) as i64;
        for row in start..=start + edges {
            tables[node_table].extend(SEGMENT_ROW);
            let back = closed && row == start + edges;
            if back || row < start + edges {
                tables[node_table + 1].extend([row, if back { start } else { row + 1 }, 0]);
            }
        }
    })
}

/// The faults of one graph's rows in the order in which they are told.
fn graph_faults(nodes: usize) -> Vec<(Refusal, TableFault)> {
    let edges = nodes + 1;
    vec![
        (refusal(2, nodes, 1), put(nodes, 8, 7)),
        (refusal(2, nodes, 2), put(nodes, 14, 3)),
        (refusal(2, nodes, 3), put(nodes, 17, 0)),
        (refusal(2, nodes, 4), put(nodes, 24, -1)),
        (refusal(4, edges, 1), put(edges, 3, 2)),
        (refusal(3, edges, 2), put(edges, 8, MAX_UNITS + 1)),
        (refusal(3, edges, 3), put(edges, 9, -1)),
        (refusal(4, edges, 4), put(edges, 12, 3)),
        (refusal(5, nodes, 0), add_chain(nodes, 3, true)),
        (refusal(6, nodes, 0), add_chain(nodes, 65, false)),
    ]
}

/// Faults of the shape of a table: `rows` as too many rows, which a text can hold
/// too, else as a length that is no multiple of the row width. Those of the node tables, 28
/// and 32 numbers, are multiples of four.
fn shape_faults(table: usize, rows: bool) -> (Refusal, TableFault) {
    let numbers = match (table, rows) {
        (0 | 2, true) => SEGMENT_ROW.repeat(2_001),
        (1 | 3, true) => [0, 2, 0].repeat(2_601),
        (_, true) => [0, 0, 0].repeat(1_001),
        (0, false) => vec![0, 0, 0],
        (1..=3, false) => vec![0, 0],
        (_, false) => vec![0],
    };
    (refusal(1, table, 0), append(table, numbers))
}

/// All faults of the tables in the order in which they are told.
pub fn table_faults(rows: bool) -> Vec<(Refusal, TableFault)> {
    let mut faults = Vec::new();
    for nodes in [SPEC_NODES, IMPL_NODES] {
        faults.extend([shape_faults(nodes, rows), shape_faults(nodes + 1, rows)]);
        faults.extend(graph_faults(nodes));
    }
    faults.extend([shape_faults(4, rows), shape_faults(5, rows)]);
    faults.extend([
        (refusal(9, 4, 0), clear(4)),
        (refusal(9, 5, 0), clear(5)),
        (refusal(7, 4, 0), put(4, 1, 2)),
        (refusal(16, 4, 0), put(4, 2, 1)),
        (refusal(16, 4, 1), put(4, 5, -1)),
        (refusal(8, 4, 1), put(4, 3, 0)),
        (refusal(16, 5, 0), put(5, 2, MAX_AT + 1)),
        (refusal(16, 5, 1), put(5, 5, -1)),
        (refusal(8, 5, 1), put(5, 4, 2)),
        (refusal(7, 5, 2), put(5, 6, 1)),
        (refusal(16, 5, 3), put(5, 11, MAX_AT + 1)),
        (refusal(8, 5, 3), put(5, 10, 3)),
        (refusal(10, 3, 0), append(3, [0, 5, 0].repeat(1_023))),
        (refusal(10, 3, 1), append(3, [0, 3, 0].repeat(1_024))),
        (refusal(10, 1, 1_000), append(1, [1, 2, 0].repeat(1_024))),
        (refusal(10, 3, 1_002), append(3, [1, 4, 0].repeat(1_024))),
    ]);
    faults
}

/// Two faults in one row, with the one that is told.
pub fn row_faults() -> Vec<(Refusal, TableFault)> {
    let row = |table: usize, row: usize, numbers: &'static [i64]| -> TableFault {
        Box::new(move |tables| {
            tables[table][row * numbers.len()..][..numbers.len()].copy_from_slice(numbers);
        })
    };
    vec![
        (refusal(3, 1, 1), row(1, 1, &[2, 3, MAX_UNITS + 1])),
        (refusal(3, 3, 1), row(3, 1, &[2, 6, 0])),
        (refusal(7, 4, 1), row(4, 1, &[0, 2, 0])),
        (refusal(7, 4, 1), row(4, 1, &[2, 0, 0])),
        (refusal(7, 4, 1), row(4, 1, &[1, 2, 1])),
        (refusal(7, 4, 1), row(4, 1, &[2, 0, -1])),
        (refusal(16, 4, 1), row(4, 1, &[1, 0, -1])),
        (refusal(16, 4, 1), row(4, 1, &[0, 1, 1])),
        (refusal(7, 5, 2), row(5, 2, &[2, 0, 0])),
        (refusal(7, 5, 2), row(5, 2, &[9, 3, 0])),
        (refusal(7, 5, 2), row(5, 2, &[4, 0, -1])),
        (refusal(7, 5, 2), row(5, 2, &[9, 3, MAX_AT + 1])),
        (refusal(16, 5, 2), row(5, 2, &[4, 3, MAX_AT + 1])),
        (refusal(16, 5, 2), row(5, 2, &[2, 2, -1])),
        (refusal(8, 5, 2), row(5, 2, &[2, 2, MAX_AT])),
        (refusal(8, 5, 2), row(5, 2, &[4, 3, 0])),
        (refusal(2, 0, 4), row(0, 4, &[3, -1, 0, 7, 3])),
        (refusal(2, 2, 4), row(2, 4, &[0, MAX_UNITS, MAX_UNITS, 9, -1])),
        (refusal(2, 0, 4), row(0, 4, &[2, 0, 1, 128, 3])),
        (refusal(2, 2, 4), row(2, 4, &[2, 0, 1, 128, -1])),
    ]
}

/// Where each line of the text begins and ends, its line feed left out.
fn line_bounds(text: &[u8]) -> Vec<(usize, usize)> {
    let mut bounds = Vec::new();
    let mut start = 0;
    for (place, _) in text.iter().enumerate().filter(|(_, byte)| **byte == b'\n') {
        bounds.push((start, place));
        start = place + 1;
    }
    bounds
}

/// The lines of the text's tables: names line first, then the value lines.
fn table_lines(text: &[u8]) -> Vec<Vec<(usize, usize)>> {
    line_bounds(text).split(|(start, end)| start == end).map(<[_]>::to_vec).collect()
}

/// Puts bytes in the place of a line, where there is one.
fn replace_line(table: usize, line: usize, bytes: &'static [u8]) -> TextFault {
    Box::new(move |text| {
        let lines = table_lines(text);
        if let Some(&(start, end)) = lines.get(table).and_then(|lines| lines.get(line)) {
            text.splice(start..end, bytes.iter().copied());
        }
    })
}

/// Puts one byte after the first of a line.
fn insert_byte(table: usize, line: usize, byte: u8) -> TextFault {
    Box::new(move |text| {
        let lines = table_lines(text);
        if let Some(&(start, _)) = lines.get(table).and_then(|lines| lines.get(line)) {
            text.insert(start + 1, byte);
        }
    })
}

/// Ends the text with that line of a table.
fn end_after(table: usize, line: usize) -> TextFault {
    Box::new(move |text| {
        let lines = table_lines(text);
        if let Some(&(_, end)) = lines.get(table).and_then(|lines| lines.get(line)) {
            text.truncate(end + 1);
        }
    })
}

/// The faults of a text in the order in which they are told, each with the number
/// of its refusal. Those of lines stand before all of the tables.
pub fn text_faults() -> Vec<(i64, TextFault)> {
    vec![
        (12, Box::new(|text| text.extend(vec![b' '; MAX_TEXT]))),
        (12, insert_byte(0, 2, b'\t')),
        (12, insert_byte(1, 1, b'A')),
        (12, insert_byte(2, 0, 0)),
        (12, Box::new(|text| text.push(b'0'))),
        (13, replace_line(0, 0, b"side kind base range base access")),
        (13, replace_line(0, 0, b"access side kind base range unit access")),
        (14, replace_line(0, 1, b"0 0 0 64 8 -0")),
        (14, replace_line(0, 2, b"0 0 00 1 8 0")),
        (14, replace_line(0, 3, b"0 2 0 16 8")),
        (14, replace_line(0, 4, b"2 0 0 1 8 0")),
        (13, end_after(0, 4)),
        (13, replace_line(1, 0, b"side from to")),
        (14, replace_line(1, 3, b"0 0 2 -0")),
        (13, end_after(1, 3)),
        (13, replace_line(2, 0, b"role spec impl ")),
        (13, replace_line(2, 0, b"at role spec impl at")),
        (14, replace_line(2, 1, b"0 0 0 0 0")),
        (14, replace_line(2, 2, b"0  0")),
        (14, Box::new(|text| text.push(b'\n'))),
    ]
}
