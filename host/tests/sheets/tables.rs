//! Sheets that are taken, with their tables.

use crate::asking::{refused, taken};
use crate::example::{block, sheet_of, EDGES, INITIATOR, LINES, NAMES, NODES, SHEET};
use host::generate::permutations;
use host::sheet_texts::{plain_text, text_with_columns};

#[test]
fn a_sheet_and_its_tables() {
    taken(SHEET, &NODES, &EDGES);
    assert_eq!(plain_text(&LINES), SHEET.as_bytes());
    // Names alone make a graph of no nodes.
    taken(NAMES, &[], &[]);
}

#[test]
fn columns_in_every_order() {
    for columns in permutations(4) {
        let text = String::from_utf8(text_with_columns(&LINES, &columns)).unwrap();
        taken(&text, &NODES, &EDGES);
    }
    taken("size base block initiator\n9 8 7 6\n", &[INITIATOR, block(9)], &[[0, 1, 8]]);
    taken("block size initiator base\n6 9 8 7\n", &[INITIATOR, block(9)], &[[0, 1, 7]]);
    refused("base size block initiator\n0 1 2 1000\n", (17, 6, 2));
    refused("base size block initiator\n0 1 2 3\n0 2 2 4\n", (18, 6, 3));
}

#[test]
fn nodes_ascend_though_lines_do_not() {
    let text = sheet_of(&["999 0 8 1", "0 999 7 2", "10 9 6 3", "9 10 5 4", "100 99 4 5"]);
    let nodes = [[INITIATOR; 5], [1, 3, 4, 5, 2].map(block)].concat();
    taken(&text, &nodes, &[[4, 5, 8], [0, 9, 7], [2, 6, 6], [1, 7, 5], [3, 8, 4]]);
}

#[test]
fn a_number_of_an_initiator_and_of_a_block() {
    let text = sheet_of(&["5 5 0 16", "4 6 0 17", "5 4 0 18", "6 5 1 16"]);
    let nodes = [INITIATOR, INITIATOR, INITIATOR, block(18), block(16), block(17)];
    taken(&text, &nodes, &[[1, 4, 0], [0, 5, 0], [1, 3, 0], [2, 4, 1]]);
}

#[test]
fn an_edge_for_each_line() {
    let nodes = [INITIATOR, block(4)];
    let edges = |bases: [i64; 3]| bases.map(|base| [0, 1, base]);
    taken(&sheet_of(&["1 2 3 4", "1 2 3 4", "1 2 3 4"]), &nodes, &edges([3, 3, 3]));
    taken(&sheet_of(&["1 2 9 4", "1 2 3 4", "1 2 9 4"]), &nodes, &edges([9, 3, 9]));
    // Lines that touch or overlap are not joined.
    taken(&sheet_of(&["1 2 4 4", "1 2 0 4", "1 2 2 4"]), &nodes, &edges([4, 0, 2]));
}
