//! Refusals 17 and 18: both edges of every range, and the order on a line and between lines.

use crate::asking::{refused, taken};
use crate::example::{block, sheet_of, with_line, INITIATOR};

#[test]
fn numbers_within_their_ranges() {
    for (line, size, base) in [
        ("0 41 4096 256", 256, 4096),
        ("999 41 4096 256", 256, 4096),
        ("2 0 4096 256", 256, 4096),
        ("2 999 4096 256", 256, 4096),
        ("2 41 0 256", 256, 0),
        ("2 41 4096 1", 1, 4096),
        ("2 41 0 281474976710656", 281474976710656, 0),
        ("2 41 1 281474976710655", 281474976710655, 1),
        ("2 41 281474976710655 1", 1, 281474976710655),
        ("2 41 281474976710400 256", 256, 281474976710400),
        ("2 41 140737488355328 140737488355328", 140737488355328, 140737488355328),
    ] {
        taken(&sheet_of(&[line]), &[INITIATOR, block(size)], &[[0, 1, base]]);
    }
}

#[test]
fn numbers_out_of_their_ranges() {
    for line in [
        "-1 41 4096 256",
        "1000 41 4096 256",
        "2 -1 4096 256",
        "2 1000 4096 256",
        "2 41 -1 256",
        "2 41 4096 0",
        "2 41 4096 -1",
        "2 41 0 281474976710657",
        "2 41 1 281474976710656",
        "2 41 281474976710655 2",
        "2 41 281474976710656 1",
        "2 41 281474976710401 256",
        "2 41 140737488355329 140737488355328",
        // The sum is small enough.
        "2 41 -1 281474976710657",
        "2 41 281474976710657 -1",
        "2 41 281474976710656 0",
        "2 41 -1 1",
        // Eighteen digits are a value.
        "999999999999999999 41 4096 256",
        "-999999999999999999 41 4096 256",
        "2 999999999999999999 4096 256",
        "2 -999999999999999999 4096 256",
        "2 41 999999999999999999 256",
        "2 41 -999999999999999999 256",
        "2 41 4096 999999999999999999",
        "2 41 4096 -999999999999999999",
        "2 41 999999999999999999 999999999999999999",
        "2 41 -999999999999999999 999999999999999999",
        "2 41 999999999999999999 -999999999999999999",
        "-1 -1 -1 -1",
    ] {
        refused(&sheet_of(&[line]), (17, 6, 2));
        for number in 2..=6 {
            refused(&with_line(number, line), (17, 6, number as i64));
        }
    }
}

#[test]
fn a_block_given_another_size() {
    refused(&sheet_of(&["1 5 0 16", "1 5 0 17"]), (18, 6, 3));
    refused(&sheet_of(&["1 5 0 16", "1 5 0 15"]), (18, 6, 3));
    refused(&sheet_of(&["1 5 0 16", "2 5 64 17"]), (18, 6, 3));
    refused(&sheet_of(&["1 5 0 1", "1 5 0 281474976710656"]), (18, 6, 3));
    refused(&sheet_of(&["1 5 0 281474976710656", "1 5 0 281474976710655"]), (18, 6, 3));
    // The lowest line that differs from an earlier one.
    refused(&sheet_of(&["1 5 0 16", "1 5 0 17", "1 5 0 17", "1 5 0 16"]), (18, 6, 3));
    refused(&sheet_of(&["1 5 0 16", "1 6 0 17", "1 5 0 16", "1 6 0 16"]), (18, 6, 5));
    refused(&sheet_of(&["1 5 0 16", "1 6 0 17", "1 7 0 16", "1 7 0 17", "1 5 0 17"]), (18, 6, 5));
    for number in ["0", "1", "998", "999"] {
        let last = format!("1 {number} 0 5");
        let lines = ["1 0 0 1", "1 1 0 2", "1 998 0 3", "1 999 0 4", &last];
        refused(&sheet_of(&lines), (18, 6, 6));
    }
}

#[test]
fn a_block_given_the_same_size() {
    let nodes = [INITIATOR, INITIATOR, block(16)];
    taken(&sheet_of(&["1 5 0 16", "2 5 0 16"]), &nodes, &[[0, 2, 0], [1, 2, 0]]);
    taken(&sheet_of(&["2 5 64 16", "1 5 8 16"]), &nodes, &[[1, 2, 64], [0, 2, 8]]);
    let nodes = [INITIATOR, block(16)];
    taken(&sheet_of(&["1 5 0 16", "1 5 64 16"]), &nodes, &[[0, 1, 0], [0, 1, 64]]);
    // Other blocks have sizes of their own.
    let nodes = [INITIATOR, block(16), block(17)];
    taken(&sheet_of(&["1 5 0 16", "1 6 0 17"]), &nodes, &[[0, 1, 0], [0, 2, 0]]);
    taken(&sheet_of(&["1 6 0 17", "1 5 0 16"]), &nodes, &[[0, 2, 0], [0, 1, 0]]);
}

#[test]
fn order_on_a_line() {
    // Another size, and a number out of its range, which may be the size itself.
    for line in [
        "1000 5 0 17",
        "-1 5 0 17",
        "1 5 -1 17",
        "1 5 0 0",
        "1 5 0 -16",
        "1 5 281474976710656 17",
        "1 5 0 281474976710657",
    ] {
        refused(&sheet_of(&["1 5 0 16", line]), (17, 6, 3));
    }
    // The same, and no line of four values.
    for line in ["1000 5 0 017", "-1 5 -0 17", "1000 1000 -1", "1 5 -1 x", "1 5 0 17 ", "1 5 0 0 0"]
    {
        refused(&sheet_of(&["1 5 0 16", line]), (14, 6, 3));
    }
}

#[test]
fn order_between_lines() {
    let (good, no_values, bad, other_size) = ("1 5 0 16", "1 5 0", "1 5 0 0", "1 5 0 17");
    refused(&sheet_of(&[good, good, good, bad, good, good, good, no_values]), (17, 6, 5));
    refused(&sheet_of(&[good, other_size, bad]), (18, 6, 3));
    let faults = [(14, no_values), (17, bad), (18, other_size)];
    for (number, fault) in faults {
        for (_, later) in faults {
            refused(&sheet_of(&[good, good, fault, later]), (number, 6, 4));
            refused(&sheet_of(&[good, good, fault, good, good, later]), (number, 6, 4));
        }
        let text = sheet_of(&[good, fault]);
        refused(&text, (number, 6, 3));
        refused(&text.replace("size", "sizes"), (13, 6, 1));
        refused(&text.replace("size\n", "size\n\n"), (14, 6, 2));
        refused(&format!("{text}A\n"), (12, 6, 4));
        refused(&format!("{text}1"), (12, 6, 4));
    }
}
