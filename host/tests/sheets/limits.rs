//! Both sides of the limits of a text and of a table of edges, and the named sheets.

use crate::asking::{check, lengths, refused, taken, unlimited, ASKED};
use crate::example::{block, INITIATOR, NAMES};
use host::reference::refusal;
use host::sheet_texts::{all_numbers, filled_text, sheets, short_lines};

#[test]
fn as_many_lines_as_a_graph_has_edges() {
    let lines = |count: usize| NAMES.to_string() + &"0 0 0 1\n".repeat(count);
    for count in [2_599, 2_600] {
        taken(&lines(count), &[INITIATOR, block(1)], &vec![[0, 1, 0]; count]);
    }
    for count in [2_601, 2_602, 8_188] {
        refused(&lines(count), (1, 1, 0));
    }
    // The count comes after the whole text.
    for count in [2_599, 2_600, 2_601, 8_000] {
        let last = count as i64 + 2;
        refused(&(lines(count) + "0 0 0\n"), (14, 6, last));
        refused(&(lines(count) + "\n"), (14, 6, last));
        refused(&(lines(count) + "0 0 -1 1\n"), (17, 6, last));
        refused(&(lines(count) + "0 0 0 2\n"), (18, 6, last));
        refused(&(lines(count) + "0 0 0 1"), (12, 6, last));
    }
}

#[test]
fn as_many_bytes_as_a_text_has() {
    for length in 65_530..65_540 {
        let too_long = length > 65_536;
        let text = filled_text(all_numbers(2_600), length);
        assert_eq!(text.len(), length);
        let answer = unlimited(&text);
        check(&text, &answer);
        let expected = if too_long { Err(refusal(12, 6, 0)) } else { Ok([10_000, 7_800]) };
        assert_eq!(lengths(&answer), expected);
        let text = String::from_utf8(filled_text(short_lines(8_188), length)).unwrap();
        refused(&text, if too_long { (12, 6, 0) } else { (1, 1, 0) });
    }
}

/// Name, bytes, lines and answer.
const NAMED: [(&str, usize, usize, i64); 7] = [
    ("5 lines", 101, 5, 5_000_015),
    ("1,000 initiators, 1,000 blocks", 65_536, 2_600, 1_000_007_800),
    ("1,000 initiators, one block", 65_536, 2_600, 500_507_800),
    ("18 at the last line", 65_536, 2_600, -1_860_002_601),
    ("one block, 18 at the last line", 65_536, 2_600, -1_860_002_601),
    ("as many lines as fit", 65_536, 8_188, -110_000_000),
    ("as many lines as fit, 18 at the last", 65_536, 8_188, -1_860_008_189),
];

#[test]
fn named_sheets() {
    let sheets = sheets();
    assert_eq!(sheets.len(), NAMED.len());
    for (sheet, (name, bytes, lines, code)) in sheets.iter().zip(NAMED) {
        assert_eq!((sheet.name, sheet.text.len(), sheet.lines()), (name, bytes, lines));
        check(&sheet.text, &unlimited(&sheet.text));
        for (asked, call) in ASKED {
            let answer = call(&sheet.text, &mut [0; 10_000], &mut [0; 7_800]);
            assert_eq!(answer, code, "{asked}: {name}");
        }
    }
}
