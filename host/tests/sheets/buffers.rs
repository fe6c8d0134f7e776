//! What a call gives as one number, and what both buffers hold afterwards.

use crate::asking::ASKED;
use crate::example::{block, sheet_of, with_line, INITIATOR, NAMES, SHEET};

const SHORT: i64 = -1_170_000_000;

#[test]
fn buffers_hold_their_tables_or_what_they_held() {
    let text = sheet_of(&["1 5 3 16", "2 5 4 16"]);
    let node_table = [INITIATOR, INITIATOR, block(16)].concat();
    let edge_table = [0, 2, 3, 1, 2, 4];
    for (name, call) in ASKED {
        let ask = |nodes: usize, edges: usize| {
            let (mut nodes, mut edges) = (vec![-7; nodes], vec![-9; edges]);
            (call(text.as_bytes(), &mut nodes, &mut edges), nodes, edges)
        };
        for (nodes, edges) in [
            (14, 6),
            (12, 6),
            (15, 5),
            (14, 5),
            (0, 6),
            (15, 0),
            (0, 0),
            (14, 99),
            (99, 5),
            (99, 0),
        ] {
            let untouched = (SHORT, vec![-7; nodes], vec![-9; edges]);
            assert_eq!(ask(nodes, edges), untouched, "{name}");
        }
        let (answer, nodes, edges) = ask(15, 6);
        assert_eq!(answer, 1_500_006, "{name}");
        assert_eq!((&nodes[..], &edges[..]), (&node_table[..], &edge_table[..]), "{name}");
        let (answer, nodes, edges) = ask(17, 9);
        assert_eq!(answer, 1_500_006, "{name}");
        assert_eq!((&nodes[..15], &edges[..6]), (&node_table[..], &edge_table[..]), "{name}");
        assert_eq!((&nodes[15..], &edges[6..]), (&[-7; 2][..], &[-9; 3][..]), "{name}");
    }
}

#[test]
fn coded_answers() {
    let many = NAMES.to_string() + &"0 0 0 1\n".repeat(2_601);
    let answers = [
        (SHEET.to_string(), 2_000_015),
        (NAMES.to_string(), 0),
        (String::new(), -1_360_000_001),
        ("a".to_string(), -1_260_000_001),
        ("\n".repeat(65_537), -1_260_000_000),
        (with_line(5, "2 3 0"), -1_460_000_005),
        (with_line(6, "2 1000 0 1"), -1_760_000_006),
        (with_line(4, "7 40 65536 16"), -1_860_000_004),
        (many.clone() + "0 0 0 2\n", -1_860_002_603),
        (many, -110_000_000),
    ];
    for (name, call) in ASKED {
        for (text, code) in &answers {
            let (mut nodes, mut edges) = ([-7; 20], [-9; 15]);
            assert_eq!(call(text.as_bytes(), &mut nodes, &mut edges), *code, "{name}");
            if *code <= 0 {
                assert_eq!((nodes, edges), ([-7; 20], [-9; 15]), "{name}");
            }
        }
        assert_eq!(call(SHEET.as_bytes(), &mut [0; 19], &mut [0; 15]), SHORT, "{name}");
        assert_eq!(call(SHEET.as_bytes(), &mut [0; 20], &mut [0; 14]), SHORT, "{name}");
    }
}
