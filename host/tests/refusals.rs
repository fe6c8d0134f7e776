//! Refusals: the readings of the open places typed in by hand, every limit from
//! both sides, and the order among any two faults.

mod both_kinds;

use both_kinds::{list, walk};
use host::faults::{base, row_faults, table_faults, text_faults};
use host::generate::{far_rows, joined, limits, plain_text, text_of_length};
use host::large::P1;
use host::reference::*;

fn refused(text: &str) -> (i64, i64, i64) {
    let refusal = text_check(text.as_bytes(), REPORT_ROOM).expect_err(text);
    (refusal.number, refusal.table, refusal.row)
}

/// P1 with the line of that number, counted from 1, put otherwise.
fn with_line(number: usize, line: &str) -> String {
    let mut lines: Vec<&str> = P1.lines().collect();
    lines[number - 1] = line;
    lines.join("\n") + "\n"
}

fn first_lines(count: usize) -> String {
    P1.split_inclusive('\n').take(count).collect()
}

#[test]
fn bytes_of_the_text() {
    assert_eq!(refused(&with_line(9, "0 0 1 0\t")), (12, 6, 9));
    assert_eq!(refused(&with_line(1, "Side kind base range unit")), (12, 6, 1));
    assert_eq!(refused(&P1.replace('\n', "\r\n")), (12, 6, 1));
    assert_eq!(refused(P1.trim_end()), (12, 6, 15));
    assert_eq!(refused("a"), (12, 6, 1));
    // The byte that is not allowed comes before the missing line feed, and 12 before 13.
    assert_eq!(refused("a\nB\nc"), (12, 6, 2));
    assert_eq!(refused("a\nb\nc"), (12, 6, 3));
    assert_eq!(refused(&"B".repeat(65_537)), (12, 6, 0));
    assert_eq!(refused(&"B".repeat(65_536)), (12, 6, 1));
    assert_eq!(refused(&"\n".repeat(65_537)), (12, 6, 0));
    assert_eq!(refused(&"\n".repeat(65_536)), (13, 6, 1));
}

#[test]
fn files_that_end_too_soon() {
    assert_eq!(refused(""), (13, 6, 1));
    assert_eq!(refused("\n"), (13, 6, 1));
    for count in 0..13 {
        assert_eq!(refused(&first_lines(count)), (13, 6, count as i64 + 1));
    }
    // Names lines alone make a whole file of no rows.
    assert_eq!(refused(&first_lines(13)), (9, 4, 0));
    assert_eq!(refused(&first_lines(14)), (9, 5, 0));
}

#[test]
fn names_lines() {
    let wrong = "side kind base range|side kind base range unit unit|side kind base range base|\
        | |side kind base range unit | side kind base range unit|side kind  base range unit|\
        side from to offset|side kind base range units|0 0 0 4096 8";
    for line in wrong.split('|') {
        assert_eq!(refused(&with_line(1, line)), (13, 6, 1), "{line}");
    }
    assert_eq!(refused(&with_line(8, "side from offset")), (13, 6, 8));
    assert_eq!(refused(&with_line(13, "role spec spec")), (13, 6, 13));
    let other_order = P1.replace("role spec impl\n0 0 0\n1 1 2", "impl role spec\n0 0 0\n2 1 1");
    assert_eq!(printed(other_order.as_bytes()), printed(P1.as_bytes()));
}

#[test]
fn empty_lines() {
    assert_eq!(refused(&format!("{P1}\n")), (14, 6, 16));
    assert_eq!(refused(&with_line(7, "\n")), (13, 6, 8));
    assert_eq!(refused(&with_line(12, "\n")), (13, 6, 13));
    assert_eq!(refused(&with_line(14, "\n0 0 0")), (14, 6, 14));
    assert_eq!(refused(&with_line(7, " ")), (14, 6, 7));
    assert_eq!(refused(&with_line(3, "\n0 2 256 64 8")), (13, 6, 4));
    assert_eq!(refused(&format!("\n{P1}")), (13, 6, 1));
}

#[test]
fn value_lines() {
    let wrong = "0 2 256 64|0 2 256 64 8 8| 0 2 256 64 8|0 2 256 64 8 |0 2  256 64 8| |\
        2 2 256 64 8|-1 2 256 64 8|0 side 256 64 8|999999999999999999 2 256 64 8";
    for line in wrong.split('|') {
        assert_eq!(refused(&with_line(3, line)), (14, 6, 3), "{line}");
    }
    let wrong = "a 0256 -0 00 - -- --1 1- -01 1000000000000000000 -1000000000000000000 \
        0000000000000000000";
    for value in wrong.split(' ') {
        let line = &format!("0 2 {value} 64 8");
        assert_eq!(refused(&with_line(3, line)), (14, 6, 3), "{line}");
    }
    // Eighteen digits are a value, which then may be out of the node's range.
    assert_eq!(refused(&with_line(3, "0 2 999999999999999999 64 8")), (2, 0, 1));
    assert_eq!(refused(&with_line(3, "0 2 -999999999999999999 64 8")), (2, 0, 1));
    assert_eq!(refused(&with_line(9, "0 0 1 -999999999999999999")), (3, 1, 0));
    assert_eq!(refused(&with_line(9, "2 0 1 0")), (14, 6, 9));
    assert_eq!(refused(&with_line(14, "2 0 0")), (14, 6, 14));
    assert_eq!(refused(&with_line(14, "-1 0 0")), (14, 6, 14));
}

#[test]
fn text_before_counts_and_in_line_order() {
    let crowded = P1.replace("0 0 0 4096 8\n", &"0 0 0 4096 8\n".repeat(2_001));
    assert_eq!(refused(&crowded), (1, 0, 0));
    assert_eq!(refused(&crowded.replace("1 1 2\n", "1 1 x\n")), (14, 6, 2_015));
    let two = with_line(3, "0 2 x 64 8").replace("side from", "side form");
    assert_eq!(refused(&two), (14, 6, 3));
    let two = with_line(14, "0 0").replace("side from", "side form");
    assert_eq!(refused(&two), (13, 6, 8));
}

#[test]
fn rows_of_a_graph() {
    for line in ["0 3 0 1 8", "0 -1 0 1 8", "0 0 0 1 24", "0 0 0 1 0", "0 0 -1 2 8", "0 0 0 0 8"] {
        assert_eq!(refused(&with_line(2, line)), (2, 0, 0), "{line}");
    }
    assert_eq!(refused(&with_line(6, "1 2 0 16 7")), (2, 2, 2));
    for line in ["0 -1 1 0", "0 2 1 0", "0 0 2 0", "0 0 -1 0", "0 1 2 0"] {
        assert_eq!(refused(&with_line(9, line)), (3, 1, 0), "{line}");
    }
    assert_eq!(refused(&with_line(9, "0 1 0 0")), (4, 1, 0));
    assert_eq!(refused(&with_line(11, "1 2 2 0")), (4, 3, 1));
    assert_eq!(refused(&with_line(9, "0 0 0 0")), (5, 0, 0));
    assert_eq!(refused(&with_line(11, "1 1 0 0")), (5, 2, 0));
    // The rows of edges count per side, in whatever order the sides stand.
    assert_eq!(refused(&with_line(9, "1 9 9 0\n0 0 9 0")), (3, 1, 0));
}

#[test]
fn numbers_of_any_size_in_lent_tables() {
    let far = [i64::MIN, i64::MIN + 1, -1, 0, 1, 2, 8, i64::MAX - 1, i64::MAX];
    for (one, other) in far.into_iter().flat_map(|one| far.map(|other| (one, other))) {
        let valid = one == 0 && (1..=8).contains(&other)
            || (1..=8).contains(&one) && (1..=8).contains(&other);
        assert_eq!(check(&[0, one, other, 8, 0], &[]).is_ok(), valid, "{one} {other}");
        let valid = (0..3).contains(&one) && other == 8;
        assert_eq!(check(&[one, 0, 1, other, 0], &[]).is_ok(), valid, "{one} {other}");
        let valid = (0..3).contains(&one) && (0..3).contains(&other);
        assert_eq!(check(&[one, 0, 1, 8, other], &[]).is_ok(), valid, "{one} {other}");
        let nodes = [0, 0, 1, 8, 0, 2, 0, 1, 8, 0];
        let edge = check(&nodes, &[one, other, 0]);
        assert_eq!(edge.is_ok(), one == 0 && other == 1, "{one} {other}");
        assert!(
            check(&nodes, &[0, 1, one, 0, 1, other]).is_ok()
                == (one.max(other) <= 8 && one.min(other) >= -1)
        );
        assert_eq!(
            walk(&nodes, &[0, 1, 0], 0, 1, one, 1).unwrap().len(),
            usize::from((0..8).contains(&one))
        );
        let named = list(&nodes, &[0, 1, 0], one, other, 3);
        match (one, other) {
            (0, 1) => assert!(named.is_ok()),
            (0, _) => assert_eq!(named, Err(refusal(7, 5, 0))),
            _ => assert_eq!(named, Err(refusal(7, 4, 0))),
        }
    }
}

#[test]
fn empty_graphs_roots_and_leaves() {
    assert_eq!(check(&[], &[]), Ok(()));
    assert_eq!(list(&[], &[], 0, 0, 0), Err(refusal(7, 4, 0)));
    // A space with no edge is a root; a block that no edge enters is a leaf.
    assert_eq!(list(&[0, 0, 1, 8, 0, 2, 0, 1, 8, 0], &[], 0, 1, 0), Ok(vec![]));
    // A block is no root even if no edge enters it.
    assert_eq!(list(&[0, 0, 1, 8, 0, 2, 0, 1, 8, 0], &[], 1, 1, 0), Err(refusal(7, 4, 0)));
    // A segment that is entered is no root; a space is no leaf.
    let nodes = [0, 0, 1, 8, 0, 1, 0, 1, 8, 0, 2, 0, 1, 8, 0];
    let edges = [0, 1, 0, 1, 2, 0];
    assert_eq!(list(&nodes, &edges, 1, 2, 9), Err(refusal(7, 4, 0)));
    assert_eq!(list(&nodes, &edges, 2, 2, 9), Err(refusal(7, 4, 0)));
    assert_eq!(list(&nodes, &edges, 0, 0, 9), Err(refusal(7, 5, 0)));
    assert_eq!(list(&nodes, &edges, 0, 1, 9), Err(refusal(7, 5, 0)));
    assert_eq!(walk(&nodes, &edges, 3, 3, 0, 9), Err(refusal(7, 4, 0)));
}

#[test]
fn room_of_single_calls() {
    let nodes = [0, 0, 64, 8, 0, 2, 0, 4, 8, 0];
    let edges = [0, 1, 0, 0, 1, 1];
    assert_eq!(list(&nodes, &edges, 0, 1, 6).unwrap().len(), 2);
    assert_eq!(list(&nodes, &edges, 0, 1, 5), Err(refusal(11, 7, 0)));
    assert_eq!(walk(&nodes, &edges, 0, 1, 9, 2), Ok(vec![1, 9]));
    assert_eq!(walk(&nodes, &edges, 0, 1, 9, 1), Err(refusal(11, 7, 0)));
    // 10 is told where the address is outside the root, and before 11.
    let many = [0, 1, 0].repeat(1_025);
    assert_eq!(walk(&nodes, &many, 0, 1, -5, 0), Err(refusal(10, 1, 0)));
    // Many paths of which few are distinct, and many that end nowhere.
    let mut ladder = vec![0, 0, 8, 8, 0];
    ladder.extend([1, 0, 8, 8, 0].repeat(60));
    ladder.extend([2, 0, 8, 8, 0]);
    let doubled: Vec<i64> = (0..60).flat_map(|n| [n, n + 1, 0, n, n + 1, 0]).collect();
    assert_eq!(
        walk(&ladder, &[&doubled[..], &[60, 61, 0]].concat(), 0, 61, 0, 9),
        Err(refusal(10, 1, 0))
    );
    assert_eq!(walk(&ladder, &[&doubled[..], &[0, 61, 0]].concat(), 0, 61, 3, 9), Ok(vec![3]));
}

#[test]
fn room_of_the_report() {
    let report = text_check(P1.as_bytes(), REPORT_ROOM).unwrap();
    assert_eq!(text_check(P1.as_bytes(), report.len()), Ok(report.clone()));
    for room in 0..report.len() {
        assert_eq!(text_check(P1.as_bytes(), room), Err(refusal(11, 7, 0)));
    }
}

#[test]
fn limits_from_both_sides() {
    for limit in limits() {
        let refusal = compare(&limit.tables).err();
        assert_eq!(refusal, limit.expected, "{}", limit.name);
        let text = plain_text(&limit.tables);
        if text.len() <= MAX_TEXT {
            assert_eq!(text_check(&text, REPORT_ROOM).err(), limit.expected, "{}", limit.name);
        }
    }
    for limit in far_rows() {
        let text = plain_text(&limit.tables);
        assert!(text.len() <= MAX_TEXT, "{}", limit.name);
        assert_eq!(text_check(&text, REPORT_ROOM).err(), limit.expected, "{}", limit.name);
    }
    for length in 65_530..65_540 {
        let text = text_of_length(length);
        assert_eq!(text.len(), length);
        let expected = (length > 65_536).then_some(refusal(12, 6, 0));
        assert_eq!(text_check(&text, REPORT_ROOM).err(), expected);
    }
}

// Order

#[test]
fn order_of_any_two_faults() {
    assert_eq!(compare(&base()).unwrap().outcome.whole, 0);
    for faults in [table_faults(false), table_faults(true)] {
        for (place, (earlier_refusal, earlier)) in faults.iter().enumerate() {
            let mut alone = base();
            earlier(&mut alone);
            assert_eq!(compare(&alone), Err(*earlier_refusal));
            for (later_refusal, later) in &faults[place + 1..] {
                let mut tables = base();
                later(&mut tables);
                earlier(&mut tables);
                assert_eq!(compare(&tables), Err(*earlier_refusal), "with {later_refusal:?}");
            }
        }
    }
}

#[test]
fn order_of_faults_in_a_text() {
    let number = |text: &[u8]| text_check(text, REPORT_ROOM).map_err(|refusal| refusal.number);
    let faults = text_faults();
    for (place, (earlier_number, earlier)) in faults.iter().enumerate() {
        for (later_number, later) in &faults[place..] {
            let mut text = plain_text(&base());
            later(&mut text);
            let alone = text.clone();
            earlier(&mut text);
            // A text that ends sooner may not have the place of the earlier fault.
            if text != alone {
                assert_eq!(number(&text), Err(*earlier_number), "with {later_number}");
            }
        }
        // The text is told before the tables, and 11 last.
        for (_, later) in table_faults(true) {
            let mut tables = base();
            later(&mut tables);
            let mut text = plain_text(&tables);
            earlier(&mut text);
            assert_eq!(number(&text), Err(*earlier_number));
        }
    }
}

#[test]
fn order_within_one_row() {
    for (expected, fault) in row_faults() {
        let mut tables = base();
        fault(&mut tables);
        assert_eq!(compare(&tables), Err(expected));
    }
    // Specification first within a pair.
    let many = host::generate::tables(&joined(1_025), &joined(1_025));
    assert_eq!(compare(&many), Err(refusal(10, 1, 0)));
}
