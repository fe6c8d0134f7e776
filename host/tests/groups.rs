//! Groups of banks: maps with what they print, typed in by hand, and lent pair rows.

mod both_kinds;
mod typed_in;

use both_kinds::{list, walk};
use host::generate::banked;
use host::grouped::{cases, Case};
use host::reference::*;

fn named(name: &str) -> &'static Case {
    cases().iter().find(|case| case.name == name).expect(name)
}

fn tables_of(name: &str) -> Tables {
    parse(named(name).text().as_bytes()).expect(name)
}

#[test]
fn cases_print_what_is_typed_in() {
    for case in cases() {
        typed_in::prints(case.name, &case.text(), case.printed);
    }
}

#[test]
fn rows_have_three_numbers_whether_at_is_named_or_not() {
    let tables = tables_of("a bank elsewhere that shares its at");
    assert_eq!(tables[ROOT_PAIRS], [0, 0, 0]);
    assert_eq!(tables[LEAF_PAIRS], [1, 4, 0, 1, 1, 0]);
    let tables = tables_of("interleaved banks");
    assert_eq!(tables[ROOT_PAIRS], [0, 0, 0]);
    assert_eq!(tables[LEAF_PAIRS], [1, 6, 16, 1, 5, 0]);
    // The third number of a row is found under its name, wherever that stands.
    let tables = tables_of("at between, banks in any order");
    assert_eq!(tables[LEAF_PAIRS], [1, 3, 256, 1, 1, 0, 1, 4, 384, 1, 2, 128]);
}

#[test]
fn only_the_pairs_may_have_at() {
    let text = named("interleaved banks").text();
    let names = ["side kind base range unit", "side from to offset"];
    for (name, line) in names.into_iter().zip([1, 12]) {
        for wrong in [format!("{name} at"), format!("at {name}"), name.replace("side", "at")] {
            let wrong = text.replacen(name, &wrong, 1);
            let answer = text_check(wrong.as_bytes(), REPORT_ROOM);
            assert_eq!(answer, Err(refusal(13, TEXT, line)), "{wrong}");
        }
    }
    for wrong in "role spec impl att|role spec impl a|role spec impl at |role spec impl  at|\
        at role spec|at|at at role spec impl|role spec impl at unit"
        .split('|')
    {
        let text = text.replacen("role spec impl at", wrong, 1);
        let answer = text_check(text.as_bytes(), REPORT_ROOM);
        assert_eq!(answer, Err(refusal(13, TEXT, 23)), "{wrong}");
    }
}

#[test]
fn six_lent_numbers_are_two_pair_rows() {
    let tables = tables_of("banks that overlap");
    assert_eq!(tables[LEAF_PAIRS].len(), 6);
    let counts = |tables: &Tables| compare(tables).map(|comparison| comparison.outcome.counts);
    assert_eq!(counts(&tables), Ok([1, 0, 0]));
    for (table, lengths) in [(ROOT_PAIRS, 1..3), (LEAF_PAIRS, 1..6)] {
        for length in lengths {
            let mut shorter = tables.clone();
            shorter[table].truncate(length);
            // Three numbers are the first row, which has bytes 0 to 11 of 16.
            let expected = if length == 3 { Ok([0, 1, 0]) } else { Err(refusal(1, table, 0)) };
            assert_eq!(counts(&shorter), expected);
        }
    }
    let mut longer = tables.clone();
    longer[LEAF_PAIRS].push(0);
    assert_eq!(counts(&longer), Err(refusal(1, LEAF_PAIRS, 0)));
    // Numbers of any size are at outside its range.
    for far in [i64::MIN, i64::MIN + 1, -1, MAX_AT + 1, 1 << 62, i64::MAX - 1, i64::MAX] {
        for (table, place, row) in [(ROOT_PAIRS, 2, 0), (LEAF_PAIRS, 2, 0), (LEAF_PAIRS, 5, 1)] {
            let mut wrong = tables.clone();
            wrong[table][place] = far;
            assert_eq!(counts(&wrong), Err(refusal(16, table, row)), "{far}");
        }
    }
}

#[test]
fn calls_on_one_graph_know_no_banks() {
    let tables = tables_of("banks at 2^55 - 128 and 2^55 - 64");
    let (nodes, edges) = (&tables[IMPL_NODES], &tables[IMPL_EDGES]);
    let record = |first, last, displacement| Record { first, last, displacement };
    assert_eq!(list(nodes, edges, 0, 1, 3), Ok(vec![record(0, 63, 0)]));
    assert_eq!(list(nodes, edges, 0, 2, 3), Ok(vec![record(64, 127, 64)]));
    assert_eq!(walk(nodes, edges, 0, 2, 65, 1), Ok(vec![1]));
    // Each bank alone may have as many paths as a group may have together.
    let tables = banked(&[1_024, 1_024]);
    assert_eq!(compare(&tables), Err(refusal(10, IMPL_EDGES, 0)));
    let (nodes, edges) = (&tables[IMPL_NODES], &tables[IMPL_EDGES]);
    assert_eq!(list(nodes, edges, 0, 2, 3), Ok(vec![record(32, 159, 32)]));
}
