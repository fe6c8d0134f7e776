//! Maps with accesses, held to what is typed in by hand.

use crate::asking::{check, Rooms};
use host::accessed::cases;
use host::faults::base;
use host::generate::plain_text;
use host::reference::{refusal_report, IMPL_NODES, NODE_WIDTH, SPEC_NODES};

#[test]
fn cases_print_what_is_typed_in() {
    for case in cases() {
        let answer = check(case.text().as_bytes(), Rooms::Every);
        let printed = answer.unwrap_or_else(|refusal| refusal_report(&refusal));
        assert_eq!(String::from_utf8(printed).unwrap(), case.printed, "{}", case.name);
    }
}

/// A text that ends after any of its lines.
#[test]
fn cases_that_end_too_soon() {
    for case in cases() {
        let text = case.text();
        let ends = text.match_indices('\n').map(|(place, _)| place + 1);
        ends.for_each(|end| _ = check(text[..end].as_bytes(), Rooms::Around));
    }
}

/// Any two nodes with any accesses.
#[test]
fn two_accesses() {
    let places: Vec<(usize, usize)> = [(SPEC_NODES, 5), (IMPL_NODES, 6)]
        .into_iter()
        .flat_map(|(table, rows)| (0..rows).map(move |row| (table, row * NODE_WIDTH + 4)))
        .collect();
    for (number, one) in places.iter().enumerate() {
        for other in &places[number..] {
            for access in [-1, 0, 1, 2, 3] {
                for beside in [0, 1, 2] {
                    let mut tables = base();
                    tables[one.0][one.1] = access;
                    tables[other.0][other.1] = beside;
                    _ = check(&plain_text(&tables), Rooms::Few);
                }
            }
        }
    }
}
