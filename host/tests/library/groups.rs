//! Maps whose leaves are built from banks, held to what is typed in by hand.

use crate::asking::{check, Rooms};
use host::grouped::cases;
use host::reference::refusal_report;

#[test]
fn cases_print_what_is_typed_in() {
    for case in cases() {
        let answer = check(case.text().as_bytes(), Rooms::Every);
        let printed = answer.unwrap_or_else(|refusal| refusal_report(&refusal));
        assert_eq!(String::from_utf8(printed).unwrap(), case.printed, "{}", case.name);
    }
}

/// A text that ends after any of its lines.
#[test]
fn cases_that_end_too_soon() {
    for case in cases() {
        let text = case.text();
        let ends = text.match_indices('\n').map(|(place, _)| place + 1);
        ends.for_each(|end| _ = check(text[..end].as_bytes(), Rooms::Around));
    }
}
