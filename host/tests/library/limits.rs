//! Both sides of every limit, the last rows of full tables, and two faults at once.

use crate::asking::{check, Rooms};
use host::faults::{base, row_faults, table_faults, text_faults};
use host::generate::{far_rows, limits, mixed_text, plain_text, text_of_length, Random};
use host::large;
use host::reference::MAX_TEXT;

#[test]
fn limits_from_both_sides() {
    for limit in limits().iter().chain(&far_rows()) {
        _ = check(&plain_text(&limit.tables), Rooms::Few);
        _ = check(&mixed_text(&mut Random::new(1), &limit.tables), Rooms::Few);
    }
    for length in [MAX_TEXT - 1, MAX_TEXT, MAX_TEXT + 1, MAX_TEXT + 2, 70_000] {
        _ = check(&text_of_length(length), Rooms::Few);
    }
    // 12 for the length comes before every other, and is told at 65,537 bytes.
    for byte in [b'\n', b' ', b'a', b'A', 0, 255] {
        for length in [MAX_TEXT - 1, MAX_TEXT, MAX_TEXT + 1, 1_000_000] {
            _ = check(&vec![byte; length], Rooms::Few);
        }
    }
}

#[test]
fn lines_up_to_the_last_of_the_longest_text() {
    // As many lines as a text can have, each way to refuse the last of them.
    for last in ["", " ", "0", "0 1 0 1", "0 1 0 1 8", "0 1 0 1 8 8", "0 1 0 1 8 8 8", "A", "-0"] {
        for (names, line) in [("", ""), (" access", " 0"), (" access", " 3")] {
            let mut text = format!("side kind base range unit{names}\n").into_bytes();
            while text.len() + 16 < MAX_TEXT {
                text.extend(format!("0 1 0 1 8{line}\n").bytes());
            }
            text.extend(last.bytes().chain([b'\n']));
            _ = check(&text, Rooms::Few);
            text.pop();
            _ = check(&text, Rooms::Few);
        }
    }
}

#[test]
fn two_faults_at_once() {
    let tables = table_faults(true);
    let texts = text_faults();
    for (place, (_, earlier)) in tables.iter().enumerate() {
        for (_, later) in &tables[place..] {
            let mut both = base();
            later(&mut both);
            earlier(&mut both);
            _ = check(&plain_text(&both), Rooms::Few);
        }
        for (_, fault) in &texts {
            let mut both = base();
            earlier(&mut both);
            let mut text = plain_text(&both);
            fault(&mut text);
            _ = check(&text, Rooms::Few);
        }
    }
    for (_, fault) in row_faults() {
        let mut both = base();
        fault(&mut both);
        _ = check(&plain_text(&both), Rooms::Around);
    }
    for (_, one) in &texts {
        for (_, other) in &texts {
            let mut text = plain_text(&base());
            one(&mut text);
            other(&mut text);
            _ = check(&text, Rooms::Around);
        }
    }
}

#[test]
fn large_maps() {
    let maps = large::maps().into_iter().chain(large::access_maps()).filter(|map| !map.long);
    let maps = maps.chain(large::narrow_maps()).chain(large::deep_maps_with_accesses());
    for text in maps.filter_map(|map| map.text()) {
        _ = check(&text, Rooms::Few);
    }
}

#[test]
fn reports_longer_than_a_text() {
    for count in [40, 63, 64, 65, 66, 74, 75, 80, 81, 300, 500] {
        let map = large::connected(count);
        let report = check(&map.text().expect("the map fits into a text"), Rooms::Few);
        assert!(report.is_ok_and(|report| (report.len() > MAX_TEXT) == (count > 64)));
    }
}
