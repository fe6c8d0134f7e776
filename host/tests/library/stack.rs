//! How much stack the text check takes, measured on a painted one.

use crate::threads::LIBRARY_STACK;
use host::large::{deep_maps, deep_maps_with_accesses, Map};
use host::reference::text_check;
use host::stack;

fn taken(map: &Map) -> usize {
    let text = map.text().expect("the map fits into a text");
    let report = text_check(&text, usize::MAX).expect("the map is not refused");
    let mut buffer = vec![0; report.len()];
    let taken = stack::of_text_check(&text, &mut buffer);
    assert!(buffer == report, "{}", map.name);
    assert!(taken < LIBRARY_STACK, "{} takes {taken} bytes", map.name);
    taken
}

#[test]
fn less_than_the_library_says() {
    let with_accesses: Vec<usize> = deep_maps_with_accesses().iter().map(taken).collect();
    let taken = deep_maps().map(|map| taken(&map));
    println!("bytes of stack: {taken:?}, with accesses {with_accesses:?}");
    // Rows gathered through many nodes go no deeper than the plans of the graphs.
    assert!(taken.is_sorted(), "{taken:?}");
}
