//! Texts made to be slow, and random maps of the same kinds, held to the engine that
//! propagates lists.

use crate::asking::check_room;
use crate::generated::maps_per_thread;
use host::generate::{mixed_text, Random};
use host::hostile::{filling_map, layered_map, small_versions, texts, Hostile};
use host::propagate::text_check;
use host::reference::REPORT_ROOM;

/// Of so many maps one fills an arena.
const FILLING_ONE_IN: u64 = 100;

/// Asks with mapcheck's buffer, and with one of the report's length and one shorter.
fn check(text: &[u8]) {
    let unlimited = text_check(text, usize::MAX);
    let length = unlimited.as_ref().map_or(0, Vec::len);
    for room in [REPORT_ROOM, length, length.saturating_sub(1)] {
        check_room(text, &unlimited, room);
    }
}

#[test]
fn hostile_texts() {
    for hostile in texts() {
        let text = hostile.text();
        check_room(&text, &text_check(&text, usize::MAX), REPORT_ROOM);
    }
}

#[test]
fn small_versions_of_hostile_texts() {
    small_versions().iter().map(Hostile::text).for_each(|text| check(&text));
}

#[test]
fn layers_of_windows() {
    for seed in 0..maps_per_thread() {
        let random = &mut Random::new(seed);
        let tables = layered_map(random);
        check(&mixed_text(random, &tables));
    }
}

#[test]
fn maps_that_fill_an_arena() {
    for seed in 0..maps_per_thread() / FILLING_ONE_IN {
        let random = &mut Random::new(seed);
        let tables = filling_map(random);
        check(&mixed_text(random, &tables));
    }
}
