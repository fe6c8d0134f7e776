//! Unlike texts asked at the same time from several threads with small stacks.

use crate::asking::{check_room, Unlimited};
use host::generate::{damaged, long_map, mixed_text, Random};
use host::large::{banked_maps, connected, connected_beside_chain, connected_beside_owners};
use host::large::{connected_beside_shared, deep_maps_with_accesses, narrow_maps};
use host::reference::text_check;
use std::panic::catch_unwind;
use std::sync::atomic::{AtomicBool, Ordering};
use std::sync::Barrier;

const THREADS: usize = 8;
const TEXTS: u64 = 24;
const ROUNDS: usize = 60;
const DEEP_ROUNDS: usize = 4;
/// The library says that its call needs less than so many bytes of stack, and is given no more.
pub const LIBRARY_STACK: usize = 1_200_000;
/// For the start of a Rust thread and the test's calls above the library's, which take
/// 5 to 9 KB. More would hide a library that takes more than it says.
const TEST_STACK: usize = 1 << 14;
/// Lines that the library holds at once; pairs of a longer report are worked twice.
const HELD_LINES: usize = 4_681;
/// Roots, and as many leaves, of maps with many more lines, some more, and fewer.
const COUNTS: [usize; 3] = [120, 81, 20];
const LONG_ROOM: usize = 1 << 20;

/// A text with what the reference answers.
type Asked = (Vec<u8>, Unlimited);

fn asked(text: Vec<u8>) -> Asked {
    let unlimited = text_check(&text, usize::MAX);
    (text, unlimited)
}

fn report_length(unlimited: &Unlimited) -> usize {
    unlimited.as_ref().map_or(0, Vec::len)
}

/// Maps beside one another, and maps with long reports; some texts are damaged.
fn texts() -> Vec<Asked> {
    let text = |seed: u64| {
        let random = &mut Random::new(7_000_000 + seed);
        let tables = match seed % 3 {
            0 => connected(10 + seed as usize).tables,
            _ => long_map(random, 500 * seed as usize),
        };
        let text = mixed_text(random, &tables);
        let text = if seed % 8 == 1 { damaged(random, &text) } else { text };
        asked(text)
    };
    (0..TEXTS).map(text).collect()
}

/// Maps with many lines, many paths, many records and long paths, also all in one map;
/// in some the lists of nodes are kept, and in some they find no room. And maps with many
/// banks, and with accesses.
fn deep_texts() -> Vec<Asked> {
    let random = &mut Random::new(8_000_000);
    let maps = COUNTS.map(connected_beside_chain).into_iter();
    let maps = maps.chain(COUNTS.map(connected_beside_shared));
    let maps = maps.chain(COUNTS.map(connected_beside_owners)).chain(narrow_maps());
    let maps = maps.chain(banked_maps().into_iter().filter(|map| map.text().is_some()));
    let maps = maps.chain(deep_maps_with_accesses());
    maps.map(|map| asked(mixed_text(random, &map.tables))).collect()
}

/// Each thread asks every text that many times, while the others ask other texts.
/// `room` gives the buffer's length from the report's and the thread's number.
fn ask_at_the_same_time(texts: &[Asked], rounds: usize, room: fn(usize, usize) -> usize) {
    let together = Barrier::new(THREADS);
    // A thread that fails goes on, so that the others do not wait for it.
    let failed = AtomicBool::new(false);
    let ask = |thread: usize| {
        for call in 0..rounds * texts.len() {
            let (text, unlimited) = &texts[(call + thread * 5) % texts.len()];
            let room = room(report_length(unlimited), thread);
            together.wait();
            let alike = catch_unwind(|| check_room(text, unlimited, room));
            failed.fetch_or(alike.is_err(), Ordering::Relaxed);
        }
    };
    std::thread::scope(|scope| {
        for thread in 0..THREADS {
            let ask = &ask;
            let builder = std::thread::Builder::new().stack_size(LIBRARY_STACK + TEST_STACK);
            builder.spawn_scoped(scope, move || ask(thread)).expect("a thread");
        }
    });
    assert!(!failed.into_inner(), "some answers differ");
}

#[test]
fn unlike_texts_at_the_same_time() {
    ask_at_the_same_time(&texts(), ROUNDS, |length, thread| length + thread);
}

#[test]
fn many_lines_and_long_paths_at_the_same_time() {
    let texts = deep_texts();
    assert!(texts.iter().all(|(_, unlimited)| unlimited.is_ok()), "a map is refused");
    let lines = |(_, unlimited): &Asked| {
        let report = unlimited.as_ref().expect("the map is not refused");
        report.iter().filter(|&&byte| byte == b'\n').count()
    };
    for maps in texts.chunks(COUNTS.len()).take(2) {
        let twice: Vec<bool> = maps.iter().map(|text| lines(text) > HELD_LINES).collect();
        assert_eq!(twice, [true, true, false]);
    }
    // Refused after the report was measured, the report's own length, and more.
    let room = |length, thread| match thread % 4 {
        0 => length - 1,
        1 => length,
        2 => LONG_ROOM,
        _ => 4 * LONG_ROOM,
    };
    ask_at_the_same_time(&texts, DEEP_ROUNDS, room);
}
