//! The program crates/callers: a fixed list of checks of several callers, and after
//! each the whole tally. What it prints is stored beside it, worked out by hand; the
//! reference prints the same.

use host::large::P1;
use host::reference::{tally, Counts, Refusal};

const STORED: &str = include_str!("../../crates/callers/stdout");

/// What the buffer is filled with before each check: no report has this byte.
const FILLER: u8 = 7;

fn spaced(counts: &[u64]) -> String {
    counts.iter().map(u64::to_string).collect::<Vec<_>>().join(" ")
}

/// One check as the program prints it: what it gave, how much of the buffer changed, and
/// the counts, four callers a line.
fn check(caller: i64, text: &str, room: usize, counts: &mut Counts) -> String {
    let mut buffer = [FILLER; 200];
    let (answer, after) = tally(text.as_bytes(), room, *counts, caller);
    *counts = after;
    let gave = match &answer {
        Ok(report) => {
            buffer[..room][..report.len()].copy_from_slice(report);
            format!("report of {} bytes", report.len())
        }
        Err(Refusal { number, table, row }) => format!("refusal {number} {table} {row}"),
    };
    let changed = buffer.iter().filter(|&&byte| byte != FILLER).count();
    let mut printed = format!("caller {caller}: {gave}, {changed} bytes of the buffer changed\n");
    for line in counts.chunks(16) {
        let rows: Vec<String> = line.chunks(4).map(spaced).collect();
        printed += &format!("{}\n", rows.join("  "));
    }
    printed
}

#[test]
fn the_reference_prints_what_is_stored() {
    let p2 = P1.replace("1 0 0 12 32", "1 0 0 32 32");
    let p3 = p2.replace("1 1 2 0\n", "1 1 2 -8\n");
    let long = "\n".repeat(65_537);
    let (partial, equal, different, empty) = (P1, p2.as_str(), p3.as_str(), "");
    let from_fresh = [
        (0, equal, 200),
        (15, partial, 200),
        (7, different, 200),
        (0, partial, 124),
        (7, partial, 123),
        (0, different, 200),
        (15, empty, 200),
        (16, equal, 200),
        (-1, equal, 200),
        (0, empty, 0),
        (16, empty, 0),
        (16, &long, 200),
        (1, &long, 200),
        (4_294_967_296, equal, 200),
        (-9_223_372_036_854_775_808, equal, 200),
        (9_223_372_036_854_775_807, equal, 200),
        (15, equal, 200),
        (7, equal, 200),
        (0, equal, 200),
    ];
    let at_the_ceiling = [
        (3, equal, 200),
        (3, equal, 200),
        (3, partial, 200),
        (3, different, 200),
        (3, empty, 200),
        (16, equal, 200),
    ];
    let mut printed =
        String::from("equal partial different refused, four callers a line from caller 0\n");
    let mut counts = [0; 64];
    for (caller, text, room) in from_fresh {
        printed += &check(caller, text, room, &mut counts);
    }
    printed += "counts of caller 3 at the ceiling\n";
    counts = [0; 64];
    counts[12] = 9_223_372_036_854_775_806;
    counts[13] = 9_223_372_036_854_775_807;
    counts[14] = 18_446_744_073_709_551_615;
    for (caller, text, room) in at_the_ceiling {
        printed += &check(caller, text, room, &mut counts);
    }
    assert_eq!(printed, STORED);
}
