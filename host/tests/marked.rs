//! The marked maps P1 to P8, with what they give typed in by hand.

mod both_kinds;

use both_kinds::{list, walk};
use host::generate::Random;
use host::large::P1;
use host::reference::*;

const P1_REPORT: &str = "\
root leaf verdict rspec rimpl wspec wimpl
0 0 1 1 1 1 1

verdict equal partial different root leaf address
1 0 1 0 0 0 2432
";

fn p2() -> String {
    P1.replace("1 0 0 12 32", "1 0 0 32 32")
}

fn p3() -> String {
    p2().replace("1 1 2 0\n", "1 1 2 -8\n")
}

fn prints(text: &str) -> String {
    String::from_utf8(printed(text.as_bytes())).unwrap()
}

fn record(first: i64, last: i64, displacement: i64) -> Record {
    Record { first, last, displacement }
}

fn impl_list(text: &str) -> Vec<Record> {
    let tables = parse(text.as_bytes()).unwrap();
    list(&tables[IMPL_NODES], &tables[IMPL_EDGES], 0, 2, 3).unwrap()
}

#[test]
fn p1_is_partial() {
    assert_eq!(prints(P1), P1_REPORT);
    assert_eq!(impl_list(P1), [record(2048, 2431, 2048)]);
}

#[test]
fn p1_walks() {
    let tables = parse(P1.as_bytes()).unwrap();
    let walk = |address| walk(&tables[IMPL_NODES], &tables[IMPL_EDGES], 0, 2, address, 1);
    for (address, bits) in [(2048, &[0][..]), (2431, &[383]), (2047, &[]), (2432, &[])] {
        assert_eq!(walk(address).unwrap(), bits);
    }
    for outside in [-1, 32768, i64::MIN, i64::MAX] {
        assert_eq!(walk(outside).unwrap(), []);
    }
}

#[test]
fn p2_is_equal() {
    let report = "\
root leaf verdict rspec rimpl wspec wimpl
0 0 0 1 1 1 1

verdict equal partial different root leaf address
0 1 0 0 -1 -1 -1
";
    assert_eq!(prints(&p2()), report);
    assert_eq!(impl_list(&p2()), [record(2048, 2559, 2048)]);
}

#[test]
fn p3_is_different() {
    let report = "\
root leaf verdict rspec rimpl wspec wimpl
0 0 2 1 1 1 1

verdict equal partial different root leaf address
2 0 0 1 0 0 2048
";
    assert_eq!(prints(&p3()), report);
    assert_eq!(impl_list(&p3()), [record(2048, 2303, 1792)]);
}

#[test]
fn p4_base_and_range() {
    let node = |base, range| check(&[0, base, range, 8, 0], &[]);
    assert_eq!(node(281474976710655, 1), Ok(()));
    assert_eq!(node(281474976710656, 1), Err(refusal(2, 0, 0)));
    assert_eq!(node(0, 281474976710656), Ok(()));
    assert_eq!(node(1, 281474976710656), Err(refusal(2, 0, 0)));
}

#[test]
fn p5_offset() {
    let edge = |offset| check(&[0, 0, 1, 8, 0, 2, 0, 1, 8, 0], &[0, 1, offset]);
    assert_eq!(edge(281474976710656), Ok(()));
    assert_eq!(edge(-281474976710656), Ok(()));
    assert_eq!(edge(281474976710657), Err(refusal(3, 1, 0)));
    assert_eq!(edge(-281474976710657), Err(refusal(3, 1, 0)));
}

#[test]
fn p6_chain() {
    let chain = |edges: i64| {
        let nodes: Vec<i64> = (0..=edges).flat_map(|_| [1, 0, 1, 8, 0]).collect();
        let edges: Vec<i64> = (0..edges).flat_map(|row| [row, row + 1, 0]).collect();
        check(&nodes, &edges)
    };
    assert_eq!(chain(64), Ok(()));
    assert_eq!(chain(65), Err(refusal(6, 0, 0)));
}

#[test]
fn p7_runs() {
    let touching = vec![record(64, 127, 5), record(0, 63, 5)];
    assert_eq!(merge(touching), [record(0, 127, 5)]);
    let open = vec![record(64, 127, 5), record(0, 62, 5)];
    assert_eq!(merge(open), [record(0, 62, 5), record(64, 127, 5)]);
    let unlike = vec![record(64, 127, 6), record(0, 63, 5)];
    assert_eq!(merge(unlike), [record(0, 63, 5), record(64, 127, 6)]);
}

#[test]
fn p7_as_graph() {
    // A root of 16 bytes, two segments of 8 bytes or of 7 and 8, one leaf.
    let list_with = |lower_range| {
        let segments = [[1, 0, lower_range, 8, 0], [1, 8, 8, 8, 0]];
        let nodes = [[0, 0, 16, 8, 0], segments[0], segments[1], [2, 0, 16, 8, 0]].concat();
        list(&nodes, &[0, 1, 0, 0, 2, 0, 1, 3, 0, 2, 3, 0], 0, 3, 6).unwrap()
    };
    assert_eq!(list_with(8), [record(0, 127, 0)]);
    assert_eq!(list_with(7), [record(0, 55, 0), record(64, 127, 0)]);
}

#[test]
fn p8_paths() {
    let copies = |count| P1.replace("0 0 1 0\n", &"0 0 1 0\n".repeat(count));
    assert_eq!(prints(&copies(1_024)), P1_REPORT);
    assert_eq!(prints(&copies(1_025)), "refusal table row\n10 1 0\n");
    let nodes = [0, 0, 4096, 8, 0, 2, 256, 64, 8, 0];
    let edges = |count| [0, 1, 0].repeat(count);
    assert_eq!(list(&nodes, &edges(1_024), 0, 1, 3), Ok(vec![record(2048, 2559, 2048)]));
    assert_eq!(list(&nodes, &edges(1_025), 0, 1, 3), Err(refusal(10, 1, 0)));
}

#[test]
fn what_is_not_the_rule() {
    // Offset scaled by the unit of `to`: 3 units of 32 bits, not of 8.
    let nodes = [0, 0, 64, 8, 0, 2, 0, 2, 32, 0];
    assert_eq!(list(&nodes, &[0, 1, 3], 0, 1, 3), Ok(vec![record(96, 159, 96)]));
    // Clipped at the segment between, and leaf bits counted from the leaf's base.
    let nodes = [0, 0, 64, 8, 0, 1, 10, 2, 8, 0, 2, 9, 40, 8, 0];
    assert_eq!(list(&nodes, &[0, 1, 0, 1, 2, 0], 0, 2, 3), Ok(vec![record(80, 95, 72)]));
    // Root bits touch, displacements differ: two records.
    let nodes = [0, 0, 64, 8, 0, 2, 0, 4, 8, 0];
    let two = vec![record(0, 31, 0), record(32, 63, 32)];
    assert_eq!(list(&nodes, &[0, 1, 0, 0, 1, 4], 0, 1, 6), Ok(two));
    // A block behind one path equals the block behind two halves.
    let split = "\
side kind base range unit
0 0 0 64 8
0 2 0 16 8
1 0 0 64 8
1 1 0 8 8
1 1 8 8 8
1 2 0 16 8

side from to offset
0 0 1 0
1 0 1 0
1 0 2 0
1 1 3 0
1 2 3 0

role spec impl
0 0 0
1 1 3
";
    let report = "\
root leaf verdict rspec rimpl wspec wimpl
0 0 0 1 1 1 1

verdict equal partial different root leaf address
0 1 0 0 -1 -1 -1
";
    assert_eq!(prints(split), report);
}

#[test]
fn first_unequal_pair_is_not_the_worst() {
    // Leaf row 0 partial from bit 8 on, leaf row 1 different from bit 0 on, row 2 empty.
    let text = "\
side kind base range unit
0 0 0 4 8
0 2 0 4 8
0 2 0 4 8
0 2 0 4 8
1 0 0 4 8
1 2 0 1 8
1 2 0 4 8
1 2 0 4 8

side from to offset
0 0 1 0
0 0 2 0
1 0 1 0

role spec impl
0 0 0
1 1 1
1 2 2
1 3 3
";
    let report = "\
root leaf verdict rspec rimpl wspec wimpl
0 0 1 1 1 1 1
0 1 2 1 0 1 0

verdict equal partial different root leaf address
2 1 1 1 0 0 8
";
    assert_eq!(prints(text), report);
}

#[test]
fn coded_answers() {
    assert_eq!(coded(&text_check(P1.as_bytes(), 200)), P1_REPORT.len() as i64);
    assert_eq!(coded(&text_check(P1.as_bytes(), 0)), -1_170_000_000);
    assert_eq!(coded(&text_check(b"", 200)), -1_360_000_001);
    assert_eq!(coded_refusal(&refusal(10, 3, 999_999)), -1_030_999_999);
}

/// A tally with one caller's counts, and 0 for all others.
fn only(caller: usize, counts: [u64; 4]) -> Counts {
    let mut tally = [0; 64];
    tally[4 * caller..4 * caller + 4].copy_from_slice(&counts);
    tally
}

/// A tally in which every count is another one: 1000 for the first, 1063 for the last.
fn unlike() -> Counts {
    std::array::from_fn(|place| 1_000 + place as u64)
}

/// Texts that end equal, partial, different and refused, in the order of the counts.
fn ending_texts() -> [String; 4] {
    [p2(), P1.to_string(), p3(), String::new()]
}

#[test]
fn tallies() {
    let fresh = [0; 64];
    let tallied = |text: &str, caller| tally(text.as_bytes(), 200, fresh, caller).1;
    assert_eq!(tallied(&p2(), 0), only(0, [1, 0, 0, 0]));
    assert_eq!(tallied(P1, 0), only(0, [0, 1, 0, 0]));
    assert_eq!(tallied(&p3(), 0), only(0, [0, 0, 1, 0]));
    assert_eq!(tallied("", 0), only(0, [0, 0, 0, 1]));
    assert_eq!(tallied(&p2(), 15), only(15, [1, 0, 0, 0]));
    assert_eq!(tallied(P1, 15), only(15, [0, 1, 0, 0]));
    assert_eq!(tallied(&p3(), 15), only(15, [0, 0, 1, 0]));
    assert_eq!(tallied("", 15), only(15, [0, 0, 0, 1]));
    // The answer is that of the text check, and each refusal counts.
    let refused = only(0, [0, 0, 0, 1]);
    assert_eq!(tally(P1.as_bytes(), 124, fresh, 0).0.unwrap(), P1_REPORT.as_bytes());
    assert_eq!(tally(P1.as_bytes(), 124, fresh, 0).1, only(0, [0, 1, 0, 0]));
    assert_eq!(tally(P1.as_bytes(), 123, fresh, 0), (Err(refusal(11, 7, 0)), refused));
    assert_eq!(tally(b"", 200, fresh, 0), (Err(refusal(13, 6, 1)), refused));
    assert_eq!(tally(&[b'\n'; 65_537], 200, fresh, 0), (Err(refusal(12, 6, 0)), refused));
}

#[test]
fn a_tally_moves_one_count() {
    for caller in 0..16 {
        for (ending, text) in ending_texts().iter().enumerate() {
            let mut expected = unlike();
            expected[4 * caller + ending] = 1_001 + (4 * caller + ending) as u64;
            assert_eq!(tally(text.as_bytes(), 200, unlike(), caller as i64).1, expected);
        }
    }
}

#[test]
fn a_tally_stays_where_no_caller_is_named() {
    let top = (1 << 63) - 1;
    for caller in [16, -1, i64::MIN, i64::MAX, 1 << 32] {
        for counts in [[0; 64], unlike(), [top - 1; 64], [top; 64], [u64::MAX; 64]] {
            let expected = (Err(refusal(15, 7, 0)), counts);
            for text in ending_texts() {
                for room in [0, 123, 200] {
                    assert_eq!(tally(text.as_bytes(), room, counts, caller), expected);
                }
            }
            assert_eq!(tally(&[b'\n'; 65_537], 200, counts, caller), expected);
        }
    }
}

#[test]
fn a_tally_ends_at_the_ceiling() {
    let top = 9_223_372_036_854_775_807;
    let after = |text: &str, counts| tally(text.as_bytes(), 200, only(3, counts), 3).1;
    assert_eq!(after(P1, [7, top - 1, 8, 9]), only(3, [7, top, 8, 9]));
    assert_eq!(after(P1, [7, top, 8, 9]), only(3, [7, top, 8, 9]));
    assert_eq!(after(P1, [7, u64::MAX, 8, 9]), only(3, [7, u64::MAX, 8, 9]));
    for text in ending_texts() {
        assert_eq!(after(&text, [top; 4]), only(3, [top; 4]));
        assert_eq!(after(&text, [top + 1; 4]), only(3, [top + 1; 4]));
        assert_eq!(after(&text, [u64::MAX; 4]), only(3, [u64::MAX; 4]));
    }
    assert_eq!(after(&p2(), [top - 1; 4]), only(3, [top, top - 1, top - 1, top - 1]));
    assert_eq!(after(&p3(), [top - 1; 4]), only(3, [top - 1, top - 1, top, top - 1]));
    assert_eq!(after("", [top - 1; 4]), only(3, [top - 1, top - 1, top - 1, top]));
}

/// After every check of a list from a fresh tally, each count is how many checks so far
/// had that caller and that ending.
#[test]
fn a_tally_counts_a_list_of_checks() {
    let texts = ending_texts();
    let mut random = Random::new(2);
    let (mut checks, mut counts) = (Vec::new(), [0; 64]);
    for _ in 0..800 {
        let (caller, ending) = (random.between(-4, 19), random.below(4));
        checks.push((caller, ending));
        counts = tally(texts[ending].as_bytes(), 200, counts, caller).1;
        for (place, &count) in counts.iter().enumerate() {
            let counted = (place as i64 / 4, place % 4);
            let expected = checks.iter().filter(|&&check| check == counted).count();
            assert_eq!(count, expected as u64, "{counted:?} after {checks:?}");
        }
    }
    // The list has every caller with every ending, and others on both sides.
    let drawn = |check| checks.contains(&check);
    assert!((-4..20).all(|caller| (0..4).all(|ending| drawn((caller, ending)))));
}
