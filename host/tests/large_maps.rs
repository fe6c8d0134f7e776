//! The named maps come out as their names say.

use host::bitwalk;
use host::large::{deep_maps, maps, narrow_maps, small_versions, Map};
use host::reference::{compare, list, text_check, Lengths, Outcome, PairLine, Record};
use host::reference::{KINDS, LEAF_PAIRS, MAX_TEXT, REPORT_ROOM, ROOT_PAIRS};

/// Name, counts of the verdicts, pairs with a record, records of the implementation.
const EXPECTED: [(&str, [i64; 3], usize, usize); 25] = [
    ("P1", [0, 1, 0], 1, 1),
    ("5 x 115, 2,000 nodes, 2,600 edges", [575, 0, 0], 575, 575),
    ("10^6 pairs, none connected", [1_000_000, 0, 0], 0, 0),
    ("65,536 bytes, none connected", [1_000_000, 0, 0], 0, 0),
    ("600 x 600, hub, diagonal alive", [360_000, 0, 0], 600, 600),
    ("500 x 500, hub, diagonal alive", [250_000, 0, 0], 500, 500),
    ("60 x 60, 1,024 paths, 1 record", [3_600, 0, 0], 3_600, 3_600),
    ("60 x 60, 1,024 touching windows", [3_600, 0, 0], 3_600, 3_600),
    ("60 x 60, 1,024 paths, no merging", [3_600, 0, 0], 3_600, 3_600 * 1_024),
    ("60 x 60, chain of 64, 1,024 paths", [3_600, 0, 0], 3_600, 3_600 * 1_024),
    ("60 x 60, bridges, 1,024 paths", [3_600, 0, 0], 3_600, 3_600 * 1_024),
    ("2 x 900, 1 of 1,024 paths seen", [1_800, 0, 0], 1_800, 1_800),
    ("1 x 900, 1,024 paths", [900, 0, 0], 900, 900 * 1_024),
    ("100 x 900, all clipped at the leaf", [90_000, 0, 0], 0, 0),
    ("connected through one hub", [7_225, 0, 0], 7_225, 7_225),
    ("connected through one hub, and a chain of 64", [170, 7_226, 0], 7_226, 7_225 + 1_024),
    // Records from unit 8 on begin one unit after the other: 504 in a root of 512 units.
    (
        "connected through one hub, and a chain of 64 that roots share",
        [340, 7_228, 0],
        7_228,
        7_225 + 2 * 1_024 + 504,
    ),
    // Fifteen edges from the root to each of 62 nodes, and the way through all of them.
    (
        "connected through one hub, and 62 owners one behind the other",
        [171, 7_225, 0],
        7_226,
        7_225 + 62 * 15 + 1,
    ),
    // One pair for each root, and one record of all its banks.
    ("999 roots, 1,000 banks of one leaf", [999, 0, 0], 999, 999),
    ("702 roots, 702 banks of one leaf", [702, 0, 0], 702, 702),
    ("1,000 roots, each sees 2 of 1,000 banks of one leaf", [1_000, 0, 0], 1_000, 1_000),
    // Each root is at the place of one leaf.
    ("999 roots, 500 leaves of two banks each", [999 * 500, 0, 0], 999, 999),
    ("364 roots, 500 leaves of two banks each", [364 * 500, 0, 0], 364, 364),
    ("99 roots that see 500 leaves of two banks each", [49_500, 0, 0], 49_500, 49_500),
    ("1,000 roots, 1,000 banks of one leaf, none connected", [1_000, 0, 0], 0, 0),
];

/// Maps whose pairs are all alike: name, verdict, records of the specification, records
/// of the implementation, and the lowest bit address at which the first pair differs.
const ALIKE: [(&str, i64, usize, usize, i64); 17] = [
    ("60 x 60, 1,024 records, partial", 1, 1_024, 1_024, 88),
    ("60 x 60, 1,024 records, last displacement unlike", 2, 1_024, 1_024, 24),
    ("60 x 60, 1,024 records, last one unit longer", 2, 1_024, 1_024, 8_208),
    ("60 x 60, 1,024 records, displacements in reverse", 1, 1_024, 1_024, 8),
    ("3 x 3, 1,024 paths, 1 record", 0, 1, 1, -1),
    ("3 x 3, 1,024 paths, no merging", 0, 1_024, 1_024, -1),
    ("3 x 3, 1,024 records, partial", 1, 1_024, 1_024, 88),
    ("3 x 3, 1,024 records, last displacement unlike", 2, 1_024, 1_024, 24),
    ("3 x 3, 1,024 records, last one unit longer", 2, 1_024, 1_024, 8_208),
    ("3 x 3, 800 records, displacements in reverse", 1, 800, 800, 8),
    ("3 x 3, chain of 64, 1,024 paths", 0, 1_024, 1_024, -1),
    ("3 x 3, chain of 64, partial", 1, 1_024, 1_024, 88),
    ("2 x 2, 8 records, partial", 1, 8, 8, 88),
    ("2 x 2, chain of 7, partial", 1, 8, 8, 88),
    ("2 x 2, 8 records, last displacement unlike", 2, 8, 8, 24),
    ("2 x 2, 8 records, last one unit longer", 2, 8, 8, 80),
    ("2 x 2, 8 records, displacements in reverse", 1, 8, 8, 8),
];

/// The records that are last by displacement, then by first, of the first pair of maps:
/// first, last and displacement, in the specification and in the implementation.
const LAST: [(&str, [i64; 3], [i64; 3]); 4] = [
    ("2 x 2, 8 records, partial", [120, 151, 120], [120, 143, 120]),
    ("2 x 2, 8 records, last displacement unlike", [56, 87, 56], [64, 87, 64]),
    ("2 x 2, 8 records, last one unit longer", [56, 79, 56], [56, 87, 56]),
    ("2 x 2, 8 records, displacements in reverse", [0, 15, 0], [0, 7, 0]),
];

fn all_maps() -> Vec<Map> {
    maps().into_iter().chain(narrow_maps()).chain(deep_maps()).chain(small_versions()).collect()
}

fn named<'a>(maps: &'a [Map], name: &str) -> &'a Map {
    maps.iter().find(|map| map.name == name).expect(name)
}

#[test]
fn outcomes() {
    let maps = all_maps();
    for (name, counts, lines, records) in EXPECTED {
        let comparison = compare(&named(&maps, name).tables).expect(name);
        let Outcome { whole, counts: found, .. } = comparison.outcome;
        assert_eq!((found, comparison.lines.len()), (counts, lines), "{name}");
        assert_eq!(whole, i64::from(counts[1] > 0), "{name}");
        for kind in 0..2 {
            let records_of = |line: &PairLine| line.lengths[kind].implementation;
            assert_eq!(comparison.lines.iter().map(records_of).sum::<usize>(), records, "{name}");
        }
    }
}

#[test]
fn pairs_that_are_all_alike() {
    let maps = all_maps();
    for (name, verdict, spec, implementation, address) in ALIKE {
        let map = named(&maps, name);
        let comparison = compare(&map.tables).expect(name);
        let lengths = [Lengths { spec, implementation }; 2];
        let alike = |line: &PairLine| (line.verdict, line.lengths) == (verdict, lengths);
        assert_eq!(comparison.lines.len(), map.pairs(), "{name}");
        assert!(comparison.lines.iter().all(alike), "{name}");
        assert_eq!((comparison.outcome.whole, comparison.outcome.address), (verdict, address));
    }
}

#[test]
fn small_versions_by_single_bits() {
    for map in small_versions() {
        assert_eq!(compare(&map.tables), Ok(bitwalk::compare(&map.tables)), "{}", map.name);
    }
}

#[test]
fn last_records() {
    let maps = small_versions();
    for (name, spec, implementation) in LAST {
        let tables = &named(&maps, name).tables;
        for (side, expected) in [spec, implementation].into_iter().enumerate() {
            let (root, leaf) = (tables[ROOT_PAIRS][side], tables[LEAF_PAIRS][side]);
            let (nodes, edges) = (&tables[2 * side], &tables[2 * side + 1]);
            for kind in KINDS {
                let records = list(nodes, edges, root, leaf, kind, usize::MAX).expect(name);
                let by_displacement = |record: &Record| (record.displacement, record.first);
                let last = records.into_iter().max_by_key(by_displacement);
                let Record { first, last, displacement } = last.expect(name);
                assert_eq!([first, last, displacement], expected, "{name}");
            }
        }
    }
}

/// These hold more rows than a text has room for.
const TOO_LONG: [&str; 5] = [
    "600 x 600, hub, diagonal alive",
    "60 x 60, 1,024 records, displacements in reverse",
    "999 roots, 1,000 banks of one leaf",
    "1,000 roots, each sees 2 of 1,000 banks of one leaf",
    "999 roots, 500 leaves of two banks each",
];
/// A text has no room for one root more in these; a root takes more than so many bytes.
const LONGEST: [&str; 2] =
    ["702 roots, 702 banks of one leaf", "364 roots, 500 leaves of two banks each"];
const ROOT_BYTES: usize = 50;

#[test]
fn all_but_these_fit_into_a_text() {
    let maps = all_maps();
    for name in LONGEST {
        let text = named(&maps, name).text().expect(name);
        assert!(text.len() + ROOT_BYTES > MAX_TEXT, "{name} has {} bytes", text.len());
    }
    for map in all_maps() {
        assert_eq!(map.text().is_none(), TOO_LONG.contains(&map.name), "{}", map.name);
        if map.name.starts_with("65,536 bytes") {
            let text = map.text().unwrap();
            assert_eq!(text.len(), MAX_TEXT);
            assert!(text_check(&text, REPORT_ROOM).is_ok());
        }
    }
}
