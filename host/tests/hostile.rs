//! The hostile texts come out as their construction says, and the engine that propagates
//! lists gives what the reference gives: on these, on their small versions, and on random
//! maps. HEALDRIP_MAPS is the number of random maps of each kind.

use host::bitwalk;
use host::generate::Random;
use host::generate::{disturbed, groups, long_map, plain_text, raised, root_rows, small_map};
use host::hostile::ARENA;
use host::hostile::{filling_map, layered_map, small_versions, texts, Hostile};
use host::large::{self, Map};
use host::propagate;
use host::reference::{compare_by, text_check, Comparison, Listing, Tables};
use host::reference::{refusal, Refusal, MAX_TEXT, REPORT_ROOM};
use host::reference::{IMPL_EDGES, LEAF_PAIRS, OUTPUT};

const DEFAULT_MAPS: u64 = 4_000;
/// Of so many maps one is long, and one fills an arena; one is walked bit by bit.
const LONG_ONE_IN: u64 = 100;
const BITS_ONE_IN: u64 = 8;
const THREADS: usize = 2;

fn maps_of_a_kind() -> u64 {
    let maps = std::env::var("HEALDRIP_MAPS").ok();
    maps.map_or(DEFAULT_MAPS, |count| count.parse().expect("HEALDRIP_MAPS is a number"))
}

/// Lines that are all alike: how many, their verdict, and the records of either list.
type Lines = (usize, i64, usize);
/// The lines, or number, table and row of the refusal.
type Answer = Result<Lines, [usize; 3]>;

/// Name, root rows and groups, and the answer. Turned round the rows are exchanged, and
/// nothing else.
const EXPECTED: [(&str, [usize; 2], Answer); 31] = [
    // Four roots reach every leaf, each by one record.
    ("roots in gaps of a hub", [570, 570], Ok((4 * 570, 0, 1))),
    ("roots in gaps behind 2 hubs", [570, 570], Ok((4 * 570, 0, 1))),
    ("roots in gaps behind 4 hubs", [570, 570], Ok((4 * 570, 0, 1))),
    ("roots in gaps behind 100 hubs", [490, 490], Ok((4 * 490, 0, 1))),
    ("paths that die late", [616, 616], Ok((4 * 616, 0, 1))),
    ("paths that die late behind 2 hubs", [616, 616], Ok((4 * 616, 0, 1))),
    ("paths that die late behind 4 hubs", [615, 615], Ok((4 * 615, 0, 1))),
    ("nodes that fill an arena", [505, 505], Ok((4 * 505, 0, 1))),
    ("nodes that fill an arena, 4 hubs", [505, 505], Ok((4 * 505, 0, 1))),
    // Each record of the implementation is one unit shorter.
    ("each root another part of a hub", [340, 8], Ok((340 * 8, 1, 512))),
    // Four leaves are reached by every root, each by a record for each way.
    ("wide roots, leaves in gaps of a hub", [570, 570], Ok((4 * 570, 0, 31))),
    // Four leaves are reached by every root, each over one edge, and one beside them.
    ("leaves in gaps of parallel edges", [400, 400], Ok((4 * 400, 0, 1))),
    ("leaves in gaps of parallel edges, beside lists", [390, 391], Ok((5 * 390, 0, 1))),
    ("4 of 799 roots joined", [799, 799], Ok((4 * 799, 0, 1))),
    ("refusal 11 at the last rows", [570, 570], Err([11, OUTPUT, 0])),
    ("refusal 10 at the last pair", [570, 570], Err([10, IMPL_EDGES, 569_569])),
    // The digits 00 to 42 stand six times on either side, the others five times.
    ("chain of 64, mostly empty", [543, 543], Ok((43 * 36 + 57 * 25, 0, 1))),
    // All digits stand six times on either side.
    ("hub, mostly empty", [600, 600], Ok((100 * 36, 0, 1))),
    // Each bank brings a record of its own.
    ("banks in reverse", [650, 1], Ok((650, 0, 650))),
    ("banks in no order", [650, 1], Ok((650, 0, 650))),
    // Each record of the implementation is one unit shorter.
    ("32 banks of 32 records", [230, 10], Ok((230 * 10, 1, 1_024))),
    ("100 banks of 10 records", [230, 10], Ok((230 * 10, 1, 1_000))),
    // Four roots reach every group, in both banks alike.
    ("roots in gaps of a hub, two banks", [650, 325], Ok((4 * 325, 0, 1))),
    // Every root reaches the later banks of the first four groups, and nothing else.
    ("roots in gaps of a hub, two banks, turned", [650, 325], Ok((4 * 650, 0, 1))),
    ("refusal 10 at the last group", [650, 325], Err([10, IMPL_EDGES, 649_324])),
    // As without the access.
    ("roots in gaps, one access", [530, 530], Ok((4 * 530, 0, 1))),
    ("nodes that fill an arena, 4 hubs, one access", [460, 460], Ok((4 * 460, 0, 1))),
    ("each root another part of a hub, one access", [340, 8], Ok((340 * 8, 1, 512))),
    // Each record of the implementation has another displacement.
    ("400 leaves, 300 ways, all unequal", [1, 400], Ok((400, 2, 300))),
    ("400 leaves, 300 ways, all unequal, one access", [1, 400], Ok((400, 2, 300))),
    // Two of the four roots are behind hubs that are read only.
    (EITHER_KIND, [530, 530], Ok((4 * 530, 0, 1))),
];

/// Half of its lines have their records by reading alone, and half by writing alone.
const EITHER_KIND: &str = "roots in gaps behind 4 hubs of either kind";

/// How the lines of a report end, each as often as the others.
fn line_ends(name: &str, verdict: i64, records: usize) -> Vec<String> {
    let lengths = if name.starts_with(EITHER_KIND) {
        vec![[records, 0], [0, records]]
    } else {
        vec![[records; 2]]
    };
    let end = |[read, written]: [usize; 2]| format!(" {verdict} {read} {read} {written} {written}");
    lengths.into_iter().map(end).collect()
}

/// Every line of a report and the counts of its last line.
fn check_report(name: &str, report: &[u8], pairs: usize, (lines, verdict, records): Lines) {
    let report = String::from_utf8(report.to_vec()).expect(name);
    let (upper, lower) = report.split_once("\n\n").expect(name);
    let ends = line_ends(name, verdict, records);
    for end in &ends {
        let alike = upper.lines().skip(1).filter(|line| line.ends_with(end)).count();
        assert_eq!(alike * ends.len(), lines, "{name}");
    }
    assert_eq!(upper.lines().count(), 1 + lines, "{name}");
    let [partial, different] = [1, 2].map(|number| if verdict == number { lines } else { 0 });
    // Where they are partial, the first record has 2 units, and 3 in the specification; where
    // they are different, the first record is of unit 2,000.
    let place = ["-1 -1 -1", "0 0 16", "0 0 16000"][verdict as usize];
    let equal = pairs - partial - different;
    let last = format!("{verdict} {equal} {partial} {different} {place}");
    assert_eq!(lower.lines().last(), Some(last.as_str()), "{name}");
}

fn check_text(hostile: &Hostile, rows: [usize; 2], answer: Answer) {
    let (name, text) = (hostile.name.as_str(), hostile.text());
    assert_eq!(hostile.rows(), rows, "{name}");
    assert!(text.len() <= MAX_TEXT, "{name} has {} bytes", text.len());
    match (propagate::text_check(&text, REPORT_ROOM), answer) {
        (Ok(report), Ok(lines)) => check_report(name, &report, rows[0] * rows[1], lines),
        (Err(found), Err([number, table, row])) => {
            assert_eq!(found, refusal(number as i64, table, row), "{name}")
        }
        (found, _) => panic!("{name}: {found:?}"),
    }
}

fn with_banks(hostile: &Hostile) -> bool {
    hostile.rows()[1] < hostile.tables[LEAF_PAIRS].len() / 3
}

#[test]
fn texts_are_as_they_were_drawn_up() {
    let texts = texts();
    let named = |name: &str| texts.iter().find(|hostile| hostile.name == name);
    let mut found = 0;
    for (name, [roots, leaves], answer) in EXPECTED {
        check_text(named(name).expect(name), [roots, leaves], answer);
        let turned = named(&format!("{name}, turned"));
        // Groups do not become roots: such a map is expected for itself.
        let turned = turned.filter(|_| !with_banks(named(name).expect(name)));
        turned.iter().for_each(|turned| check_text(turned, [leaves, roots], answer));
        found += 1 + turned.iter().count();
    }
    assert_eq!(found, texts.len());
}

#[test]
fn last_row_makes_a_report_too_long() {
    let texts = texts();
    for hostile in texts.iter().filter(|hostile| hostile.name.starts_with("refusal 11")) {
        let report = propagate::text_check(&hostile.text(), usize::MAX).expect(&hostile.name);
        assert!(report.len() > REPORT_ROOM);
        let report = String::from_utf8(report).expect(&hostile.name);
        let column = usize::from(!hostile.name.ends_with(", turned"));
        let in_last_row = |line: &&str| line.split(' ').nth(column) == Some("569");
        let last: Vec<&str> = report.lines().filter(in_last_row).collect();
        assert_eq!(last.len(), 570);
        let bytes: usize = last.iter().map(|line| line.len() + 1).sum();
        assert!(report.len() - bytes <= REPORT_ROOM);
    }
}

/// Does this with every map, in two threads.
fn with_each(maps: &[Hostile], run: impl Fn(&Hostile) + Sync) {
    std::thread::scope(|scope| {
        for first in 0..THREADS {
            let run = &run;
            scope.spawn(move || maps.iter().skip(first).step_by(THREADS).for_each(run));
        }
    });
}

#[test]
fn texts_by_both_engines() {
    with_each(&texts(), |hostile| {
        let text = hostile.text();
        let expected = text_check(&text, REPORT_ROOM);
        assert!(propagate::text_check(&text, REPORT_ROOM) == expected, "{}", hostile.name);
    });
}

#[test]
fn small_versions_by_both_engines_and_by_pair() {
    with_each(&small_versions(), |Hostile { name, tables }| {
        let expected = compare_by(tables, Listing::ByPair);
        assert!(compare_by(tables, Listing::ByRoot) == expected, "{name}");
        assert!(propagate::compare(tables) == expected, "{name}");
    });
}

#[test]
fn named_maps_by_both_engines() {
    let maps = large::maps().into_iter().chain(large::narrow_maps()).chain(large::deep_maps());
    for Map { name, tables, .. } in maps.filter(|map| !map.long) {
        assert!(propagate::compare(&tables) == compare_by(&tables, Listing::ByRoot), "{name}");
    }
}

/// The comparison, and the text check with a buffer of the report's length and one less.
fn check(tables: &Tables) -> Result<Comparison, Refusal> {
    let expected = compare_by(tables, Listing::ByRoot);
    assert_eq!(propagate::compare(tables), expected, "{tables:?}");
    let text = plain_text(tables);
    let answer = text_check(&text, usize::MAX);
    let length = answer.as_ref().map_or(0, Vec::len);
    assert_eq!(propagate::text_check(&text, length), answer, "{tables:?}");
    if length > 0 {
        assert_eq!(propagate::text_check(&text, length - 1), Err(refusal(11, OUTPUT, 0)));
    }
    expected
}

#[test]
fn random_maps() {
    for seed in 0..maps_of_a_kind() {
        let random = &mut Random::new(seed);
        let tables = small_map(random);
        _ = check(&tables);
        _ = check(&raised(random, &tables));
        _ = check(&disturbed(random, &tables));
        if seed.is_multiple_of(LONG_ONE_IN) {
            let bytes = random.between(2_000, MAX_TEXT as i64) as usize;
            _ = check(&long_map(random, bytes));
        }
    }
}

#[test]
fn layers_of_windows() {
    let (mut shares, mut pairs, mut lines, mut records) = ([0; 3], 0, 0, 0);
    let maps = maps_of_a_kind();
    for seed in 0..maps {
        let tables = layered_map(&mut Random::new(seed));
        let Ok(comparison) = check(&tables) else { continue };
        if seed.is_multiple_of(BITS_ONE_IN) {
            assert_eq!(comparison, bitwalk::compare(&tables), "seed {seed}");
        }
        shares[comparison.outcome.whole as usize] += 1;
        pairs += root_rows(&tables) * groups(&tables);
        lines += comparison.lines.len();
        records += comparison.lines.iter().map(|line| line.lengths[0].spec).sum::<usize>();
    }
    println!(
        "equal, partial, different {shares:?}; {pairs} pairs, {lines} lines, {records} records"
    );
    if maps >= DEFAULT_MAPS {
        assert!(shares.iter().all(|&share| share > maps / 10), "{shares:?}");
        assert!(lines > pairs / 4 && lines < pairs * 3 / 4 && records > 3 * lines);
    }
}

#[test]
fn maps_that_fill_an_arena() {
    let maps = maps_of_a_kind() / LONG_ONE_IN;
    let mut filled = 0;
    for seed in 0..maps {
        let Ok(comparison) = check(&filling_map(&mut Random::new(seed))) else { continue };
        // Each node of 32 records has a leaf that sees them all.
        let of_first = comparison.lines.iter().filter(|line| line.root == 0);
        let nodes = of_first.filter(|line| line.lengths.iter().any(|kind| kind.spec == 32));
        filled += u64::from(nodes.count() * 32 >= ARENA);
    }
    println!("{filled} of {maps} maps fill an arena");
    assert!(filled > maps / 2 || maps < DEFAULT_MAPS / LONG_ONE_IN);
}
