//! The reference against the bit-by-bit walker on small maps.

use host::bitwalk::{self, Sides, Visit};
use host::generate::{damaged, disturbed, mixed_text, plain_text, raised, small_map, Random};
use host::propagate;
use host::reference::*;
use std::collections::BTreeSet;

const MAPS: u64 = 6_000;

/// Every pair of both sides by one kind of walk: list, walks at and around its records' ends,
/// and a batch of these addresses, there and back.
fn check_single_calls(
    nodes: &[i64], edges: &[i64], root: i64, leaf: i64, kind: WalkKind, random: &mut Random,
) {
    let reached = bitwalk::reached(nodes, edges, root as usize, leaf as usize, kind);
    let expected = bitwalk::list(&reached);
    let records = list(nodes, edges, root, leaf, kind, expected.len() * 3).unwrap();
    assert_eq!(records, expected);
    if !records.is_empty() {
        let short = list(nodes, edges, root, leaf, kind, expected.len() * 3 - 1);
        assert_eq!(short, Err(refusal(11, OUTPUT, 0)));
    }
    let mut addresses: Vec<i64> = records
        .iter()
        .flat_map(|record| [record.first - 1, record.first, record.last, record.last + 1])
        .collect();
    addresses.extend((0..4).map(|_| random.between(-9, 2_000)));
    let reach = |address| bitwalk::walk(nodes, edges, root as usize, leaf as usize, address, kind);
    for &address in &addresses {
        let expected = reach(address);
        let bits = walk(nodes, edges, root, leaf, address, kind, expected.len()).unwrap();
        assert_eq!(bits, Vec::from_iter(expected));
    }
    addresses.extend(addresses.clone().iter().rev());
    let rows = bitwalk::batch(&expected, &addresses, reach);
    let room = 2 * rows.len();
    if !rows.is_empty() {
        let short = batch(nodes, edges, root, leaf, &addresses, kind, room - 1);
        assert_eq!(short, Err(refusal(11, OUTPUT, 0)));
    }
    let given = batch(nodes, edges, root, leaf, &addresses, kind, room).unwrap();
    assert_eq!(given, BatchRows { rows, records: expected.len() });
}

/// Lists that would be partial if displacements did not count: not all that is reached is
/// specified, though the root bits and the leaf bits of each record of the implementation
/// are among those of one specification record.
fn differ_by_displacement(spec: &[Record], implementation: &[Record]) -> bool {
    let root_bits = |record: &Record| (record.first, record.last);
    let leaf_bits =
        |record: &Record| (record.first - record.displacement, record.last - record.displacement);
    let within = |inner: (i64, i64), outer: (i64, i64)| outer.0 <= inner.0 && inner.1 <= outer.1;
    let bits_within = |inner: &Record, outer: &Record| {
        within(root_bits(inner), root_bits(outer)) && within(leaf_bits(inner), leaf_bits(outer))
    };
    let contained = |inner| spec.iter().any(|outer| bits_within(inner, outer));
    verdict(spec, implementation) == 2
        && !implementation.is_empty()
        && implementation.iter().all(contained)
}

/// What is drawn of groups of several banks, with one root each, by reading walks.
#[derive(Default, Debug)]
struct Groups {
    /// By verdict; those of which something is reached.
    verdicts: [u64; 3],
    /// More banks than records, of those that are equal.
    joined: u64,
    /// A row of another group stands between two of the group.
    apart: u64,
    /// Two banks begin at one bit; two have bits of the group in common.
    shared: u64,
    overlapping: u64,
    /// Some displacement is negative.
    negative: u64,
}

impl Groups {
    fn add(&mut self, tables: &Tables, visit: &Visit) {
        let [sides, _] = &visit.kinds;
        let [spec, implementation] = [&sides.spec, &sides.implementation].map(bitwalk::list);
        if visit.banks < 2 || spec.is_empty() && implementation.is_empty() {
            return;
        }
        let verdict = bitwalk::verdict(&sides.spec, &sides.implementation);
        self.verdicts[verdict as usize] += 1;
        self.joined += u64::from(verdict == 0 && implementation.len() < visit.banks);
        self.negative += u64::from(implementation.iter().any(|record| record.displacement < 0));
        let rows: Vec<&[i64]> = tables[LEAF_PAIRS].chunks(3).collect();
        let of_group = |row: &&&[i64]| row[0] == rows[visit.leaf][0];
        let neighbours = rows[visit.leaf..].iter().take_while(of_group).count();
        self.apart += u64::from(neighbours < visit.banks);
        // First bit and what follows the last, in ascending order.
        let bits = |row: &&[i64]| {
            let leaf = &tables[IMPL_NODES][row[1] as usize * 5..][..5];
            (row[2], row[2] + leaf[2] * leaf[3])
        };
        let mut banks: Vec<_> = rows.iter().filter(of_group).map(bits).collect();
        banks.sort_unstable();
        self.shared += u64::from(banks.windows(2).any(|two| two[0].0 == two[1].0));
        self.overlapping += u64::from(banks.windows(2).any(|two| two[0].1 > two[1].0));
    }
}

/// What is drawn of the two kinds of walks.
#[derive(Default, Debug)]
struct Kinds {
    /// Pairs by the verdict of reading and then by that of writing.
    verdicts: [[u64; 3]; 3],
    /// Pairs with a record that have none by one of the kinds.
    one_kind: u64,
    /// Both kinds are unequal, and the lowest address is of reading alone, of writing alone, or
    /// of the kind with the better verdict.
    reading_lower: u64,
    writing_lower: u64,
    better_lower: u64,
    /// Maps with every node open, and of these such whose text has the column all the same.
    open: u64,
    named: u64,
}

impl Kinds {
    fn add(&mut self, visit: &Visit) {
        let verdict = |sides: &Sides| bitwalk::verdict(&sides.spec, &sides.implementation);
        let lowest = |Sides { spec, implementation }: &Sides| {
            spec.symmetric_difference(implementation).map(|(root_bit, _)| *root_bit).min()
        };
        let verdicts = [&visit.kinds[0], &visit.kinds[1]].map(verdict);
        self.verdicts[verdicts[0] as usize][verdicts[1] as usize] += 1;
        let some = |sides: &Sides| !sides.spec.is_empty() || !sides.implementation.is_empty();
        self.one_kind += u64::from(some(&visit.kinds[0]) != some(&visit.kinds[1]));
        let lowest = [&visit.kinds[0], &visit.kinds[1]].map(lowest);
        if let [Some(reading), Some(writing)] = lowest {
            self.reading_lower += u64::from(reading < writing);
            self.writing_lower += u64::from(writing < reading);
            let better_reading = verdicts[0] < verdicts[1] && reading < writing;
            let better_writing = verdicts[1] < verdicts[0] && writing < reading;
            self.better_lower += u64::from(better_reading || better_writing);
        }
    }

    fn add_text(&mut self, tables: &Tables, text: &[u8]) {
        let nodes = [SPEC_NODES, IMPL_NODES].map(|table| &tables[table][..]).concat();
        if nodes.chunks(5).all(|node| node[4] == 0) {
            self.open += 1;
            self.named += u64::from(text.windows(6).any(|bytes| bytes == b"access"));
        }
    }
}

#[test]
fn small_maps_come_out_alike() {
    let mut shares = [0; 3];
    let (mut lines, mut unlike) = (0, 0);
    let (mut records, mut paths, mut without_line) = (0, 0, 0);
    let (mut groups, mut kinds) = (Groups::default(), Kinds::default());
    for seed in 0..MAPS {
        let random = &mut Random::new(seed);
        let mut tables = small_map(random);
        if seed % 4 == 3 {
            tables = raised(random, &tables);
        }
        let visits = bitwalk::visits(&tables);
        let expected = bitwalk::judge(&visits);
        assert_eq!(compare(&tables).as_ref(), Ok(&expected), "seed {seed}");
        assert_eq!(compare_by(&tables, Listing::ByPair).as_ref(), Ok(&expected), "seed {seed}");
        for text in [plain_text(&tables), mixed_text(random, &tables)] {
            assert_eq!(parse(&text).as_ref(), Ok(&tables), "seed {seed}");
            kinds.add_text(&tables, &text);
        }
        assert_eq!(propagate::compare(&tables).as_ref(), Ok(&expected), "seed {seed}");
        for (root, leaf) in tables[ROOT_PAIRS].chunks(3).zip(tables[LEAF_PAIRS].chunks(3)) {
            for kind in KINDS {
                check_single_calls(&tables[0], &tables[1], root[0], leaf[0], kind, random);
                check_single_calls(&tables[2], &tables[3], root[1], leaf[1], kind, random);
            }
            paths = paths.max(bitwalk::paths(&tables[3], root[1] as usize, leaf[1] as usize));
        }
        shares[expected.outcome.whole as usize] += 1;
        lines += expected.lines.len();
        for visit in &visits {
            let [Sides { spec, implementation }, _] = &visit.kinds;
            let [spec, implementation] = [spec, implementation].map(bitwalk::list);
            unlike += usize::from(differ_by_displacement(&spec, &implementation));
            groups.add(&tables, visit);
            kinds.add(visit);
        }
        without_line += u64::from(expected.lines.is_empty());
        let of_reading = expected.lines.iter().map(|line| line.lengths[0].implementation);
        records = of_reading.fold(records, usize::max);
    }
    println!("equal, partial, different {shares:?}, {without_line} with nothing connected");
    println!("{lines} pairs with a record, {unlike} that differ by displacement alone");
    println!("{records} records, {paths} paths at most");
    println!("{groups:?}");
    println!("{kinds:?}");
    assert!(shares.iter().all(|&share| share > MAPS / 6), "{shares:?}");
    assert!(unlike > lines / 50, "{unlike} of {lines}");
    assert!(without_line < MAPS / 6 && records >= 8 && paths >= 16);
    assert!(groups.verdicts.iter().all(|&share| share > MAPS / 20), "{groups:?}");
    let of_groups =
        [groups.joined, groups.apart, groups.negative, groups.shared, groups.overlapping];
    assert!(of_groups.iter().all(|&count| count > MAPS / 40), "{groups:?}");
    assert!(kinds.verdicts.iter().flatten().all(|&count| count > MAPS / 100), "{kinds:?}");
    let Kinds { one_kind, reading_lower, writing_lower, better_lower, open, named, .. } = kinds;
    let lower = reading_lower.min(writing_lower).min(better_lower);
    assert!(one_kind > MAPS / 5 && lower > MAPS / 100, "{kinds:?}");
    // Each map has two texts.
    assert!(open > 2 * MAPS / 3 && open < 4 * MAPS / 3 && named > open / 10, "{kinds:?}");
}

#[test]
fn runs_merge_as_their_bits_do() {
    let random = &mut Random::new(1);
    for _ in 0..5_000 {
        let mut first = random.between(0, 20);
        let mut runs = Vec::new();
        for _ in 0..random.between(0, 9) {
            let last = first + random.between(0, 6);
            runs.push(Record { first, last, displacement: random.between(-1, 1) });
            // Inside, at the last bit, touching, one bit open, or a byte open.
            first = random.pick(&[first, last, last + 1, last + 2, last + 8]);
        }
        random.shuffle(&mut runs);
        let bits = |run: &Record| {
            let displacement = run.displacement;
            (run.first..=run.last).map(move |bit| (bit, bit - displacement))
        };
        let reached: BTreeSet<(i64, i64)> = runs.iter().flat_map(bits).collect();
        assert_eq!(merge(runs), bitwalk::list(&reached));
    }
}

#[test]
fn random_lists_judge_as_their_bits_do() {
    let random = &mut Random::new(2);
    let (mut shares, mut unlike) = ([0; 3], 0);
    let list = |random: &mut Random, most: i64| {
        let mut reached = bitwalk::Reached::new();
        for _ in 0..random.between(0, most) {
            let (first, displacement) = (random.between(0, 12), random.between(-1, 1));
            let last = first + random.between(0, 9);
            reached.extend((first..=last).map(|bit| (bit, bit - displacement)));
        }
        reached
    };
    for _ in 0..5_000 {
        let spec = list(random, 3);
        let mut implementation = if random.chance(30) { spec.clone() } else { list(random, 2) };
        implementation.retain(|(bit, _)| *bit != 5 || spec.len() % 2 == 0);
        let lists = (bitwalk::list(&spec), bitwalk::list(&implementation));
        let verdict = verdict(&lists.0, &lists.1);
        assert_eq!(verdict, bitwalk::verdict(&spec, &implementation));
        shares[verdict as usize] += 1;
        unlike += u64::from(differ_by_displacement(&lists.0, &lists.1));
        let lowest = spec.symmetric_difference(&implementation).map(|pair| pair.0).min();
        assert_eq!(lowest_difference(&lists.0, &lists.1), lowest);
    }
    assert!(shares.iter().all(|&share| share > 200) && unlike > 100, "{shares:?}, {unlike}");
}

#[test]
fn cycles_and_chains() {
    let random = &mut Random::new(3);
    let mut shares = [0; 4];
    for _ in 0..4_000 {
        let count = if random.chance(50) { random.between(1, 7) } else { random.between(60, 90) };
        let nodes: Vec<i64> =
            (0..count).flat_map(|_| [random.pick(&[0, 1, 1, 1]), 0, 1, 8, 0]).collect();
        let mut edges: Vec<i64> = Vec::new();
        // Mostly a chain, sometimes with a step left out or an edge of any direction.
        for row in 1..count {
            if count < 60 || !random.chance(1) {
                edges.extend([row - 1, row, 0]);
            }
        }
        for _ in 0..random.below(3) {
            let ends = [random.between(0, count - 1), random.between(0, count - 1)];
            let forward = random.chance(70);
            let (from, to) = if forward {
                (ends[0].min(ends[1]), ends[0].max(ends[1]))
            } else {
                (ends[0], ends[1])
            };
            if !forward || from < to {
                edges.extend([from, to, 0]);
            }
        }
        let expected = bitwalk::refused(&nodes, &edges);
        let number = check(&nodes, &edges).err().map(|refusal| refusal.number);
        assert_eq!(number, expected);
        shares[expected.map_or(0, |number| number as usize - 3)] += 1;
    }
    println!("taken, 4, 5, 6: {shares:?}");
    assert!(shares[0] > 300 && shares[2] > 300 && shares[3] > 300);
}

#[test]
fn damaged_texts_give_an_answer() {
    let mut numbers = [0; 17];
    for seed in 0..40_000 {
        let random = &mut Random::new(seed);
        let tables = small_map(random);
        let mut text = if random.chance(50) {
            mixed_text(random, &tables)
        } else {
            plain_text(&disturbed(random, &tables))
        };
        if random.chance(60) {
            text = damaged(random, &text);
        }
        let answer = text_check(&text, REPORT_ROOM);
        assert_eq!(answer, text_check_by(&text, REPORT_ROOM, Listing::ByPair));
        numbers[answer.err().map_or(0, |refusal| refusal.number as usize)] += 1;
    }
    println!("answers by refusal, 0 for a report: {numbers:?}");
    for number in [0, 1, 2, 3, 4, 5, 7, 8, 9, 10, 12, 13, 14, 16] {
        assert!(numbers[number] > 0, "refusal {number} never told");
    }
}
