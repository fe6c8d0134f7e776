//! Accesses: maps with what they print, typed in by hand; the column anywhere in the names
//! line; the calls on one graph for each kind of walk; and random maps whose closed nodes are
//! taken out.

mod typed_in;

use host::accessed::{cases, Case};
use host::bitwalk;
use host::faults::{base, open_base};
use host::generate::{joined, open_map, permutations, plain_text, small_map, tables};
use host::generate::{text_with_columns, Random};
use host::propagate;
use host::reference::WalkKind::{Reading, Writing};
use host::reference::*;

const MAPS: u64 = 3_000;

fn named(name: &str) -> &'static Case {
    cases().iter().find(|case| case.name == name).expect(name)
}

#[test]
fn cases_print_what_is_typed_in() {
    for case in cases() {
        typed_in::prints(case.name, &case.text(), case.printed);
    }
}

// The column

#[test]
fn rows_have_five_numbers_whether_access_is_named_or_not() {
    let tables_of = |name: &str| parse(named(name).text().as_bytes()).expect(name);
    let open = [0, 0, 64, 8, 0, 2, 0, 16, 8, 0];
    let absent = tables_of("access absent");
    assert_eq!((&absent[SPEC_NODES][..], &absent[IMPL_NODES][..]), (&open[..], &open[..]));
    assert_eq!(tables_of("0 in every row"), absent);
    // The fifth number of a row is found under its name, wherever that stands.
    let read_only = [0, 0, 64, 8, 0, 2, 0, 16, 8, 1];
    for name in
        ["access first", "access last", "access between, names in another order, sides mixed"]
    {
        let tables = tables_of(name);
        assert_eq!(tables[SPEC_NODES], read_only, "{name}");
        assert_eq!(tables[IMPL_NODES], open, "{name}");
    }
}

#[test]
fn access_anywhere_in_the_names_line() {
    let (closed, open) = (base(), open_base());
    for columns in permutations(6) {
        for tables in [&closed, &open] {
            let text = text_with_columns(tables, [&columns, &[0, 1, 2, 3], &[0, 1, 2, 3]]);
            assert_eq!(parse(&text).as_ref(), Ok(tables), "{columns:?}");
        }
        // Any column twice, and any column but access left out.
        for place in 0..6 {
            let mut twice = columns.clone();
            twice.push(columns[place]);
            let mut without = columns.clone();
            let left_out = without.remove(place);
            for (columns, refused) in [(twice, true), (without, left_out != 5)] {
                let text = text_with_columns(&open, [&columns, &[0, 1, 2, 3], &[0, 1, 2, 3]]);
                let expected = if refused { Err(refusal(13, TEXT, 1)) } else { Ok(open.clone()) };
                assert_eq!(parse(&text), expected, "{columns:?}");
            }
        }
    }
}

#[test]
fn only_the_nodes_may_have_access() {
    let text = named("access absent").text();
    for (name, line) in [("side from to offset", 7), ("role spec impl", 11)] {
        for wrong in [format!("{name} access"), format!("access {name}")] {
            let wrong = text.replacen(name, &wrong, 1);
            let answer = text_check(wrong.as_bytes(), REPORT_ROOM);
            assert_eq!(answer, Err(refusal(13, TEXT, line)), "{wrong}");
        }
    }
    for wrong in "side kind base range unit acces|side kind base range unit accesses|\
        side kind base range unit access |side kind base range unit  access|\
        access kind base range unit|access|access access side kind base range unit|\
        side kind base range unit access at|side kind base range unit 0"
        .split('|')
    {
        let text = text.replacen("side kind base range unit", wrong, 1);
        let answer = text_check(text.as_bytes(), REPORT_ROOM);
        assert_eq!(answer, Err(refusal(13, TEXT, 1)), "{wrong}");
    }
}

// Lent rows

#[test]
fn rows_of_five_numbers() {
    let nodes = [[0, 0, 1, 8, 0], [1, 0, 1, 8, 1], [2, 0, 1, 8, 2]].concat().repeat(3);
    for length in 0..=nodes.len() {
        let whole = length % 5 == 0;
        let expected = if whole { Ok(()) } else { Err(refusal(1, SPEC_NODES, 0)) };
        assert_eq!(check(&nodes[..length], &[]), expected, "{length} numbers");
    }
    // Rows are read by five: the second of these has unit 0.
    assert_eq!(check(&[0, 0, 1, 8].repeat(5), &[]), Err(refusal(2, SPEC_NODES, 1)));
    let rows = [[0, 0, 1, 8, 0], [0, 0, 1, 8, 1], [0, 0, 1, 8, 2], [0, 0, 1, 8, 3]].concat();
    assert_eq!(check(&rows, &[]), Err(refusal(2, SPEC_NODES, 3)));
    for (rows, taken) in [(1_999, true), (2_000, true), (2_001, false)] {
        let expected = if taken { Ok(()) } else { Err(refusal(1, SPEC_NODES, 0)) };
        assert_eq!(check(&[1, 0, 1, 8, 2].repeat(rows), &[]), expected);
    }
    // 2,000 rows of four numbers are 1,600 of five; 2,500 of four are 2,000 of five.
    assert_eq!(check(&[0; 8_000], &[]), Err(refusal(2, SPEC_NODES, 0)));
    assert_eq!(check(&[0; 10_000], &[]), Err(refusal(2, SPEC_NODES, 0)));
    assert_eq!(check(&[0; 10_005], &[]), Err(refusal(1, SPEC_NODES, 0)));
}

#[test]
fn accesses_of_nodes() {
    let far = [i64::MIN, -(1 << 32), -2, -1, 0, 1, 2, 3, 4, 8, 1 << 32, i64::MAX];
    for (access, kind) in far.into_iter().flat_map(|access| [0, 1, 2].map(|kind| (access, kind))) {
        let taken = (0..=2).contains(&access);
        let expected = if taken { Ok(()) } else { Err(refusal(2, SPEC_NODES, 1)) };
        assert_eq!(check(&[0, 0, 1, 8, 0, kind, 0, 1, 8, access], &[]), expected, "{access}");
    }
}

// Walks

fn record(first: i64, last: i64, displacement: i64) -> Record {
    Record { first, last, displacement }
}

/// A root of 64 bits, a segment of 48 and a leaf of 32 one behind the other, with these
/// accesses: the lists of both kinds.
fn lists_with(accesses: [i64; 3]) -> [Vec<Record>; 2] {
    let [root, segment, leaf] = accesses;
    let nodes = [[0, 0, 8, 8, root], [1, 0, 6, 8, segment], [2, 0, 4, 8, leaf]].concat();
    let edges = [0, 1, 1, 1, 2, 0];
    KINDS.map(|kind| {
        let list = list(&nodes, &edges, 0, 2, kind, 3).expect("the graph is taken");
        for address in -1..65 {
            let bits = walk(&nodes, &edges, 0, 2, address, kind, 1).expect("the graph is taken");
            let has = |record: &&Record| record.first <= address && address <= record.last;
            let expected = list.iter().find(has).map(|record| address - record.displacement);
            assert_eq!(bits, Vec::from_iter(expected), "{accesses:?} {kind:?} {address}");
        }
        let rows = batch(&nodes, &edges, 0, 2, &[7, 8, 39, 40, 8], kind, 6).expect("it is taken");
        let seen = if list.is_empty() { vec![] } else { vec![[1, 0], [2, 31], [4, 0]] };
        assert_eq!(rows, BatchRows { rows: seen, records: list.len() });
        list
    })
}

#[test]
fn a_walk_stands_on_no_closed_node() {
    let (some, none) = (vec![record(8, 39, 8)], Vec::new());
    assert_eq!(lists_with([0, 0, 0]), [some.clone(), some.clone()]);
    for place in 0..3 {
        let mut accesses = [0; 3];
        accesses[place] = READ_ONLY;
        assert_eq!(lists_with(accesses), [some.clone(), none.clone()]);
        accesses[place] = WRITE_ONLY;
        assert_eq!(lists_with(accesses), [none.clone(), some.clone()]);
        // One node is open, and no walk may stand on both of the others.
        accesses = [READ_ONLY, READ_ONLY, READ_ONLY];
        accesses[place] = READ_AND_WRITE;
        accesses[(place + 1) % 3] = WRITE_ONLY;
        assert_eq!(lists_with(accesses), [none.clone(), none.clone()]);
    }
    assert_eq!(lists_with([1, 1, 1]), [some.clone(), none.clone()]);
    assert_eq!(lists_with([2, 2, 2]), [none.clone(), some.clone()]);
    assert_eq!(lists_with([2, 1, 2]), [none.clone(), none]);
}

#[test]
fn paths_count_whether_walks_may_take_them() {
    let edges = |count| [0, 1, 0].repeat(count);
    let refused = Err(refusal(10, SPEC_EDGES, 0));
    for (root, leaf) in (0..3).flat_map(|root| (0..3).map(move |leaf| (root, leaf))) {
        let nodes = [[0, 0, 8, 8, root], [2, 0, 4, 8, leaf]].concat();
        for kind in KINDS {
            let shut = if kind == Reading { WRITE_ONLY } else { READ_ONLY };
            let some = root != shut && leaf != shut;
            let records = if some { vec![record(0, 31, 0)] } else { vec![] };
            assert_eq!(list(&nodes, &edges(1_024), 0, 1, kind, 3), Ok(records));
            assert_eq!(list(&nodes, &edges(1_025), 0, 1, kind, 3), refused.map(|()| vec![]));
            let bits = walk(&nodes, &edges(1_025), 0, 1, -1, kind, 0);
            assert_eq!(bits, refused.map(|()| vec![]));
            let rows = batch(&nodes, &edges(1_025), 0, 1, &[], kind, 0);
            assert_eq!(rows.map(|_| ()), refused);
        }
        // The same of a pair.
        for side in 0..2 {
            let mut tables = tables(&joined(1), &joined(1));
            tables[2 * side + 1] = edges(1_025);
            tables[2 * side][4] = root;
            tables[2 * side][9] = leaf;
            assert_eq!(compare(&tables), Err(refusal(10, 2 * side + 1, 0)));
            assert_eq!(propagate::compare(&tables), Err(refusal(10, 2 * side + 1, 0)));
            tables[2 * side + 1].truncate(3 * 1_024);
            assert!(compare(&tables).is_ok());
        }
    }
}

// Random maps

/// The graph without the edges at nodes that are closed to walks of a kind, and every node open.
fn without_closed(nodes: &[i64], edges: &[i64], kind: WalkKind) -> [Vec<i64>; 2] {
    let shut = if kind == Reading { WRITE_ONLY } else { READ_ONLY };
    let open = |row: i64| nodes[row as usize * 5 + 4] != shut;
    let kept = edges.chunks(3).filter(|edge| open(edge[0]) && open(edge[1])).flatten();
    let nodes = nodes.chunks(5).flat_map(|node| [node[0], node[1], node[2], node[3], 0]);
    [nodes.collect(), kept.copied().collect()]
}

/// A closed node is as good as one that no edge enters or leaves.
#[test]
fn closed_nodes_may_be_taken_out() {
    let (mut fewer, mut gone) = (0, 0);
    for seed in 0..MAPS {
        let tables = small_map(&mut Random::new(4_000_000 + seed));
        let pairs = tables[ROOT_PAIRS].chunks(3).zip(tables[LEAF_PAIRS].chunks(3));
        for ((root, leaf), side) in pairs.flat_map(|pair| [0, 1].map(|side| (pair, side))) {
            let (nodes, edges) = (&tables[2 * side], &tables[2 * side + 1]);
            for kind in KINDS {
                let found = list(nodes, edges, root[side], leaf[side], kind, usize::MAX).unwrap();
                let [open_nodes, kept] = without_closed(nodes, edges, kind);
                // The root may have no edge left, and stays a root.
                let expected = [Reading, Writing].map(|kind| {
                    list(&open_nodes, &kept, root[side], leaf[side], kind, usize::MAX).unwrap()
                });
                assert_eq!([&found, &found], [&expected[0], &expected[1]], "seed {seed}");
                let all = list(&open_nodes, edges, root[side], leaf[side], kind, usize::MAX);
                let all = all.unwrap();
                fewer += u64::from(found != all && !found.is_empty());
                gone += u64::from(found.is_empty() && !all.is_empty());
            }
        }
    }
    println!("lists that closed nodes make shorter {fewer}, empty {gone}");
    assert!(fewer > MAPS / 30 && gone > MAPS / 5, "{fewer} {gone}");
}

/// The tables with read only and write only exchanged.
fn exchanged(tables: &Tables) -> Tables {
    let mut tables = tables.clone();
    for table in [SPEC_NODES, IMPL_NODES] {
        tables[table].chunks_mut(5).for_each(|node| node[4] = [0, 2, 1][node[4] as usize]);
    }
    tables
}

#[test]
fn kinds_exchanged_with_the_accesses() {
    for seed in 0..MAPS {
        let tables = small_map(&mut Random::new(5_000_000 + seed));
        let mut expected = compare(&tables).unwrap();
        expected.lines.iter_mut().for_each(|line| line.lengths.reverse());
        assert_eq!(compare(&exchanged(&tables)), Ok(expected), "seed {seed}");
    }
}

/// Where every node is open, both kinds have the same lists; where none is open to a kind, that
/// kind has none.
#[test]
fn all_open_and_all_closed() {
    for seed in 0..MAPS {
        let tables = open_map(&mut Random::new(6_000_000 + seed));
        let visits = bitwalk::visits(&tables);
        assert!(visits.iter().all(|visit| {
            let [reading, writing] = &visit.kinds;
            (&reading.spec, &reading.implementation) == (&writing.spec, &writing.implementation)
        }));
        let open = bitwalk::judge(&visits);
        assert_eq!(compare(&tables).as_ref(), Ok(&open), "seed {seed}");
        let mut read_only = tables.clone();
        for table in [SPEC_NODES, IMPL_NODES] {
            read_only[table].chunks_mut(5).for_each(|node| node[4] = READ_ONLY);
        }
        // Nothing else changes: verdicts and address are those of reading.
        let mut expected = open.clone();
        let none = Lengths { spec: 0, implementation: 0 };
        expected.lines.iter_mut().for_each(|line| line.lengths[1] = none);
        for answer in [compare(&read_only), propagate::compare(&read_only)] {
            assert_eq!(answer.as_ref(), Ok(&expected), "seed {seed}");
        }
        assert_eq!(parse(&plain_text(&read_only)), Ok(read_only), "seed {seed}");
    }
}
