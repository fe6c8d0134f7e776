//! The reference against the verified calls on tables, which may hold any numbers and
//! have any lengths. Compiled only with BENCHCALLS_LIB_DIR set.
#![cfg(benchcalls_library)]

mod asking;

use asking::{batch_rows, check_rooms, check_written, full_batch, Full, FAR};
use host::accessed;
use host::faults::{base, table_faults};
use host::generate::{disturbed, far_rows, limits, raised, small_map, Random};
use host::grouped::cases;
use host::large::{access_maps, banked_maps, singles};
use host::library::{self, kind_number};
use host::reference::{self, compare, parse, Tables, WalkKind, KINDS, LEAF_PAIRS, ROOT_PAIRS};

const MAPS: u64 = 4_000;

/// A graph, a root and a leaf, and the kind of walk that is asked for.
#[derive(Clone, Copy)]
struct Asked<'a> {
    nodes: &'a [i64],
    edges: &'a [i64],
    root: i64,
    leaf: i64,
    kind: WalkKind,
}

impl Asked<'_> {
    fn walk(&self, address: i64) -> Result<Full, reference::Refusal> {
        let Asked { nodes, edges, root, leaf, kind } = *self;
        let bits = reference::walk(nodes, edges, root, leaf, address, kind, usize::MAX);
        let answer = library::count(&bits);
        bits.map(|numbers| Full { answer, numbers })
    }

    fn list(&self) -> Result<Vec<reference::Record>, reference::Refusal> {
        let Asked { nodes, edges, root, leaf, kind } = *self;
        reference::list(nodes, edges, root, leaf, kind, usize::MAX)
    }

    fn check_walk(&self, address: i64) {
        let Asked { nodes, edges, root, leaf, kind } = *self;
        let kind = kind_number(kind);
        let call = |out: &mut [i64]| library::walk(nodes, edges, root, leaf, address, kind, out);
        check_written(&self.walk(address), call);
    }

    fn check_list(&self) {
        let Asked { nodes, edges, root, leaf, kind } = *self;
        let call =
            |out: &mut [i64]| library::list(nodes, edges, root, leaf, kind_number(kind), out);
        check_written(&full_list(self.list()), call);
    }

    /// A batch by the library, beside the reference and its single walks.
    fn check_batch(&self, addresses: &[i64]) {
        let Asked { nodes, edges, root, leaf, kind } = *self;
        let expected = full_batch(batch_rows(nodes, edges, root, leaf, addresses, kind));
        let kind = kind_number(kind);
        let call = |out: &mut [i64]| library::batch(nodes, edges, root, leaf, addresses, kind, out);
        check_written(&expected, call);
    }
}

/// What the library's call is to give for a list.
fn full_list(
    records: Result<Vec<reference::Record>, reference::Refusal>,
) -> Result<Full, reference::Refusal> {
    let answer = library::count(&records);
    records.map(|records| {
        let numbers = records.iter().flat_map(|r| [r.first, r.last, r.displacement]).collect();
        Full { answer, numbers }
    })
}

fn of_each_kind<'a>(nodes: &'a [i64], edges: &'a [i64], root: i64, leaf: i64) -> [Asked<'a>; 2] {
    KINDS.map(|kind| Asked { nodes, edges, root, leaf, kind })
}

fn check_walk(nodes: &[i64], edges: &[i64], root: i64, leaf: i64, address: i64) {
    of_each_kind(nodes, edges, root, leaf).iter().for_each(|asked| asked.check_walk(address));
}

/// The calls on one graph for each kind of walk: list, walks at and around the ends of its
/// records, and a batch of these addresses, of far ones, and of these in reverse.
fn check_pair(nodes: &[i64], edges: &[i64], root: i64, leaf: i64) {
    for asked in of_each_kind(nodes, edges, root, leaf) {
        asked.check_list();
        let records = asked.list().unwrap_or_default();
        let ends = records.iter().take(3).flat_map(|r| [r.first - 1, r.first, r.last, r.last + 1]);
        let ends: Vec<i64> = ends.chain([0]).collect();
        ends.iter().for_each(|&address| asked.check_walk(address));
        let addresses = ends.iter().chain(&FAR).chain(ends.iter().rev());
        asked.check_batch(&addresses.copied().collect::<Vec<_>>());
    }
}

/// 0 is reading, and any other number is writing.
#[test]
fn numbers_of_kinds() {
    // The root reaches bits 0 to 7 by reading, and bits 8 to 15 as bits 0 to 7 by writing.
    let nodes = [[0, 0, 2, 8, 0], [1, 0, 1, 8, 1], [1, 1, 1, 8, 2], [2, 0, 1, 8, 0]].concat();
    let edges = [[0, 1, 0], [0, 2, 0], [1, 3, 0], [2, 3, 1]].concat();
    let full = |answer: i64, numbers: &[i64]| Ok(Full { answer, numbers: numbers.to_vec() });
    let check = |kind: i64, first: i64, place: i64| {
        let list = |out: &mut [i64]| library::list(&nodes, &edges, 0, 3, kind, out);
        check_rooms(&full(1, &[first, first + 7, first]), 0..5, list);
        for (address, bits) in [(first, &[0][..]), (first + 7, &[7]), (8 - first, &[])] {
            let walk = |out: &mut [i64]| library::walk(&nodes, &edges, 0, 3, address, kind, out);
            check_rooms(&full(bits.len() as i64, bits), 0..3, walk);
        }
        let batch = |out: &mut [i64]| library::batch(&nodes, &edges, 0, 3, &[3, 12], kind, out);
        check_rooms(&full((1 << 20) + 1, &[place, 3 + place]), 0..4, batch);
    };
    check(0, 0, 0);
    for kind in FAR.into_iter().chain([3, 256, 1 << 32, -(1 << 32)]).filter(|&kind| kind != 0) {
        check(kind, 8, 1);
    }
}

fn check_graph(nodes: &[i64], edges: &[i64]) {
    let expected = reference::check(nodes, edges).map_or_else(|refusal| -refusal.number, |()| 0);
    assert_eq!(library::check(nodes, edges), expected, "{nodes:?} {edges:?}");
}

/// The comparison, and on either side the calls on one graph with what the first rows
/// of the pairing name.
fn check(tables: &Tables) {
    let given = tables.clone();
    assert_eq!(library::compare(tables), library::summary(&compare(tables)), "{tables:?}");
    for side in 0..2 {
        let (nodes, edges) = (&tables[2 * side], &tables[2 * side + 1]);
        check_graph(nodes, edges);
        let column = |table: usize| tables[table].chunks_exact(3).map(move |pair| pair[side]);
        let pairs = column(ROOT_PAIRS).zip(column(LEAF_PAIRS));
        pairs.take(2).for_each(|(root, leaf)| check_pair(nodes, edges, root, leaf));
    }
    assert!(*tables == given, "the tables have changed");
}

#[test]
fn limits_from_both_sides() {
    limits().iter().chain(&far_rows()).for_each(|limit| check(&limit.tables));
}

#[test]
fn two_faults_at_once() {
    for faults in [table_faults(false), table_faults(true)] {
        for (_, one) in &faults {
            for (_, other) in &faults {
                let mut tables = base();
                one(&mut tables);
                other(&mut tables);
                check(&tables);
            }
        }
    }
}

#[test]
fn maps_with_accesses() {
    for case in accessed::cases() {
        parse(case.text().as_bytes()).iter().for_each(check);
    }
    access_maps().iter().for_each(|map| check(&map.tables));
}

#[test]
fn groups_of_banks() {
    for case in cases() {
        parse(case.text().as_bytes()).iter().for_each(check);
    }
    banked_maps().iter().for_each(|map| check(&map.tables));
}

#[test]
fn generated_maps() {
    for seed in 0..MAPS {
        let random = &mut Random::new(seed);
        let tables = small_map(random);
        check(&tables);
        check(&raised(random, &tables));
        check(&disturbed(random, &tables));
    }
}

#[test]
fn numbers_and_lengths_of_any_size() {
    let tables = base();
    for table in 0..6 {
        for place in 0..tables[table].len() {
            for number in FAR {
                let mut changed = tables.clone();
                changed[table][place] = number;
                check(&changed);
            }
            let mut shorter = tables.clone();
            shorter[table].truncate(place);
            check(&shorter);
        }
    }
    check(&Tables::default());
}

#[test]
fn roots_leaves_and_addresses_of_any_size() {
    let tables = base();
    for side in 0..2 {
        let (nodes, edges) = (&tables[2 * side], &tables[2 * side + 1]);
        let (root, leaf) = (tables[ROOT_PAIRS][side], tables[LEAF_PAIRS][side]);
        for far in FAR {
            check_pair(nodes, edges, far, leaf);
            check_pair(nodes, edges, root, far);
            check_walk(nodes, edges, root, leaf, far);
        }
    }
}

/// Name, and what check answers or how many records the list has.
const SINGLES: [(&str, i64); 8] = [
    ("2,000 nodes, 2,600 edges, depth 8", 0),
    ("cycle before a chain of 1,998 edges", -5),
    ("chain of 1,999 edges", -6),
    ("P1, specification", 1),
    ("1 path, 30 doubled edges to no leaf", 1),
    ("10 doubled edges, hub, 900 leaves", 1),
    ("1,024 paths, no merging", 1_024),
    ("1,024 paths of 64 edges, no merging", 1_024),
];

#[test]
fn single_graphs() {
    for (graph, (name, expected)) in singles().iter().zip(SINGLES) {
        let (nodes, edges) = (&graph.nodes, &graph.edges);
        check_graph(nodes, edges);
        check_pair(nodes, edges, graph.root, graph.leaf);
        check_walk(nodes, edges, graph.root, graph.leaf, graph.address);
        let [_, asked] = of_each_kind(nodes, edges, graph.root, graph.leaf);
        let listed = asked.list();
        let found = match graph.calls {
            [host::large::Call::Check] => library::check(nodes, edges),
            _ => library::count(&listed),
        };
        assert_eq!((graph.name, found), (name, expected));
    }
}
