//! Batches of addresses by the verified call: rows typed in or worked out from single walks,
//! the counts, every number of the buffer, the refusals in their order, and the stack that
//! it takes. Compiled only with BENCHCALLS_LIB_DIR set.
#![cfg(benchcalls_library)]

mod asking;

use asking::{batch_rows, check_rooms, check_written, full_batch, Full, FAR};
use host::faults::{base, table_faults};
use host::generate::{raised, small_map, Draft, Random};
use host::large::{batches, Batch, P1};
use host::library;
use host::reference::{self, parse, refusal, BatchRows, Record, Refusal, Tables, WalkKind};
use host::reference::{IMPL_NODES, KINDS, LEAF_PAIRS, MAX_BATCH, OUTPUT, ROOT_PAIRS, SPEC_EDGES};
use host::stack;

const MAPS: u64 = 3_000;
/// Rows of the batch in which every record has every address.
const MOST_ROWS: usize = 512 * 1_024;
/// A batch takes fewer bytes of stack. The longest lists take the most: the pass is one call
/// deep for each record.
const BATCH_STACK: usize = 250_000;

/// A call, but for its buffer.
#[derive(Clone)]
struct Asked {
    nodes: Vec<i64>,
    edges: Vec<i64>,
    root: i64,
    leaf: i64,
    addresses: Vec<i64>,
    kind: WalkKind,
}

impl Asked {
    /// The library's call, which changes nothing of what it is given but the buffer.
    fn call(&self, out: &mut [i64]) -> i64 {
        let Asked { nodes, edges, root, leaf, addresses, kind } = self.clone();
        let kind = library::kind_number(kind);
        let answer = library::batch(&nodes, &edges, root, leaf, &addresses, kind, out);
        assert!(nodes == self.nodes && edges == self.edges && addresses == self.addresses);
        answer
    }

    /// What the reference gives, its rows held to single walks.
    fn rows(&self) -> Result<BatchRows, Refusal> {
        let Asked { nodes, edges, root, leaf, addresses, kind } = self;
        batch_rows(nodes, edges, *root, *leaf, addresses, *kind)
    }

    /// The same call for each kind of walk.
    fn of_each_kind(&self) -> [Asked; 2] {
        KINDS.map(|kind| Asked { kind, ..self.clone() })
    }

    /// Holds the library to these rows, with buffers of every length up to some more than
    /// they need, or of those around where they are many.
    fn check(&self, expected: Result<BatchRows, Refusal>) {
        let length = expected.as_ref().map_or(0, |batch| 2 * batch.rows.len());
        let shortest = if length < 100 { 0 } else { length - 5 };
        check_rooms(&full_batch(expected), shortest..length + 6, |out| self.call(out));
    }

    /// Holds the library and the reference to rows that were typed in.
    fn check_rows(&self, rows: &[[i64; 2]], records: usize) {
        let expected = Ok(BatchRows { rows: rows.to_vec(), records });
        assert_eq!(self.rows(), expected);
        self.check(expected);
    }

    /// The same for both kinds of walks, where every node is open.
    fn check_typed(&self, rows: &[[i64; 2]], records: usize) {
        self.of_each_kind().iter().for_each(|asked| asked.check_rows(rows, records));
    }
}

/// A batch on one side of a map, of the first root and leaf that are paired.
fn on_side(tables: &Tables, side: usize, addresses: &[i64]) -> Asked {
    Asked {
        nodes: tables[2 * side].clone(),
        edges: tables[2 * side + 1].clone(),
        root: tables[ROOT_PAIRS][side],
        leaf: tables[LEAF_PAIRS][side],
        addresses: addresses.to_vec(),
        kind: WalkKind::Reading,
    }
}

/// A batch of the benchmark.
fn of_batch(batch: &Batch) -> Asked {
    let (nodes, edges) = (batch.graph.nodes.clone(), batch.graph.edges.clone());
    let (root, leaf, kind) = (batch.graph.root, batch.graph.leaf, batch.graph.kind);
    Asked { nodes, edges, root, leaf, addresses: batch.addresses.clone(), kind }
}

/// A root of 32 bits before a leaf of 16. The records, with displacement: 0..7 (-8), 0..15
/// (0), which two edges have, 8..23 (8) and 24..31 (24).
fn aliased(addresses: &[i64]) -> Asked {
    let mut draft = Draft::default();
    let (root, leaf) = (draft.root(0, 4, 8), draft.leaf(0, 2, 8));
    [3, 0, 1, -1, 0].into_iter().for_each(|offset| draft.join(root, leaf, offset));
    let (nodes, edges) = (draft.node_table(), draft.edge_table());
    let (root, leaf, kind) = (root as i64, leaf as i64, WalkKind::Reading);
    Asked { nodes, edges, root, leaf, addresses: addresses.to_vec(), kind }
}

/// A root of 64 bits, and a leaf of 32 bits behind two segments: the first, read only, shows
/// bits 0 to 31, the second, write only, bits 16 to 47 as bits 8 on.
#[test]
fn rows_of_either_kind() {
    let nodes = [[0, 0, 8, 8, 0], [1, 0, 4, 8, 1], [1, 2, 4, 8, 2], [2, 0, 4, 8, 0]].concat();
    let edges = [[0, 1, 0], [0, 2, 0], [1, 3, 0], [2, 3, 1]].concat();
    let addresses = vec![20, 0, 16, 31, 32, 39, 40, 47, 8];
    let asked = Asked { nodes, edges, root: 0, leaf: 3, addresses, kind: WalkKind::Reading };
    let [reading, writing] = asked.of_each_kind();
    reading.check_rows(&[[0, 20], [1, 0], [2, 16], [3, 31], [8, 8]], 1);
    // Addresses 40 and 47 are behind the last bit of the leaf.
    writing.check_rows(&[[0, 12], [2, 8], [3, 23], [4, 24], [5, 31]], 1);
    // The root write only and the first segment open; then the leaf read only as well.
    let mut closed = asked.clone();
    (closed.nodes[4], closed.nodes[9]) = (2, 0);
    let [reading, writing] = closed.of_each_kind();
    reading.check_rows(&[], 0);
    writing.check_rows(
        &[[0, 20], [1, 0], [2, 16], [3, 31], [8, 8], [0, 12], [2, 8], [3, 23], [4, 24], [5, 31]],
        2,
    );
    closed.nodes[19] = 1;
    closed.check_typed(&[], 0);
}

#[test]
fn rows_typed_in() {
    // Equal addresses, some outside, and some that reach several leaf bits.
    aliased(&[9, 0, 31, -1, 9, 32, 7, i64::MIN, i64::MAX, 16]).check_typed(
        &[[1, 8], [6, 15], [0, 9], [1, 0], [4, 9], [6, 7], [0, 1], [4, 1], [9, 8], [2, 7]],
        4,
    );
    // Addresses that reach one leaf bit, by unlike records.
    aliased(&[24, 8, 0]).check_typed(&[[2, 8], [1, 8], [2, 0], [1, 0], [0, 0]], 4);
    // None is reached.
    aliased(&[-1, 32, i64::MIN, i64::MAX]).check_typed(&[], 4);
    let tables = parse(P1.as_bytes()).expect("P1 keeps the file rules");
    let addresses = [2_560, 2_559, 2_432, 2_431, 2_048, 2_047];
    let spec = [[1, 511], [2, 384], [3, 383], [4, 0]];
    on_side(&tables, 0, &addresses).check_typed(&spec, 1);
    on_side(&tables, 1, &addresses).check_typed(&[[3, 383], [4, 0]], 1);
}

#[test]
fn addresses_of_any_size() {
    let tables = base();
    for side in 0..2 {
        for far in FAR {
            for addresses in [vec![far], vec![far; 3], vec![16, far, 17], [far; 512].to_vec()] {
                let asked = on_side(&tables, side, &addresses);
                asked.of_each_kind().iter().for_each(|asked| asked.check(asked.rows()));
            }
        }
        let asked = on_side(&tables, side, &FAR);
        asked.of_each_kind().iter().for_each(|asked| asked.check(asked.rows()));
    }
}

#[test]
fn lengths_of_a_batch() {
    for length in [0, 1, 2, 511, 512] {
        // Bit 8 is in two records, as leaf bits 8 and 0.
        let rows = [8, 0].map(|bit| (0..length).map(move |place| [place as i64, bit]));
        aliased(&vec![8; length]).check_typed(&rows.into_iter().flatten().collect::<Vec<_>>(), 4);
    }
    for length in [513, 514, 1_024, 100_000] {
        for address in [8, i64::MIN] {
            let asked = aliased(&vec![address; length]);
            assert_eq!(asked.rows(), Err(refusal(19, OUTPUT, 0)));
            let expected = full_batch(asked.rows());
            check_rooms(&expected, [0, 1, 2 * length, 4 * length], |out| asked.call(out));
        }
    }
}

#[test]
fn empty_batches() {
    aliased(&[]).check_typed(&[], 4);
    for (batch, records) in batches().iter().zip([1, 1_024, 1_024, 1_024]) {
        Asked { addresses: Vec::new(), ..of_batch(batch) }.check_typed(&[], records);
    }
    // Neither a record nor an address.
    let apart = Asked { edges: Vec::new(), ..aliased(&[]) };
    apart.check_typed(&[], 0);
    Asked { addresses: vec![0, 8], ..apart }.check_typed(&[], 0);
}

/// A call with the length of its buffer.
struct WithRoom {
    tables: Tables,
    root: i64,
    leaf: i64,
    addresses: Vec<i64>,
    room: usize,
}

type Fault = Box<dyn Fn(&mut WithRoom)>;

/// A batch that is not refused, whose output is as long as its buffer.
fn without_fault() -> WithRoom {
    WithRoom { tables: base(), root: 0, leaf: 2, addresses: vec![16; 512], room: 1_024 }
}

/// The faults of that batch, in the order in which they are told.
fn faults() -> Vec<(Refusal, Fault)> {
    let mut faults: Vec<(Refusal, Fault)> = Vec::new();
    faults.push((refusal(19, OUTPUT, 0), Box::new(|asked| asked.addresses.push(16))));
    let of_graph = |(told, _): &(Refusal, _)| told.table < IMPL_NODES as i64;
    for (told, fault) in table_faults(false).into_iter().take_while(of_graph) {
        faults.push((told, Box::new(move |asked| fault(&mut asked.tables))));
    }
    faults.push((refusal(7, ROOT_PAIRS, 0), Box::new(|asked| asked.root = 2)));
    faults.push((refusal(7, LEAF_PAIRS, 0), Box::new(|asked| asked.leaf = 0)));
    let many_paths = |asked: &mut WithRoom| asked.tables[1].extend([0, 2, 0].repeat(1_024));
    faults.push((refusal(10, SPEC_EDGES, 0), Box::new(many_paths)));
    faults.push((refusal(11, OUTPUT, 0), Box::new(|asked| asked.room = 1_023)));
    faults
}

/// Holds the library and the reference to a refusal, or to so many rows of one record.
fn check_refused(asked: &WithRoom, expected: Result<usize, Refusal>) {
    let WithRoom { tables: [nodes, edges, ..], root, leaf, addresses, room } = asked;
    for kind in KINDS {
        let given = reference::batch(nodes, edges, *root, *leaf, addresses, kind, *room);
        assert_eq!(given.as_ref().map(|batch| batch.rows.len()), expected.as_ref().copied());
        let kind = library::kind_number(kind);
        let call =
            |out: &mut [i64]| library::batch(nodes, edges, *root, *leaf, addresses, kind, out);
        check_rooms(&full_batch(given), [*room], call);
    }
}

#[test]
fn refusals_in_their_order() {
    check_refused(&without_fault(), Ok(512));
    let faults = faults();
    let numbers: Vec<i64> = faults.iter().map(|(told, _)| told.number).collect();
    assert_eq!(numbers, [19, 1, 1, 2, 2, 2, 2, 4, 3, 3, 4, 5, 6, 7, 7, 10, 11]);
    for (place, (told, earlier)) in faults.iter().enumerate() {
        for (_, later) in &faults[place..] {
            let mut asked = without_fault();
            later(&mut asked);
            earlier(&mut asked);
            check_refused(&asked, Err(*told));
        }
    }
}

/// Addresses at, around and between the ends of records, some of them far away, some twice,
/// in any order.
fn drawn(random: &mut Random, list: &[Record]) -> Vec<i64> {
    let count = random.below(40);
    let mut addresses: Vec<i64> = Vec::new();
    for _ in 0..count {
        let address = match (random.below(8), list) {
            (0, _) => random.pick(&FAR),
            (1, _) if !addresses.is_empty() => random.pick(&addresses),
            (_, []) => random.between(-9, 2_000),
            (2, list) => {
                let Record { first, last, .. } = random.pick(list);
                random.pick(&[first - 1, first, last, last + 1])
            }
            (_, list) => {
                let Record { first, last, .. } = random.pick(list);
                random.between(first, last)
            }
        };
        addresses.push(address);
    }
    addresses
}

/// How many of the generated batches have what is to be tried.
#[derive(Default, Debug)]
struct Seen {
    /// Equal addresses with rows; an address with several rows; unequal addresses that reach
    /// one leaf bit; a row behind one of a later place.
    equal: u64,
    several: u64,
    shared: u64,
    behind: u64,
}

impl Seen {
    fn add(&mut self, addresses: &[i64], rows: &[[i64; 2]]) {
        let address = |row: &[i64; 2]| addresses[row[0] as usize];
        let any = |alike: &dyn Fn(&[i64; 2], &[i64; 2]) -> bool| {
            let later = |place: usize| rows[place + 1..].iter().any(|row| alike(&rows[place], row));
            u64::from((0..rows.len()).any(later))
        };
        self.equal += any(&|one, other| one[0] != other[0] && address(one) == address(other));
        self.several += any(&|one, other| one[0] == other[0]);
        self.shared += any(&|one, other| one[1] == other[1] && address(one) != address(other));
        self.behind += any(&|one, other| one[0] > other[0]);
    }
}

#[test]
fn generated_batches() {
    let mut seen = [Seen::default(), Seen::default()];
    for seed in 0..MAPS {
        let random = &mut Random::new(900_000 + seed);
        let mut tables = small_map(random);
        if seed % 4 == 3 {
            tables = raised(random, &tables);
        }
        for side in 0..2 {
            let [reading, writing] = on_side(&tables, side, &[]).of_each_kind();
            for (kind, mut asked) in [reading, writing].into_iter().enumerate() {
                let Asked { nodes, edges, root, leaf, kind: walks, .. } = &asked;
                let list = reference::list(nodes, edges, *root, *leaf, *walks, usize::MAX);
                asked.addresses = drawn(random, &list.expect("the map is taken"));
                let expected = asked.rows();
                let rows = &expected.as_ref().expect("the map is taken").rows;
                seen[kind].add(&asked.addresses, rows);
                asked.check(expected);
            }
        }
    }
    println!("{seen:?}");
    for Seen { equal, several, shared, behind } in &seen {
        assert!(equal.min(several).min(shared).min(behind) > &(MAPS / 10), "{seen:?}");
    }
}

#[test]
fn batches_of_the_benchmark() {
    for batch in &batches() {
        let asked = of_batch(batch);
        check_written(&full_batch(asked.rows()), |out| asked.call(out));
    }
}

#[test]
fn every_record_has_every_address() {
    let [.., batch] = batches();
    let mut asked = of_batch(&batch);
    asked.addresses[100] = asked.addresses[7];
    // Record i reaches from 64 + 8 * i on.
    let row = |record: i64, place: usize| [place as i64, asked.addresses[place] - 64 - 8 * record];
    let rows = (0..1_024).flat_map(|record| (0..MAX_BATCH).map(move |place| row(record, place)));
    let numbers: Vec<i64> = rows.flatten().collect();
    assert_eq!(numbers.len(), 2 * MOST_ROWS);
    let expected = Ok(Full { answer: 524_288 * 1_048_576 + 1_024, numbers });
    check_rooms(&expected, 2 * MOST_ROWS - 2..2 * MOST_ROWS + 3, |out| asked.call(out));
}

#[test]
fn stack_of_a_batch() {
    let taken = batches().map(|batch| {
        let rows = of_batch(&batch).rows().expect("the batch is not refused").rows.concat();
        let mut buffer = vec![0; rows.len()];
        let taken = stack::of_batch(&batch, &mut buffer);
        assert!(buffer == rows, "{}", batch.graph.name);
        assert!(taken < BATCH_STACK, "{} takes {taken} bytes", batch.graph.name);
        taken
    });
    println!("bytes of stack: {taken:?}");
}
