//! The same answers for small maps by walking every single bit address of a root
//! over all edge rows. Nothing here knows windows, runs or adjacency lists.
//! Takes tables that the checks 1 to 4 have passed.

use crate::reference::{Comparison, Lengths, Outcome, PairLine, Record, Tables, WalkKind};
use crate::reference::{BLOCK, KINDS, MAX_CHAIN, READ_ONLY, WRITE_ONLY};
use crate::reference::{IMPL_EDGES, IMPL_NODES, LEAF_PAIRS, ROOT_PAIRS, SPEC_EDGES, SPEC_NODES};
use std::collections::{BTreeMap, BTreeSet};

/// Pairs (root bit, leaf bit).
pub type Reached = BTreeSet<(i64, i64)>;

/// Kind, base, range, unit and access of a node.
fn row(nodes: &[i64], node: usize) -> [i64; 5] {
    std::array::from_fn(|column| nodes[node * 5 + column])
}

fn first_bit(nodes: &[i64], node: usize) -> i64 {
    let [_, base, _, unit, _] = row(nodes, node);
    base * unit
}

fn last_bit(nodes: &[i64], node: usize) -> i64 {
    let [_, base, range, unit, _] = row(nodes, node);
    (base + range) * unit - 1
}

/// The access that shuts out a kind of walk.
fn shut_out(kind: WalkKind) -> i64 {
    match kind {
        WalkKind::Reading => WRITE_ONLY,
        WalkKind::Writing => READ_ONLY,
    }
}

/// The edge rows that leave a node.
fn edges_from(edges: &[i64], node: usize) -> impl Iterator<Item = &[i64]> {
    edges.chunks(3).filter(move |edge| edge[0] == node as i64)
}

fn step(
    nodes: &[i64], edges: &[i64], node: usize, leaf: usize, address: i64, kind: WalkKind,
    leaf_bits: &mut BTreeSet<i64>,
) {
    let [.., access] = row(nodes, node);
    if access == shut_out(kind) {
        return;
    }
    if address < first_bit(nodes, node) || address > last_bit(nodes, node) {
        return;
    }
    if node == leaf {
        leaf_bits.insert(address - first_bit(nodes, leaf));
    }
    for edge in edges_from(edges, node) {
        let to = edge[1] as usize;
        let [.., unit, _] = row(nodes, to);
        step(nodes, edges, to, leaf, address - edge[2] * unit, kind, leaf_bits);
    }
}

/// The leaf bits that one address of the root reaches by walks of one kind.
pub fn walk(
    nodes: &[i64], edges: &[i64], root: usize, leaf: usize, address: i64, kind: WalkKind,
) -> BTreeSet<i64> {
    let mut leaf_bits = BTreeSet::new();
    step(nodes, edges, root, leaf, address, kind, &mut leaf_bits);
    leaf_bits
}

/// The reached set of a root and a leaf by walks of one kind.
pub fn reached(nodes: &[i64], edges: &[i64], root: usize, leaf: usize, kind: WalkKind) -> Reached {
    let mut reached = Reached::new();
    for address in first_bit(nodes, root)..=last_bit(nodes, root) {
        for leaf_bit in walk(nodes, edges, root, leaf, address, kind) {
            reached.insert((address, leaf_bit));
        }
    }
    reached
}

/// The list of a reached set: root bits grouped by displacement, cut at every gap.
pub fn list(reached: &Reached) -> Vec<Record> {
    let mut root_bits: BTreeMap<i64, BTreeSet<i64>> = BTreeMap::new();
    for (root_bit, leaf_bit) in reached {
        root_bits.entry(root_bit - leaf_bit).or_default().insert(*root_bit);
    }
    let mut list = Vec::new();
    for (displacement, bits) in root_bits {
        for &first in bits.iter().filter(|&bit| !bits.contains(&(bit - 1))) {
            let last = (first..).find(|bit| !bits.contains(&(bit + 1))).unwrap();
            list.push(Record { first, last, displacement });
        }
    }
    list.sort_by_key(|record| (record.first, record.displacement));
    list
}

/// The rows (place, leaf bit) of a batch, from the single walk of each address: record by
/// record of the list, and within a record by place. The walks give the rows; the list
/// gives their order alone, and must have one record for each.
pub fn batch<W: IntoIterator<Item = i64>>(
    list: &[Record], addresses: &[i64], walk: impl Fn(i64) -> W,
) -> Vec<[i64; 2]> {
    let mut rows = Vec::new();
    for (place, &address) in addresses.iter().enumerate() {
        for leaf_bit in walk(address) {
            let displacement = address - leaf_bit;
            let has_bit = |record: &Record| {
                record.displacement == displacement
                    && record.first <= address
                    && address <= record.last
            };
            let record = list.iter().position(has_bit).expect("a record has the bit");
            rows.push((record, place, leaf_bit));
        }
    }
    rows.sort_unstable();
    rows.into_iter().map(|(_, place, leaf_bit)| [place as i64, leaf_bit]).collect()
}

/// By the reached sets alone: 0 where they are the same, 1 where all that the
/// implementation reaches, and it reaches something, the specification reaches too.
pub fn verdict(spec: &Reached, implementation: &Reached) -> i64 {
    if spec == implementation {
        0
    } else if !implementation.is_empty() && implementation.is_subset(spec) {
        1
    } else {
        2
    }
}

/// What walks of one kind reach: the specification's in the leaf, and the implementation's in
/// the banks, each bit counted on from where its bank begins.
pub struct Sides {
    pub spec: Reached,
    pub implementation: Reached,
}

impl Sides {
    /// The lowest root bit of which the two sides reach unlike leaf bits.
    fn lowest_difference(&self) -> Option<i64> {
        let differing = self.spec.symmetric_difference(&self.implementation);
        differing.map(|(root_bit, _)| *root_bit).min()
    }
}

/// A root row with a leaf row that leads its group, and what each kind of walk reaches.
pub struct Visit {
    pub root: usize,
    pub leaf: usize,
    pub banks: usize,
    pub kinds: [Sides; 2],
}

/// The visits of two small graphs that no refusal concerns, in their order.
pub fn visits(tables: &Tables) -> Vec<Visit> {
    let leaf_rows: Vec<&[i64]> = tables[LEAF_PAIRS].chunks(3).collect();
    let mut visits = Vec::new();
    for (root, roots) in tables[ROOT_PAIRS].chunks(3).enumerate() {
        for (leaf, leading) in leaf_rows.iter().enumerate() {
            if leaf_rows[..leaf].iter().any(|earlier| earlier[0] == leading[0]) {
                continue;
            }
            let banks: Vec<_> = leaf_rows.iter().filter(|row| row[0] == leading[0]).collect();
            let kinds = KINDS.map(|kind| {
                let (nodes, edges) = (&tables[SPEC_NODES], &tables[SPEC_EDGES]);
                let spec = reached(nodes, edges, roots[0] as usize, leading[0] as usize, kind);
                let (nodes, edges) = (&tables[IMPL_NODES], &tables[IMPL_EDGES]);
                let mut implementation = Reached::new();
                for bank in &banks {
                    let in_bank = reached(nodes, edges, roots[1] as usize, bank[1] as usize, kind);
                    let counted_on = |(x, leaf_bit): &(i64, i64)| (*x, leaf_bit + bank[2]);
                    implementation.extend(in_bank.iter().map(counted_on));
                }
                Sides { spec, implementation }
            });
            visits.push(Visit { root, leaf, banks: banks.len(), kinds });
        }
    }
    visits
}

/// The comparison by the reached sets of the visits.
pub fn judge(visits: &[Visit]) -> Comparison {
    let mut outcome = Outcome { whole: 0, counts: [0; 3], root: -1, leaf: -1, address: -1 };
    let mut lines = Vec::new();
    for Visit { root, leaf, kinds, .. } in visits {
        let [reading, writing] = kinds;
        let verdict = verdict(&reading.spec, &reading.implementation)
            .max(verdict(&writing.spec, &writing.implementation));
        if verdict > 0 && outcome.root < 0 {
            outcome.root = *root as i64;
            outcome.leaf = *leaf as i64;
            outcome.address = match (reading.lowest_difference(), writing.lowest_difference()) {
                (Some(one), Some(other)) => one.min(other),
                (one, other) => one.or(other).expect("an unequal pair differs somewhere"),
            };
        }
        outcome.counts[verdict as usize] += 1;
        outcome.whole = outcome.whole.max(verdict);
        let lengths = [reading, writing].map(|Sides { spec, implementation }| Lengths {
            spec: list(spec).len(),
            implementation: list(implementation).len(),
        });
        let nothing = Lengths { spec: 0, implementation: 0 };
        if lengths != [nothing; 2] {
            lines.push(PairLine { root: *root, leaf: *leaf, verdict, lengths });
        }
    }
    Comparison { outcome, lines }
}

/// The comparison of two small graphs that no refusal concerns.
pub fn compare(tables: &Tables) -> Comparison {
    judge(&visits(tables))
}

/// How many paths lead from a node to a leaf; for graphs with few.
pub fn paths(edges: &[i64], node: usize, leaf: usize) -> u64 {
    if node == leaf {
        return 1;
    }
    edges_from(edges, node).map(|edge| paths(edges, edge[1] as usize, leaf)).sum()
}

/// Some chain of that many edges exists.
fn has_chain(nodes: usize, edges: &[i64], length: usize) -> bool {
    let mut starts = vec![true; nodes];
    for _ in 0..length {
        let longer = |node| edges_from(edges, node).any(|edge| starts[edge[1] as usize]);
        starts = (0..nodes).map(longer).collect();
    }
    starts.contains(&true)
}

/// The number of the refusal, 4, 5 or 6, of a graph whose rows are each valid.
pub fn refused(nodes: &[i64], edges: &[i64]) -> Option<i64> {
    let count = nodes.len() / 5;
    if edges.chunks(3).any(|edge| row(nodes, edge[0] as usize)[0] == BLOCK) {
        Some(4)
    } else if has_chain(count, edges, count) {
        Some(5)
    } else if has_chain(count, edges, MAX_CHAIN + 1) {
        Some(6)
    } else {
        None
    }
}
