//! Address map graphs in the straightforward way: adjacency lists, a depth-first
//! listing of the paths, sort and merge. All calls of the documents are here, but for the
//! reading of address sheets; a call on tables takes flat slices of numbers, which may hold
//! anything.

use std::mem::{replace, take};

pub const MAX_NODES: usize = 2_000;
pub const MAX_EDGES: usize = 2_600;
pub const MAX_PAIRS: usize = 1_000;
pub const MAX_CHAIN: usize = 64;
pub const MAX_PATHS: u32 = 1_024;
pub const MAX_BATCH: usize = 512;
pub const MAX_TEXT: usize = 65_536;
pub const MAX_UNITS: i64 = 1 << 48;
pub const MAX_AT: i64 = (1 << 55) - 1;
pub const MAX_TALLY: u64 = (1 << 63) - 1;
pub const REPORT_ROOM: usize = 65_536;

pub const SPACE: i64 = 0;
pub const BLOCK: i64 = 2;
pub const UNITS: [i64; 5] = [8, 16, 32, 64, 128];

/// What may be done at a node.
pub const READ_AND_WRITE: i64 = 0;
pub const READ_ONLY: i64 = 1;
pub const WRITE_ONLY: i64 = 2;
pub const ACCESSES: [i64; 3] = [READ_AND_WRITE, READ_ONLY, WRITE_ONLY];

/// The kinds of walks, in the order in which a report shows their lists.
#[derive(Clone, Copy, Debug, PartialEq, Eq)]
pub enum WalkKind {
    Reading,
    Writing,
}

pub const KINDS: [WalkKind; 2] = [WalkKind::Reading, WalkKind::Writing];

/// Numbers of the tables, as a refusal names them.
pub const SPEC_NODES: usize = 0;
pub const SPEC_EDGES: usize = 1;
pub const IMPL_NODES: usize = 2;
pub const IMPL_EDGES: usize = 3;
pub const ROOT_PAIRS: usize = 4;
pub const LEAF_PAIRS: usize = 5;
pub const TEXT: usize = 6;
pub const OUTPUT: usize = 7;

/// Numbers in a row of nodes, and in a row of each of the six tables.
pub const NODE_WIDTH: usize = 5;
pub const WIDTHS: [usize; 6] = [NODE_WIDTH, 3, NODE_WIDTH, 3, 3, 3];

/// The names of a table of a text: those that its names line has, and those that it may
/// have. A row holds its numbers in this order, and 0 under a name that is absent.
#[derive(Clone, Copy)]
pub struct Names {
    pub required: &'static [&'static str],
    pub optional: &'static [&'static str],
}

pub const NODE_NAMES: Names =
    Names { required: &["side", "kind", "base", "range", "unit"], optional: &["access"] };
pub const EDGE_NAMES: Names = Names { required: &["side", "from", "to", "offset"], optional: &[] };
pub const PAIR_NAMES: Names = Names { required: &["role", "spec", "impl"], optional: &["at"] };

impl Names {
    pub const fn count(&self) -> usize {
        self.required.len() + self.optional.len()
    }

    /// All names, in the order of a row's numbers.
    pub fn all(&self) -> impl Iterator<Item = &'static str> {
        self.required.iter().chain(self.optional).copied()
    }
}

pub const CALLERS: usize = 16;

/// Ways in which a check ends: with one of three whole verdicts, or refused.
pub const COUNT_KINDS: usize = 4;
pub const ENDED_REFUSED: usize = 3;

/// A tally: for each caller from 0 a row of counts (equal, partial, different, refused).
pub type Counts = [u64; CALLERS * COUNT_KINDS];

/// The six flat tables of a comparison, in the order of their numbers.
pub type Tables = [Vec<i64>; 6];

#[derive(Clone, Copy, Debug, PartialEq, Eq)]
pub struct Refusal {
    pub number: i64,
    pub table: i64,
    pub row: i64,
}

pub fn refusal(number: i64, table: usize, row: usize) -> Refusal {
    Refusal { number, table: table as i64, row: row as i64 }
}

/// A maximal run of root bits of one displacement (root bit - leaf bit).
#[derive(Clone, Copy, Debug, PartialEq, Eq)]
pub struct Record {
    pub first: i64,
    pub last: i64,
    pub displacement: i64,
}

/// What a batch of addresses gives: rows of a place in the batch and a leaf bit, and how many
/// records were read for them.
#[derive(Clone, Debug, PartialEq, Eq)]
pub struct BatchRows {
    pub rows: Vec<[i64; 2]>,
    pub records: usize,
}

/// How many records the lists of one kind of walk have, on either side.
#[derive(Clone, Copy, Debug, PartialEq, Eq)]
pub struct Lengths {
    pub spec: usize,
    pub implementation: usize,
}

/// A root row and a group with a record of either kind of walk, on either side: the root row,
/// the group's lowest leaf row, the verdict, and the list lengths in the order of KINDS.
#[derive(Clone, Copy, Debug, PartialEq, Eq)]
pub struct PairLine {
    pub root: usize,
    pub leaf: usize,
    pub verdict: i64,
    pub lengths: [Lengths; 2],
}

/// Counts of the verdicts by verdict, the whole verdict, and root row, lowest leaf row
/// and lowest differing address of the first unequal pair (-1 each if none).
#[derive(Clone, Debug, PartialEq, Eq)]
pub struct Outcome {
    pub whole: i64,
    pub counts: [i64; 3],
    pub root: i64,
    pub leaf: i64,
    pub address: i64,
}

#[derive(Clone, Debug, PartialEq, Eq)]
pub struct Comparison {
    pub outcome: Outcome,
    pub lines: Vec<PairLine>,
}

// Graphs

/// A node's kind, its first and last bit, and what may be done there.
pub(crate) struct Node {
    kind: i64,
    pub(crate) first: i64,
    pub(crate) last: i64,
    access: i64,
}

impl Node {
    /// A walk of that kind may stand on the node.
    pub(crate) fn is_open(&self, kind: WalkKind) -> bool {
        match kind {
            WalkKind::Reading => self.access != WRITE_ONLY,
            WalkKind::Writing => self.access != READ_ONLY,
        }
    }
}

/// An edge as its start holds it: where it goes, and its offset in bits.
pub(crate) struct Edge {
    pub(crate) to: usize,
    pub(crate) offset: i64,
}

/// A graph that passed refusals 1 to 6.
pub(crate) struct Graph {
    pub(crate) nodes: Vec<Node>,
    pub(crate) leaving: Vec<Vec<Edge>>,
    entered: Vec<bool>,
    /// Every node, each before all nodes that its edges lead to.
    pub(crate) order: Vec<usize>,
}

fn check_shape(table: &[i64], number: usize, limit: usize) -> Result<(), Refusal> {
    let width = WIDTHS[number];
    if !table.len().is_multiple_of(width) || table.len() / width > limit {
        return Err(refusal(1, number, 0));
    }
    Ok(())
}

fn valid_node(node: &[i64]) -> bool {
    let (kind, base, range, unit, access) = (node[0], node[1], node[2], node[3], node[4]);
    (0..=BLOCK).contains(&kind)
        && UNITS.contains(&unit)
        && ACCESSES.contains(&access)
        && base >= 0
        && range >= 1
        && base as i128 + range as i128 <= MAX_UNITS as i128
}

fn valid_edge(edge: &[i64], nodes: usize) -> bool {
    let rows = 0..nodes as i64;
    rows.contains(&edge[0])
        && rows.contains(&edge[1])
        && (-MAX_UNITS..=MAX_UNITS).contains(&edge[2])
}

impl Graph {
    fn new(nodes: &[i64], edges: &[i64], node_table: usize) -> Result<Graph, Refusal> {
        let edge_table = node_table + 1;
        check_shape(nodes, node_table, MAX_NODES)?;
        check_shape(edges, edge_table, MAX_EDGES)?;
        let mut graph = Graph {
            nodes: Vec::new(),
            leaving: Vec::new(),
            entered: Vec::new(),
            order: Vec::new(),
        };
        for (row, node) in nodes.chunks(NODE_WIDTH).enumerate() {
            if !valid_node(node) {
                return Err(refusal(2, node_table, row));
            }
            let (kind, base, range, unit, access) = (node[0], node[1], node[2], node[3], node[4]);
            let (first, last) = (base * unit, (base + range) * unit - 1);
            graph.nodes.push(Node { kind, first, last, access });
            graph.leaving.push(Vec::new());
            graph.entered.push(false);
        }
        for (row, edge) in edges.chunks(3).enumerate() {
            if !valid_edge(edge, graph.nodes.len()) {
                return Err(refusal(3, edge_table, row));
            }
            let (from, to) = (edge[0] as usize, edge[1] as usize);
            if graph.nodes[from].kind == BLOCK {
                return Err(refusal(4, edge_table, row));
            }
            let offset = edge[2] * nodes[to * NODE_WIDTH + 3];
            graph.leaving[from].push(Edge { to, offset });
            graph.entered[to] = true;
        }
        graph.set_order(node_table)?;
        Ok(graph)
    }

    /// Takes nodes away that no remaining edge enters; what stays is on or behind a cycle.
    fn set_order(&mut self, node_table: usize) -> Result<(), Refusal> {
        let mut entering = vec![0; self.nodes.len()];
        for edge in self.leaving.iter().flatten() {
            entering[edge.to] += 1;
        }
        let mut chain = vec![0; self.nodes.len()];
        let mut order: Vec<usize> = (0..entering.len()).filter(|&n| entering[n] == 0).collect();
        let mut taken = 0;
        while taken < order.len() {
            let node = order[taken];
            taken += 1;
            for edge in &self.leaving[node] {
                chain[edge.to] = chain[edge.to].max(chain[node] + 1);
                entering[edge.to] -= 1;
                if entering[edge.to] == 0 {
                    order.push(edge.to);
                }
            }
        }
        if order.len() < self.nodes.len() {
            return Err(refusal(5, node_table, 0));
        }
        if chain.iter().any(|&edges| edges > MAX_CHAIN) {
            return Err(refusal(6, node_table, 0));
        }
        self.order = order;
        Ok(())
    }

    fn row(&self, row: i64) -> Option<usize> {
        usize::try_from(row).ok().filter(|&row| row < self.nodes.len())
    }

    fn root(&self, row: i64) -> Option<usize> {
        self.row(row).filter(|&row| self.nodes[row].kind != BLOCK && !self.entered[row])
    }

    fn leaf(&self, row: i64) -> Option<usize> {
        self.row(row).filter(|&row| self.nodes[row].kind == BLOCK)
    }

    /// Paths from the root to each node; MAX_PATHS + 1 stands for more than MAX_PATHS.
    fn path_counts(&self, root: usize) -> Vec<u32> {
        let mut counts = vec![0; self.nodes.len()];
        counts[root] = 1;
        for &node in &self.order {
            for edge in &self.leaving[node] {
                counts[edge.to] = (counts[edge.to] + counts[node]).min(MAX_PATHS + 1);
            }
        }
        counts
    }

    /// Which nodes are one of the leaves or have a path to one.
    fn leads_to(&self, leaves: &[usize]) -> Vec<bool> {
        let mut leads = vec![false; self.nodes.len()];
        for &leaf in leaves {
            leads[leaf] = true;
        }
        for &node in self.order.iter().rev() {
            leads[node] |= self.leaving[node].iter().any(|edge| leads[edge.to]);
        }
        leads
    }

    /// Lists the paths from a node depth first, for walks of one kind. The root bits alive
    /// so far are first..=last; a root bit is `shift` above the address at the node. Each
    /// path that ends alive at a leaf gives one run to that leaf's entry of `found`.
    fn collect(
        &self, kind: WalkKind, node: usize, (first, last, shift): (i64, i64, i64), leads: &[bool],
        found: &mut [Vec<Record>],
    ) {
        let first = first.max(self.nodes[node].first + shift);
        let last = last.min(self.nodes[node].last + shift);
        if !leads[node] || first > last || !self.nodes[node].is_open(kind) {
            return;
        }
        if self.nodes[node].kind == BLOCK {
            let displacement = self.nodes[node].first + shift;
            found[node].push(Record { first, last, displacement });
        }
        for edge in &self.leaving[node] {
            if leads[edge.to] {
                self.collect(kind, edge.to, (first, last, shift + edge.offset), leads, found);
            }
        }
    }

    /// Adds the leaf bits that a walk of one kind reaches from one address at a node.
    fn collect_bits(
        &self, kind: WalkKind, node: usize, address: i64, leads: &[bool], found: &mut Vec<i64>,
    ) {
        let here = &self.nodes[node];
        let stands = here.is_open(kind) && here.first <= address && address <= here.last;
        if !leads[node] || !stands {
            return;
        }
        if here.kind == BLOCK {
            found.push(address - here.first);
        }
        for edge in &self.leaving[node] {
            self.collect_bits(kind, edge.to, address - edge.offset, leads, found);
        }
    }

    /// The root and the leaf that a call on this single graph names.
    fn named(&self, root: i64, leaf: i64) -> Result<(usize, usize), Refusal> {
        let root = self.root(root).ok_or(refusal(7, ROOT_PAIRS, 0))?;
        let leaf = self.leaf(leaf).ok_or(refusal(7, LEAF_PAIRS, 0))?;
        if self.path_counts(root)[leaf] > MAX_PATHS {
            return Err(refusal(10, SPEC_EDGES, 0));
        }
        Ok((root, leaf))
    }
}

/// Check one graph: refusals 1 to 6.
pub fn check(nodes: &[i64], edges: &[i64]) -> Result<(), Refusal> {
    Graph::new(nodes, edges, SPEC_NODES).map(|_| ())
}

/// The distinct leaf bits, ascending, that an address reaches by walks of one kind; `room` is
/// how many fit.
pub fn walk(
    nodes: &[i64], edges: &[i64], root: i64, leaf: i64, address: i64, kind: WalkKind, room: usize,
) -> Result<Vec<i64>, Refusal> {
    let graph = Graph::new(nodes, edges, SPEC_NODES)?;
    let (root, leaf) = graph.named(root, leaf)?;
    let mut bits = Vec::new();
    graph.collect_bits(kind, root, address, &graph.leads_to(&[leaf]), &mut bits);
    bits.sort_unstable();
    bits.dedup();
    if bits.len() > room {
        return Err(refusal(11, OUTPUT, 0));
    }
    Ok(bits)
}

// Lists

/// The order in which runs of one displacement stand together, ascending.
fn by_displacement(run: &Record) -> (i64, i64) {
    (run.displacement, run.first)
}

/// Sorts runs and joins those of one displacement that touch or overlap.
pub fn merge(mut runs: Vec<Record>) -> Vec<Record> {
    runs.sort_unstable_by_key(by_displacement);
    let mut list: Vec<Record> = Vec::new();
    for run in runs {
        match list.last_mut() {
            Some(open) if open.displacement == run.displacement && run.first <= open.last + 1 => {
                open.last = open.last.max(run.last);
            }
            _ => list.push(run),
        }
    }
    list.sort_unstable_by_key(|record| (record.first, record.displacement));
    list
}

/// Whether the listing goes once over the graph for each root, or for each pair of a root
/// and a group. The lists are the same; the second repeats work that pairs of one root share.
#[derive(Clone, Copy, PartialEq, Eq)]
pub enum Listing {
    ByRoot,
    ByPair,
}

/// A leaf with the bit of its group at which it begins.
#[derive(Clone, Copy)]
pub(crate) struct Bank {
    pub(crate) leaf: usize,
    pub(crate) at: i64,
}

/// A graph with the groups to be listed, no leaf in two of them, and the nodes that a
/// listing may enter.
struct Lister<'a> {
    graph: &'a Graph,
    groups: Vec<&'a [Bank]>,
    leads: Vec<Vec<bool>>,
}

impl<'a> Lister<'a> {
    fn new(graph: &'a Graph, groups: Vec<&'a [Bank]>, listing: Listing) -> Lister<'a> {
        let leads_to = |banks: &[Bank]| {
            graph.leads_to(&banks.iter().map(|bank| bank.leaf).collect::<Vec<_>>())
        };
        let leads = match listing {
            Listing::ByRoot => vec![leads_to(&groups.concat())],
            Listing::ByPair => groups.iter().map(|banks| leads_to(banks)).collect(),
        };
        Lister { graph, groups, leads }
    }

    /// The list of the root with each of the groups, for walks of one kind: that of what all
    /// its banks reach.
    fn lists(&self, root: usize, kind: WalkKind) -> Vec<Vec<Record>> {
        let mut found = vec![Vec::new(); self.graph.nodes.len()];
        let Node { first, last, .. } = self.graph.nodes[root];
        for leads in &self.leads {
            self.graph.collect(kind, root, (first, last, 0), leads, &mut found);
        }
        let mut runs_to = |&Bank { leaf, at }: &Bank| {
            let mut runs = take(&mut found[leaf]);
            runs.iter_mut().for_each(|run| run.displacement -= at);
            runs
        };
        let mut list = |banks: &&[Bank]| merge(banks.iter().flat_map(&mut runs_to).collect());
        self.groups.iter().map(&mut list).collect()
    }
}

/// The list of a root and a leaf for walks of one kind; `room` counts numbers, three for each
/// record.
pub fn list(
    nodes: &[i64], edges: &[i64], root: i64, leaf: i64, kind: WalkKind, room: usize,
) -> Result<Vec<Record>, Refusal> {
    let graph = Graph::new(nodes, edges, SPEC_NODES)?;
    let (root, leaf) = graph.named(root, leaf)?;
    let alone = [Bank { leaf, at: 0 }];
    let lister = Lister::new(&graph, vec![&alone], Listing::ByPair);
    let list = lister.lists(root, kind).remove(0);
    if list.len() * 3 > room {
        return Err(refusal(11, OUTPUT, 0));
    }
    Ok(list)
}

/// The rows of a batch of addresses for walks of one kind, record by record and within a
/// record by place; `room` counts numbers, two for each row.
pub fn batch(
    nodes: &[i64], edges: &[i64], root: i64, leaf: i64, addresses: &[i64], kind: WalkKind,
    room: usize,
) -> Result<BatchRows, Refusal> {
    if addresses.len() > MAX_BATCH {
        return Err(refusal(19, OUTPUT, 0));
    }
    let list = list(nodes, edges, root, leaf, kind, usize::MAX)?;
    let mut rows = Vec::new();
    for record in &list {
        for (place, &address) in addresses.iter().enumerate() {
            if record.first <= address && address <= record.last {
                rows.push([place as i64, address - record.displacement]);
            }
        }
    }
    if rows.len() * 2 > room {
        return Err(refusal(11, OUTPUT, 0));
    }
    Ok(BatchRows { rows, records: list.len() })
}

// Comparing

/// An implementation record counts towards partial only if one specification record
/// contains its root bits and its leaf bits and has its displacement. `sorted` has the
/// specification's records by displacement. The only one that can contain `inner` is the
/// last of its displacement that begins no later, since those of one displacement lie
/// apart; and where it contains the root bits it contains the leaf bits.
fn contained(inner: &Record, sorted: &[Record]) -> bool {
    let end = sorted.partition_point(|outer| by_displacement(outer) <= by_displacement(inner));
    let contains =
        |outer: &Record| outer.displacement == inner.displacement && inner.last <= outer.last;
    sorted[..end].last().is_some_and(contains)
}

/// 0 equal, 1 partial, 2 different.
pub fn verdict(spec: &[Record], implementation: &[Record]) -> i64 {
    if spec == implementation {
        return 0;
    }
    if implementation.is_empty() {
        return 2;
    }
    let mut sorted = spec.to_vec();
    sorted.sort_unstable_by_key(by_displacement);
    if implementation.iter().all(|record| contained(record, &sorted)) {
        1
    } else {
        2
    }
}

/// The displacements, ascending, of the records that hold a root bit.
fn displacements_at(list: &[Record], address: i64) -> Vec<i64> {
    let mut displacements: Vec<i64> = list
        .iter()
        .filter(|record| record.first <= address && address <= record.last)
        .map(|record| record.displacement)
        .collect();
    displacements.sort_unstable();
    displacements
}

/// The lowest address from which two lists reach unlike leaf bits. What they reach
/// changes only where a record begins and right after one ends.
pub fn lowest_difference(spec: &[Record], implementation: &[Record]) -> Option<i64> {
    let mut changes: Vec<i64> = Vec::new();
    for record in spec.iter().chain(implementation) {
        changes.extend([record.first, record.last + 1]);
    }
    changes.sort_unstable();
    changes.dedup();
    changes.into_iter().find(|&address| {
        displacements_at(spec, address) != displacements_at(implementation, address)
    })
}

/// A row of a pair table: nodes that have the table's role, and where the bank begins.
struct Pair {
    spec: usize,
    implementation: usize,
    at: i64,
}

/// What the rows of a pair table are to be.
struct Rule {
    table: usize,
    role: fn(&Graph, i64) -> Option<usize>,
    most_at: i64,
    /// Whether a specification node may stand in several rows.
    grouped: bool,
}

const ROOT_RULE: Rule = Rule { table: ROOT_PAIRS, role: Graph::root, most_at: 0, grouped: false };
const LEAF_RULE: Rule =
    Rule { table: LEAF_PAIRS, role: Graph::leaf, most_at: MAX_AT, grouped: true };

/// Judges the rows of a pair table: 7, then 16, then 8.
fn check_pairs(pairs: &[i64], graphs: &[Graph; 2], rule: &Rule) -> Result<Vec<Pair>, Refusal> {
    let mut rows = Vec::new();
    let mut seen = [0, 1].map(|side: usize| vec![false; graphs[side].nodes.len()]);
    for (row, pair) in pairs.chunks(WIDTHS[rule.table]).enumerate() {
        let refused = |number| refusal(number, rule.table, row);
        let spec = (rule.role)(&graphs[0], pair[0]).ok_or(refused(7))?;
        let implementation = (rule.role)(&graphs[1], pair[1]).ok_or(refused(7))?;
        let at = pair[2];
        if !(0..=rule.most_at).contains(&at) {
            return Err(refused(16));
        }
        let repeated = [
            replace(&mut seen[0][spec], true) && !rule.grouped,
            replace(&mut seen[1][implementation], true),
        ];
        if repeated.contains(&true) {
            return Err(refused(8));
        }
        rows.push(Pair { spec, implementation, at });
    }
    Ok(rows)
}

/// The leaf rows that name one specification leaf: the lowest of them, that leaf, and the
/// banks in the order of the rows.
pub(crate) struct Group {
    pub(crate) row: usize,
    spec: [Bank; 1],
    banks: Vec<Bank>,
}

impl Group {
    /// What is reached in the specification, or in the implementation.
    pub(crate) fn banks(&self, side: usize) -> &[Bank] {
        if side == 0 {
            &self.spec
        } else {
            &self.banks
        }
    }
}

/// The groups of the leaf rows, by their lowest rows.
fn groups(rows: Vec<Pair>, spec_nodes: usize) -> Vec<Group> {
    let mut groups: Vec<Group> = Vec::new();
    let mut group_of = vec![None; spec_nodes];
    for (row, Pair { spec, implementation, at }) in rows.into_iter().enumerate() {
        let group = *group_of[spec].get_or_insert_with(|| {
            let spec = [Bank { leaf: spec, at: 0 }];
            groups.push(Group { row, spec, banks: Vec::new() });
            groups.len() - 1
        });
        groups[group].banks.push(Bank { leaf: implementation, at });
    }
    groups
}

/// The roots of either graph, root row by root row, and the groups of leaves.
pub(crate) struct Pairing {
    pub(crate) roots: [Vec<usize>; 2],
    pub(crate) groups: Vec<Group>,
}

impl Pairing {
    /// The banks of each group in one of the graphs.
    pub(crate) fn banks(&self, side: usize) -> Vec<&[Bank]> {
        self.groups.iter().map(|group| group.banks(side)).collect()
    }
}

/// Refusals 1 to 9 and 16, or both graphs with their pairing.
pub(crate) fn check_tables(tables: &Tables) -> Result<([Graph; 2], Pairing), Refusal> {
    let graphs = [
        Graph::new(&tables[SPEC_NODES], &tables[SPEC_EDGES], SPEC_NODES)?,
        Graph::new(&tables[IMPL_NODES], &tables[IMPL_EDGES], IMPL_NODES)?,
    ];
    for table in [ROOT_PAIRS, LEAF_PAIRS] {
        check_shape(&tables[table], table, MAX_PAIRS)?;
    }
    for table in [ROOT_PAIRS, LEAF_PAIRS] {
        if tables[table].is_empty() {
            return Err(refusal(9, table, 0));
        }
    }
    let roots = check_pairs(&tables[ROOT_PAIRS], &graphs, &ROOT_RULE)?;
    let leaves = check_pairs(&tables[LEAF_PAIRS], &graphs, &LEAF_RULE)?;
    let roots = roots.iter().map(|pair| (pair.spec, pair.implementation)).unzip();
    let groups = groups(leaves, graphs[0].nodes.len());
    Ok((graphs, Pairing { roots: roots.into(), groups }))
}

/// Refusal 10, by root rows and groups in visiting order, the specification first. A
/// group's paths are those to all its banks together, whether a walk may take them or not.
pub(crate) fn check_paths(graphs: &[Graph; 2], pairing: &Pairing) -> Result<(), Refusal> {
    let Pairing { roots, groups } = pairing;
    let mut counted = [0, 1].map(|side: usize| vec![false; graphs[side].nodes.len()]);
    for (row, (&spec, &implementation)) in roots[0].iter().zip(&roots[1]).enumerate() {
        let crowded = [0, 1].map(|side: usize| {
            let (graph, root) = (&graphs[side], [spec, implementation][side]);
            // A root with one edge has as many paths as one before it that leads there.
            let known = match &graph.leaving[root][..] {
                [] => true,
                [only] => replace(&mut counted[side][only.to], true),
                _ => false,
            };
            let counts = if known { Vec::new() } else { graph.path_counts(root) };
            let count = |bank: &Bank| counts.get(bank.leaf).copied().unwrap_or(0);
            let more =
                |group: &&Group| group.banks(side).iter().map(count).sum::<u32>() > MAX_PATHS;
            groups.iter().find(more).map(|group| (group.row, [SPEC_EDGES, IMPL_EDGES][side]))
        });
        if let Some((leaf, edge_table)) = crowded.into_iter().flatten().min() {
            return Err(refusal(10, edge_table, row * 1_000 + leaf));
        }
    }
    Ok(())
}

/// Compares two graphs: refusals 1 to 10 and 16, or the outcome and the report's lines.
pub fn compare(tables: &Tables) -> Result<Comparison, Refusal> {
    compare_by(tables, Listing::ByRoot)
}

pub fn compare_by(tables: &Tables, listing: Listing) -> Result<Comparison, Refusal> {
    let (graphs, pairing) = check_tables(tables)?;
    check_paths(&graphs, &pairing)?;
    Ok(judge_pairs(&graphs, &pairing, listing))
}

/// The kinds of walks that are to be judged: the first alone where every node is open to both,
/// since then their lists are the same.
pub(crate) fn kinds_to_judge(graphs: &[Graph; 2]) -> &'static [WalkKind] {
    let mut nodes = graphs.iter().flat_map(|graph| &graph.nodes);
    let open = nodes.all(|node| node.access == READ_AND_WRITE);
    &KINDS[..if open { 1 } else { 2 }]
}

/// The lists of a pair by one kind of walk, the specification's first.
type Lists = [Vec<Record>; 2];

fn judge_pairs(graphs: &[Graph; 2], pairing: &Pairing, listing: Listing) -> Comparison {
    let Pairing { roots, groups } = pairing;
    let spec = Lister::new(&graphs[0], pairing.banks(0), listing);
    let implementation = Lister::new(&graphs[1], pairing.banks(1), listing);
    let kinds = kinds_to_judge(graphs);
    let mut outcome = Outcome { whole: 0, counts: [0; 3], root: -1, leaf: -1, address: -1 };
    let mut lines = Vec::new();
    for (root, (&spec_root, &impl_root)) in roots[0].iter().zip(&roots[1]).enumerate() {
        let of_kind = |&kind: &WalkKind| -> Vec<Lists> {
            let spec = spec.lists(spec_root, kind).into_iter();
            spec.zip(implementation.lists(impl_root, kind)).map(Into::into).collect()
        };
        let by_kind: Vec<Vec<Lists>> = kinds.iter().map(of_kind).collect();
        for (place, leaf) in groups.iter().map(|group| group.row).enumerate() {
            let lists = || by_kind.iter().map(|lists| &lists[place]);
            let verdict = lists().map(|[spec, built]| verdict(spec, built)).max().unwrap_or(0);
            if verdict != 0 && outcome.whole == 0 {
                let lowest = lists().filter_map(|[spec, built]| lowest_difference(spec, built));
                outcome.root = root as i64;
                outcome.leaf = leaf as i64;
                outcome.address = lowest.min().unwrap_or(-1);
            }
            outcome.counts[verdict as usize] += 1;
            outcome.whole = outcome.whole.max(verdict);
            let lengths = [0, kinds.len() - 1].map(|kind| {
                let [spec, built] = &by_kind[kind][place];
                Lengths { spec: spec.len(), implementation: built.len() }
            });
            if lengths.iter().any(|kind| kind.spec + kind.implementation > 0) {
                lines.push(PairLine { root, leaf, verdict, lengths });
            }
        }
    }
    Comparison { outcome, lines }
}

// Map files

/// Refusal 12.
pub(crate) fn check_bytes(text: &[u8]) -> Result<(), Refusal> {
    if text.len() > MAX_TEXT {
        return Err(refusal(12, TEXT, 0));
    }
    let allowed = |byte: &u8| matches!(byte, b'a'..=b'z' | b'0'..=b'9' | b'-' | b' ' | b'\n');
    let line_at = |place: usize| 1 + text[..place].iter().filter(|&&byte| byte == b'\n').count();
    if let Some(place) = text.iter().position(|byte| !allowed(byte)) {
        return Err(refusal(12, TEXT, line_at(place)));
    }
    if text.last().is_some_and(|&byte| byte != b'\n') {
        return Err(refusal(12, TEXT, line_at(text.len())));
    }
    Ok(())
}

/// A value: 1 to 18 digits, a minus before it if negative, no leading zero, no -0.
fn value(field: &[u8]) -> Option<i64> {
    let (negative, digits) = match field {
        [b'-', digits @ ..] => (true, digits),
        digits => (false, digits),
    };
    let leading_zero = digits.first() == Some(&b'0') && (negative || digits.len() > 1);
    if digits.is_empty() || digits.len() > 18 || leading_zero {
        return None;
    }
    let mut number = 0;
    for digit in digits {
        if !digit.is_ascii_digit() {
            return None;
        }
        number = number * 10 + i64::from(digit - b'0');
    }
    Some(if negative { -number } else { number })
}

/// For each field of a names line, which of the table's names it is.
pub(crate) fn columns(line: &[u8], names: &Names) -> Option<Vec<usize>> {
    let mut columns = Vec::new();
    for field in line.split(|&byte| byte == b' ') {
        let column = names.all().position(|name| name.as_bytes() == field)?;
        if columns.contains(&column) {
            return None;
        }
        columns.push(column);
    }
    (0..names.required.len()).all(|column| columns.contains(&column)).then_some(columns)
}

/// Numbers of the longest row, the one that tells two tables apart among them.
const MOST_NUMBERS: usize = NODE_NAMES.count();

/// The values of a line, one for each column, put into the order of the table's names.
pub(crate) fn values(line: &[u8], columns: &[usize]) -> Option<[i64; MOST_NUMBERS]> {
    let mut row = [0; MOST_NUMBERS];
    let mut fields = line.split(|&byte| byte == b' ');
    for &column in columns {
        row[column] = value(fields.next()?)?;
    }
    fields.next().is_none().then_some(row)
}

/// Reads one table from line `next` on into the two tables that its first column
/// tells apart. Gives the line to go on with.
fn read_table(
    lines: &[&[u8]], mut next: usize, names: &Names, tables: [&mut Vec<i64>; 2],
    ends_with_empty_line: bool,
) -> Result<usize, Refusal> {
    let columns =
        lines.get(next).and_then(|line| columns(line, names)).ok_or(refusal(13, TEXT, next + 1))?;
    loop {
        next += 1;
        match lines.get(next) {
            None if ends_with_empty_line => return Err(refusal(13, TEXT, next + 1)),
            None => return Ok(next),
            Some(line) if line.is_empty() && ends_with_empty_line => return Ok(next + 1),
            Some(line) => {
                let row = values(line, &columns).filter(|row| (0..=1).contains(&row[0]));
                let row = row.ok_or(refusal(14, TEXT, next + 1))?;
                tables[row[0] as usize].extend(&row[1..names.count()]);
            }
        }
    }
}

/// The lines of a text that refusal 12 does not concern, without their line feeds.
pub(crate) fn lines_of(text: &[u8]) -> Vec<&[u8]> {
    let mut lines: Vec<&[u8]> = text.split(|&byte| byte == b'\n').collect();
    // What follows the last line feed is no line.
    lines.pop();
    lines
}

/// Reads a map file: refusals 12 to 14, or the six tables.
pub fn parse(text: &[u8]) -> Result<Tables, Refusal> {
    check_bytes(text)?;
    let lines = lines_of(text);
    let mut tables = Tables::default();
    let [spec_nodes, spec_edges, impl_nodes, impl_edges, roots, leaves] = &mut tables;
    let next = read_table(&lines, 0, &NODE_NAMES, [spec_nodes, impl_nodes], true)?;
    let next = read_table(&lines, next, &EDGE_NAMES, [spec_edges, impl_edges], true)?;
    read_table(&lines, next, &PAIR_NAMES, [roots, leaves], false)?;
    Ok(tables)
}

// Reports

pub fn report(comparison: &Comparison) -> Vec<u8> {
    let mut report = String::from("root leaf verdict rspec rimpl wspec wimpl\n");
    for PairLine { root, leaf, verdict, lengths: [reading, writing] } in &comparison.lines {
        report += &format!("{root} {leaf} {verdict}");
        report += &format!(" {} {}", reading.spec, reading.implementation);
        report += &format!(" {} {}\n", writing.spec, writing.implementation);
    }
    report += "\nverdict equal partial different root leaf address\n";
    let Outcome { whole, counts: [equal, partial, different], root, leaf, address } =
        &comparison.outcome;
    report += &format!("{whole} {equal} {partial} {different} {root} {leaf} {address}\n");
    report.into_bytes()
}

pub fn refusal_report(refusal: &Refusal) -> Vec<u8> {
    let Refusal { number, table, row } = refusal;
    format!("refusal table row\n{number} {table} {row}\n").into_bytes()
}

/// The whole verdict and the report of a map file; `room` is the report buffer's length.
fn judge_text(text: &[u8], room: usize, listing: Listing) -> Result<(i64, Vec<u8>), Refusal> {
    let comparison = compare_by(&parse(text)?, listing)?;
    let report = report(&comparison);
    if report.len() > room {
        return Err(refusal(11, OUTPUT, 0));
    }
    Ok((comparison.outcome.whole, report))
}

/// Text check: map file in, report out.
pub fn text_check(text: &[u8], room: usize) -> Result<Vec<u8>, Refusal> {
    text_check_by(text, room, Listing::ByRoot)
}

pub fn text_check_by(text: &[u8], room: usize, listing: Listing) -> Result<Vec<u8>, Refusal> {
    judge_text(text, room, listing).map(|(_, report)| report)
}

/// A refusal as the C call gives it.
pub fn coded_refusal(refusal: &Refusal) -> i64 {
    -(refusal.number * 100_000_000 + refusal.table * 10_000_000 + refusal.row)
}

/// The answer of the C call: the report's length or the coded refusal.
pub fn coded(answer: &Result<Vec<u8>, Refusal>) -> i64 {
    match answer {
        Ok(report) => report.len() as i64,
        Err(refusal) => coded_refusal(refusal),
    }
}

/// What the program mapcheck prints for a text on standard input.
pub fn printed(text: &[u8]) -> Vec<u8> {
    text_check(text, REPORT_ROOM).unwrap_or_else(|refusal| refusal_report(&refusal))
}

/// Text check beside a tally: adds to the caller's count of checks that ended so. A
/// number outside the callers is refused before all else, and no count moves.
pub fn tally(
    text: &[u8], room: usize, mut counts: Counts, caller: i64,
) -> (Result<Vec<u8>, Refusal>, Counts) {
    let Some(row) = usize::try_from(caller).ok().filter(|&row| row < CALLERS) else {
        return (Err(refusal(15, OUTPUT, 0)), counts);
    };
    let answer = judge_text(text, room, Listing::ByRoot);
    let ending = answer.as_ref().map_or(ENDED_REFUSED, |(whole, _)| *whole as usize);
    let count = &mut counts[COUNT_KINDS * row + ending];
    if *count < MAX_TALLY {
        *count += 1;
    }
    (answer.map(|(_, report)| report), counts)
}
