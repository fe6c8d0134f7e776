//! Seeded maps for tests and benchmarks: pairs of small graphs of many habits that
//! come out equal, partial and different, the same as texts, damaged texts, and
//! maps at both sides of every limit.

use crate::banks::{any_banks, build_from_banks};
use crate::reference::{refusal, Names, Refusal, Tables, BLOCK, SPACE, UNITS};
use crate::reference::{ACCESSES, READ_AND_WRITE, READ_ONLY, WRITE_ONLY};
use crate::reference::{EDGE_NAMES, NODE_NAMES, NODE_WIDTH, PAIR_NAMES, WIDTHS};
use crate::reference::{IMPL_EDGES, IMPL_NODES, LEAF_PAIRS, ROOT_PAIRS, SPEC_EDGES, SPEC_NODES};
use crate::reference::{MAX_AT, MAX_EDGES, MAX_NODES, MAX_PAIRS, MAX_TEXT, MAX_UNITS};
use std::collections::BTreeSet;

pub const SEGMENT: i64 = 1;

/// A xorshift generator.
pub struct Random(u64);

impl Random {
    pub fn new(seed: u64) -> Random {
        let mut random = Random(seed.wrapping_mul(0x9E37_79B9_7F4A_7C15) | 1);
        // Seeds that lie close together start out alike.
        (0..8).for_each(|_| _ = random.draw());
        random
    }

    pub fn draw(&mut self) -> u64 {
        self.0 ^= self.0 << 13;
        self.0 ^= self.0 >> 7;
        self.0 ^= self.0 << 17;
        self.0.wrapping_mul(0x2545_F491_4F6C_DD1D) >> 16
    }

    pub fn below(&mut self, limit: usize) -> usize {
        (self.draw() % limit as u64) as usize
    }

    pub fn between(&mut self, low: i64, high: i64) -> i64 {
        low + (self.draw() % (high - low + 1) as u64) as i64
    }

    pub fn chance(&mut self, percent: usize) -> bool {
        self.below(100) < percent
    }

    pub fn pick<T: Copy>(&mut self, choices: &[T]) -> T {
        choices[self.below(choices.len())]
    }

    pub fn shuffle<T>(&mut self, items: &mut [T]) {
        for end in (1..items.len()).rev() {
            items.swap(end, self.below(end + 1));
        }
    }

    pub fn shuffled(&mut self, count: usize) -> Vec<usize> {
        let mut order: Vec<usize> = (0..count).collect();
        self.shuffle(&mut order);
        order
    }
}

/// Every order of that many things.
pub fn permutations(count: usize) -> Vec<Vec<usize>> {
    if count == 0 {
        return vec![Vec::new()];
    }
    let mut orders = Vec::new();
    for shorter in permutations(count - 1) {
        for place in 0..count {
            let mut order = shorter.clone();
            order.insert(place, count - 1);
            orders.push(order);
        }
    }
    orders
}

// Drafts of graphs

#[derive(Clone, Copy)]
pub struct Node {
    pub kind: i64,
    pub base: i64,
    pub range: i64,
    pub unit: i64,
    pub access: i64,
}

impl Node {
    fn row(&self) -> [i64; NODE_WIDTH] {
        [self.kind, self.base, self.range, self.unit, self.access]
    }

    fn first(&self) -> i64 {
        self.base * self.unit
    }

    fn bits(&self) -> i64 {
        self.range * self.unit
    }
}

#[derive(Clone, Copy)]
pub struct Edge {
    pub from: usize,
    pub to: usize,
    pub offset: i64,
}

/// A graph with the nodes that a pairing names, pair row by pair row. A specification names
/// a leaf as often as it has banks; an implementation tells where each bank begins.
#[derive(Clone, Default)]
pub struct Draft {
    pub nodes: Vec<Node>,
    pub edges: Vec<Edge>,
    pub roots: Vec<usize>,
    pub leaves: Vec<usize>,
    pub at: Vec<i64>,
}

impl Draft {
    /// Adds a node that is open to both kinds of walks.
    pub fn node(&mut self, kind: i64, base: i64, range: i64, unit: i64) -> usize {
        self.nodes.push(Node { kind, base, range, unit, access: READ_AND_WRITE });
        self.nodes.len() - 1
    }

    pub fn root(&mut self, base: i64, range: i64, unit: i64) -> usize {
        let root = self.node(SPACE, base, range, unit);
        self.roots.push(root);
        root
    }

    pub fn leaf(&mut self, base: i64, range: i64, unit: i64) -> usize {
        self.bank(base, range, unit, 0)
    }

    pub fn bank(&mut self, base: i64, range: i64, unit: i64, at: i64) -> usize {
        let leaf = self.node(BLOCK, base, range, unit);
        self.leaves.push(leaf);
        self.at.push(at);
        leaf
    }

    pub fn join(&mut self, from: usize, to: usize, offset: i64) {
        self.edges.push(Edge { from, to, offset });
    }

    /// Joins two nodes with an offset that mostly lets some addresses live.
    pub fn fit(&mut self, random: &mut Random, from: usize, to: usize) {
        let (source, target) = (self.nodes[from], self.nodes[to]);
        let slide = match random.below(4) {
            0 => 0,
            1 => random.between(-target.bits(), source.bits()),
            _ => random.between(-target.bits() / 2, source.bits() / 2),
        };
        let bit_offset = source.first() - target.first() + slide;
        self.join(from, to, bit_offset.div_euclid(target.unit));
    }

    /// The leaf of each of these leaf rows, in the order of the list.
    pub fn with_leaf_rows(&self, rows: &[usize]) -> Draft {
        let mut draft = self.clone();
        draft.leaves = rows.iter().map(|&row| self.leaves[row]).collect();
        draft.at = rows.iter().map(|&row| self.at[row]).collect();
        draft
    }

    pub fn node_table(&self) -> Vec<i64> {
        self.nodes.iter().flat_map(Node::row).collect()
    }

    pub fn edge_table(&self) -> Vec<i64> {
        let row = |edge: &Edge| [edge.from as i64, edge.to as i64, edge.offset];
        self.edges.iter().flat_map(row).collect()
    }

    /// The same graph with node `row` at row `places[row]`.
    pub fn renumbered(&self, places: &[usize]) -> Draft {
        let mut draft = self.clone();
        for (row, node) in self.nodes.iter().enumerate() {
            draft.nodes[places[row]] = *node;
        }
        for edge in &mut draft.edges {
            (edge.from, edge.to) = (places[edge.from], places[edge.to]);
        }
        for row in draft.roots.iter_mut().chain(&mut draft.leaves) {
            *row = places[*row];
        }
        draft
    }

    /// Rows as drawn up, against the direction of the edges, or shuffled.
    fn mixed(&self, random: &mut Random) -> Draft {
        let count = self.nodes.len();
        let mut draft = match random.below(3) {
            0 => self.clone(),
            1 => self.renumbered(&(0..count).rev().collect::<Vec<_>>()),
            _ => self.renumbered(&random.shuffled(count)),
        };
        random.shuffle(&mut draft.edges);
        draft
    }
}

/// The tables of two drafts whose roots and leaves are paired in order.
pub fn tables(spec: &Draft, implementation: &Draft) -> Tables {
    let pairs = |left: &[usize], right: &[usize], at: &[i64]| {
        let nodes = left.iter().zip(right);
        nodes.zip(at).flat_map(|((&l, &r), &at)| [l as i64, r as i64, at]).collect()
    };
    [
        spec.node_table(),
        spec.edge_table(),
        implementation.node_table(),
        implementation.edge_table(),
        pairs(&spec.roots, &implementation.roots, &vec![0; spec.roots.len()]),
        pairs(&spec.leaves, &implementation.leaves, &implementation.at),
    ]
}

pub fn root_rows(tables: &Tables) -> usize {
    tables[ROOT_PAIRS].len() / WIDTHS[ROOT_PAIRS]
}

/// How many groups the leaf rows make: one for each specification leaf that they name.
pub fn groups(tables: &Tables) -> usize {
    let leaves = tables[LEAF_PAIRS].chunks(WIDTHS[LEAF_PAIRS]).map(|pair| pair[0]);
    leaves.collect::<BTreeSet<i64>>().len()
}

// Habits of small graphs

fn small_node(random: &mut Random) -> (i64, i64, i64) {
    let unit = random.pick(&[8, 8, 16, 16, 32, 64, 128]);
    let base = if random.chance(50) { 0 } else { random.between(1, 9) };
    (base, random.between(1, 256 / unit.max(32)), unit)
}

/// Nodes of any size, each entered from some earlier ones; dead ends stay.
fn scattered(random: &mut Random) -> Draft {
    let mut draft = Draft::default();
    for _ in 0..random.between(1, 3) {
        let (base, range, unit) = small_node(random);
        draft.root(base, range * 2, unit);
    }
    for _ in 0..random.below(5) {
        let (base, range, unit) = small_node(random);
        let segment = draft.node(random.pick(&[SPACE, SEGMENT]), base, range, unit);
        for _ in 0..random.between(1, 2) {
            let from = random.below(segment);
            draft.fit(random, from, segment);
        }
    }
    let inner = draft.nodes.len();
    for _ in 0..random.between(1, 3) {
        let (base, range, unit) = small_node(random);
        let leaf = draft.leaf(base, range, unit);
        for _ in 0..random.pick(&[0, 1, 1, 2, 3]) {
            let from = random.below(inner);
            draft.fit(random, from, leaf);
        }
    }
    draft
}

/// Diamonds one behind the other, with arms of like or unlike displacement.
fn ladder(random: &mut Random) -> Draft {
    let mut draft = Draft::default();
    let mut top = draft.root(random.between(0, 3), random.between(8, 40), 8);
    for _ in 0..random.between(1, 4) {
        let foot = draft.node(SEGMENT, 0, random.between(8, 60), 8);
        for _ in 0..2 {
            let unit = random.pick(&UNITS[..3]);
            let arm = draft.node(SEGMENT, random.between(0, 2), random.between(2, 20), unit);
            let shift = random.between(-1, 1);
            let unlike = if random.chance(30) { random.between(-1, 1) } else { 0 };
            draft.join(top, arm, shift);
            draft.join(arm, foot, -shift * unit / 8 + unlike);
        }
        top = foot;
    }
    let leaf = draft.leaf(random.between(0, 4), random.between(1, 20), 8);
    draft.fit(random, top, leaf);
    draft
}

/// A long chain that drifts and is clipped now and then.
fn chain(random: &mut Random) -> Draft {
    let mut draft = Draft::default();
    let unit = random.pick(&UNITS[..3]);
    let mut last = draft.root(random.between(0, 5), random.between(10, 30), unit);
    let mut address = 0;
    for _ in 1..random.between(2, 63) {
        let shift = random.between(-2, 2).min(address);
        address -= shift;
        let (base, range) = if random.chance(90) { (0, 99) } else { (2, address + 12) };
        let next = draft.node(SEGMENT, base, range, unit);
        draft.join(last, next, shift);
        last = next;
    }
    let leaf = draft.leaf(random.between(0, 9), random.between(1, 30), unit);
    draft.join(last, leaf, random.between(-9, 4) + address);
    draft
}

/// Parallel edges, whose runs touch, overlap or leave a unit open.
fn parallel(random: &mut Random) -> Draft {
    let mut draft = Draft::default();
    let unit = random.pick(&UNITS);
    let (base, range) = (random.between(0, 4), random.between(1, 4));
    let root = draft.root(random.between(0, 2), random.between(4, 20), 32);
    let leaf = draft.leaf(base, range, unit);
    let mut offset = -base;
    for _ in 0..random.between(1, 9) {
        draft.join(root, leaf, offset);
        offset += random.pick(&[0, range - 1, range, range + 1]);
    }
    draft
}

/// Segments side by side in front of one leaf: their windows touch, overlap or
/// leave a unit open, and lead on with like or unlike displacement.
fn windows(random: &mut Random) -> Draft {
    let mut draft = Draft::default();
    let unit = random.pick(&UNITS[..3]);
    let root = draft.root(0, random.between(8, 30), unit);
    let leaf = draft.leaf(random.between(0, 3), random.between(2, 30), unit);
    let offset = random.between(-4, 4);
    let mut base = random.between(0, 3);
    for _ in 0..random.between(1, 8) {
        let range = random.between(1, 5);
        let segment = draft.node(SEGMENT, base, range, unit);
        let unlike = if random.chance(25) { random.pick(&[-1, 1]) } else { 0 };
        draft.join(root, segment, 0);
        draft.join(segment, leaf, offset + unlike);
        base += range + random.pick(&[-1, 0, 0, 1]);
    }
    draft
}

/// Several roots and leaves around one hub.
fn fan(random: &mut Random) -> Draft {
    let mut draft = Draft::default();
    let hub = draft.node(SEGMENT, 0, random.between(8, 40), 16);
    for _ in 0..random.between(1, 4) {
        let (base, range, unit) = small_node(random);
        let root = draft.root(base, range, unit);
        draft.fit(random, root, hub);
    }
    for _ in 0..random.between(1, 4) {
        let (base, range, unit) = small_node(random);
        let leaf = draft.leaf(base, range, unit);
        draft.fit(random, hub, leaf);
    }
    draft
}

pub fn draft(random: &mut Random) -> Draft {
    match random.below(8) {
        0 => ladder(random),
        1 => chain(random),
        2 => parallel(random),
        3 => windows(random),
        4 => fan(random),
        _ => scattered(random),
    }
}

// Implementations of a specification

/// Puts a segment into an edge that clips nothing and adds no displacement.
fn insert_segment(random: &mut Random, draft: &mut Draft, edge: usize) {
    let Edge { from, to, offset } = draft.edges[edge];
    let (source, unit) = (draft.nodes[from], draft.nodes[to].unit);
    let up = random.between(0, 3);
    let range = source.first() / unit + source.bits() / unit + up + 2;
    let segment = draft.node(SEGMENT, 0, range, unit);
    draft.edges[edge] = Edge { from, to: segment, offset: -up };
    draft.join(segment, to, offset + up);
}

/// Puts two segments in the place of one, the window cut between them.
fn split_segment(random: &mut Random, draft: &mut Draft, segment: usize) {
    let Node { kind, base, range, unit, access } = draft.nodes[segment];
    if kind != SEGMENT || range < 2 {
        return;
    }
    let cut = random.between(1, range - 1);
    draft.nodes[segment].range = cut;
    let upper = draft.node(kind, base + cut, range - cut, unit);
    draft.nodes[upper].access = access;
    for edge in draft.edges.clone() {
        if edge.from == segment {
            draft.join(upper, edge.to, edge.offset);
        } else if edge.to == segment {
            draft.join(edge.from, upper, edge.offset);
        }
    }
}

/// Counts a node in smaller units.
fn refine(random: &mut Random, draft: &mut Draft, node: usize) {
    let unit = draft.nodes[node].unit;
    let smaller = random.pick(&UNITS).min(unit);
    let factor = unit / smaller;
    draft.nodes[node].unit = smaller;
    draft.nodes[node].base *= factor;
    draft.nodes[node].range *= factor;
    for edge in draft.edges.iter_mut().filter(|edge| edge.to == node) {
        edge.offset *= factor;
    }
}

/// Moves a leaf's base and the edges that enter it by the same amount.
fn move_leaf(random: &mut Random, draft: &mut Draft, leaf: usize) {
    let up = random.between(0, 5);
    draft.nodes[leaf].base += up;
    for edge in draft.edges.iter_mut().filter(|edge| edge.to == leaf) {
        edge.offset -= up;
    }
}

/// A change that keeps every reached set.
fn keep(random: &mut Random, draft: &mut Draft) {
    let leaf = random.pick(&draft.leaves);
    let node = random.below(draft.nodes.len());
    if draft.edges.is_empty() {
        return move_leaf(random, draft, leaf);
    }
    let edge = random.below(draft.edges.len());
    match random.below(6) {
        0 => draft.edges.push(draft.edges[edge]),
        1 if draft.nodes.len() < 40 => insert_segment(random, draft, edge),
        2 => split_segment(random, draft, node),
        3 => refine(random, draft, node),
        4 => move_leaf(random, draft, leaf),
        _ => {
            let dead_end = draft.node(SEGMENT, 0, 9, 8);
            draft.join(draft.edges[edge].from, dead_end, 0);
        }
    }
}

/// A change that takes addresses away: a window cut at either end, or an edge less.
fn shrink(random: &mut Random, draft: &mut Draft) {
    if draft.edges.len() > 1 && random.chance(20) {
        draft.edges.swap_remove(random.below(draft.edges.len()));
    }
    for Edge { from, to, .. } in draft.edges.clone() {
        let node = random.pick(&[from, to]);
        let Node { kind, range, .. } = draft.nodes[node];
        if random.chance(40) && range > 1 {
            let cut = random.between(1, (range - 1).min(3));
            draft.nodes[node].range -= cut;
            if kind != BLOCK && random.chance(50) {
                draft.nodes[node].base += cut;
            }
        }
    }
}

/// A change of an offset or of a base alone.
fn displace(random: &mut Random, draft: &mut Draft) {
    if draft.edges.is_empty() || random.chance(20) {
        let leaf = random.pick(&draft.leaves);
        draft.nodes[leaf].base += 1;
    } else {
        let edge = random.below(draft.edges.len());
        draft.edges[edge].offset += random.pick(&[-2, -1, 1, 2]);
    }
}

/// Cuts a leaf at its end and moves edges into it up by no more than that: mostly within
/// the root bits and the leaf bits of the specification, with another displacement.
fn slip(random: &mut Random, draft: &mut Draft) {
    let entered = |leaf: usize| draft.edges.iter().any(|edge| edge.to == leaf);
    let mut leaves = draft.leaves.clone();
    leaves.retain(|&leaf| draft.nodes[leaf].range > 1 && entered(leaf));
    if leaves.is_empty() {
        return;
    }
    let leaf = random.pick(&leaves);
    let cut = random.between(1, (draft.nodes[leaf].range - 1).min(3));
    draft.nodes[leaf].range -= cut;
    for edge in draft.edges.iter_mut().filter(|edge| edge.to == leaf) {
        if random.chance(75) {
            edge.offset += random.between(1, cut);
        }
    }
}

/// A change that adds addresses: a window that ends one unit later.
fn grow(random: &mut Random, draft: &mut Draft) {
    let node = random.below(draft.nodes.len());
    draft.nodes[node].range += 1;
}

/// An implementation of a specification, whose leaf rows become as many as there are banks.
fn implementation(random: &mut Random, spec: &mut Draft) -> Draft {
    let mut implementation = spec.clone();
    if random.chance(45) {
        for _ in 0..random.between(1, 2) {
            let row = random.below(spec.leaves.len());
            build_from_banks(random, spec, &mut implementation, row);
        }
    }
    for _ in 0..random.below(4) {
        keep(random, &mut implementation);
    }
    match random.below(10) {
        0 => (),
        1 if random.chance(30) => grow(random, &mut implementation),
        1 => slip(random, &mut implementation),
        2..=7 => shrink(random, &mut implementation),
        8 => displace(random, &mut implementation),
        _ => {
            implementation = draft(random);
            any_banks(random, spec, &mut implementation);
        }
    }
    implementation
}

/// Takes root rows in any order and sometimes leaves some out.
fn mix_roots(random: &mut Random, spec: &mut Draft, implementation: &mut Draft) {
    let rows = mixed_rows(random, spec.roots.len().min(implementation.roots.len()));
    let nodes = |draft: &Draft| rows.iter().map(|&row| draft.roots[row]).collect();
    (spec.roots, implementation.roots) = (nodes(spec), nodes(implementation));
}

/// Rows in any order, sometimes the first few of them.
fn mixed_rows(random: &mut Random, count: usize) -> Vec<usize> {
    let mut rows = random.shuffled(count);
    if random.chance(20) {
        rows.truncate(random.between(1, 3) as usize);
    }
    rows
}

// Accesses

/// How many nodes of a map are closed to one kind of walk.
#[derive(Clone, Copy, PartialEq, Eq)]
pub enum Closed {
    None,
    Few,
    Many,
}

/// Closes nodes of a graph to one kind of walk.
fn close(random: &mut Random, draft: &mut Draft, closed: Closed) {
    let one = random.pick(&[READ_ONLY, WRITE_ONLY]);
    match closed {
        Closed::None => (),
        Closed::Few => {
            let node = random.below(draft.nodes.len());
            draft.nodes[node].access = one;
        }
        // Mostly of one kind: where both are mixed along the paths, hardly a walk lives.
        Closed::Many => {
            for node in &mut draft.nodes {
                match random.below(10) {
                    0 => node.access = random.pick(&ACCESSES),
                    1 | 2 => node.access = one,
                    _ => (),
                }
            }
        }
    }
}

/// Opens a node, or gives it another access.
fn close_otherwise(random: &mut Random, draft: &mut Draft) {
    let closed = |node: &&mut Node| node.access != READ_AND_WRITE;
    if random.chance(50) {
        draft.nodes.iter_mut().filter(closed).take(1).for_each(|node| node.access = READ_AND_WRITE);
    } else {
        let node = random.below(draft.nodes.len());
        draft.nodes[node].access = random.pick(&ACCESSES);
    }
}

/// A pair of small graphs with few paths, none of which a refusal concerns.
pub fn small_map(random: &mut Random) -> Tables {
    let spec = draft(random);
    implemented(random, spec)
}

/// The same with every node open to both kinds of walks.
pub fn open_map(random: &mut Random) -> Tables {
    let spec = draft(random);
    implemented_with(random, spec, Closed::None)
}

/// A specification with an implementation of it, rows and pairs in any order. In about half
/// of the maps some nodes are closed to one kind of walk.
pub fn implemented(random: &mut Random, spec: Draft) -> Tables {
    let closed = random.pick(&[Closed::None, Closed::None, Closed::Few, Closed::Many]);
    implemented_with(random, spec, closed)
}

/// The same with so many nodes of the specification closed, and of the implementation some.
pub fn implemented_with(random: &mut Random, mut spec: Draft, closed: Closed) -> Tables {
    if closed != Closed::None {
        close(random, &mut spec, closed);
    }
    let mut implementation = implementation(random, &mut spec);
    if closed != Closed::None && random.chance(60) {
        for _ in 0..random.between(1, 2) {
            close_otherwise(random, &mut implementation);
        }
    }
    let mut spec = spec.mixed(random);
    let mut implementation = implementation.mixed(random);
    mix_roots(random, &mut spec, &mut implementation);
    let rows = mixed_rows(random, implementation.leaves.len());
    tables(&spec.with_leaf_rows(&rows), &implementation.with_leaf_rows(&rows))
}

/// A map with its nodes moved up, some as far as they may be: the lists move with
/// their root, which moves alike on both sides. Sometimes all nodes are counted in
/// units of 128 first, so that addresses up to 2^55 occur. Some specification leaves begin
/// sooner than before, and their banks begin as many bits later.
pub fn raised(random: &mut Random, tables: &Tables) -> Tables {
    /// Units that are left for the map's own bases, ranges and offsets.
    const LEFT: i64 = 1 << 13;
    const STEP: i64 = 128;
    let mut tables = tables.clone();
    let coarse = random.chance(30);
    let mut smallest = STEP;
    for node in
        [SPEC_NODES, IMPL_NODES].map(|table| tables[table].clone()).concat().chunks(NODE_WIDTH)
    {
        smallest = smallest.min(if coarse { STEP } else { node[3] });
    }
    let most = (MAX_UNITS - LEFT) * smallest / STEP;
    let mut steps = [SPEC_NODES, IMPL_NODES].map(|table| {
        let count = tables[table].len() / NODE_WIDTH;
        let draw = |_| match random.below(6) {
            0 => 0,
            1 => most,
            2 => most - 1,
            3 => most / 2,
            _ => random.between(0, most),
        };
        (0..count).map(draw).collect::<Vec<i64>>()
    });
    for pair in tables[ROOT_PAIRS].chunks(3) {
        steps[1][pair[1] as usize] = steps[0][pair[0] as usize];
    }
    if coarse {
        let units: Vec<i64> = tables[IMPL_NODES].chunks(NODE_WIDTH).map(|node| node[3]).collect();
        for pair in tables[LEAF_PAIRS].chunks_mut(3) {
            pair[2] = (pair[2] * (STEP / units[pair[1] as usize])).min(MAX_AT);
        }
    }
    for (side, nodes) in [SPEC_NODES, IMPL_NODES].into_iter().enumerate() {
        let steps = &steps[side];
        for (node, step) in tables[nodes].chunks_mut(NODE_WIDTH).zip(steps) {
            node[3] = if coarse { STEP } else { node[3] };
            node[1] += step * (STEP / node[3]);
        }
        let units: Vec<i64> = tables[nodes].chunks(NODE_WIDTH).map(|node| node[3]).collect();
        for edge in tables[nodes + 1].chunks_mut(3) {
            let (from, to) = (edge[0] as usize, edge[1] as usize);
            edge[2] += (steps[from] - steps[to]) * (STEP / units[to]);
        }
    }
    for (leaf, &step) in steps[0].iter().enumerate() {
        if random.chance(50) {
            deepen_leaf(&mut tables, leaf, random.pick(&[step, step / 2, 1]).min(step) * STEP);
        }
    }
    tables
}

/// Lets a specification leaf begin that many bits sooner, and its banks that much later.
fn deepen_leaf(tables: &mut Tables, leaf: usize, bits: i64) {
    for pair in tables[LEAF_PAIRS].chunks_mut(3).filter(|pair| pair[0] == leaf as i64) {
        pair[2] = (pair[2] + bits).min(MAX_AT);
    }
    let node = &mut tables[SPEC_NODES][leaf * NODE_WIDTH..][..NODE_WIDTH];
    if node[0] == BLOCK {
        node[1] -= bits / node[3];
        node[2] += bits / node[3];
    }
}

// Long maps

/// Adds the rows of another map, its node rows counted on.
fn append_map(tables: &mut Tables, more: &Tables) {
    let counts = [SPEC_NODES, IMPL_NODES].map(|table| (tables[table].len() / NODE_WIDTH) as i64);
    for table in [SPEC_NODES, IMPL_NODES] {
        tables[table].extend(&more[table]);
    }
    for (side, table) in [SPEC_EDGES, IMPL_EDGES].into_iter().enumerate() {
        let count = counts[side];
        let edges = more[table].chunks(3);
        tables[table].extend(edges.flat_map(|edge| [edge[0] + count, edge[1] + count, edge[2]]));
    }
    for table in [ROOT_PAIRS, LEAF_PAIRS] {
        let pairs = more[table].chunks(3);
        let counted_on = |pair: &[i64]| [pair[0] + counts[0], pair[1] + counts[1], pair[2]];
        tables[table].extend(pairs.flat_map(counted_on));
    }
}

fn shuffle_rows(random: &mut Random, table: &mut Vec<i64>, width: usize) {
    let order = random.shuffled(table.len() / width);
    *table = order.into_iter().flat_map(|row| table[row * width..][..width].to_vec()).collect();
}

/// The same map with the rows of every table in any order.
pub fn reordered(random: &mut Random, tables: &Tables) -> Tables {
    let mut tables = tables.clone();
    for (side, nodes) in [SPEC_NODES, IMPL_NODES].into_iter().enumerate() {
        let places = random.shuffled(tables[nodes].len() / NODE_WIDTH);
        let old = tables[nodes].clone();
        for (row, node) in old.chunks(NODE_WIDTH).enumerate() {
            tables[nodes][places[row] * NODE_WIDTH..][..NODE_WIDTH].copy_from_slice(node);
        }
        let move_row = |row: &mut i64| *row = places[*row as usize] as i64;
        for edge in tables[nodes + 1].chunks_mut(3) {
            edge[..2].iter_mut().for_each(move_row);
        }
        for table in [ROOT_PAIRS, LEAF_PAIRS] {
            tables[table].chunks_mut(3).for_each(|pair| move_row(&mut pair[side]));
        }
    }
    for table in [SPEC_EDGES, IMPL_EDGES, ROOT_PAIRS, LEAF_PAIRS] {
        shuffle_rows(random, &mut tables[table], WIDTHS[table]);
    }
    tables
}

/// Many small maps beside one another as one, rows in any order: a map whose text
/// has about that many bytes, at most what a text may have.
pub fn long_map(random: &mut Random, bytes: usize) -> Tables {
    let mut tables = small_map(random);
    let mut length = plain_text(&tables).len();
    while length < bytes {
        let more = small_map(random);
        let mut longer = tables.clone();
        append_map(&mut longer, &more);
        let limits = [MAX_NODES, MAX_EDGES, MAX_NODES, MAX_EDGES, MAX_PAIRS, MAX_PAIRS];
        let within = |table: usize| longer[table].len() / WIDTHS[table] <= limits[table];
        length = plain_text(&longer).len();
        if length > MAX_TEXT || !(0..6).all(within) {
            break;
        }
        tables = longer;
    }
    reordered(random, &tables)
}

// Texts

/// The rows of two tables with the number that tells them apart before each.
fn tagged_rows(first: &[i64], second: &[i64], width: usize) -> Vec<Vec<i64>> {
    let tag = |tag: i64, row: &[i64]| [&[tag], row].concat();
    let zeros = first.chunks(width).map(|row| tag(0, row));
    zeros.chain(second.chunks(width).map(|row| tag(1, row))).collect()
}

/// Interleaves the rows of both tags, each tag's rows in their order.
fn interleave(random: &mut Random, rows: &[Vec<i64>]) -> Vec<Vec<i64>> {
    let mut tags: Vec<i64> = rows.iter().map(|row| row[0]).collect();
    random.shuffle(&mut tags);
    let mut left = [0, 1].map(|tag| rows.iter().filter(move |row| row[0] == tag));
    tags.into_iter().filter_map(|tag| left[tag as usize].next().cloned()).collect()
}

pub(crate) fn table_text(names: &Names, rows: &[Vec<i64>], columns: &[usize]) -> String {
    let names: Vec<&str> = names.all().collect();
    let line = |fields: Vec<String>| fields.join(" ") + "\n";
    let mut text = line(columns.iter().map(|&column| names[column].to_string()).collect());
    for row in rows {
        text += &line(columns.iter().map(|&column| row[column].to_string()).collect());
    }
    text
}

/// The columns that a table's text needs: an optional name only where some number is not 0.
fn needed_columns(names: &Names, rows: &[Vec<i64>]) -> Vec<usize> {
    let used = |column: &usize| rows.iter().any(|row| row[*column] != 0);
    let required = names.required.len();
    (0..required).chain((required..names.count()).filter(used)).collect()
}

fn text_by(
    tables: &Tables, mut arrange: impl FnMut(&Names, Vec<Vec<i64>>) -> (Vec<usize>, Vec<Vec<i64>>),
) -> Vec<u8> {
    let parts = [
        (NODE_NAMES, SPEC_NODES, IMPL_NODES),
        (EDGE_NAMES, SPEC_EDGES, IMPL_EDGES),
        (PAIR_NAMES, ROOT_PAIRS, LEAF_PAIRS),
    ];
    let texts = parts.map(|(names, first, second)| {
        let rows = tagged_rows(&tables[first], &tables[second], WIDTHS[first]);
        let (columns, rows) = arrange(&names, rows);
        table_text(&names, &rows, &columns)
    });
    texts.join("\n").into_bytes()
}

/// The text with the columns in the document's order, optional ones where they are needed,
/// and side 0, role 0 first.
pub fn plain_text(tables: &Tables) -> Vec<u8> {
    text_by(tables, |names, rows| (needed_columns(names, &rows), rows))
}

/// The text with these columns of each table.
pub fn text_with_columns(tables: &Tables, columns: [&[usize]; 3]) -> Vec<u8> {
    let mut next = columns.into_iter();
    text_by(tables, |_, rows| (next.next().unwrap().to_vec(), rows))
}

/// The text with columns in any order, sometimes optional ones that are not needed, where
/// there is room for them, sides and roles interleaved.
pub fn mixed_text(random: &mut Random, tables: &Tables) -> Vec<u8> {
    let text = mixed_by(random, tables, 30);
    if text.len() > MAX_TEXT {
        return mixed_by(random, tables, 0);
    }
    text
}

/// The same, with all columns of a table in so many of a hundred.
fn mixed_by(random: &mut Random, tables: &Tables, percent: usize) -> Vec<u8> {
    text_by(tables, |names, rows| {
        let mut columns = needed_columns(names, &rows);
        if random.chance(percent) {
            columns = (0..names.count()).collect();
        }
        random.shuffle(&mut columns);
        (columns, interleave(random, &rows))
    })
}

// Damage

/// Parted by single spaces; the first is empty.
pub const WRONG_FIELDS: &str = " - -0 00 01 -01 --1 1- 1-1 a side x1 -1 2 3 24 129 2000 \
    999999999999999999 1000000000000000000 -999999999999999999 -1000000000000000000 \
    9223372036854775808 18446744073709551617 281474976710656 281474976710657 \
    -281474976710656 -281474976710657 at 36028797018963967 36028797018963968 access";

const ALLOWED: &[u8] = b"abcdefghijklmnopqrstuvwxyz0123456789- \n";
const NOT_ALLOWED: &[u8] = b"\t\r\0+*()ASZ_.,\x7f\x80\xff`{/:";

fn damage_bytes(random: &mut Random, text: &mut Vec<u8>) {
    let place = random.below(text.len() + 1);
    let bytes = if random.chance(85) { ALLOWED } else { NOT_ALLOWED };
    let byte = random.pick(bytes);
    match random.below(5) {
        0 | 1 => text.insert(place, byte),
        2 => _ = (place < text.len()).then(|| text.remove(place)),
        3 => text.truncate(place),
        _ => text.iter_mut().skip(place).take(1).for_each(|old| *old = byte),
    }
}

fn damage_lines(random: &mut Random, text: &[u8]) -> Vec<u8> {
    let mut lines: Vec<&[u8]> = text.split_inclusive(|&byte| byte == b'\n').collect();
    if lines.is_empty() {
        return b"\n".to_vec();
    }
    let (one, other) = (random.below(lines.len()), random.below(lines.len()));
    match random.below(6) {
        0 => _ = lines.remove(one),
        1 => lines.insert(one, lines[other]),
        2 => lines.swap(one, other),
        3 => lines.insert(one, b"\n"),
        4 => lines.push(b"\n"),
        _ => lines.truncate(one),
    }
    lines.concat()
}

fn damage_field(random: &mut Random, text: &[u8], wrong: &[&str]) -> Vec<u8> {
    let mut lines: Vec<Vec<u8>> = text.split(|&byte| byte == b'\n').map(<[u8]>::to_vec).collect();
    let line = random.below(lines.len());
    let mut fields: Vec<&[u8]> = lines[line].split(|&byte| byte == b' ').collect();
    let field = random.below(fields.len());
    match random.below(8) {
        0 => fields.insert(field, b""),
        1 => fields.push(b""),
        2 => _ = fields.remove(field),
        3 => fields.push(fields[field]),
        4 => fields[field] = fields[random.below(fields.len())],
        _ => fields[field] = random.pick(wrong).as_bytes(),
    }
    lines[line] = fields.join(&b' ');
    lines.join(&b'\n')
}

/// A text with one fault, often with more; some faults leave it valid.
pub fn damaged(random: &mut Random, text: &[u8]) -> Vec<u8> {
    damaged_by(random, text, WRONG_FIELDS)
}

/// The same with other fields to put in, parted by single spaces.
pub fn damaged_by(random: &mut Random, text: &[u8], wrong: &str) -> Vec<u8> {
    let wrong: Vec<&str> = wrong.split(' ').collect();
    let mut text = text.to_vec();
    for _ in 0..random.pick(&[1, 1, 1, 2, 2, 3]) {
        match random.below(10) {
            0 => _ = text.pop(),
            1 | 2 => damage_bytes(random, &mut text),
            3 | 4 => text = damage_lines(random, &text),
            _ => text = damage_field(random, &text, &wrong),
        }
    }
    text
}

/// Tables with wrong numbers, rows or counts; as text they stay within the file rules.
pub fn disturbed(random: &mut Random, tables: &Tables) -> Tables {
    const SMALL: [i64; 12] = [-1, 0, 1, 2, 3, 4, 5, 8, 24, 32, 999, 2_000];
    const LARGE: [i64; 6] =
        [MAX_UNITS, MAX_UNITS + 1, -MAX_UNITS, -MAX_UNITS - 1, MAX_AT, MAX_AT + 1];
    let mut tables = tables.clone();
    for _ in 0..random.pick(&[1, 1, 2, 3]) {
        let number = random.below(6);
        let (table, width) = (&mut tables[number], WIDTHS[number]);
        if table.is_empty() {
            continue;
        }
        let place = random.below(table.len());
        let row = table[place - place % width..][..width].to_vec();
        match random.below(40) {
            0 => table.clear(),
            1 => table.truncate(table.len() - width),
            2 => table.extend(row.repeat([2_001, 2_601, 2_001, 2_601, 1_001, 1_001][number])),
            3 if matches!(number, SPEC_EDGES | IMPL_EDGES) => {
                table.extend(row.repeat(random.pick(&[1_022, 1_023, 1_024])))
            }
            4..=9 => table.extend(row),
            10..=15 => table[place] = random.pick(&LARGE),
            _ => table[place] = random.pick(&SMALL),
        }
    }
    tables
}

// Limits

/// A map at one side of a limit, with the refusal that it meets there.
pub struct Limit {
    pub name: String,
    pub tables: Tables,
    pub expected: Option<Refusal>,
}

/// One root above one leaf, joined by that many parallel edges.
pub fn joined(edges: usize) -> Draft {
    let mut draft = Draft::default();
    let root = draft.root(0, 64, 8);
    let leaf = draft.leaf(0, 16, 8);
    (0..edges).for_each(|_| draft.join(root, leaf, 4));
    draft
}

/// A chain of that many edges from the root to the leaf.
pub fn chained(edges: usize) -> Draft {
    let mut draft = Draft::default();
    let mut last = draft.root(0, 64, 8);
    for _ in 1..edges {
        let next = draft.node(SEGMENT, 0, 64, 8);
        draft.join(last, next, 0);
        last = next;
    }
    let leaf = draft.leaf(0, 16, 8);
    draft.join(last, leaf, 4);
    draft
}

/// Doubled edges one behind the other, and beside them more edges from root to leaf.
fn doubled(stages: usize, beside: usize) -> Draft {
    let mut draft = chained(stages);
    draft.edges.extend(draft.edges.clone());
    (0..beside).for_each(|_| draft.join(draft.roots[0], draft.leaves[0], 3));
    draft
}

fn with_node(base: i64, range: i64) -> Draft {
    let mut draft = joined(1);
    draft.node(SEGMENT, base, range, 128);
    draft
}

fn with_offset(offset: i64) -> Draft {
    let mut draft = joined(1);
    let dead_end = draft.node(SEGMENT, 0, 1, 128);
    draft.join(draft.roots[0], dead_end, offset);
    draft
}

/// One joined pair, filled up with unpaired nodes and with edges into one of them.
fn filled(nodes: usize, edges: usize) -> Draft {
    let mut draft = joined(1);
    let dead_end = draft.node(SEGMENT, 0, 1, 8);
    (3..nodes).for_each(|_| _ = draft.node(BLOCK, 0, 1, 8));
    (1..edges).for_each(|_| draft.join(draft.roots[0], dead_end, 0));
    draft
}

pub fn unjoined(roots: usize, leaves: usize) -> Draft {
    let mut draft = Draft::default();
    (0..roots).for_each(|_| _ = draft.root(0, 1, 8));
    (0..leaves).for_each(|_| _ = draft.leaf(0, 1, 8));
    draft
}

/// Three roots joined with three leaves, one of the pairs by 1,025 edges.
fn crowded(root: usize, leaf: usize) -> Draft {
    let mut draft = unjoined(3, 3);
    for (from, to) in (0..3).flat_map(|from| (3..6).map(move |to| (from, to))) {
        let edges = if (from, to) == (root, 3 + leaf) { 1_025 } else { 1 };
        (0..edges).for_each(|_| draft.join(from, to, 0));
    }
    draft
}

/// One root and one leaf, and in the implementation banks of that leaf, each joined with the
/// root by that many parallel edges.
pub fn banked(edges: &[usize]) -> Tables {
    let mut spec = joined(1);
    spec.leaves = vec![spec.leaves[0]; edges.len()];
    let mut implementation = Draft::default();
    let root = implementation.root(0, 64, 8);
    for &count in edges {
        let bank = implementation.leaf(0, 16, 8);
        (0..count).for_each(|_| implementation.join(root, bank, 4));
    }
    tables(&spec, &implementation)
}

/// The access of a root, of a leaf and of a node that is not paired.
fn access_limits() -> Vec<Limit> {
    let mut limits = Vec::new();
    for access in [-1, 0, 1, 2, 3] {
        for (table, row) in
            [SPEC_NODES, IMPL_NODES].into_iter().flat_map(|t| [0, 1, 2].map(|row| (t, row)))
        {
            let mut tables = tables(&with_node(0, 1), &with_node(0, 1));
            tables[table][row * NODE_WIDTH + 4] = access;
            let expected = (!ACCESSES.contains(&access)).then_some(refusal(2, table, row));
            limits.push(Limit {
                name: format!("access {access} in {table} {row}"),
                tables,
                expected,
            });
        }
    }
    limits
}

/// Paths count whether walks may take them or not: the nodes of one graph closed to a kind.
fn paths_of_closed_nodes() -> Vec<Limit> {
    let mut limits = Vec::new();
    for (name, accesses) in [
        ("all read only", [READ_ONLY; 3]),
        ("all write only", [WRITE_ONLY; 3]),
        ("a root read only", [READ_ONLY, 0, 0]),
        ("a root write only", [WRITE_ONLY, 0, 0]),
        ("a leaf read only", [0, 0, READ_ONLY]),
        ("a leaf write only", [0, 0, WRITE_ONLY]),
        ("a segment read only", [0, READ_ONLY, 0]),
        ("a segment write only", [0, WRITE_ONLY, 0]),
        ("a segment that no walk reaches", [READ_ONLY, WRITE_ONLY, 0]),
        ("a leaf that no walk reaches", [WRITE_ONLY, 0, READ_ONLY]),
    ] {
        for (beside, taken) in [(0, true), (1, false)] {
            for side in 0..2 {
                let mut draft = doubled(10, beside);
                let last = draft.nodes.len() - 1;
                for (place, node) in [0, 5, last].into_iter().enumerate() {
                    draft.nodes[node].access = accesses[place];
                }
                let other = joined(1);
                let sides = if side == 0 { [&draft, &other] } else { [&other, &draft] };
                let tables = tables(sides[0], sides[1]);
                let expected = (!taken).then_some(refusal(10, 1 + 2 * side, 0));
                let name = format!("{} paths, {name}, side {side}", 1_024 + beside);
                limits.push(Limit { name, tables, expected });
            }
        }
    }
    limits
}

/// Where a bank begins.
fn at_limits() -> Vec<Limit> {
    let mut limits = Vec::new();
    for (table, at, taken) in [
        (LEAF_PAIRS, 0, true),
        (LEAF_PAIRS, 1, true),
        (LEAF_PAIRS, MAX_AT, true),
        (LEAF_PAIRS, MAX_AT + 1, false),
        (LEAF_PAIRS, -1, false),
        (ROOT_PAIRS, 0, true),
        (ROOT_PAIRS, 1, false),
        (ROOT_PAIRS, MAX_AT, false),
        (ROOT_PAIRS, MAX_AT + 1, false),
        (ROOT_PAIRS, -1, false),
    ] {
        let mut tables = tables(&joined(1), &joined(1));
        tables[table][2] = at;
        let expected = (!taken).then_some(refusal(16, table, 0));
        limits.push(Limit { name: format!("at {at} in table {table}"), tables, expected });
    }
    limits
}

/// How many rows and paths a group has.
fn group_limits() -> Vec<Limit> {
    let mut limits = Vec::new();
    for rows in [999, 1_000, 1_001] {
        let expected = (rows > 1_000).then_some(refusal(1, LEAF_PAIRS, 0));
        let name = format!("{rows} banks of a leaf");
        limits.push(Limit { name, tables: banked(&vec![0; rows]), expected });
    }
    for (edges, taken) in [
        (&[512, 512][..], true),
        (&[512, 513], false),
        (&[513, 512], false),
        (&[0, 1_024], true),
        (&[0, 1_025], false),
        (&[1, 1_024], false),
        (&[1_025, 0, 0], false),
        (&[341, 341, 342], true),
        (&[342, 341, 342], false),
        (&[1; 1_000], true),
    ] {
        let expected = (!taken).then_some(refusal(10, IMPL_EDGES, 0));
        let name = format!("paths to the banks of a leaf: {:?}", &edges[..edges.len().min(3)]);
        limits.push(Limit { name, tables: banked(edges), expected });
    }
    limits
}

/// A root, a leaf, and how many edges join them beside the one that joins any two.
type More = (usize, usize, usize);

/// Three roots joined with four leaves.
fn three_by_four((root, leaf, more): More) -> Draft {
    let mut draft = unjoined(3, 4);
    for (from, to) in (0..3).flat_map(|from| (3..7).map(move |to| (from, to))) {
        draft.join(from, to, 0);
    }
    (0..more).for_each(|_| draft.join(root, 3 + leaf, 0));
    draft
}

/// In which row refusal 10 is told, where two leaves have two banks each.
fn paths_of_groups() -> Vec<Limit> {
    const NONE: More = (0, 0, 0);
    const IN_TURN: [usize; 4] = [0, 1, 0, 1];
    const NEIGHBOURS: [usize; 4] = [0, 0, 1, 1];
    const AROUND: [usize; 4] = [0, 1, 1, 0];
    let mut limits = Vec::new();
    for (name, leaves, more_spec, more_impl, expected) in [
        ("1,024 paths to a group", IN_TURN, NONE, (1, 3, 1_022), None),
        ("1,025 paths, later bank", IN_TURN, NONE, (1, 3, 1_023), Some((3, 1_001))),
        ("1,025 paths, earlier bank", IN_TURN, NONE, (2, 0, 1_023), Some((3, 2_000))),
        ("1,025 paths to a leaf", IN_TURN, (1, 1, 1_024), NONE, Some((1, 1_001))),
        ("1,025 paths to a leaf unpaired", IN_TURN, (1, 3, 1_024), NONE, None),
        ("leaf and its group", IN_TURN, (1, 1, 1_024), (1, 3, 1_023), Some((1, 1_001))),
        ("leaf and a group before it", IN_TURN, (1, 1, 1_024), (1, 2, 1_023), Some((3, 1_000))),
        ("leaf and a group after it", IN_TURN, (1, 0, 1_024), (1, 1, 1_023), Some((1, 1_000))),
        ("later bank of neighbours", NEIGHBOURS, NONE, (2, 3, 1_023), Some((3, 2_002))),
        ("earlier bank of neighbours", NEIGHBOURS, NONE, (2, 2, 1_023), Some((3, 2_002))),
        ("leaf of neighbours", NEIGHBOURS, (0, 1, 1_024), NONE, Some((1, 2))),
        ("last bank of a group around another", AROUND, NONE, (1, 3, 1_023), Some((3, 1_000))),
        ("last bank within", AROUND, NONE, (1, 2, 1_023), Some((3, 1_001))),
    ] {
        let (spec, implementation) = (three_by_four(more_spec), three_by_four(more_impl));
        let tables = tables(&spec.with_leaf_rows(&leaves), &implementation);
        let expected = expected.map(|(table, row)| refusal(10, table, row));
        limits.push(Limit { name: name.to_string(), tables, expected });
    }
    limits
}

/// Each limit from both sides, in the specification and in the implementation.
pub fn limits() -> Vec<Limit> {
    let graphs = [
        ("1,999 nodes", filled(1_999, 1), None),
        ("2,000 nodes", filled(2_000, 1), None),
        ("2,001 nodes", filled(2_001, 1), Some((1, 0, 0))),
        ("2,599 edges", filled(3, 2_599), None),
        ("2,600 edges", filled(3, 2_600), None),
        ("2,601 edges", filled(3, 2_601), Some((1, 1, 0))),
        ("base 0", with_node(0, 1), None),
        ("base below 0", with_node(-1, 2), Some((2, 0, 2))),
        ("range 0", with_node(0, 0), Some((2, 0, 2))),
        ("range at 2^48", with_node(0, MAX_UNITS), None),
        ("range above 2^48", with_node(0, MAX_UNITS + 1), Some((2, 0, 2))),
        ("base below 2^48", with_node(MAX_UNITS - 1, 1), None),
        ("base + range at 2^48", with_node(1, MAX_UNITS - 1), None),
        ("base + range above 2^48", with_node(1, MAX_UNITS), Some((2, 0, 2))),
        ("base at 2^48", with_node(MAX_UNITS, 1), Some((2, 0, 2))),
        ("offset at 2^48", with_offset(MAX_UNITS), None),
        ("offset above 2^48", with_offset(MAX_UNITS + 1), Some((3, 1, 1))),
        ("offset at -2^48", with_offset(-MAX_UNITS), None),
        ("offset below -2^48", with_offset(-MAX_UNITS - 1), Some((3, 1, 1))),
        ("chain of 63", chained(63), None),
        ("chain of 64", chained(64), None),
        ("chain of 65", chained(65), Some((6, 0, 0))),
        ("1,023 paths", joined(1_023), None),
        ("1,024 paths", joined(1_024), None),
        ("1,025 paths", joined(1_025), Some((10, 1, 0))),
        ("1,024 paths over doubled edges", doubled(10, 0), None),
        ("1,025 paths over doubled edges", doubled(10, 1), Some((10, 1, 0))),
        ("2,048 paths over doubled edges", doubled(11, 0), Some((10, 1, 0))),
        ("doubled edges along a chain of 64", doubled(64, 0), Some((10, 1, 0))),
        ("no edge", joined(0), None),
        ("2,000 nodes, 2,600 edges", filled(2_000, 2_600), None),
    ];
    let mut limits = Vec::new();
    for (name, draft, expected) in graphs {
        for side in 0..2 {
            let other = joined(1);
            let (spec, implementation) =
                if side == 0 { (&draft, &other) } else { (&other, &draft) };
            let tables = tables(spec, implementation);
            let expected =
                expected.map(|(number, table, row)| refusal(number, table + 2 * side, row));
            limits.push(Limit { name: format!("{name}, side {side}"), tables, expected });
        }
    }
    let pairings = [
        (999, 999, None),
        (1_000, 1_000, None),
        (1_001, 2, Some(refusal(1, ROOT_PAIRS, 0))),
        (2, 1_001, Some(refusal(1, LEAF_PAIRS, 0))),
        (0, 1_001, Some(refusal(1, LEAF_PAIRS, 0))),
        (0, 1, Some(refusal(9, ROOT_PAIRS, 0))),
        (1, 0, Some(refusal(9, LEAF_PAIRS, 0))),
        (0, 0, Some(refusal(9, ROOT_PAIRS, 0))),
    ];
    for (roots, leaves, expected) in pairings {
        let draft = unjoined(roots, leaves);
        let name = format!("{roots} root pairs, {leaves} leaf pairs");
        limits.push(Limit { name, tables: tables(&draft, &draft), expected });
    }
    limits.extend(access_limits());
    limits.extend(paths_of_closed_nodes());
    limits.extend(at_limits());
    limits.extend(group_limits());
    limits.extend(paths_of_groups());
    let paths = [
        ("1,025 paths on both sides", [(1, 2), (1, 2)], refusal(10, SPEC_EDGES, 1_002)),
        ("1,025 paths, implementation earlier", [(2, 0), (1, 2)], refusal(10, IMPL_EDGES, 1_002)),
        ("1,025 paths, specification earlier", [(1, 1), (2, 2)], refusal(10, SPEC_EDGES, 1_001)),
    ];
    for (name, pairs, expected) in paths {
        let [spec, implementation] = pairs.map(|(root, leaf)| crowded(root, leaf));
        let tables = tables(&spec, &implementation);
        limits.push(Limit { name: name.to_string(), tables, expected: Some(expected) });
    }
    limits
}

/// Roots and leaves of which the last are joined by more than 1,024 paths.
fn crowded_at_end(roots: usize, leaves: usize) -> Draft {
    let mut draft = unjoined(roots, leaves);
    let mut last = roots - 1;
    for _ in 0..11 {
        let next = draft.node(SEGMENT, 0, 1, 8);
        (0..2).for_each(|_| draft.join(last, next, 0));
        last = next;
    }
    draft.join(last, roots + leaves - 1, 0);
    draft
}

/// Full tables whose last row alone is refused.
pub fn far_rows() -> Vec<Limit> {
    let mut last_unit = filled(2_000, 1);
    last_unit.nodes[1_999].unit = 7;
    let mut last_access = filled(2_000, 1);
    last_access.nodes[1_999].access = 3;
    let mut last_end = filled(3, 2_600);
    last_end.edges[2_599].to = 3;
    let mut last_start = filled(3, 2_600);
    last_start.edges[2_599].from = 1;
    let graphs = [
        ("unit of the last node", last_unit, (2, 0, 1_999)),
        ("access of the last node", last_access, (2, 0, 1_999)),
        ("end of the last edge", last_end, (3, 1, 2_599)),
        ("start of the last edge", last_start, (4, 1, 2_599)),
    ];
    let mut limits = Vec::new();
    for (name, draft, (number, table, row)) in graphs {
        let sides = [tables(&draft, &joined(1)), tables(&joined(1), &draft)];
        for (side, tables) in sides.into_iter().enumerate() {
            let expected = Some(refusal(number, table + 2 * side, row));
            limits.push(Limit { name: format!("{name}, side {side}"), tables, expected });
        }
    }
    // Rows that name where a bank begins are longer, and leave room for fewer.
    for (number, table, column, value, [roots, leaves]) in [
        (7, ROOT_PAIRS, 0, 1_000, [1_000, 1_000]),
        (8, ROOT_PAIRS, 1, 0, [1_000, 1_000]),
        (16, ROOT_PAIRS, 2, 1, [1_000, 900]),
        (7, LEAF_PAIRS, 1, 0, [1_000, 1_000]),
        (8, LEAF_PAIRS, 1, 1_000, [1_000, 1_000]),
        (16, LEAF_PAIRS, 2, MAX_AT + 1, [900, 1_000]),
    ] {
        let full = unjoined(roots, leaves);
        let mut tables = tables(&full, &full);
        tables[table][999 * WIDTHS[table] + column] = value;
        let expected = Some(refusal(number, table, 999));
        limits.push(Limit {
            name: format!("{number} at the last pair of {table}"),
            tables,
            expected,
        });
    }
    let (few, many) = (unjoined(980, 1_000), crowded_at_end(980, 1_000));
    for (edges, tables) in [(SPEC_EDGES, tables(&many, &few)), (IMPL_EDGES, tables(&few, &many))] {
        let expected = Some(refusal(10, edges, 979_999));
        limits.push(Limit { name: format!("paths of the last pair, {edges}"), tables, expected });
    }
    // The crowded leaf is the last bank of a group that another row leads.
    for leading in [0, 1, 998] {
        let mut spec = few.clone();
        spec.leaves[999] = spec.leaves[leading];
        let (tables, expected) = (tables(&spec, &many), refusal(10, IMPL_EDGES, 979_000 + leading));
        let name = format!("paths of the last bank, group {leading}");
        limits.push(Limit { name, tables, expected: Some(expected) });
    }
    limits
}

/// A valid text of exactly that many bytes in which nothing is connected: bases
/// of roots and leaves are made longer digit by digit.
pub fn text_of_length(length: usize) -> Vec<u8> {
    const LONGEST: i64 = 100_000_000_000_000;
    let mut draft = unjoined(1_000, 1_000);
    let mut missing = length - plain_text(&tables(&draft, &draft)).len();
    // Both sides share the draft, so a digit counts twice; one side may have one more.
    let implementation_extra = missing % 2;
    missing /= 2;
    for node in &mut draft.nodes {
        while missing > 0 && node.base < LONGEST {
            // The base 0 takes one byte already.
            node.base = if node.base == 0 { 10 } else { node.base * 10 };
            missing -= 1;
        }
    }
    let mut implementation = draft.clone();
    if implementation_extra == 1 {
        implementation.nodes[1_999].base = 10;
    }
    plain_text(&tables(&draft, &implementation))
}
