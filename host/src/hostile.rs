//! Map texts that are slow for a checker, made for the limits of a text: many pairs, as
//! many paths and as many edges along a path as may be, and few lines to show for it. Most
//! are there twice: as drawn up, with the heavy part on the leaves' side, and turned round,
//! with the heavy part on the roots' side. And random maps of the same kinds.
//!
//! All nodes of the texts count in units of 8 bits; offsets, bases and ranges are units.

use crate::generate::{groups, implemented, implemented_with, plain_text, root_rows, tables};
use crate::generate::{Closed, Draft, Edge, Random, SEGMENT};
use crate::reference::{Tables, BLOCK, READ_ONLY, SPACE, WRITE_ONLY};

/// Records that an engine may keep for a graph if its lists share an arena of fixed size.
pub const ARENA: usize = 3_072;

/// Units in the window of each node between roots and leaves, which clips nothing: more
/// than the offsets along a path are together.
const SPAN: i64 = 9_999;
const SHORT_SPAN: i64 = 9;
/// Edges between the first node behind a root and the last before a leaf, where the chain
/// is as long as may be.
const INNER_CHAIN: usize = 62;
/// Roots that see a record where all the others see none.
const LIVE: usize = 4;

pub struct Hostile {
    pub name: String,
    pub tables: Tables,
}

impl Hostile {
    pub fn text(&self) -> Vec<u8> {
        plain_text(&self.tables)
    }

    /// Root rows and groups.
    pub fn rows(&self) -> [usize; 2] {
        [root_rows(&self.tables), groups(&self.tables)]
    }
}

// Parts of graphs

/// A step along a path, with an edge for each offset.
type Step = Vec<i64>;

/// Steps that double the paths: together they lead from unit i * spacing to unit 0, for each
/// i. The small offsets come first, so that a run from the middle dies at the last step.
fn spread(spacing: i64, steps: usize) -> Vec<Step> {
    (0..steps).map(|step| vec![0, spacing << step]).collect()
}

/// The same steps with steps of one edge before the last, so that there are that many.
fn with_chain(mut steps: Vec<Step>, count: usize) -> Vec<Step> {
    let last = steps.len() - 1;
    let chain = vec![vec![0]; count - steps.len()];
    steps.splice(last..last, chain);
    steps
}

/// Joins two nodes by steps, through a node of its own behind each step but the last.
fn lead(draft: &mut Draft, from: usize, to: usize, steps: &[Step]) {
    let span = draft.nodes[from].range;
    let mut last = from;
    for (place, offsets) in steps.iter().enumerate() {
        let end = place + 1 == steps.len();
        let next = if end { to } else { draft.node(SEGMENT, 0, span, 8) };
        offsets.iter().for_each(|&offset| draft.join(last, next, offset));
        last = next;
    }
}

/// That many nodes that clip nothing, in rows from 0 on: most edges name one of them, and a
/// low row is short.
fn inner(count: usize, span: i64) -> Draft {
    let mut draft = Draft::default();
    (0..count).for_each(|_| _ = draft.node(SEGMENT, 0, span, 8));
    draft
}

/// A root of one unit before a node.
fn root(draft: &mut Draft, base: i64, to: usize) {
    let root = draft.root(base, 1, 8);
    draft.join(root, to, 0);
}

/// That many leaves of one unit behind a node.
fn leaves(draft: &mut Draft, count: usize, from: usize) {
    for _ in 0..count {
        let leaf = draft.leaf(0, 1, 8);
        draft.join(from, leaf, 0);
    }
}

/// Units from one of the 1,024 records of a hub to the next, the first at unit 0.
const SPACING: i64 = 2;

/// Roots before hubs in turn. Each stands in a gap between records, all but the last, which
/// live. The first two before a hub are in its outermost gaps, so that no record but two is
/// out of their reach; the others are in the middle, each in another gap.
fn roots_in_gaps(draft: &mut Draft, count: usize, hubs: usize, live: usize) {
    for number in 0..count {
        let record = match number / hubs {
            0 => 0,
            1 => 1_022,
            _ => 512 - count / 2 + number,
        };
        let gap = i64::from(number + live < count);
        root(draft, SPACING * record as i64 + gap, number % hubs);
    }
}

/// The graph with each edge the other way round: root bits and leaf bits are exchanged.
fn turned(draft: &Draft) -> Draft {
    let mut turned = draft.clone();
    for edge in &mut turned.edges {
        (edge.from, edge.to, edge.offset) = (edge.to, edge.from, -edge.offset);
    }
    (turned.roots, turned.leaves) = (draft.leaves.clone(), draft.roots.clone());
    turned.at = vec![0; turned.leaves.len()];
    turned.roots.iter().for_each(|&root| turned.nodes[root].kind = SPACE);
    turned.leaves.iter().for_each(|&leaf| turned.nodes[leaf].kind = BLOCK);
    turned
}

// Graphs

/// Roots in gaps between the 1,024 records of a hub, before as many paths of 64 edges; some
/// live. Slow for an engine that lists each pair by itself, since half of the runs die only
/// behind the last doubled edge, and for one that keeps the list of the hub, since each root
/// sees another part of it. Turned round, each root brings the hub 1,024 records, and each
/// leaf sees another gap between them: slow for an engine that goes forward from the roots.
fn gaps(count: usize, live: usize) -> Draft {
    let mut draft = inner(2, SPAN);
    roots_in_gaps(&mut draft, count, 1, live);
    leaves(&mut draft, count, 1);
    lead(&mut draft, 0, 1, &with_chain(spread(SPACING, 10), INNER_CHAIN));
    draft
}

/// The same behind that many hubs in turn, each with two edges of its own to the paths that
/// all share. Slow for an engine that keeps the list of one node; turned round, for one that
/// makes a list of 1,024 records for each root and hub, or has no room for it.
fn gaps_behind(hubs: usize, count: usize) -> Draft {
    let mut draft = inner(hubs + 2, SPAN);
    let (top, foot) = (hubs, hubs + 1);
    roots_in_gaps(&mut draft, count, hubs, LIVE);
    leaves(&mut draft, count, foot);
    (0..hubs).for_each(|hub| lead(&mut draft, hub, top, &spread(SPACING, 1)));
    lead(&mut draft, top, foot, &with_chain(spread(2 * SPACING, 9), INNER_CHAIN - 1));
    draft
}

/// The same, and two more roots before each of many nodes of 32 records, one below these and
/// one above. Slow for an engine that keeps a list a node; turned round, for one whose lists
/// share an arena: the many nodes are met long before the hubs and fill it.
fn filled_arena(fillers: usize, hubs: usize, count: usize) -> Draft {
    let mut draft = gaps_behind(hubs, count - 2 * fillers);
    let (foot, shared) = (hubs + 1, draft.node(SEGMENT, 0, SPAN, 8));
    for _ in 0..fillers {
        let filler = draft.node(SEGMENT, 0, SPAN, 8);
        [2, 4].iter().for_each(|&offset| draft.join(filler, shared, offset));
        [1, 2_000].iter().for_each(|&base| root(&mut draft, base, filler));
    }
    lead(&mut draft, shared, foot, &spread(100, 4));
    leaves(&mut draft, 2 * fillers, foot);
    draft
}

/// Roots before 512 paths of 64 edges, all of one displacement, which die at the last edge
/// but one: between the two places at which the foot is seen. Some live. Slow for an engine
/// that goes path by path. With hubs, the roots are before these in turn: slow for one that
/// keeps what is behind one node.
fn late(hubs: usize, count: usize) -> Draft {
    let mut draft = inner(hubs + 2, SHORT_SPAN);
    let (top, foot) = (hubs, hubs + 1);
    for number in 0..count {
        let to = if hubs == 0 { top } else { number % hubs };
        root(&mut draft, i64::from(number + LIVE < count), to);
    }
    leaves(&mut draft, count, foot);
    (0..hubs).for_each(|hub| draft.join(hub, top, 0));
    let steps = [vec![vec![0, 0]; 9], vec![vec![0, 2]]].concat();
    lead(&mut draft, top, foot, &with_chain(steps, INNER_CHAIN - usize::from(hubs > 0)));
    draft
}

/// Each root sees 512 of the 1,024 records of a hub, each from another on; leaves of that
/// many units. Slow for an engine that shares a list between roots that see all of it;
/// turned round, for one that goes over a whole list for each leaf.
fn parts(roots: usize, leaves: usize, leaf_range: i64) -> Draft {
    let mut draft = inner(2, SPAN);
    for number in 0..roots as i64 {
        let root = draft.root(4 * number, 4 * 512, 8);
        draft.join(root, 0, 0);
    }
    for _ in 0..leaves {
        let leaf = draft.leaf(0, leaf_range, 8);
        draft.join(1, leaf, 0);
    }
    lead(&mut draft, 0, 1, &with_chain(spread(4, 10), INNER_CHAIN));
    draft
}

/// Places of the records of a hub behind a narrow node, and ways into that node.
const PLACES: i64 = 31;

/// Wide roots before a node of one unit that is entered in 31 ways, and a hub behind it that is
/// entered in 31 ways again: 961 records at 31 places, with gaps between them. All leaves
/// but the last stand in a gap. Slow for an engine that searches a list by displacement: a
/// wide root has records of most displacements near every place.
fn wide_roots(count: usize, live: usize) -> Draft {
    let mut draft = inner(2, SPAN);
    for _ in 0..count {
        let root = draft.root(0, 2 * PLACES, 8);
        draft.join(root, 0, 0);
    }
    for number in 0..count {
        let gap = i64::from(number + live < count);
        let leaf = draft.leaf(2 * (number as i64 % PLACES) + gap, 1, 8);
        draft.join(1, leaf, 0);
    }
    let narrow = draft.node(SEGMENT, 0, 1, 8);
    (0..PLACES).for_each(|way| draft.join(0, narrow, 2 * way));
    (0..PLACES).for_each(|place| draft.join(narrow, 1, -2 * place));
    draft
}

/// Edges of unlike offsets from one node to another, as many as there may be paths.
const PARALLEL: i64 = 1_024;

/// Roots of one unit before a hub that is entered by 1,024 parallel edges, and leaves in gaps
/// between its records, all but the last. Slow for an engine that has no room for a list of
/// 1,024 records, and goes over all edges for each leaf.
fn parallel_edges(count: usize, live: usize) -> Draft {
    let mut draft = inner(2, SPAN);
    (0..count).for_each(|_| root(&mut draft, 0, 0));
    for number in 0..count {
        let gap = i64::from(number + live < count);
        let leaf = draft.leaf(2 * number as i64 + gap, 1, 8);
        draft.join(1, leaf, 0);
    }
    (0..PARALLEL).for_each(|way| draft.join(0, 1, -2 * way));
    draft
}

/// The same beside nodes that double the paths, far before their leaf: slow for an engine whose
/// lists share an arena, since their 1,022 records are met before the hub.
fn beside_lists(mut draft: Draft) -> Draft {
    let foot = draft.node(SEGMENT, 0, SPAN, 8);
    let tail = vec![vec![0]; 12];
    lead(&mut draft, 0, foot, &[spread(-1, 9), tail].concat());
    leaves(&mut draft, 1, foot);
    draft
}

/// Some roots before all leaves, the others before none. Slow for an engine that looks at
/// each pair, or that makes a long report in parts.
fn few_joined(count: usize) -> Draft {
    let mut draft = inner(1, SHORT_SPAN);
    leaves(&mut draft, count, 0);
    for number in 0..count {
        let root = draft.root(0, 1, 8);
        if number + LIVE >= count {
            draft.join(root, 0, 0);
        }
    }
    draft
}

/// Leaf rows that all roots of `long_report` reach.
const REACHED: usize = 7;

/// Roots in gaps for all leaves but the last few, which they reach: with these the report is
/// longer than its buffer, and with one less it would fit. Slow for an engine that goes leaf
/// row by leaf row and learns it at the end; turned round, for one that goes root row by
/// root row.
fn long_report(count: usize) -> Draft {
    let mut draft = gaps(count, 0);
    let reached = &draft.leaves[count - REACHED..];
    reached.iter().for_each(|&leaf| draft.nodes[leaf].base = 1);
    draft
}

/// The graph with an edge more from the last root to the last leaf, which makes 1,025 paths.
/// Slow for an engine that counts paths pair by pair.
fn crowded(mut draft: Draft) -> Draft {
    let ends = [&draft.roots, &draft.leaves].map(|rows| rows[rows.len() - 1]);
    draft.join(ends[0], ends[1], 0);
    draft
}

/// Root i and leaf j meet where i and j are alike in their last two digits; between them a
/// hub, and that many edges to the foot. Slow for an engine that walks from each root to
/// each leaf. Turned round it is the same.
fn alike_digits(count: usize, chain: usize) -> Draft {
    let mut draft = inner(2, 100);
    let digits = |number: usize| number as i64 % 100;
    (0..count).for_each(|number| root(&mut draft, digits(number), 0));
    for number in 0..count {
        let leaf = draft.leaf(digits(number), 1, 8);
        draft.join(1, leaf, 0);
    }
    lead(&mut draft, 0, 1, &vec![vec![0]; chain]);
    draft
}

/// Unit at which the first of the ways of `all_unequal` begins: more than its offsets along a
/// path are together.
const FIRST_WAY: i64 = 2_000;

/// A root before leaves, over a hub that is entered in that many ways: each through a node of
/// one unit, with the displacements in no order of places. In the implementation each leaf is a
/// unit further, so that no record of a pair is in both lists. Slow for an engine that searches
/// the lowest unequal bit of each pair, though that of the first unequal pair alone is told.
pub fn all_unequal(leaves: usize, ways: usize) -> [Draft; 2] {
    let places = scattered(ways);
    [0, 1].map(|further| {
        let mut draft = inner(1, SPAN);
        let root = draft.root(0, SPAN, 8);
        for way in 0..ways {
            let place = FIRST_WAY + SPACING * places(way) as i64;
            let node = draft.node(SEGMENT, place, 1, 8);
            draft.join(root, node, 0);
            draft.join(node, 0, way as i64);
        }
        for number in 0..leaves {
            let leaf = draft.leaf(0, SPAN, 8);
            draft.join(0, leaf, number as i64 + further);
        }
        draft
    })
}

// Groups of banks

/// Roots before one leaf that each sees in as many places as it has banks, all displacements
/// unlike and below 0; `order` tells which place the bank of a row has. In the order of the
/// places the records come in reverse. Slow for an engine that goes over the graph for each
/// root and bank, or that puts the records of one bank after the other into their list.
fn many_banks(count: usize, order: impl Fn(usize) -> usize) -> [Draft; 2] {
    let mut hub = inner(1, SPAN);
    (0..count).for_each(|_| root(&mut hub, 0, 0));
    let (mut spec, mut implementation) = (hub.clone(), hub);
    let leaf = spec.leaf(0, SPAN, 8);
    (0..count as i64).for_each(|place| spec.join(0, leaf, -2 * place));
    spec.leaves = vec![leaf; count];
    for row in 0..count {
        let bank = implementation.bank(0, 1, 8, 16 * order(row) as i64);
        implementation.join(0, bank, 0);
    }
    [spec, implementation]
}

/// An order in which neighbours are far apart.
fn scattered(count: usize) -> impl Fn(usize) -> usize {
    const STEP: usize = 389;
    move |row| row * STEP % count
}

/// Each pair has as many records as there are banks of a leaf and records of a hub before
/// them together, and those of the banks interleave. Roots of 3 units, and of 2 in the
/// implementation. Slow for an engine that goes over a list or its banks more than a few times.
fn interleaved_banks(roots: usize, leaves: usize, banks: usize, records: usize) -> [Draft; 2] {
    let by_bank: Step = (0..records as i64).map(|record| -(banks as i64) * record).collect();
    let by_unit: Step = (0..banks as i64).map(|unit| -unit).collect();
    let side = |range: i64, steps: &[Step]| {
        let mut draft = inner(2, SPAN);
        for _ in 0..roots {
            let root = draft.root(0, range, 8);
            draft.join(root, 0, 0);
        }
        lead(&mut draft, 0, 1, steps);
        draft
    };
    let (mut spec, mut implementation) =
        (side(3, &[by_bank.clone(), by_unit]), side(2, &[by_bank]));
    for _ in 0..leaves {
        let leaf = spec.leaf(0, SPAN, 8);
        spec.join(1, leaf, 0);
    }
    // Leaf by leaf a bank of each, so that no two rows of a group are neighbours.
    let (order, mut rows) = (scattered(banks), Vec::new());
    for unit in (0..banks).map(order) {
        for leaf in 0..leaves {
            let bank = implementation.bank(0, SPAN, 8, 8 * unit as i64);
            implementation.join(1, bank, 0);
            rows.push(leaf);
        }
    }
    [spec.with_leaf_rows(&rows), implementation]
}

/// The graph without the leaves that no row names.
fn without_unpaired(draft: &Draft) -> Draft {
    let kept = |node: usize| draft.nodes[node].kind != BLOCK || draft.leaves.contains(&node);
    let kept: Vec<bool> = (0..draft.nodes.len()).map(kept).collect();
    let place = |node: usize| kept[..node].iter().filter(|&&kept| kept).count();
    let edge = |edge: &Edge| Edge { from: place(edge.from), to: place(edge.to), ..*edge };
    let places = |nodes: &[usize]| nodes.iter().map(|&node| place(node)).collect();
    Draft {
        nodes: (0..kept.len()).filter(|&node| kept[node]).map(|node| draft.nodes[node]).collect(),
        edges: draft.edges.iter().filter(|edge| kept[edge.to]).map(edge).collect(),
        roots: places(&draft.roots),
        leaves: places(&draft.leaves),
        at: draft.at.clone(),
    }
}

/// The graph as an implementation whose leaf rows are groups of two banks, the first row with
/// the last, and the specification: it has the later row of each group alone. Where all live
/// leaves are in the later rows, or all leaves are alike, the two are equal.
fn in_pairs(draft: Draft) -> [Draft; 2] {
    let mut spec = draft.clone();
    let last = spec.leaves.len() - 1;
    (0..=last / 2).for_each(|row| spec.leaves[row] = spec.leaves[last - row]);
    [without_unpaired(&spec), draft]
}

/// Roots in gaps as in `gaps`, with half as many paths, so that a leaf may have two banks.
fn gaps_of_half(count: usize) -> Draft {
    let mut draft = inner(2, SPAN);
    for number in 0..count {
        let record = if number == 1 { 510 } else { number % 511 };
        let gap = i64::from(number + LIVE < count);
        root(&mut draft, SPACING * record as i64 + gap, 0);
    }
    leaves(&mut draft, count, 1);
    lead(&mut draft, 0, 1, &with_chain(spread(SPACING, 9), INNER_CHAIN));
    draft
}

/// The last root has a path more to the later bank of the last group, which makes 1,025 to
/// its two banks. Slow for an engine that counts paths by bank and root.
fn crowded_group([spec, mut implementation]: [Draft; 2]) -> [Draft; 2] {
    let root = implementation.roots[implementation.roots.len() - 1];
    let bank = implementation.leaves[implementation.leaves.len() / 2];
    implementation.join(root, bank, 0);
    [spec, implementation]
}

// Accesses

/// The graphs with a read only node on no path more in the specification. Slow for an engine
/// that does all of its work once for each kind of walk, though the lists are the same.
pub fn with_one_access([mut spec, implementation]: [Draft; 2]) -> [Draft; 2] {
    let node = spec.node(SEGMENT, 0, 1, 8);
    spec.nodes[node].access = READ_ONLY;
    [spec, implementation]
}

/// The graph with its first nodes, as many as there are hubs, read only and write only in turn:
/// half of the roots are seen by each kind of walk.
fn with_hubs_of_either_kind(mut draft: Draft, hubs: usize) -> Draft {
    for (hub, node) in draft.nodes[..hubs].iter_mut().enumerate() {
        node.access = [READ_ONLY, WRITE_ONLY][hub % 2];
    }
    draft
}

// Texts

/// A map of two drafts.
fn straight(name: &str, [spec, implementation]: [Draft; 2]) -> Hostile {
    Hostile { name: name.to_string(), tables: tables(&spec, &implementation) }
}

/// The map, and the map of both drafts turned round.
fn both_ways(name: &str, sides: [Draft; 2]) -> [Hostile; 2] {
    let back = [turned(&sides[0]), turned(&sides[1])];
    [straight(name, sides), straight(&format!("{name}, turned"), back)]
}

/// The maps with as many rows as a text has room for, or with as many lines as a report has, or
/// so many times fewer.
fn maps(fewer: usize) -> Vec<Hostile> {
    let few = |count: usize| count / fewer;
    let fillers = few(ARENA / 32);
    let alike = |draft: Draft| [draft.clone(), draft];
    let maps = [
        both_ways("roots in gaps of a hub", alike(gaps(few(570), LIVE))),
        both_ways("roots in gaps behind 2 hubs", alike(gaps_behind(2, few(570)))),
        both_ways("roots in gaps behind 4 hubs", alike(gaps_behind(4, few(570)))),
        both_ways("roots in gaps behind 100 hubs", alike(gaps_behind(few(100), few(490)))),
        both_ways("paths that die late", alike(late(0, few(616)))),
        both_ways("paths that die late behind 2 hubs", alike(late(2, few(616)))),
        both_ways("paths that die late behind 4 hubs", alike(late(4, few(615)))),
        both_ways("nodes that fill an arena", alike(filled_arena(fillers, 1, few(505)))),
        both_ways("nodes that fill an arena, 4 hubs", alike(filled_arena(fillers, 4, few(505)))),
        both_ways("each root another part of a hub", [3, 2].map(|it| parts(few(340), 8, it))),
        both_ways("wide roots, leaves in gaps of a hub", alike(wide_roots(few(570), LIVE))),
        both_ways("leaves in gaps of parallel edges", alike(parallel_edges(few(400), LIVE))),
        both_ways(
            "leaves in gaps of parallel edges, beside lists",
            alike(beside_lists(parallel_edges(few(390), LIVE))),
        ),
        both_ways("4 of 799 roots joined", alike(few_joined(few(799)))),
        both_ways("refusal 11 at the last rows", alike(long_report(few(570)))),
        both_ways(
            "refusal 10 at the last pair",
            [gaps(few(570), LIVE), crowded(gaps(few(570), LIVE))],
        ),
    ];
    let same_when_turned = [
        straight("chain of 64, mostly empty", alike(alike_digits(few(543), INNER_CHAIN))),
        straight("hub, mostly empty", alike(alike_digits(few(600), 1))),
    ];
    let paired = gaps_of_half(few(650));
    let with_banks = [
        straight("banks in reverse", many_banks(few(650), |row| row)),
        straight("banks in no order", many_banks(few(650), scattered(few(650)))),
        straight("32 banks of 32 records", interleaved_banks(few(230), 10, 32, 32)),
        straight("100 banks of 10 records", interleaved_banks(few(230), 10, 100, 10)),
        straight("roots in gaps of a hub, two banks", in_pairs(paired.clone())),
        straight("roots in gaps of a hub, two banks, turned", in_pairs(turned(&paired))),
        straight("refusal 10 at the last group", crowded_group(in_pairs(paired))),
    ];
    let sides = all_unequal(few(400), few(300));
    let unequal = [
        straight("400 leaves, 300 ways, all unequal", sides.clone()),
        straight("400 leaves, 300 ways, all unequal, one access", with_one_access(sides)),
    ];
    let of_either_kind = with_hubs_of_either_kind(gaps_behind(4, few(530)), 4);
    let with_accesses = [
        both_ways("roots in gaps, one access", with_one_access(alike(gaps(few(530), LIVE)))),
        both_ways("roots in gaps behind 4 hubs of either kind", alike(of_either_kind)),
        both_ways(
            "nodes that fill an arena, 4 hubs, one access",
            with_one_access(alike(filled_arena(fillers, 4, few(460)))),
        ),
        both_ways(
            "each root another part of a hub, one access",
            with_one_access([3, 2].map(|it| parts(few(340), 8, it))),
        ),
    ];
    let maps = maps.into_iter().chain(with_accesses).flatten();
    maps.chain(same_when_turned).chain(with_banks).chain(unequal).collect()
}

/// The texts, each of at most MAX_TEXT bytes.
pub fn texts() -> Vec<Hostile> {
    maps(1)
}

/// The same maps with fewer rows, which an engine that goes path by path or pair by pair
/// does in no time.
pub fn small_versions() -> Vec<Hostile> {
    maps(24)
}

// Random maps

/// Joins a node to some of those above it: by one edge, by parallel edges of one offset, or
/// by edges of unlike offsets.
fn enter(random: &mut Random, draft: &mut Draft, above: &[usize], node: usize) {
    for _ in 0..random.between(1, 3) {
        let from = random.pick(above);
        draft.fit(random, from, node);
        let offset = draft.edges[draft.edges.len() - 1].offset;
        match random.below(5) {
            0 => draft.join(from, node, offset),
            1 => draft.join(from, node, offset + random.pick(&[1, 2, 8])),
            2 => (1..4).for_each(|more| draft.join(from, node, offset + 3 * more)),
            _ => (),
        }
    }
}

/// Layers of windows, wide and narrow: lists that are cut differently meet, and what is
/// behind sees some of the records, or a gap between them.
fn layered(random: &mut Random) -> Draft {
    let mut draft = Draft::default();
    for _ in 0..random.between(1, 3) {
        draft.root(random.between(0, 9), random.pick(&[1, 8, 30]), 8);
    }
    let mut above = draft.roots.clone();
    for _ in 0..random.between(1, 4) {
        let before = above.clone();
        if random.chance(70) {
            above.clear();
        }
        for _ in 0..random.between(1, 3) {
            let range = random.pick(&[2, 5, 20, 60, 60]);
            let node = draft.node(SEGMENT, random.between(0, 9), range, random.pick(&[8, 8, 16]));
            enter(random, &mut draft, &before, node);
            above.push(node);
        }
    }
    for _ in 0..random.between(2, 6) {
        let leaf = draft.leaf(random.between(0, 12), random.pick(&[1, 2, 9, 30]), 8);
        enter(random, &mut draft, &above, leaf);
    }
    draft
}

/// A small map of layers.
pub fn layered_map(random: &mut Random) -> Tables {
    let spec = layered(random);
    implemented(random, spec)
}

/// Roots before nodes whose lists of 32 records fill an arena, each with a leaf that sees all
/// of them; and before a hub of 1,024 records with leaves that see parts of them or gaps.
pub fn filling_map(random: &mut Random) -> Tables {
    let mut draft = inner(3, SPAN);
    let [top, shared, hub] = [0, 1, 2];
    for base in [0, 7] {
        let root = draft.root(base, random.pick(&[1, 2, 40]), 8);
        draft.join(root, top, 0);
    }
    let upwards = |offsets: Step| offsets.into_iter().map(|offset| -offset).collect::<Step>();
    let upwards = |steps: Vec<Step>| steps.into_iter().map(upwards).collect::<Vec<Step>>();
    lead(&mut draft, top, shared, &upwards(spread(100, 4)));
    for _ in 0..ARENA / 32 {
        let filler = draft.node(SEGMENT, 0, SPAN, 8);
        draft.join(shared, filler, 0);
        draft.join(shared, filler, -random.between(1, 99));
        let leaf = draft.leaf(0, SPAN, 8);
        draft.join(filler, leaf, 0);
    }
    let spacing = random.pick(&[2, 3, 5]);
    let chain = random.between(10, 50) as usize;
    lead(&mut draft, top, hub, &with_chain(upwards(spread(spacing, 10)), chain));
    for _ in 0..12 {
        let range = random.pick(&[1, 1, 9, 900]);
        let leaf = draft.leaf(random.between(0, 1_024 * spacing), range, 8);
        draft.join(hub, leaf, 0);
    }
    let closed = random.pick(&[Closed::None, Closed::Few]);
    implemented_with(random, draft, closed)
}
