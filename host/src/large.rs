//! Named maps from tiny to the limits, for the benchmark and for tests.

use crate::generate::{groups, open_map, plain_text, root_rows, tables, text_of_length, unjoined};
use crate::generate::{Draft, Random, SEGMENT};
use crate::hostile::{all_unequal, with_one_access};
use crate::reference::{
    parse, Tables, WalkKind, ACCESSES, BLOCK, READ_AND_WRITE, READ_ONLY, UNITS,
};
use crate::reference::{IMPL_NODES, LEAF_PAIRS, NODE_WIDTH, SPEC_NODES, WIDTHS};
use crate::reference::{MAX_BATCH, MAX_EDGES, MAX_NODES, MAX_TEXT};

pub struct Map {
    pub name: &'static str,
    pub tables: Tables,
    /// A listing pair by pair ends in reasonable time.
    pub by_pair: bool,
    /// A comparison takes seconds, whichever way it lists.
    pub long: bool,
}

impl Map {
    /// The map as a text, where it fits.
    pub fn text(&self) -> Option<Vec<u8>> {
        Some(plain_text(&self.tables)).filter(|text| text.len() <= MAX_TEXT)
    }

    pub fn pairs(&self) -> usize {
        root_rows(&self.tables) * groups(&self.tables)
    }
}

fn whole(name: &'static str, tables: Tables) -> Map {
    Map { name, tables, by_pair: true, long: false }
}

/// The map of the document.
pub const P1: &str = "\
side kind base range unit
0 0 0 4096 8
0 2 256 64 8
1 0 0 4096 8
1 0 0 12 32
1 2 0 16 32

side from to offset
0 0 1 0
1 0 1 64
1 1 2 0

role spec impl
0 0 0
1 1 2
";

/// Units in the window of each node that clips nothing.
const SPAN: i64 = 1 << 20;

/// Units in the window of a root that sees a part of what is behind it.
const NARROW: i64 = 512;

/// Roots above one segment, stages of doubled edges below it, a chain below them,
/// and at its end the leaves.
#[derive(Clone, Copy)]
struct Funnel {
    roots: usize,
    leaves: usize,
    stages: usize,
    /// Units by which the two edges of the first stage differ; each stage doubles it.
    step: i64,
    chain: usize,
    leaf_range: i64,
    leaf_offset: i64,
    /// Each root stands before a segment of its own.
    bridged: bool,
    /// More roots, which see a part of what the others see.
    narrow: usize,
}

const FUNNEL: Funnel = Funnel {
    roots: 60,
    leaves: 60,
    stages: 10,
    step: 0,
    chain: 0,
    leaf_range: 4,
    leaf_offset: 8,
    bridged: false,
    narrow: 0,
};

impl Funnel {
    fn draft(&self) -> Draft {
        beside(&[*self])
    }

    fn add_to(&self, draft: &mut Draft) {
        let mut last = draft.node(SEGMENT, 0, SPAN, 8);
        for number in 0..self.roots + self.narrow {
            let range = if number < self.roots { SPAN } else { NARROW };
            let mut above = draft.root(0, range, 8);
            if self.bridged {
                let bridge = draft.node(SEGMENT, 0, SPAN, 8);
                draft.join(above, bridge, 0);
                above = bridge;
            }
            draft.join(above, last, 0);
        }
        for stage in 0..self.stages {
            let next = draft.node(SEGMENT, 0, SPAN, 8);
            draft.join(last, next, 0);
            draft.join(last, next, self.step << stage);
            last = next;
        }
        for _ in 0..self.chain {
            let next = draft.node(SEGMENT, 0, SPAN, 8);
            draft.join(last, next, 0);
            last = next;
        }
        for leaf in 0..self.leaves as i64 {
            let block = draft.leaf(0, self.leaf_range, 8);
            draft.join(last, block, self.leaf_offset + leaf);
        }
    }

    fn shorter(self) -> Funnel {
        Funnel { leaf_range: self.leaf_range - 1, ..self }
    }

    fn map(&self, name: &'static str) -> Map {
        let draft = self.draft();
        let by_pair = self.roots * self.leaves < 10_000;
        let long = !by_pair || self.chain > 0;
        Map { name, tables: tables(&draft, &draft), by_pair, long }
    }
}

/// Funnels that share no node.
fn beside(funnels: &[Funnel]) -> Draft {
    let mut draft = Draft::default();
    funnels.iter().for_each(|funnel| funnel.add_to(&mut draft));
    draft
}

/// Root i and leaf j lie around one hub so that only i = j meet.
fn diagonal(name: &'static str, count: i64) -> Map {
    let mut draft = Draft::default();
    (0..count).for_each(|row| _ = draft.root(row, 1, 8));
    (0..count).for_each(|_| _ = draft.leaf(0, 1, 8));
    let hub = draft.node(SEGMENT, 0, count, 8);
    for row in 0..count {
        draft.join(draft.roots[row as usize], hub, 0);
        draft.join(hub, draft.leaves[row as usize], row);
    }
    whole(name, tables(&draft, &draft))
}

/// That many roots and as many leaves around one hub, all connected.
pub fn connected(count: usize) -> Map {
    let funnel = Funnel { roots: count, leaves: count, stages: 0, ..FUNNEL };
    funnel.map("connected through one hub")
}

/// Ten stages that halve a window, a chain below them and the leaves: of the 1,024
/// paths each root sees one.
fn sections(name: &'static str, roots: i64, leaves: usize) -> Map {
    const SECTION: i64 = 4;
    let mut draft = Draft::default();
    let mut last = draft.node(SEGMENT, 0, SECTION << 10, 8);
    for row in 0..roots {
        let root = draft.root(SECTION * row, SECTION, 8);
        draft.join(root, last, 0);
    }
    for stage in (0..10).rev() {
        let half = draft.node(SEGMENT, 0, SECTION << stage, 8);
        draft.join(last, half, 0);
        draft.join(last, half, SECTION << stage);
        last = half;
    }
    for _ in 0..52 {
        let next = draft.node(SEGMENT, 0, SECTION, 8);
        draft.join(last, next, 0);
        last = next;
    }
    for _ in 0..leaves {
        let block = draft.leaf(0, SECTION, 8);
        draft.join(last, block, 0);
    }
    whole(name, tables(&draft, &draft))
}

/// One edge on the specification's side, 1,024 windows of a unit on the other.
fn touching_windows(name: &'static str) -> Map {
    const WINDOWS: i64 = 1_024;
    let spec = Funnel { stages: 0, leaf_range: WINDOWS - 60, leaf_offset: 0, ..FUNNEL }.draft();
    let mut implementation = spec.clone();
    let foot = implementation.node(SEGMENT, 0, WINDOWS, 8);
    for edge in implementation.edges.iter_mut().filter(|edge| edge.from == 0) {
        edge.from = foot;
    }
    for base in 0..WINDOWS {
        let window = implementation.node(SEGMENT, base, 1, 8);
        implementation.join(0, window, 0);
        implementation.join(window, foot, 0);
    }
    whole(name, tables(&spec, &implementation))
}

/// Rows of the two nodes between the roots and the leaves of `hub_and_foot`.
const HUB: usize = 0;
const FOOT: usize = 1;

/// That many roots above a hub, and as many leaves below a foot, all at one place. Each
/// path from hub to foot is to be one record of each pair.
fn hub_and_foot(count: usize, root_range: i64, leaf_range: i64) -> Draft {
    let mut draft = Draft::default();
    (0..2).for_each(|_| _ = draft.node(SEGMENT, 0, SPAN, 8));
    for _ in 0..count {
        let root = draft.root(0, root_range, 8);
        draft.join(root, HUB, 0);
        let leaf = draft.leaf(0, leaf_range, 8);
        draft.join(FOOT, leaf, 0);
    }
    draft
}

/// An edge from hub to foot for each offset: a record from that unit on.
fn with_edges(mut draft: Draft, offsets: impl Iterator<Item = i64>) -> Draft {
    offsets.for_each(|offset| draft.join(HUB, FOOT, offset));
    draft
}

/// Windows between hub and foot: record i has that many units from unit i on, and shows
/// the leaf's from unit 2 * i on.
fn with_windows(mut draft: Draft, records: i64, range: i64) -> Draft {
    for base in 0..records {
        let window = draft.node(SEGMENT, base, range, 8);
        draft.join(HUB, window, 0);
        draft.join(window, FOOT, -base);
    }
    draft
}

/// Every record of the implementation but the last, by displacement and then by first, is
/// contained in one of the specification that has its displacement. The last is within
/// the root bits and the leaf bits of the specification's last, and no record there has
/// its displacement.
fn last_displacement_unlike(name: &'static str, count: usize, records: i64) -> Map {
    let nodes = |leaf_range| hub_and_foot(count, records + 3, leaf_range);
    let spec = with_edges(nodes(4), 0..records);
    let implementation = with_edges(nodes(3), (0..records - 1).chain([records]));
    whole(name, tables(&spec, &implementation))
}

/// Every record of the implementation but the last is the specification's. The last ends
/// one unit behind that of its displacement: the specification's roots are one unit
/// shorter, which cuts its last record alone. Records begin and end where units do, which
/// have 8 bits at least, so that no map has a record that is one bit longer.
fn last_unit_longer(name: &'static str, count: usize, records: i64) -> Map {
    let side = |root_range| with_edges(hub_and_foot(count, root_range, 4), 0..records);
    whole(name, tables(&side(records + 2), &side(records + 3)))
}

/// Every record is contained. The order by displacement is the reverse of the order by
/// first, so that a sort by displacement turns the whole list round.
fn displacements_in_reverse(name: &'static str, count: usize, records: i64) -> Map {
    let nodes = || hub_and_foot(count, records + 1, 2 * records);
    let side = |range| with_windows(nodes(), records, range);
    whole(name, tables(&side(2), &side(1)))
}

/// A system of usual form: each leaf behind a chain of bridges of mixed units that
/// all roots share, some edges doubled, some dead ends; node rows of the
/// implementation numbered against the direction of its edges.
fn system(name: &'static str, leaves: i64, nodes: usize, edges: usize) -> Map {
    const BRIDGES: usize = 16;
    const LEAF_BITS: i64 = 512;
    let roots_and_hubs = |draft: &mut Draft, hubs: usize| -> Vec<usize> {
        let hubs: Vec<usize> = (0..hubs).map(|_| draft.node(SEGMENT, 0, SPAN, 8)).collect();
        for number in 0..5 {
            let root = draft.root(0, SPAN, 8);
            draft.join(root, hubs[number % hubs.len()], 0);
        }
        hubs
    };
    let mut spec = Draft::default();
    let hub = roots_and_hubs(&mut spec, 1)[0];
    let mut implementation = Draft::default();
    let hubs = roots_and_hubs(&mut implementation, 5);
    for leaf in 0..leaves {
        let block = spec.leaf(0, LEAF_BITS / 32, 32);
        spec.join(hub, block, leaf * LEAF_BITS / 32);
        let mut last = implementation.node(SEGMENT, 0, LEAF_BITS / 8, 8);
        hubs.iter().for_each(|&hub| implementation.join(hub, last, leaf * LEAF_BITS / 8));
        for bridge in 1..BRIDGES {
            let unit = UNITS[bridge % UNITS.len()];
            let next = implementation.node(SEGMENT, 0, LEAF_BITS / unit, unit);
            implementation.join(last, next, 0);
            last = next;
        }
        let block = implementation.leaf(0, LEAF_BITS / 32, 32);
        implementation.join(last, block, 0);
    }
    while implementation.nodes.len() < nodes {
        let dead_end = implementation.node(SEGMENT, 0, 1, 8);
        implementation.join(hubs[0], dead_end, 0);
    }
    // Far enough apart that few of them lie on one path.
    for number in 0..edges - implementation.edges.len() {
        implementation.edges.push(implementation.edges[number * 13]);
    }
    let reversed: Vec<usize> = (0..nodes).rev().collect();
    whole(name, tables(&spec, &implementation.renumbered(&reversed)))
}

/// A hub and roots before it, from these bases on.
fn hub_before(range: i64, roots: impl Iterator<Item = i64>, root_range: i64) -> Draft {
    let mut draft = Draft::default();
    draft.node(SEGMENT, 0, range, 8);
    for base in roots {
        let root = draft.root(base, root_range, 8);
        draft.join(root, HUB, 0);
    }
    draft
}

/// Roots before a hub, and one leaf behind it; in the implementation banks of one unit, which
/// touch, so that each pair has one record.
fn banks_of_one_leaf(name: &'static str, roots: usize, banks: usize) -> Map {
    let range = banks as i64;
    let mut spec = hub_before(range, (0..roots).map(|_| 0), range);
    let mut implementation = spec.clone();
    let leaf = spec.leaf(0, range, 8);
    spec.join(HUB, leaf, 0);
    spec.leaves = vec![leaf; banks];
    for unit in 0..range {
        let bank = implementation.bank(0, 1, 8, 8 * unit);
        implementation.join(HUB, bank, unit);
    }
    whole(name, tables(&spec, &implementation))
}

/// One leaf of which each root sees two units, from that of its number on; in the
/// implementation banks of one unit. The displacements are 0, -8, -16 and so on.
fn two_of_many_banks(name: &'static str, count: usize) -> Map {
    let mut spec = Draft::default();
    (0..count).for_each(|_| _ = spec.root(0, 2, 8));
    let mut implementation = spec.clone();
    let leaf = spec.leaf(0, count as i64, 8);
    spec.leaves = vec![leaf; count];
    for number in 0..count {
        spec.join(number, leaf, -(number as i64));
        implementation.bank(0, 1, 8, 8 * number as i64);
    }
    for number in 0..count {
        implementation.join(number, count + number, 0);
        if number + 1 < count {
            implementation.join(number, count + number + 1, 1);
        }
    }
    whole(name, tables(&spec, &implementation))
}

/// Roots before a hub, each at the place of one leaf; in the implementation two banks of each
/// leaf, the first in the order of the leaves, the second in the reverse order.
fn two_banks_each(name: &'static str, roots: usize, leaves: usize) -> Map {
    let bases = (0..roots).map(|number| 2 * (number % leaves) as i64);
    two_banks_behind(name, hub_before(2 * leaves as i64, bases, 2), leaves)
}

/// The same with roots that see all leaves.
fn two_banks_all(name: &'static str, roots: usize, leaves: usize) -> Map {
    let range = 2 * leaves as i64;
    two_banks_behind(name, hub_before(range, (0..roots).map(|_| 0), range), leaves)
}

fn two_banks_behind(name: &'static str, mut spec: Draft, leaves: usize) -> Map {
    let mut implementation = spec.clone();
    for number in 0..leaves as i64 {
        let leaf = spec.leaf(0, 2, 8);
        spec.join(HUB, leaf, 2 * number);
    }
    let rows: Vec<usize> = (0..leaves).chain((0..leaves).rev()).collect();
    for (row, &leaf) in rows.iter().enumerate() {
        let half = i64::from(row >= leaves);
        let bank = implementation.bank(0, 1, 8, 8 * half);
        implementation.join(HUB, bank, 2 * leaf as i64 + half);
    }
    whole(name, tables(&spec.with_leaf_rows(&rows), &implementation))
}

/// Roots and banks of one leaf, and no edge.
fn unjoined_banks(name: &'static str, count: usize) -> Map {
    let mut spec = unjoined(count, 1);
    spec.leaves = vec![spec.leaves[0]; count];
    whole(name, tables(&spec, &unjoined(count, count)))
}

/// Maps whose leaves are built from banks. There may be 2,000 nodes: a hub leaves room for
/// 1,999 roots and banks.
pub fn banked_maps() -> Vec<Map> {
    vec![
        banks_of_one_leaf("999 roots, 1,000 banks of one leaf", 999, 1_000),
        two_of_many_banks("1,000 roots, each sees 2 of 1,000 banks of one leaf", 1_000),
        two_banks_each("999 roots, 500 leaves of two banks each", 999, 500),
        two_banks_all("99 roots that see 500 leaves of two banks each", 99, 500),
        unjoined_banks("1,000 roots, 1,000 banks of one leaf, none connected", 1_000),
        banks_of_one_leaf("702 roots, 702 banks of one leaf", 702, 702),
        two_banks_each("364 roots, 500 leaves of two banks each", 364, 500),
    ]
}

/// A funnel in the specification, and the same with shorter leaves in the implementation.
fn partial(name: &'static str, funnel: Funnel) -> Map {
    whole(name, tables(&funnel.draft(), &funnel.shorter().draft()))
}

/// Roots and leaves as in `connected`, and beside them another funnel. Each pair that is
/// connected is partial.
fn connected_beside(name: &'static str, count: usize, other: Funnel) -> Map {
    let hub = Funnel { roots: count, leaves: count, stages: 0, ..FUNNEL };
    let spec = beside(&[hub, other]);
    whole(name, tables(&spec, &beside(&[hub.shorter(), other.shorter()])))
}

/// One leaf with as many paths, records and edges along a path as may be.
const DEEP: Funnel = Funnel { roots: 1, leaves: 1, step: 1, chain: 52, ..FUNNEL };

/// Many pairs, and beside them one with as many paths, records and edges along a path
/// as may be.
pub fn connected_beside_chain(count: usize) -> Map {
    connected_beside("connected through one hub, and a chain of 64", count, DEEP)
}

/// The same, with three roots in place of one before the chain. Two of them see all of
/// the window of the node behind them; the third sees a part of it.
pub fn connected_beside_shared(count: usize) -> Map {
    let shared = Funnel { roots: 2, narrow: 1, ..DEEP };
    connected_beside("connected through one hub, and a chain of 64 that roots share", count, shared)
}

/// Nodes one behind the other, each entered by the one before and by edges from the root:
/// unlike references meet in each, and together their lists are longer than any arena.
fn with_owners(mut draft: Draft) -> Draft {
    const OWNERS: i64 = 62;
    const EDGES: i64 = 15;
    let root = draft.root(0, 4, 8);
    let mut last = root;
    for owner in 0..OWNERS {
        let next = draft.node(SEGMENT, 0, SPAN, 8);
        draft.join(last, next, 0);
        (1..=EDGES).for_each(|edge| draft.join(root, next, -(owner * EDGES + edge)));
        last = next;
    }
    let leaf = draft.leaf(0, SPAN, 8);
    draft.join(last, leaf, 0);
    draft
}

/// Many pairs, and beside them one whose records are gathered edge by edge through some
/// fifty nodes, since their lists find no room.
pub fn connected_beside_owners(count: usize) -> Map {
    let hub = Funnel { roots: count, leaves: count, stages: 0, ..FUNNEL };
    let [spec, implementation] = [hub, hub.shorter()].map(|funnel| with_owners(beside(&[funnel])));
    let name = "connected through one hub, and 62 owners one behind the other";
    whole(name, tables(&spec, &implementation))
}

/// The maps on which the text check takes most stack, the deepest last.
pub fn deep_maps() -> [Map; 4] {
    const COUNT: usize = 85;
    let make =
        [connected, connected_beside_chain, connected_beside_shared, connected_beside_owners];
    make.map(|make| make(COUNT))
}

/// Maps with as many paths, records and edges along a path as may be, and few pairs.
pub fn narrow_maps() -> Vec<Map> {
    let merging = Funnel { roots: 3, leaves: 3, ..FUNNEL };
    let records = Funnel { step: 1, ..merging };
    let chain = Funnel { chain: 52, ..records };
    vec![
        merging.map("3 x 3, 1,024 paths, 1 record"),
        records.map("3 x 3, 1,024 paths, no merging"),
        partial("3 x 3, 1,024 records, partial", records),
        last_displacement_unlike("3 x 3, 1,024 records, last displacement unlike", 3, 1_024),
        last_unit_longer("3 x 3, 1,024 records, last one unit longer", 3, 1_024),
        // With 1,024 windows on either side there would be no text.
        displacements_in_reverse("3 x 3, 800 records, displacements in reverse", 3, 800),
        chain.map("3 x 3, chain of 64, 1,024 paths"),
        partial("3 x 3, chain of 64, partial", chain),
    ]
}

/// Maps of unequal lists and of banks, small enough for walks from each single bit address.
pub fn small_versions() -> [Map; 8] {
    let records = Funnel { roots: 0, narrow: 2, leaves: 2, stages: 3, step: 1, ..FUNNEL };
    [
        partial("2 x 2, 8 records, partial", records),
        partial("2 x 2, chain of 7, partial", Funnel { chain: 2, ..records }),
        last_displacement_unlike("2 x 2, 8 records, last displacement unlike", 2, 8),
        last_unit_longer("2 x 2, 8 records, last one unit longer", 2, 8),
        displacements_in_reverse("2 x 2, 8 records, displacements in reverse", 2, 8),
        banks_of_one_leaf("3 roots, 8 banks of one leaf", 3, 8),
        two_of_many_banks("6 roots, each sees 2 of 6 banks of one leaf", 6),
        two_banks_each("5 roots, 3 leaves of two banks each", 5, 3),
    ]
}

pub fn maps() -> Vec<Map> {
    let none = unjoined(1_000, 1_000);
    let records = Funnel { step: 1, ..FUNNEL };
    let chain = Funnel { chain: 52, ..records };
    let wide = Funnel { leaves: 900, ..records };
    // Each leaf lies below every address that its edge can lead to.
    let clipped = Funnel { leaf_offset: -999, ..wide };
    let maps = vec![
        whole("P1", parse(P1.as_bytes()).expect("P1 keeps the file rules")),
        whole("small map, seed 7", open_map(&mut Random::new(7))),
        system("5 x 115, 2,000 nodes, 2,600 edges", 115, MAX_NODES, MAX_EDGES),
        whole("10^6 pairs, none connected", tables(&none, &none)),
        whole(
            "65,536 bytes, none connected",
            parse(&text_of_length(MAX_TEXT)).expect("the text keeps the file rules"),
        ),
        diagonal("600 x 600, hub, diagonal alive", 600),
        diagonal("500 x 500, hub, diagonal alive", 500),
        FUNNEL.map("60 x 60, 1,024 paths, 1 record"),
        touching_windows("60 x 60, 1,024 touching windows"),
        records.map("60 x 60, 1,024 paths, no merging"),
        Funnel { roots: 30, leaves: 30, ..records }.map("30 x 30, 1,024 paths, no merging"),
        partial("60 x 60, 1,024 records, partial", records),
        last_displacement_unlike("60 x 60, 1,024 records, last displacement unlike", 60, 1_024),
        last_unit_longer("60 x 60, 1,024 records, last one unit longer", 60, 1_024),
        displacements_in_reverse("60 x 60, 1,024 records, displacements in reverse", 60, 1_024),
        chain.map("60 x 60, chain of 64, 1,024 paths"),
        Funnel { bridged: true, ..records }.map("60 x 60, bridges, 1,024 paths"),
        sections("2 x 900, 1 of 1,024 paths seen", 2, 900),
        Funnel { roots: 1, ..wide }.map("1 x 900, 1,024 paths"),
        Funnel { roots: 100, ..wide }.map("100 x 900, 1,024 paths"),
        Funnel { roots: 100, ..clipped }.map("100 x 900, all clipped at the leaf"),
    ];
    maps.into_iter().chain(banked_maps()).collect()
}

// Accesses

impl Map {
    /// How many nodes are closed to one kind of walk.
    pub fn closed(&self) -> usize {
        let nodes = [SPEC_NODES, IMPL_NODES].map(|table| &self.tables[table]);
        let closed = |node: &&[i64]| node[4] != READ_AND_WRITE;
        nodes.iter().flat_map(|nodes| nodes.chunks(NODE_WIDTH)).filter(closed).count()
    }

    /// The map with another access of the leaves of a leaf row, in these tables.
    fn close_leaves(&mut self, row: usize, node_tables: &[usize], access: i64) {
        for &table in node_tables {
            let leaf = self.tables[LEAF_PAIRS][row * WIDTHS[LEAF_PAIRS] + table / 2] as usize;
            self.tables[table][leaf * NODE_WIDTH + 4] = access;
        }
    }

    /// The map as it is; with a leaf of the specification that is read only, and no other
    /// access; and with a leaf of either side read only, write only and open to both, in turn.
    fn with_accesses(self) -> [Map; 3] {
        let [mut one, mut many] = [(); 2].map(|()| Map { tables: self.tables.clone(), ..self });
        one.close_leaves(0, &[SPEC_NODES], READ_ONLY);
        for row in 0..self.tables[LEAF_PAIRS].len() / WIDTHS[LEAF_PAIRS] {
            many.close_leaves(row, &[SPEC_NODES, IMPL_NODES], ACCESSES[row % ACCESSES.len()]);
        }
        [self, one, many]
    }
}

/// Maps with no access, with a single one, and with many; at the end one without and with a
/// single one on a node that is on no path. Where one is not 0 the text of each node is longer.
pub fn access_maps() -> Vec<Map> {
    let none = unjoined(900, 900);
    let records = Funnel { roots: 30, leaves: 30, step: 1, ..FUNNEL };
    let maps = [
        system("5 x 100, 1,800 nodes, 2,350 edges", 100, 1_800, 2_350),
        diagonal("450 x 450, hub, diagonal alive", 450),
        records.map("30 x 30, 1,024 paths, no merging"),
        whole("900 x 900, none connected", tables(&none, &none)),
    ];
    let unequal = all_unequal(400, 300);
    let unequal = [unequal.clone(), with_one_access(unequal)].map(|[spec, implementation]| {
        whole("400 leaves, 300 ways, all unequal", tables(&spec, &implementation))
    });
    maps.into_iter().flat_map(Map::with_accesses).chain(unequal).collect()
}

/// The deepest of the maps on which the text check takes most stack, with accesses.
pub fn deep_maps_with_accesses() -> Vec<Map> {
    let [.., chain, shared, owners] = deep_maps();
    [chain, shared, owners]
        .into_iter()
        .flat_map(|map| map.with_accesses().into_iter().skip(1))
        .collect()
}

// Single graphs

#[derive(Clone, Copy, PartialEq, Eq)]
pub enum Call {
    Check,
    List,
    Walk,
}

/// A graph for the calls on one graph, with the root, the leaf, the bit address and the kind
/// of walk that list and walk are asked for.
pub struct Single {
    pub name: &'static str,
    pub calls: &'static [Call],
    pub nodes: Vec<i64>,
    pub edges: Vec<i64>,
    pub root: i64,
    pub leaf: i64,
    pub address: i64,
    pub kind: WalkKind,
}

/// A graph that is checked and nothing else.
fn checked(name: &'static str, draft: &Draft) -> Single {
    let (nodes, edges) = (draft.node_table(), draft.edge_table());
    let (calls, kind) = (&[Call::Check], WalkKind::Writing);
    Single { name, calls, nodes, edges, root: 0, leaf: 0, address: 0, kind }
}

/// A graph whose first root and leaf are asked for, at this bit address.
fn asked(name: &'static str, calls: &'static [Call], draft: &Draft, address: i64) -> Single {
    let (root, leaf) = (draft.roots[0] as i64, draft.leaves[0] as i64);
    Single { calls, root, leaf, address, ..checked(name, draft) }
}

/// Chains of that many edges side by side, with more edges from one to another, until
/// there are as many nodes and edges as may be.
fn layered(depth: usize) -> Draft {
    let mut draft = Draft::default();
    for number in 0..MAX_NODES {
        let kind = if number % (depth + 1) == depth { BLOCK } else { SEGMENT };
        draft.node(kind, 0, SPAN, 8);
    }
    // From each layer to the next, at first within a chain, then further and further.
    let ends = (0..)
        .flat_map(|chains| (0..MAX_NODES).map(move |from| (from, from + 1 + chains * (depth + 1))));
    let ends = ends.filter(|&(from, to)| from % (depth + 1) < depth && to < MAX_NODES);
    ends.take(MAX_EDGES).for_each(|(from, to)| draft.join(from, to, 0));
    draft
}

/// A chain through as many nodes as there may be.
fn longest_chain() -> Draft {
    let mut draft = Draft::default();
    (0..MAX_NODES).for_each(|_| _ = draft.node(SEGMENT, 0, SPAN, 8));
    (1..MAX_NODES).for_each(|to| draft.join(to - 1, to, 0));
    draft
}

/// The same with an edge from its second node to its first.
fn cycle_before_chain() -> Draft {
    let mut draft = longest_chain();
    draft.join(1, 0, 0);
    draft
}

/// A root before one leaf, and before doubled edges that end at no leaf.
fn beside_dead_end(stages: usize) -> Draft {
    let mut draft = Draft::default();
    let mut last = draft.root(0, SPAN, 8);
    let leaf = draft.leaf(0, 4, 8);
    for _ in 0..stages {
        let next = draft.node(SEGMENT, 0, SPAN, 8);
        (0..2).for_each(|_| draft.join(last, next, 0));
        last = next;
    }
    draft.join(draft.roots[0], leaf, 8);
    draft
}

pub fn singles() -> Vec<Single> {
    const BOTH: &[Call] = &[Call::List, Call::Walk];
    const LIST: &[Call] = &[Call::List];
    /// The first bit of the leaf behind FUNNEL's offset.
    const ADDRESS: i64 = 64;
    let [nodes, edges, ..] = parse(P1.as_bytes()).expect("P1 keeps the file rules");
    let hub = Funnel { roots: 1, leaves: 900, ..FUNNEL };
    let short = Funnel { chain: 0, ..DEEP };
    vec![
        checked("2,000 nodes, 2,600 edges, depth 8", &layered(8)),
        checked("cycle before a chain of 1,998 edges", &cycle_before_chain()),
        checked("chain of 1,999 edges", &longest_chain()),
        Single {
            name: "P1, specification",
            calls: BOTH,
            nodes,
            edges,
            root: 0,
            leaf: 1,
            address: 2_048,
            kind: WalkKind::Writing,
        },
        asked("1 path, 30 doubled edges to no leaf", BOTH, &beside_dead_end(30), ADDRESS),
        asked("10 doubled edges, hub, 900 leaves", BOTH, &hub.draft(), ADDRESS),
        asked("1,024 paths, no merging", LIST, &short.draft(), ADDRESS),
        asked("1,024 paths of 64 edges, no merging", LIST, &DEEP.draft(), ADDRESS),
    ]
}

// Batches

/// A graph whose root and leaf are asked for, and a batch of bit addresses.
pub struct Batch {
    pub graph: Single,
    pub addresses: Vec<i64>,
}

/// As many addresses as a batch may have, two units apart, the lowest last.
fn descending(lowest: i64) -> Vec<i64> {
    (0..MAX_BATCH as i64).rev().map(|number| lowest + 16 * number).collect()
}

/// Batches of as many addresses as may be, on a list of one record and on lists of as many
/// as may be; in the last every record has every address, so that no batch has more rows.
pub fn batches() -> [Batch; 4] {
    let short = Funnel { chain: 0, ..DEEP };
    let first_bit = 8 * short.leaf_offset;
    let batch = |name, funnel: Funnel, lowest| {
        let graph = asked(name, &[], &funnel.draft(), lowest);
        Batch { graph, addresses: descending(lowest) }
    };
    let one = Funnel { stages: 0, leaf_range: SPAN, ..short };
    let last_record = first_bit + 8 * 1_023;
    let wide = Funnel { leaf_range: SPAN, ..short };
    [
        batch("1 record", one, first_bit),
        batch("1,024 records", short, first_bit),
        batch("1,024 records, paths of 64 edges", DEEP, first_bit),
        batch("1,024 records, each has every address", wide, last_record),
    ]
}
