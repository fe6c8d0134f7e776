//! Comparison by lists that go forward. For a root row, a graph and a kind of walk the nodes
//! are taken in topological order, and what arrives at each is found once: part of the list
//! of a node before it where one way leads in, a list of its own where unlike ways meet. The
//! records of a list are made when they are first asked for. Lists may be as long and as
//! many as need be. Verdicts and lines come in visiting order, in one pass.

use crate::reference::{check_paths, check_tables, kinds_to_judge, parse, refusal, report};
use crate::reference::{Bank, Graph, Pairing, WalkKind};
use crate::reference::{Comparison, Lengths, Outcome, PairLine, Record, Refusal, Tables, OUTPUT};
use std::mem::take;
use std::ops::Range;

/// Bytes of the shortest line of a report.
const SHORTEST_LINE: usize = 14;
/// The records of a list are made once it was asked more often than this whether it has any
/// between two addresses.
const ASKED: usize = 64;
/// A look-up by address pays where it leaves no more than one record in so many.
const PART: usize = 8;

// Lists

/// Root bit x arrives at address b of a node if low <= b <= high and the list has x at
/// address b + delta.
#[derive(Clone, Copy, PartialEq, Eq, PartialOrd, Ord)]
struct Reference {
    list: usize,
    delta: i64,
    low: i64,
    high: i64,
}

impl Reference {
    /// What an edge hands on to a node whose addresses are low..=high.
    fn over(&self, offset: i64, (low, high): (i64, i64)) -> Reference {
        let (low, high) = (low.max(self.low - offset), high.min(self.high - offset));
        Reference { list: self.list, delta: self.delta + offset, low, high }
    }

    /// The cut by addresses of the list.
    fn cut(&self) -> (i64, i64) {
        (self.low + self.delta, self.high + self.delta)
    }
}

/// Joins references of one list and delta whose cuts touch or overlap.
fn join(references: &mut Vec<Reference>) {
    references.sort_unstable();
    references.dedup_by(|next, open| {
        let alike = (next.list, next.delta) == (open.list, open.delta);
        let joins = alike && next.low <= open.high + 1;
        open.high = if joins { open.high.max(next.high) } else { open.high };
        joins
    });
}

fn by_displacement(record: &Record) -> (i64, i64) {
    (record.displacement, record.first)
}

/// Sorts records by displacement, then first, and joins those that touch or overlap.
fn normalise(records: &mut Vec<Record>) {
    // They come in runs that are in order, which a stable sort merges.
    records.sort_by_key(by_displacement);
    records.dedup_by(|next, open| {
        let joins = next.displacement == open.displacement && next.first <= open.last + 1;
        open.last = if joins { open.last.max(next.last) } else { open.last };
        joins
    });
}

/// A record in order of addresses: where it begins, how far it and those before it reach,
/// and its place in the list.
struct Place {
    begin: i64,
    reach: i64,
    record: usize,
}

/// What arrives at a node: normalised records, displacements counted from its addresses, or
/// the references that they are to be made of; and a range that no address is outside of.
struct List {
    parts: Vec<Reference>,
    asked: usize,
    records: Vec<Record>,
    low: i64,
    high: i64,
    /// The records in order of addresses, once a cut has asked for it.
    places: Vec<Place>,
}

impl List {
    fn within(low: Option<i64>, high: Option<i64>) -> List {
        let (low, high) = (low.unwrap_or(i64::MAX), high.unwrap_or(i64::MIN));
        let (parts, records, places) = (Vec::new(), Vec::new(), Vec::new());
        List { parts, asked: 0, records, low, high, places }
    }

    fn unmade(parts: Vec<Reference>) -> List {
        let low = parts.iter().map(|part| part.low).min();
        let high = parts.iter().map(|part| part.high).max();
        List { parts, ..List::within(low, high) }
    }

    fn made(records: Vec<Record>) -> List {
        let low = records.iter().map(|record| record.first - record.displacement).min();
        let high = records.iter().map(|record| record.last - record.displacement).max();
        List { records, ..List::within(low, high) }
    }

    fn set_places(&mut self) {
        self.places.extend(self.records.iter().enumerate().map(|(record, at)| {
            let (begin, reach) = (at.first - at.displacement, at.last - at.displacement);
            Place { begin, reach, record }
        }));
        self.places.sort_unstable_by_key(|place| place.begin);
        let mut reach = i64::MIN;
        for place in &mut self.places {
            reach = reach.max(place.reach);
            place.reach = reach;
        }
    }

    /// Places outside which no record has an address from low to high; none where no record
    /// has one at all.
    fn around(&mut self, (low, high): (i64, i64)) -> Range<usize> {
        if self.high < low || high < self.low {
            return 0..0;
        }
        if self.places.is_empty() {
            self.set_places();
        }
        let end = self.places.partition_point(|place| place.begin <= high);
        if self.places[end - 1].reach < low {
            return 0..0;
        }
        self.places[..end].partition_point(|place| place.reach < low)..end
    }

    /// Whether some record has an address from low to high.
    fn meets(&mut self, (low, high): (i64, i64)) -> bool {
        let within = |address: i64| low <= address && address <= high;
        within(self.low) || within(self.high) || !self.around((low, high)).is_empty()
    }

    /// Adds the records between two addresses, cut there, with that much more displacement;
    /// they are normalised among themselves.
    fn gather(&mut self, (low, high): (i64, i64), more: i64, out: &mut Vec<Record>) {
        let moved = |record: &Record| {
            let Record { first, last, displacement } = *record;
            let (first, last) = (first.max(low + displacement), last.min(high + displacement));
            Record { first, last, displacement: displacement + more }
        };
        let alive = |record: &Record| record.first <= record.last;
        if low <= self.low && self.high <= high {
            return out.extend(self.records.iter().map(moved));
        }
        let places = self.around((low, high));
        if places.len() > self.records.len() / PART {
            return out.extend(self.records.iter().map(moved).filter(alive));
        }
        let begin = out.len();
        let records = self.places[places].iter().map(|place| &self.records[place.record]);
        out.extend(records.map(moved).filter(alive));
        out[begin..].sort_unstable_by_key(by_displacement);
    }
}

// Sweeps

/// A list between two addresses.
type Part = (usize, i64, i64);

/// What a paired leaf is an end of: its group, and how far an address there is above the
/// group's bit, which is the leaf's first bit less what the bank begins at.
#[derive(Clone, Copy)]
struct End {
    group: usize,
    origin: i64,
}

/// A graph with what arrives from one root by walks of one kind.
struct Side<'a> {
    roots: &'a [usize],
    ends: Vec<Option<End>>,
    /// From the lowest to the highest address that may walk on to a paired leaf; none at a
    /// node that is closed to the walks.
    extents: Vec<(i64, i64)>,
    /// Edges that lead on to a paired leaf: the node that each enters, and its bit offset.
    leaving: Vec<Vec<(usize, i64)>>,
    /// Nodes that they leave, in topological order.
    inner: Vec<usize>,
    arrived: Vec<Vec<Reference>>,
    touched: Vec<usize>,
    /// Leaves of each group at which something has arrived.
    met: Vec<Vec<usize>>,
    lists: Vec<List>,
}

impl<'a> Side<'a> {
    fn new(graph: &Graph, kind: WalkKind, roots: &'a [usize], banks: &[&[Bank]]) -> Side<'a> {
        let mut ends = vec![None; graph.nodes.len()];
        let mut extents = vec![(0, -1); graph.nodes.len()];
        for (group, banks) in banks.iter().enumerate() {
            for &Bank { leaf, at } in *banks {
                let node = &graph.nodes[leaf];
                ends[leaf] = Some(End { group, origin: node.first - at });
                if node.is_open(kind) {
                    extents[leaf] = (node.first, node.last);
                }
            }
        }
        let mut leaving = vec![Vec::new(); graph.nodes.len()];
        let open = |node: &&usize| graph.nodes[**node].is_open(kind);
        for &node in graph.order.iter().rev().filter(open) {
            for edge in &graph.leaving[node] {
                let low = graph.nodes[node].first.max(extents[edge.to].0 + edge.offset);
                let high = graph.nodes[node].last.min(extents[edge.to].1 + edge.offset);
                if low <= high {
                    let (lowest, highest) =
                        if leaving[node].is_empty() { (low, high) } else { extents[node] };
                    extents[node] = (low.min(lowest), high.max(highest));
                    leaving[node].push((edge.to, edge.offset));
                }
            }
        }
        let inner = graph.order.iter().copied().filter(|&node| !leaving[node].is_empty()).collect();
        let arrived = vec![Vec::new(); graph.nodes.len()];
        let (touched, lists) = (Vec::new(), Vec::new());
        let met = vec![Vec::new(); banks.len()];
        Side { roots, ends, extents, leaving, inner, arrived, touched, met, lists }
    }

    /// Finds what arrives from a root, and adds the groups that are met.
    fn sweep(&mut self, root: usize, groups: &mut Vec<usize>) {
        while let Some(node) = self.touched.pop() {
            self.arrived[node].clear();
            if let Some(end) = self.ends[node] {
                self.met[end.group].clear();
            }
        }
        self.lists.clear();
        let (first, last) = self.extents[root];
        if first <= last {
            self.put_list(root, List::made(vec![Record { first, last, displacement: 0 }]));
            self.touched.push(root);
            for place in 0..self.inner.len() {
                let node = self.inner[place];
                if !self.arrived[node].is_empty() {
                    self.settle(node);
                    self.hand_on(node, groups);
                }
            }
        }
    }

    /// Puts a list in the place of all that has arrived at a node.
    fn put_list(&mut self, node: usize, list: List) {
        let whole = Reference { list: self.lists.len(), delta: 0, low: list.low, high: list.high };
        self.lists.push(list);
        self.arrived[node].clear();
        self.arrived[node].push(whole);
    }

    /// Leaves at a node the reference that it hands on, none where nothing has arrived.
    fn settle(&mut self, node: usize) {
        let mut arrived = take(&mut self.arrived[node]);
        join(&mut arrived);
        // Worth finding where several edges lead on: a cut between all records.
        if self.leaving[node].len() > 1 {
            arrived.retain(|&reference| self.meets(reference));
        }
        if arrived.len() > 1 {
            self.put_list(node, List::unmade(arrived));
        } else {
            self.arrived[node] = arrived;
        }
    }

    /// Whether a reference has some record.
    fn meets(&mut self, reference: Reference) -> bool {
        let (low, high) = reference.cut();
        let list = &mut self.lists[reference.list];
        list.asked += 1;
        if list.parts.is_empty() || list.asked > ASKED {
            self.make(reference.list);
            return self.lists[reference.list].meets((low, high));
        }
        let parts = take(&mut list.parts);
        let some = parts.iter().any(|part| {
            let cut = Reference { low: low.max(part.low), high: high.min(part.high), ..*part };
            self.make(part.list);
            cut.low <= cut.high && self.lists[part.list].meets(cut.cut())
        });
        self.lists[reference.list].parts = parts;
        some
    }

    /// Makes the records of a list, unless they are made.
    fn make(&mut self, list: usize) {
        let parts = take(&mut self.lists[list].parts);
        if !parts.is_empty() {
            let mut records = Vec::new();
            self.gather(&parts, 0, &mut records);
            if parts.len() > 1 {
                normalise(&mut records);
            }
            self.lists[list] = List::made(records);
        }
    }

    /// Adds the records of references, with that much more displacement; those of one
    /// reference are normalised among themselves.
    fn gather(&mut self, references: &[Reference], more: i64, records: &mut Vec<Record>) {
        for reference in references {
            self.make(reference.list);
            let (cut, more) = (reference.cut(), reference.delta + more);
            self.lists[reference.list].gather(cut, more, records);
        }
    }

    fn hand_on(&mut self, node: usize, groups: &mut Vec<usize>) {
        let arrived = take(&mut self.arrived[node]);
        for &(to, offset) in &self.leaving[node] {
            for reference in arrived.iter().map(|it| it.over(offset, self.extents[to])) {
                let there = &mut self.arrived[to];
                if reference.low <= reference.high && there.last() != Some(&reference) {
                    if there.is_empty() {
                        self.touched.push(to);
                        if let Some(end) = self.ends[to] {
                            self.met[end.group].push(to);
                            groups.push(end.group);
                        }
                    }
                    there.push(reference);
                }
            }
        }
        self.arrived[node] = arrived;
    }

    /// How far an address of a paired leaf is above its group's bit.
    fn origin(&self, leaf: usize) -> i64 {
        self.ends[leaf].map_or(0, |end| end.origin)
    }

    /// The list of a group.
    fn list_at(&mut self, group: usize) -> Vec<Record> {
        let (mut records, mut references) = (Vec::new(), 0);
        for place in 0..self.met[group].len() {
            let leaf = self.met[group][place];
            let mut arrived = take(&mut self.arrived[leaf]);
            arrived.retain(|&reference| self.meets(reference));
            self.gather(&arrived, self.origin(leaf), &mut records);
            references += arrived.len();
            self.arrived[leaf] = arrived;
        }
        if references > 1 {
            normalise(&mut records);
        }
        records
    }

    /// The part of a list that a group sees, and how far it is displaced; none where it
    /// sees several.
    fn part_at(&mut self, group: usize) -> Option<(Part, i64)> {
        let leaf = match self.met[group][..] {
            [] => return Some(((0, 0, -1), 0)),
            [leaf] => leaf,
            _ => return None,
        };
        join(&mut self.arrived[leaf]);
        let [only] = self.arrived[leaf][..] else { return None };
        let (list, (low, high)) = (&self.lists[only.list], only.cut());
        let part = (only.list, low.max(list.low), high.min(list.high));
        Some((part, only.delta + self.origin(leaf)))
    }
}

// Comparing

/// 0 equal, 1 partial, 2 different, of normalised lists.
fn verdict(spec: &[Record], implementation: &[Record]) -> i64 {
    if spec == implementation {
        return 0;
    }
    let mut spec = spec.iter().peekable();
    let contained = |inner: &Record| {
        let end = (inner.displacement, inner.last);
        while spec.next_if(|outer| (outer.displacement, outer.last) < end).is_some() {}
        spec.peek().is_some_and(|outer| by_displacement(outer) <= by_displacement(inner))
    };
    if !implementation.is_empty() && implementation.iter().all(contained) {
        1
    } else {
        2
    }
}

/// The lowest address at which normalised lists differ: where a record of one displacement
/// begins, or has ended, in one of them alone.
fn lowest_difference(spec: &[Record], implementation: &[Record]) -> Option<i64> {
    let ends = |it: &Record| [(it.displacement, it.first), (it.displacement, it.last + 1)];
    let mut ends: Vec<_> = spec.iter().chain(implementation).flat_map(ends).collect();
    ends.sort_unstable();
    ends.chunk_by(|one, other| one == other).filter(|it| it.len() == 1).map(|it| it[0].1).min()
}

/// What walks of one kind give: both graphs with what arrives from one root, and the lists and
/// the verdict of the group that was judged last.
struct Judge<'a> {
    sides: [Side<'a>; 2],
    /// The parts that the group sees, where it sees one on each side, and the distance.
    kept: Option<(Part, Part, i64)>,
    lists: [Vec<Record>; 2],
    verdict: i64,
}

impl<'a> Judge<'a> {
    fn new(graphs: &[Graph; 2], kind: WalkKind, pairing: &'a Pairing) -> Judge<'a> {
        let sides = [0, 1]
            .map(|side| Side::new(&graphs[side], kind, &pairing.roots[side], &pairing.banks(side)));
        Judge { sides, kept: None, lists: [Vec::new(), Vec::new()], verdict: 0 }
    }

    /// Finds what arrives from the roots of a row, and adds the groups that are met.
    fn sweep(&mut self, root: usize, groups: &mut Vec<usize>) {
        self.sides.iter_mut().for_each(|side| side.sweep(side.roots[root], groups));
        self.kept = None;
    }

    fn judge(&mut self, group: usize) {
        // The same parts of the same lists at the same distance: the verdict before.
        let [one, other] = [0, 1].map(|side: usize| self.sides[side].part_at(group));
        let parts = one.zip(other).map(|(one, other)| (one.0, other.0, one.1 - other.1));
        if parts.is_none() || parts != self.kept {
            self.lists = [0, 1].map(|side: usize| self.sides[side].list_at(group));
            self.verdict = verdict(&self.lists[0], &self.lists[1]);
            self.kept = parts;
        }
    }

    fn lengths(&self) -> Lengths {
        Lengths { spec: self.lists[0].len(), implementation: self.lists[1].len() }
    }

    fn lowest_difference(&self) -> Option<i64> {
        lowest_difference(&self.lists[0], &self.lists[1])
    }
}

/// Judges all pairs; none where there are more lines than that.
fn judge_pairs(graphs: &[Graph; 2], pairing: &Pairing, most: usize) -> Option<Comparison> {
    let Pairing { roots, groups } = pairing;
    let kinds = kinds_to_judge(graphs);
    let mut judges: Vec<Judge> =
        kinds.iter().map(|&kind| Judge::new(graphs, kind, pairing)).collect();
    let mut outcome = Outcome { whole: 0, counts: [0; 3], root: -1, leaf: -1, address: -1 };
    let (mut lines, mut met) = (Vec::new(), Vec::new());
    for root in 0..roots[0].len() {
        judges.iter_mut().for_each(|judge| judge.sweep(root, &mut met));
        met.sort_unstable();
        met.dedup();
        for group in met.drain(..) {
            judges.iter_mut().for_each(|judge| judge.judge(group));
            let verdict = judges.iter().map(|judge| judge.verdict).max().unwrap_or(0);
            let leaf = groups[group].row;
            let lengths = [0, judges.len() - 1].map(|judge| judges[judge].lengths());
            if lengths.iter().any(|kind| kind.spec > 0 || kind.implementation > 0) {
                lines.push(PairLine { root, leaf, verdict, lengths });
            }
            if lines.len() > most {
                return None;
            }
            if verdict != 0 && outcome.whole == 0 {
                (outcome.root, outcome.leaf) = (root as i64, leaf as i64);
                let lowest = judges.iter().filter_map(Judge::lowest_difference).min();
                outcome.address = lowest.unwrap_or(-1);
            }
            outcome.counts[verdict as usize] += 1;
            outcome.whole = outcome.whole.max(verdict);
        }
    }
    // Pairs whose group is not met have empty lists.
    let unequal = outcome.counts[1] + outcome.counts[2];
    outcome.counts[0] = (roots[0].len() * groups.len()) as i64 - unequal;
    Some(Comparison { outcome, lines })
}

fn compare_within(tables: &Tables, most: usize) -> Result<Comparison, Refusal> {
    let (graphs, pairing) = check_tables(tables)?;
    check_paths(&graphs, &pairing)?;
    judge_pairs(&graphs, &pairing, most).ok_or(refusal(11, OUTPUT, 0))
}

/// Compares two graphs: refusals 1 to 10 and 16, or the outcome and the report's lines.
pub fn compare(tables: &Tables) -> Result<Comparison, Refusal> {
    compare_within(tables, usize::MAX)
}

/// Text check: map file in, report out; `room` is the report buffer's length.
pub fn text_check(text: &[u8], room: usize) -> Result<Vec<u8>, Refusal> {
    let report = report(&compare_within(&parse(text)?, room / SHORTEST_LINE)?);
    Some(report).filter(|report| report.len() <= room).ok_or(refusal(11, OUTPUT, 0))
}
