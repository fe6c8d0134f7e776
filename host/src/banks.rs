//! Banks for the implementations of small specifications: several leaves that are built in
//! the place of one.

use crate::generate::{Draft, Edge, Node, Random, SEGMENT};
use crate::reference::{BLOCK, MAX_AT};

/// Units of a leaf, from one on and before another, that a bank is to hold.
type Part = (i64, i64);

/// Parts of a leaf that touch, so that together they are the leaf.
fn touching_parts(random: &mut Random, range: i64) -> Vec<Part> {
    let mut cuts: Vec<i64> = (0..random.between(1, 3)).map(|_| random.between(0, range)).collect();
    cuts.extend([0, range]);
    cuts.sort_unstable();
    cuts.dedup();
    cuts.windows(2).map(|cut| (cut[0], cut[1])).collect()
}

/// Some parts of a leaf: they touch, overlap, begin together or leave units open.
fn parts(random: &mut Random, range: i64) -> Vec<Part> {
    let mut parts = touching_parts(random, range);
    let chosen = random.below(parts.len());
    let (begin, end) = parts[chosen];
    match random.below(7) {
        0 => parts.push((begin, random.between(begin + 1, range))),
        1 => parts[chosen].0 = random.between(0, begin),
        2 => parts.push((begin, end)),
        3 if parts.len() > 1 => _ = parts.remove(chosen),
        4 if end - begin > 1 => parts[chosen] = (begin + 1, end),
        _ => (),
    }
    parts
}

/// Puts banks in the place of the leaf of a row, which hold these parts of it, and copies the
/// edges that enter it. The first bank keeps the leaf's node.
fn cut_leaf(random: &mut Random, draft: &mut Draft, row: usize, parts: &[Part]) -> Vec<usize> {
    let (leaf, at) = (draft.leaves[row], draft.at[row]);
    let Node { base, unit, access, .. } = draft.nodes[leaf];
    let entering: Vec<Edge> = draft.edges.iter().copied().filter(|edge| edge.to == leaf).collect();
    draft.edges.retain(|edge| edge.to != leaf);
    let mut rows = Vec::new();
    for (number, &(begin, end)) in parts.iter().enumerate() {
        let (bank_base, range) = (random.between(0, 4), end - begin);
        let at = (at + begin * unit).min(MAX_AT);
        let bank = if number == 0 {
            draft.nodes[leaf] = Node { kind: BLOCK, base: bank_base, range, unit, access };
            draft.at[row] = at;
            rows.push(row);
            leaf
        } else {
            rows.push(draft.leaves.len());
            let bank = draft.bank(bank_base, range, unit, at);
            draft.nodes[bank].access = access;
            bank
        };
        for edge in &entering {
            draft.join(edge.from, bank, edge.offset + base + begin - bank_base);
        }
    }
    rows
}

/// The most stripes that edges are cut into.
const MOST_STRIPES: i64 = 8;

/// Puts two banks in the place of the leaf of a row, each as long as the leaf, and before
/// them segments of one unit, which lead to one and the other in turn: interleaved.
fn interleave_leaf(random: &mut Random, draft: &mut Draft, row: usize) -> Vec<usize> {
    let leaf = draft.leaves[row];
    let Node { base, range, unit, access, .. } = draft.nodes[leaf];
    let entering: Vec<Edge> = draft.edges.iter().copied().filter(|edge| edge.to == leaf).collect();
    if range * entering.len() as i64 > MOST_STRIPES {
        return vec![row];
    }
    draft.edges.retain(|edge| edge.to != leaf);
    // The second bank has the odd units of the leaf, and begins one unit behind the first.
    let later = range.min(2) - 1;
    let at = (draft.at[row] + later * unit).min(MAX_AT);
    let other = draft.bank(random.between(0, 4), range, unit, at);
    draft.nodes[other].access = access;
    let banks = [(leaf, 0), (other, later)];
    for edge in entering {
        for stripe in 0..range {
            let segment = draft.node(SEGMENT, base + stripe, 1, unit);
            let (bank, begin) = banks[(stripe % 2) as usize];
            draft.join(edge.from, segment, edge.offset);
            draft.join(segment, bank, base + begin - draft.nodes[bank].base);
        }
    }
    vec![row, draft.leaves.len() - 1]
}

/// Adds a bank that no edge enters, or one that is entered and lies behind its leaf.
fn bank_beyond(random: &mut Random, draft: &mut Draft, row: usize) -> Vec<usize> {
    let leaf = draft.leaves[row];
    let Node { range, unit, .. } = draft.nodes[leaf];
    let at = random.pick(&[range * unit, range * unit + 5, 1, MAX_AT - 1, MAX_AT]);
    let bank = draft.bank(random.between(0, 4), random.between(1, 4), unit, at);
    let entering = draft.edges.iter().copied().find(|edge| edge.to == leaf);
    if let Some(edge) = entering.filter(|_| random.chance(40)) {
        draft.join(edge.from, bank, edge.offset);
    }
    vec![row, draft.leaves.len() - 1]
}

/// Builds the leaf of a row from banks; `spec` names its leaf for each of them. Mostly the
/// banks together are what the leaf was.
pub fn build_from_banks(random: &mut Random, spec: &mut Draft, draft: &mut Draft, row: usize) {
    let range = draft.nodes[draft.leaves[row]].range;
    let rows = match random.below(10) {
        0 | 1 => interleave_leaf(random, draft, row),
        2 => bank_beyond(random, draft, row),
        3..=5 => {
            let parts = touching_parts(random, range);
            cut_leaf(random, draft, row, &parts)
        }
        _ => {
            let parts = parts(random, range);
            cut_leaf(random, draft, row, &parts)
        }
    };
    spec.leaves.resize(draft.leaves.len(), spec.leaves[row]);
    spec.at.resize(draft.leaves.len(), 0);
    let bank = random.pick(&rows);
    match random.below(10) {
        // Two banks exchanged.
        0 => draft.at.swap(bank, random.pick(&rows)),
        // A bank that begins elsewhere.
        1 => draft.at[bank] = (draft.at[bank] + random.between(0, 2) * 8).min(MAX_AT),
        _ => (),
    }
}

/// Draws for each leaf of an implementation which leaf it is a bank of, and where it begins.
pub fn any_banks(random: &mut Random, spec: &mut Draft, draft: &mut Draft) {
    let leaves = spec.leaves.clone();
    spec.leaves = draft.leaves.iter().map(|_| random.pick(&leaves)).collect();
    spec.at.resize(draft.leaves.len(), 0);
    draft.at.iter_mut().for_each(|at| *at = random.pick(&[0, 0, 8, 16, 32, 64]));
}
