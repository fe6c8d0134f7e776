//! The calls on one graph whose nodes are open to both kinds of walks: asked for each kind,
//! and the answers must be the same.

use host::reference::{self, Record, Refusal, WalkKind, KINDS};
use std::fmt::Debug;

fn alike<T: Debug + PartialEq>(call: impl Fn(WalkKind) -> T) -> T {
    let [reading, writing] = KINDS.map(call);
    assert_eq!(reading, writing);
    reading
}

pub fn list(
    nodes: &[i64], edges: &[i64], root: i64, leaf: i64, room: usize,
) -> Result<Vec<Record>, Refusal> {
    alike(|kind| reference::list(nodes, edges, root, leaf, kind, room))
}

pub fn walk(
    nodes: &[i64], edges: &[i64], root: i64, leaf: i64, address: i64, room: usize,
) -> Result<Vec<i64>, Refusal> {
    alike(|kind| reference::walk(nodes, edges, root, leaf, address, kind, room))
}
