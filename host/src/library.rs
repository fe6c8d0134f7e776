//! The verified code through C linkage: the library's text check, and the calls on
//! tables, which are there for tests and benchmarks alone.
//!
//! Each is compiled only where its archive was linked (see build.rs).

#[cfg(healdrip_library)]
extern "C" {
    /// The report's length, or -(number * 100,000,000 + table * 10,000,000 + row).
    pub(crate) fn healdrip_text_check(
        text: *const u8, text_len: usize, report: *mut u8, report_len: usize,
    ) -> i64;
}

/// Text check by the library. The pointer of a slice is never null, not even of an
/// empty one, and the two slices never overlap.
#[cfg(healdrip_library)]
pub fn text_check(text: &[u8], report: &mut [u8]) -> i64 {
    let (text_len, report_len) = (text.len(), report.len());
    // SAFETY: both pointers are valid for their lengths during the call.
    unsafe { healdrip_text_check(text.as_ptr(), text_len, report.as_mut_ptr(), report_len) }
}

#[cfg(benchcalls_library)]
extern "C" {
    /// 0, or the refusal's number below zero.
    fn benchcalls_check(
        nodes: *const i64, nodes_len: usize, edges: *const i64, edges_len: usize,
    ) -> i64;

    /// How many records are written, or the refusal's number below zero.
    fn benchcalls_list(
        nodes: *const i64, nodes_len: usize, edges: *const i64, edges_len: usize, root: i64,
        leaf: i64, kind: i64, out: *mut i64, out_len: usize,
    ) -> i64;

    /// How many leaf bits are written, or the refusal's number below zero.
    fn benchcalls_walk(
        nodes: *const i64, nodes_len: usize, edges: *const i64, edges_len: usize, root: i64,
        leaf: i64, address: i64, kind: i64, out: *mut i64, out_len: usize,
    ) -> i64;

    /// How many rows are written and how many records were read as `counts` gives it, or the
    /// refusal's number below zero.
    pub(crate) fn benchcalls_batch(
        nodes: *const i64, nodes_len: usize, edges: *const i64, edges_len: usize, root: i64,
        leaf: i64, addresses: *const i64, addresses_len: usize, kind: i64, out: *mut i64,
        out_len: usize,
    ) -> i64;

    /// The answer as `summary` gives it; the tables in the order of their numbers.
    fn benchcalls_compare(
        spec_nodes: *const i64, spec_nodes_len: usize, spec_edges: *const i64,
        spec_edges_len: usize, impl_nodes: *const i64, impl_nodes_len: usize,
        impl_edges: *const i64, impl_edges_len: usize, root_pairs: *const i64,
        root_pairs_len: usize, leaf_pairs: *const i64, leaf_pairs_len: usize,
    ) -> i64;

    /// How many numbers the two tables have as `lengths` gives it, or
    /// -(number * 100,000,000 + table * 10,000,000 + row).
    fn benchcalls_read_sheet(
        text: *const u8, text_len: usize, nodes: *mut i64, nodes_len: usize, edges: *mut i64,
        edges_len: usize,
    ) -> i64;
}

/// Check of one graph by the verified code.
#[cfg(benchcalls_library)]
pub fn check(nodes: &[i64], edges: &[i64]) -> i64 {
    // SAFETY: both pointers are valid for their lengths during the call.
    unsafe { benchcalls_check(nodes.as_ptr(), nodes.len(), edges.as_ptr(), edges.len()) }
}

/// List of a root and a leaf by the verified code, three numbers for each record. The kind of
/// walk is a number, as in all calls of this file: see `kind_number`.
#[cfg(benchcalls_library)]
pub fn list(nodes: &[i64], edges: &[i64], root: i64, leaf: i64, kind: i64, out: &mut [i64]) -> i64 {
    let (n, e, room, out) = (nodes.len(), edges.len(), out.len(), out.as_mut_ptr());
    // SAFETY: every pointer is valid for its length during the call.
    unsafe { benchcalls_list(nodes.as_ptr(), n, edges.as_ptr(), e, root, leaf, kind, out, room) }
}

/// Walk of a bit address from a root to a leaf by the verified code.
#[cfg(benchcalls_library)]
pub fn walk(
    nodes: &[i64], edges: &[i64], root: i64, leaf: i64, address: i64, kind: i64, out: &mut [i64],
) -> i64 {
    let (n, e, room, out) = (nodes.len(), edges.len(), out.len(), out.as_mut_ptr());
    let (nodes, edges) = (nodes.as_ptr(), edges.as_ptr());
    // SAFETY: every pointer is valid for its length during the call.
    unsafe { benchcalls_walk(nodes, n, edges, e, root, leaf, address, kind, out, room) }
}

/// Walk of a batch of bit addresses from a root to a leaf by the verified code, two numbers
/// for each row.
#[cfg(benchcalls_library)]
pub fn batch(
    nodes: &[i64], edges: &[i64], root: i64, leaf: i64, addresses: &[i64], kind: i64,
    out: &mut [i64],
) -> i64 {
    let (n, e, a, room) = (nodes.len(), edges.len(), addresses.len(), out.len());
    let (nodes, edges, addresses) = (nodes.as_ptr(), edges.as_ptr(), addresses.as_ptr());
    let out = out.as_mut_ptr();
    // SAFETY: every pointer is valid for its length during the call.
    unsafe { benchcalls_batch(nodes, n, edges, e, root, leaf, addresses, a, kind, out, room) }
}

/// Comparison of tables by the verified code.
#[cfg(benchcalls_library)]
pub fn compare(tables: &crate::reference::Tables) -> i64 {
    let [a, b, c, d, e, f] = tables;
    // SAFETY: every pointer is valid for its length during the call.
    unsafe {
        benchcalls_compare(
            a.as_ptr(),
            a.len(),
            b.as_ptr(),
            b.len(),
            c.as_ptr(),
            c.len(),
            d.as_ptr(),
            d.len(),
            e.as_ptr(),
            e.len(),
            f.as_ptr(),
            f.len(),
        )
    }
}

/// A sheet read by the verified code into a node table and an edge table.
#[cfg(benchcalls_library)]
pub fn read_sheet(text: &[u8], nodes: &mut [i64], edges: &mut [i64]) -> i64 {
    let (t, n, e) = (text.len(), nodes.len(), edges.len());
    // SAFETY: every pointer is valid for its length during the call.
    unsafe { benchcalls_read_sheet(text.as_ptr(), t, nodes.as_mut_ptr(), n, edges.as_mut_ptr(), e) }
}

/// The kind of walk as the calls on one graph take it. Any other number is writing too.
pub fn kind_number(kind: crate::reference::WalkKind) -> i64 {
    match kind {
        crate::reference::WalkKind::Reading => 0,
        crate::reference::WalkKind::Writing => 1,
    }
}

/// An answer as one number: the whole verdict, then the counts of equal, partial and
/// different pairs with 20 binary digits each; or the refusal's number below zero.
pub fn summary(answer: &Result<crate::reference::Comparison, crate::reference::Refusal>) -> i64 {
    match answer {
        Ok(comparison) => {
            let outcome = &comparison.outcome;
            outcome.counts.iter().fold(outcome.whole, |sum, count| (sum << 20) + count)
        }
        Err(refusal) => -refusal.number,
    }
}

/// The answer of a call on one graph as one number: how many were written, or the
/// refusal's number below zero.
pub fn count<T>(answer: &Result<Vec<T>, crate::reference::Refusal>) -> i64 {
    answer.as_ref().map_or_else(|refusal| -refusal.number, |written| written.len() as i64)
}

/// What a batch gives as one number: how many rows, and how many records were read, with 20
/// binary digits each; or the refusal's number below zero.
pub fn counts(answer: &Result<crate::reference::BatchRows, crate::reference::Refusal>) -> i64 {
    match answer {
        Ok(batch) => ((batch.rows.len() << 20) + batch.records) as i64,
        Err(refusal) => -refusal.number,
    }
}

/// What reading a sheet gives as one number: how many numbers the node table has, times
/// 100,000, and how many the edge table has; or the coded refusal.
pub fn lengths(answer: &Result<[usize; 2], crate::reference::Refusal>) -> i64 {
    match answer {
        Ok([nodes, edges]) => (nodes * 100_000 + edges) as i64,
        Err(refusal) => crate::reference::coded_refusal(refusal),
    }
}
