//! Asks the reference and, where it is linked, the library, and holds the answer and every
//! number of both buffers to what is expected.

use host::library;
use host::reference::{refusal, Refusal, MAX_EDGES, NODE_WIDTH, OUTPUT};
use host::sheet::{read_sheet, NUMBERS};

type Call = fn(&[u8], &mut [i64], &mut [i64]) -> i64;

fn by_reference(text: &[u8], nodes: &mut [i64], edges: &mut [i64]) -> i64 {
    library::lengths(&read_sheet(text, nodes, edges))
}

#[cfg(not(benchcalls_library))]
pub const ASKED: [(&str, Call); 1] = [("reference", by_reference)];
#[cfg(benchcalls_library)]
pub const ASKED: [(&str, Call); 2] =
    [("reference", by_reference), ("library", library::read_sheet)];

/// The node table and the edge table, or the refusal.
pub type Answer = Result<[Vec<i64>; 2], Refusal>;

/// Numbers of the largest tables.
const MOST: [usize; 2] = [2 * NUMBERS * NODE_WIDTH, MAX_EDGES * 3];

/// Numbers before and after each lent buffer, which no call may touch.
const GUARD: usize = 16;

/// What a buffer and its guards hold before a call: every number another one, none of a
/// table, and the two buffers have none in common.
fn known(buffer: usize, room: usize) -> Vec<i64> {
    (0..room + 2 * GUARD).map(|place| -1 - (2 * place + buffer) as i64).collect()
}

/// How many numbers the two tables have.
pub fn lengths(answer: &Answer) -> Result<[usize; 2], Refusal> {
    answer.as_ref().map(|[nodes, edges]| [nodes.len(), edges.len()]).map_err(|refusal| *refusal)
}

/// Asks with buffers of these lengths.
fn check_rooms(text: &[u8], rooms: [usize; 2], expected: &Answer) {
    let given = text.to_vec();
    let before = [0, 1].map(|buffer| known(buffer, rooms[buffer]));
    let mut after = before.clone();
    for (buffer, table) in after.iter_mut().zip(expected.iter().flatten()) {
        buffer[GUARD..][..table.len()].copy_from_slice(table);
    }
    let code = library::lengths(&lengths(expected));
    for (name, call) in ASKED {
        let [mut nodes, mut edges] = before.clone();
        let lent_nodes = &mut nodes[GUARD..][..rooms[0]];
        let answer = call(text, lent_nodes, &mut edges[GUARD..][..rooms[1]]);
        if answer != code || nodes != after[0] || edges != after[1] {
            let shown = String::from_utf8_lossy(&text[..text.len().min(3_000)]);
            let place = |numbers: &[i64], wanted: &[i64]| {
                numbers.iter().zip(wanted).position(|(number, wanted)| number != wanted)
            };
            let places = [place(&nodes, &after[0]), place(&edges, &after[1])];
            panic!(
                "{name}, rooms {rooms:?}: answer {answer}, expected {code}\n\
                 first differing numbers of the guarded buffers: {places:?}\n\
                 sheet:\n{shown}\nexpected: {expected:?}"
            );
        }
    }
    assert!(text == given, "the text has changed");
}

/// Asks with buffers of the tables' own lengths, one shorter, none and longer.
pub fn check(text: &[u8], unlimited: &Answer) {
    let [nodes, edges] = lengths(unlimited).unwrap_or([0, 0]);
    let [fewer_nodes, fewer_edges] = [nodes.saturating_sub(1), edges.saturating_sub(1)];
    let rooms = [
        [nodes, edges],
        [fewer_nodes, edges],
        [nodes, fewer_edges],
        [fewer_nodes, fewer_edges],
        [0, edges],
        [nodes, 0],
        [fewer_nodes, edges + 7],
        [nodes + 9, fewer_edges],
        [nodes + 5, edges + 2],
    ];
    for rooms in rooms {
        let expected = match unlimited {
            Ok(_) if rooms[0] < nodes || rooms[1] < edges => Err(refusal(11, OUTPUT, 0)),
            answer => answer.clone(),
        };
        check_rooms(text, rooms, &expected);
    }
}

/// What the reference answers where the buffers hold the largest tables.
pub fn unlimited(text: &[u8]) -> Answer {
    let [mut nodes, mut edges] = MOST.map(|room| vec![0; room]);
    let [node_numbers, edge_numbers] = read_sheet(text, &mut nodes, &mut edges)?;
    nodes.truncate(node_numbers);
    edges.truncate(edge_numbers);
    Ok([nodes, edges])
}

/// The sheet makes these rows of nodes and of edges.
pub fn taken(text: &str, nodes: &[[i64; 5]], edges: &[[i64; 3]]) {
    check(text.as_bytes(), &Ok([nodes.concat(), edges.concat()]));
}

/// The sheet is refused with this number, table and row, however long the buffers are.
pub fn refused(text: &str, (number, table, row): (i64, i64, i64)) {
    check(text.as_bytes(), &Err(Refusal { number, table, row }));
}
