//! Calls with a lent buffer, held to the expected answer and to every number of the buffer.

use host::bitwalk;
use host::library;
use host::reference::{self, BatchRows, Refusal, WalkKind};

/// Numbers far away, as addresses and as anything else that a call is given.
pub const FAR: [i64; 13] = [
    i64::MIN,
    i64::MIN + 1,
    -1,
    0,
    1,
    2,
    8,
    1 << 48,
    (1 << 55) - 1,
    1 << 55,
    1 << 62,
    i64::MAX - 1,
    i64::MAX,
];

/// Numbers before and behind each lent buffer, which no call may touch.
const GUARD: usize = 16;

/// What a call gives where its output fits: what it returns, and the numbers that it writes.
pub struct Full {
    pub answer: i64,
    pub numbers: Vec<i64>,
}

/// Answer and output for a buffer with room for so many numbers.
fn told(expected: &Result<Full, Refusal>, room: usize) -> (i64, &[i64]) {
    match expected {
        Ok(full) if full.numbers.len() > room => (-11, &[]),
        Ok(full) => (full.answer, &full.numbers),
        Err(refusal) => (-refusal.number, &[]),
    }
}

/// A call with buffers of these lengths, which hold numbers that no output has.
pub fn check_rooms(
    expected: &Result<Full, Refusal>, rooms: impl IntoIterator<Item = usize>,
    call: impl Fn(&mut [i64]) -> i64,
) {
    for room in rooms {
        let (answer, output) = told(expected, room);
        let mut buffer: Vec<i64> = (i64::MIN..).take(room + 2 * GUARD).collect();
        let mut wanted = buffer.clone();
        wanted[GUARD..][..output.len()].copy_from_slice(output);
        assert_eq!(call(&mut buffer[GUARD..][..room]), answer, "room {room}");
        let unlike = buffer.iter().zip(&wanted).position(|(number, wanted)| number != wanted);
        let place = unlike.map(|place| place as i64 - GUARD as i64);
        assert_eq!(place, None, "room {room}: the first number of the buffer that is another");
    }
}

/// A call with buffers of the output's own length, one less and some more.
pub fn check_written(expected: &Result<Full, Refusal>, call: impl Fn(&mut [i64]) -> i64) {
    let length = expected.as_ref().map_or(0, |full| full.numbers.len());
    check_rooms(expected, [length.saturating_sub(1), length, length + 5], call);
}

/// A batch by the reference, whose rows must be those of its single walks.
pub fn batch_rows(
    nodes: &[i64], edges: &[i64], root: i64, leaf: i64, addresses: &[i64], kind: WalkKind,
) -> Result<BatchRows, Refusal> {
    let batch = reference::batch(nodes, edges, root, leaf, addresses, kind, usize::MAX)?;
    let list = reference::list(nodes, edges, root, leaf, kind, usize::MAX)?;
    let room = usize::MAX;
    let walk = |address| reference::walk(nodes, edges, root, leaf, address, kind, room).unwrap();
    assert!(batch.rows == bitwalk::batch(&list, addresses, walk), "the walks give other rows");
    assert_eq!(batch.records, list.len());
    Ok(batch)
}

/// What the library's call is to give for a batch.
pub fn full_batch(batch: Result<BatchRows, Refusal>) -> Result<Full, Refusal> {
    let answer = library::counts(&batch);
    batch.map(|batch| Full { answer, numbers: batch.rows.concat() })
}
