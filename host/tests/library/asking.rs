//! Asks the library and compares its answer and every byte with the reference.

use host::library;
use host::reference::{coded, refusal, text_check, Refusal, OUTPUT, REPORT_ROOM};

/// Bytes before and after the lent buffer, which no call may touch.
const GUARD: usize = 64;

/// Which lengths of the report buffer are tried.
#[derive(Clone, Copy)]
pub enum Rooms {
    /// The report's length, one less, and some more.
    Few,
    /// Those around the report's length, and the shortest.
    Around,
    /// Every length from 0 to past the report's, and that of mapcheck's buffer.
    Every,
}

/// What the reference answers where the buffer is as long as need be.
pub type Unlimited = Result<Vec<u8>, Refusal>;

fn pattern(place: usize, room: usize) -> u8 {
    (place * 37 + room * 11 + 5) as u8
}

/// Asks with a report buffer of that length inside a larger one whose every byte is
/// known, and compares the answer and all bytes.
pub fn check_room(text: &[u8], unlimited: &Unlimited, room: usize) {
    let expected = match unlimited {
        Ok(report) if report.len() > room => Err(refusal(11, OUTPUT, 0)),
        answer => answer.clone(),
    };
    let mut expected_bytes: Vec<u8> = (0..room + 2 * GUARD).map(|at| pattern(at, room)).collect();
    let mut bytes = expected_bytes.clone();
    if let Ok(report) = &expected {
        expected_bytes[GUARD..GUARD + report.len()].copy_from_slice(report);
    }
    let answer = library::text_check(text, &mut bytes[GUARD..GUARD + room]);
    if answer != coded(&expected) || bytes != expected_bytes {
        let place = bytes.iter().zip(&expected_bytes).position(|(byte, wanted)| byte != wanted);
        let shown = String::from_utf8_lossy(&text[..text.len().min(3_000)]);
        let code = coded(&expected);
        let report = String::from_utf8_lossy(&expected.unwrap_or_default()).into_owned();
        panic!(
            "room {room}: answer {answer}, expected {code}\n\
             first differing byte of the guarded buffer: {place:?}\n\
             text:\n{shown}\nexpected report:\n{report}"
        );
    }
}

/// Asks with buffers of the chosen lengths. Gives what the reference answers.
pub fn check(text: &[u8], rooms: Rooms) -> Unlimited {
    let given = text.to_vec();
    let unlimited = text_check(text, usize::MAX);
    let length = unlimited.as_ref().map_or(0, Vec::len);
    let lengths: Vec<usize> = match rooms {
        Rooms::Few if length == 0 => vec![0, 9],
        Rooms::Few => vec![length - 1, length, length + 9],
        Rooms::Around => (length.saturating_sub(3)..length + 4).chain([0, 1]).collect(),
        Rooms::Every => (0..length + 9).chain([REPORT_ROOM]).collect(),
    };
    for room in lengths {
        check_room(text, &unlimited, room);
    }
    assert!(text == given, "the text has changed");
    unlimited
}
