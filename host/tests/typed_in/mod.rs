//! Maps with what a check prints, typed in by hand.

use host::bitwalk;
use host::propagate;
use host::reference::{parse, printed, report, text_check, text_check_by, Listing, REPORT_ROOM};

/// All programs answer a text alike, and what is printed is what was typed in. The walker of
/// single bits makes the same report, where there is one.
pub fn prints(name: &str, text: &str, typed_in: &str) {
    let text = text.as_bytes();
    assert_eq!(String::from_utf8(printed(text)).unwrap(), typed_in, "{name}");
    let answer = text_check(text, REPORT_ROOM);
    for listing in [Listing::ByRoot, Listing::ByPair] {
        assert_eq!(text_check_by(text, REPORT_ROOM, listing), answer, "{name}");
    }
    assert_eq!(propagate::text_check(text, REPORT_ROOM), answer, "{name}");
    if answer.is_ok() {
        let tables = parse(text).expect(name);
        assert_eq!(report(&bitwalk::compare(&tables)), typed_in.as_bytes(), "{name}");
    }
}
