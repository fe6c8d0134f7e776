//! Refusals 12 to 14: bytes, names and values, and small sheets damaged at every place.

use crate::asking::{check, refused, unlimited};
use crate::example::{with_line, NAMES, SHEET};
use host::sheet_texts::WRONG_FIELDS;

#[test]
fn bytes_of_the_text() {
    for (number, line) in (1..).zip(SHEET.lines()) {
        for wrong in ["A", "Z", "\r", "\t", "\0", "+", "*", "(", "_", ".", ",", "`", "{", "/", ":"]
        {
            refused(&with_line(number, &format!("{line}{wrong}")), (12, 6, number as i64));
            refused(&with_line(number, &format!("{wrong}{line}")), (12, 6, number as i64));
        }
    }
    refused(&SHEET.replace('\n', "\r\n"), (12, 6, 1));
    refused(SHEET.trim_end(), (12, 6, 6));
    refused(NAMES.trim_end(), (12, 6, 1));
    refused("a", (12, 6, 1));
    // The byte that is not allowed comes before the missing line feed, and 12 before all else.
    refused("a\nB\nc", (12, 6, 2));
    refused("a\nb\nc", (12, 6, 3));
    refused(&with_line(6, "1000 3 -0 X").replace("base", "bass"), (12, 6, 6));
    refused(&"B".repeat(65_537), (12, 6, 0));
    refused(&"B".repeat(65_536), (12, 6, 1));
    refused(&"\n".repeat(65_537), (12, 6, 0));
    refused(&"\n".repeat(65_536), (13, 6, 1));
}

#[test]
fn names_lines() {
    refused("", (13, 6, 1));
    refused("\n", (13, 6, 1));
    let wrong = "initiator block base|initiator block base size size|initiator block base base|\
        | |initiator block base size | initiator block base size|initiator  block base size|\
        side kind base range|initiator block base sizes|nitiator block base size|\
        initiator block base siz|initiator block bases ize|initiatorblock base size|size|\
        initiator initiator initiator initiator|7 40 4096 256|initiator block base size at|\
        side initiator block base size|-initiator block base size|initiator block base 0";
    for line in wrong.split('|') {
        refused(&with_line(1, line), (13, 6, 1));
        refused(&format!("{line}\n"), (13, 6, 1));
    }
    refused(&format!("\n{SHEET}"), (13, 6, 1));
    // Below the first line names are no values.
    refused(&format!("{NAMES}{SHEET}"), (14, 6, 2));
    refused(&format!("{SHEET}{NAMES}"), (14, 6, 7));
}

#[test]
fn value_lines() {
    let lines = "| |  |7 3 0|7 3 0 16 16| 7 3 0 16|7 3 0 16 |7  3 0 16|7 3 0  16|7|3 0 16|\
        7-3 0 16|7 3 0 16-|7 3 0 size|7 3 base 16|initiator block base size";
    let values = "a 016 -0 00 - -- --1 1- 1-1 -01 0x1 1000000000000000000 -1000000000000000000 \
        0000000000000000000 9223372036854775807 9223372036854775808 18446744073709551617";
    for number in 2..=6 {
        for line in lines.split('|') {
            refused(&with_line(number, line), (14, 6, number as i64));
        }
        for value in values.split(' ') {
            for place in 0..4 {
                let mut fields = ["7", "3", "0", "16"];
                fields[place] = value;
                refused(&with_line(number, &fields.join(" ")), (14, 6, number as i64));
            }
        }
    }
}

#[test]
fn empty_lines() {
    for (line, (place, _)) in (2..).zip(SHEET.match_indices('\n')) {
        let (above, below) = SHEET.split_at(place + 1);
        refused(&format!("{above}\n{below}"), (14, 6, line));
    }
    refused(&format!("{NAMES}\n"), (14, 6, 2));
    // No second table follows.
    refused(&format!("{SHEET}\n{SHEET}"), (14, 6, 7));
    refused(&format!("{SHEET}\nside from to offset\n0 0 1 0\n"), (14, 6, 7));
}

/// Asks both, and holds them to one another.
fn alike(text: &[u8]) {
    check(text, &unlimited(text));
}

#[test]
fn every_byte_at_every_place() {
    let text = SHEET.as_bytes();
    for place in 0..=text.len() {
        alike(&text[..place]);
        for byte in 0..=255 {
            let mut changed = text.to_vec();
            changed.insert(place, byte);
            alike(&changed);
            if place < text.len() {
                changed.remove(place + 1);
                alike(&changed);
            }
        }
        let mut without = text.to_vec();
        if place < text.len() {
            without.remove(place);
            alike(&without);
        }
        if place + 1 < text.len() {
            let mut swapped = text.to_vec();
            swapped.swap(place, place + 1);
            alike(&swapped);
        }
    }
}

#[test]
fn shortest_texts() {
    for byte in 0..=255 {
        for text in [vec![byte], vec![byte, b'\n'], vec![b'\n', byte], vec![b'a', byte]] {
            alike(&text);
            alike(&[NAMES.as_bytes(), &text].concat());
        }
    }
}

#[test]
fn every_line_out_doubled_and_swapped() {
    let lines: Vec<&str> = SHEET.split_inclusive('\n').collect();
    for (one, &line) in lines.iter().enumerate() {
        let mut fewer = lines.clone();
        fewer.remove(one);
        alike(fewer.concat().as_bytes());
        for other in 0..lines.len() {
            let mut more = lines.clone();
            more.insert(other, line);
            alike(more.concat().as_bytes());
            let mut swapped = lines.clone();
            swapped.swap(one, other);
            alike(swapped.concat().as_bytes());
        }
    }
}

#[test]
fn every_field_put_otherwise() {
    let mut wrong: Vec<String> = WRONG_FIELDS.split(' ').map(str::to_string).collect();
    for digits in 14..=21 {
        for first in ["9", "1", "0", "-9", "-1", "-0"] {
            wrong.push(first.to_string() + &"9".repeat(digits - 1));
            wrong.push(first.to_string() + &"0".repeat(digits - 1));
        }
    }
    for (number, line) in (1..).zip(SHEET.lines()) {
        let fields: Vec<&str> = line.split(' ').collect();
        for place in 0..fields.len() {
            for field in &wrong {
                let mut changed = fields.clone();
                changed[place] = field;
                alike(with_line(number, &changed.join(" ")).as_bytes());
                changed.insert(place, fields[place]);
                alike(with_line(number, &changed.join(" ")).as_bytes());
            }
            let mut fewer = fields.clone();
            fewer.remove(place);
            alike(with_line(number, &fewer.join(" ")).as_bytes());
            for other in 0..fields.len() {
                let mut swapped = fields.clone();
                swapped.swap(place, other);
                alike(with_line(number, &swapped.join(" ")).as_bytes());
            }
        }
    }
}
