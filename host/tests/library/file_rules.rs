//! Small texts in every order of lines and columns, and damaged at every place.

use crate::asking::{check, Rooms};
use host::faults::{base, open_base};
use host::generate::{mixed_text, permutations, plain_text, text_with_columns};
use host::generate::{Random, WRONG_FIELDS};
use host::large::P1;
use host::reference::{EDGE_NAMES, NODE_NAMES, PAIR_NAMES};

/// P1, and a map of two roots and three leaves, one of them in two banks, with accesses and a
/// negative offset, its columns in another order and its sides and roles interleaved.
fn texts() -> [Vec<u8>; 2] {
    let mut tables = base();
    tables[3][5] = -12;
    tables[2][2] = 40;
    [P1.as_bytes().to_vec(), mixed_text(&mut Random::new(3), &tables)]
}

fn lines(text: &[u8]) -> Vec<Vec<u8>> {
    text.split_inclusive(|&byte| byte == b'\n').map(<[u8]>::to_vec).collect()
}

#[test]
fn columns_in_every_order() {
    let mut tables = open_base();
    tables[3][5] = -12;
    // The last leaf row alone tells where its bank begins.
    tables[5].truncate(9);
    let (nodes, edges, pairs) = (permutations(5), permutations(4), permutations(3));
    let expected = check(&plain_text(&tables), Rooms::Every);
    for nodes in &nodes {
        for edges in &edges {
            for pairs in &pairs {
                let text = text_with_columns(&tables, [nodes, edges, pairs]);
                assert_eq!(check(&text, Rooms::Few), expected);
            }
        }
    }
}

#[test]
fn optional_columns_in_every_order() {
    let (tables, open) = (base(), open_base());
    let mut without = open.clone();
    without[5].truncate(9);
    let without_access: Vec<usize> = (0..5).collect();
    for tables in [open, without] {
        let expected = check(&plain_text(&tables), Rooms::Every);
        for edges in permutations(4) {
            for pairs in permutations(4) {
                let text = text_with_columns(&tables, [&without_access, &edges, &pairs]);
                assert_eq!(check(&text, Rooms::Few), expected);
            }
        }
    }
    // The column access anywhere, beside the column at anywhere or absent.
    let mut without_at = tables.clone();
    without_at[5].truncate(9);
    for (tables, pair_columns) in [(tables, 4), (without_at, 3), (open_base(), 4)] {
        let expected = check(&plain_text(&tables), Rooms::Every);
        for nodes in permutations(6) {
            for pairs in permutations(pair_columns) {
                let text = text_with_columns(&tables, [&nodes, &[0, 1, 2, 3], &pairs]);
                assert_eq!(check(&text, Rooms::Few), expected);
            }
        }
    }
}

#[test]
fn lines_in_every_order() {
    let all = lines(P1.as_bytes());
    let (edge_orders, pair_orders) = (permutations(3), permutations(2));
    for nodes in permutations(5) {
        for edges in &edge_orders {
            for pairs in &pair_orders {
                let mut text = all.clone();
                nodes
                    .iter()
                    .enumerate()
                    .for_each(|(at, &line)| text[1 + at] = all[1 + line].clone());
                edges
                    .iter()
                    .enumerate()
                    .for_each(|(at, &line)| text[8 + at] = all[8 + line].clone());
                pairs
                    .iter()
                    .enumerate()
                    .for_each(|(at, &line)| text[13 + at] = all[13 + line].clone());
                _ = check(&text.concat(), Rooms::Few);
            }
        }
    }
}

#[test]
fn every_byte_at_every_place() {
    for text in texts() {
        for place in 0..=text.len() {
            _ = check(&text[..place], Rooms::Around);
            for byte in 0..=255 {
                let mut changed = text.clone();
                changed.insert(place, byte);
                _ = check(&changed, Rooms::Few);
                if place < text.len() {
                    changed.remove(place + 1);
                    _ = check(&changed, Rooms::Few);
                }
            }
            let mut without = text.clone();
            if place < text.len() {
                without.remove(place);
                _ = check(&without, Rooms::Around);
            }
            if place + 1 < text.len() {
                let mut swapped = text.clone();
                swapped.swap(place, place + 1);
                _ = check(&swapped, Rooms::Around);
            }
        }
    }
}

#[test]
fn shortest_texts() {
    _ = check(b"", Rooms::Every);
    for byte in 0..=255 {
        for text in [vec![byte], vec![byte, b'\n'], vec![b'\n', byte], vec![b'a', byte]] {
            _ = check(&text, Rooms::Every);
        }
        let line = [b"side kind base range unit\n", &[byte, b'\n'][..]].concat();
        _ = check(&line, Rooms::Around);
    }
}

/// Lines to put in: empty, of spaces, of one field, the names of each table.
const OTHER_LINES: [&[u8]; 10] = [
    b"\n",
    b" \n",
    b"  \n",
    b"0\n",
    b"a\n",
    b"side kind base range unit\n",
    b"side kind base range unit access\n",
    b"side from to offset\n",
    b"role spec impl\n",
    b"role spec impl at\n",
];

#[test]
fn every_line_out_doubled_swapped_and_more() {
    for text in texts() {
        let lines = lines(&text);
        for place in 0..=lines.len() {
            for other in OTHER_LINES {
                let mut more = lines.clone();
                more.insert(place, other.to_vec());
                _ = check(&more.concat(), Rooms::Around);
            }
            for line in &lines {
                let mut more = lines.clone();
                more.insert(place, line.clone());
                _ = check(&more.concat(), Rooms::Around);
            }
            if place < lines.len() {
                let mut fewer = lines.clone();
                fewer.remove(place);
                _ = check(&fewer.concat(), Rooms::Around);
                for other in 0..place {
                    let mut swapped = lines.clone();
                    swapped.swap(place, other);
                    _ = check(&swapped.concat(), Rooms::Around);
                }
            }
        }
    }
}

/// A field of the text put otherwise, given all fields of its line and its place there.
fn check_fields(text: &[u8], change: impl Fn(&mut Vec<Vec<u8>>, usize)) {
    let lines = lines(text);
    for number in 0..lines.len() {
        let line = lines[number].strip_suffix(b"\n").unwrap();
        let fields: Vec<Vec<u8>> = line.split(|&byte| byte == b' ').map(<[u8]>::to_vec).collect();
        for place in 0..fields.len() {
            let mut changed = fields.clone();
            change(&mut changed, place);
            let mut text = lines.clone();
            text[number] = [changed.join(&b' '), b"\n".to_vec()].concat();
            _ = check(&text.concat(), Rooms::Few);
        }
    }
}

#[test]
fn every_field_put_otherwise() {
    let mut wrong: Vec<String> = WRONG_FIELDS.split(' ').map(str::to_string).collect();
    for name in NODE_NAMES.all().chain(EDGE_NAMES.all()).chain(PAIR_NAMES.all()) {
        let shorter = &name[..name.len() - 1];
        wrong.extend([
            name.to_string(),
            shorter.to_string(),
            format!("{name}s"),
            format!("a{name}"),
        ]);
    }
    for digits in 16..=21 {
        for sign in ["", "-"] {
            wrong.push(format!("{sign}{}", "9".repeat(digits)));
            wrong.push(format!("{sign}1{}", "0".repeat(digits - 1)));
            wrong.push(format!("{sign}0{}", "0".repeat(digits - 1)));
        }
    }
    for text in texts() {
        for field in &wrong {
            check_fields(&text, |fields, place| fields[place] = field.clone().into_bytes());
        }
        check_fields(&text, |fields, place| _ = fields.remove(place));
        check_fields(&text, |fields, place| fields.insert(place, fields[place].clone()));
        check_fields(&text, |fields, place| fields.insert(place, Vec::new()));
        check_fields(&text, |fields, _| fields.push(Vec::new()));
        for other in 0..6 {
            check_fields(&text, |fields, place| {
                if let Some(field) = fields.get(other).cloned() {
                    fields[place] = field;
                }
            });
        }
    }
}
