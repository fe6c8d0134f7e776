//! A small sheet with the tables that it makes, worked out by hand, and parts of others.

use host::sheet::Line;

pub const NAMES: &str = "initiator block base size\n";

/// Initiators 2 and 7, blocks 3 and 40. The first line and the last are equal.
pub const SHEET: &str = "\
initiator block base size
7 40 4096 256
2 40 0 256
7 3 65536 16
2 3 281474976710640 16
7 40 4096 256
";

pub const LINES: [Line; 5] = [
    Line { initiator: 7, block: 40, base: 4096, size: 256 },
    Line { initiator: 2, block: 40, base: 0, size: 256 },
    Line { initiator: 7, block: 3, base: 65536, size: 16 },
    Line { initiator: 2, block: 3, base: 281474976710640, size: 16 },
    Line { initiator: 7, block: 40, base: 4096, size: 256 },
];

pub const NODES: [[i64; 5]; 4] = [
    [0, 0, 281474976710656, 8, 0],
    [0, 0, 281474976710656, 8, 0],
    [2, 0, 16, 8, 0],
    [2, 0, 256, 8, 0],
];

pub const EDGES: [[i64; 3]; 5] =
    [[1, 3, 4096], [0, 3, 0], [1, 2, 65536], [0, 2, 281474976710640], [1, 3, 4096]];

/// The node row of an initiator.
pub const INITIATOR: [i64; 5] = [0, 0, 281474976710656, 8, 0];

/// The node row of a block.
pub fn block(size: i64) -> [i64; 5] {
    [2, 0, size, 8, 0]
}

/// Names and these lines.
pub fn sheet_of(lines: &[&str]) -> String {
    format!("{NAMES}{}\n", lines.join("\n"))
}

/// The sheet with the line of that number, counted from 1, put otherwise.
pub fn with_line(number: usize, line: &str) -> String {
    let mut lines: Vec<&str> = SHEET.lines().collect();
    lines[number - 1] = line;
    lines.join("\n") + "\n"
}
