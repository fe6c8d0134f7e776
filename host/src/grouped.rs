//! Maps whose leaves are built from banks, with what a check prints: typed in by hand from
//! the documents.

/// A map file in two parts, and what a check prints.
pub struct Case {
    pub name: &'static str,
    graphs: &'static str,
    pairs: &'static str,
    pub printed: &'static str,
}

impl Case {
    pub fn text(&self) -> String {
        format!("{}\n{}", self.graphs, self.pairs)
    }
}

/// A memory of 64 bytes from byte 256 on, and four banks of four words of 32 bits each. Bank
/// k is at bit 2048 + 128 * k.
const FOUR_BANKS: &str = "\
side kind base range unit
0 0 0 4096 8
0 2 256 64 8
1 0 0 4096 8
1 2 0 4 32
1 2 0 4 32
1 2 0 4 32
1 2 0 4 32

side from to offset
0 0 1 0
1 0 1 64
1 0 2 68
1 0 3 72
1 0 4 76
";

const EQUAL: &str = "\
root leaf verdict rspec rimpl wspec wimpl
0 0 0 1 1 1 1

verdict equal partial different root leaf address
0 1 0 0 -1 -1 -1
";

/// A block of 16 bytes from byte 0 on. Banks, node rows 1 to 4 of the implementation: the
/// whole at byte 0; its bytes 0 to 11 at byte 0; its bytes 4 to 15 at byte 4; 8 bytes at
/// byte 16.
const ONE_BLOCK: &str = "\
side kind base range unit
0 0 0 64 8
0 2 0 16 8
1 0 0 64 8
1 2 0 16 8
1 2 0 12 8
1 2 3 12 8
1 2 0 8 8

side from to offset
0 0 1 0
1 0 1 0
1 0 2 0
1 0 3 1
1 0 4 16
";

/// Blocks A, B and C of 16, 16 and 8 bytes at bytes 0, 32 and 64. The implementation has A
/// and B in two halves each, node rows 1 and 3, 2 and 4; the second half of B is at byte 41
/// and not at byte 40.
const TWO_GROUPS: &str = "\
side kind base range unit
0 0 0 128 8
0 2 0 16 8
0 2 0 16 8
0 2 0 8 8
1 0 0 128 8
1 2 0 8 8
1 2 0 8 8
1 2 0 8 8
1 2 0 8 8
1 2 0 8 8

side from to offset
0 0 1 0
0 0 2 32
0 0 3 64
1 0 1 0
1 0 2 32
1 0 3 8
1 0 4 41
1 0 5 64
";

/// The same behind two roots on either side; the second sees bytes 64 to 127.
const TWO_ROOTS: &str = "\
side kind base range unit
0 0 0 128 8
0 2 0 16 8
0 2 0 16 8
0 2 0 8 8
0 0 64 64 8
1 0 0 128 8
1 2 0 8 8
1 2 0 8 8
1 2 0 8 8
1 2 0 8 8
1 2 0 8 8
1 0 64 64 8

side from to offset
0 0 1 0
0 0 2 32
0 0 3 64
0 4 1 0
0 4 2 32
0 4 3 64
1 0 1 0
1 0 2 32
1 0 3 8
1 0 4 41
1 0 5 64
1 6 1 0
1 6 2 32
1 6 3 8
1 6 4 41
1 6 5 64
";

/// Four words of 16 bits, words 0 and 2 in one bank, 1 and 3 in another. Each bank holds its
/// words where the block has them, the second bank from word 1 on.
const INTERLEAVED: &str = "\
side kind base range unit
0 0 0 8 8
0 2 0 4 16
1 0 0 8 8
1 1 0 1 16
1 1 1 1 16
1 1 2 1 16
1 1 3 1 16
1 2 0 4 16
1 2 0 3 16

side from to offset
0 0 1 0
1 0 1 0
1 0 2 0
1 0 3 0
1 0 4 0
1 1 5 0
1 3 5 0
1 2 6 1
1 4 6 1
";

/// The same with the words of each bank close together.
const INTERLEAVED_CLOSE: &str = "\
side kind base range unit
0 0 0 8 8
0 2 0 4 16
1 0 0 8 8
1 1 0 1 16
1 1 1 1 16
1 1 2 1 16
1 1 3 1 16
1 2 0 2 16
1 2 0 2 16

side from to offset
0 0 1 0
1 0 1 0
1 0 2 0
1 0 3 0
1 0 4 0
1 1 5 0
1 3 5 1
1 2 6 1
1 4 6 2
";

/// A block of 2^55 bits, of which the root sees the last 128; two banks of 64 bits.
const FAR: &str = "\
side kind base range unit
0 0 0 16 8
0 2 0 281474976710656 128
1 0 0 16 8
1 2 0 8 8
1 2 5 8 8

side from to offset
0 0 1 -281474976710655
1 0 1 0
1 0 2 3
";

/// The same, and a bank of 2^55 bits of which the root sees the last 128.
const FARTHEST: &str = "\
side kind base range unit
0 0 0 16 8
0 2 0 281474976710656 128
1 0 0 16 8
1 2 0 281474976710656 128

side from to offset
0 0 1 -281474976710655
1 0 1 -281474976710655
";

const CASES: [Case; 39] = [
    Case {
        name: "a memory of four banks",
        graphs: FOUR_BANKS,
        pairs: "\
role spec impl at
0 0 0 0
1 1 1 0
1 1 2 128
1 1 3 256
1 1 4 384
",
        printed: EQUAL,
    },
    Case {
        name: "at first, banks in reverse",
        graphs: FOUR_BANKS,
        pairs: "\
at role spec impl
384 1 1 4
256 1 1 3
128 1 1 2
0 1 1 1
0 0 0 0
",
        printed: EQUAL,
    },
    Case {
        name: "at between, banks in any order",
        graphs: FOUR_BANKS,
        pairs: "\
impl at spec role
3 256 1 1
0 0 0 0
1 0 1 1
4 384 1 1
2 128 1 1
",
        printed: EQUAL,
    },
    // Bank k has displacement 2048 + 128 * k: that of bank 0 alone is the memory's.
    Case {
        name: "at absent",
        graphs: FOUR_BANKS,
        pairs: "\
role spec impl
0 0 0
1 1 1
1 1 2
1 1 3
1 1 4
",
        printed: "\
root leaf verdict rspec rimpl wspec wimpl
0 0 2 1 4 1 4

verdict equal partial different root leaf address
2 0 0 1 0 0 2176
",
    },
    // The first bank has displacement 1920, the second 2176, the others one record of 2048.
    Case {
        name: "banks exchanged",
        graphs: FOUR_BANKS,
        pairs: "\
role spec impl at
0 0 0 0
1 1 1 128
1 1 2 0
1 1 3 256
1 1 4 384
",
        printed: "\
root leaf verdict rspec rimpl wspec wimpl
0 0 2 1 3 1 3

verdict equal partial different root leaf address
2 0 0 1 0 0 2048
",
    },
    Case {
        name: "a gap where the third bank was",
        graphs: FOUR_BANKS,
        pairs: "\
role spec impl at
0 0 0 0
1 1 1 0
1 1 2 128
1 1 4 384
",
        printed: "\
root leaf verdict rspec rimpl wspec wimpl
0 0 1 1 2 1 2

verdict equal partial different root leaf address
1 0 1 0 0 0 2304
",
    },
    Case {
        name: "the last bank alone",
        graphs: FOUR_BANKS,
        pairs: "\
role spec impl at
0 0 0 0
1 1 4 384
",
        printed: "\
root leaf verdict rspec rimpl wspec wimpl
0 0 1 1 1 1 1

verdict equal partial different root leaf address
1 0 1 0 0 0 2048
",
    },
    Case {
        name: "a bank one bit off",
        graphs: FOUR_BANKS,
        pairs: "\
role spec impl at
0 0 0 0
1 1 1 0
1 1 2 128
1 1 3 257
1 1 4 384
",
        printed: "\
root leaf verdict rspec rimpl wspec wimpl
0 0 2 1 3 1 3

verdict equal partial different root leaf address
2 0 0 1 0 0 2304
",
    },
    Case {
        name: "one bank that is the block, moved",
        graphs: ONE_BLOCK,
        pairs: "role spec impl at\n0 0 0 0\n1 1 1 8\n",
        printed: "\
root leaf verdict rspec rimpl wspec wimpl
0 0 2 1 1 1 1

verdict equal partial different root leaf address
2 0 0 1 0 0 0
",
    },
    Case {
        name: "banks that overlap",
        graphs: ONE_BLOCK,
        pairs: "role spec impl at\n0 0 0 0\n1 1 2 0\n1 1 3 32\n",
        printed: EQUAL,
    },
    Case {
        name: "a bank within another that shares its at",
        graphs: ONE_BLOCK,
        pairs: "role spec impl\n0 0 0\n1 1 1\n1 1 2\n",
        printed: EQUAL,
    },
    // Bytes 16 to 23 of the root reach bytes 0 to 7 of the block as well.
    Case {
        name: "a bank elsewhere that shares its at",
        graphs: ONE_BLOCK,
        pairs: "role spec impl\n0 0 0\n1 1 4\n1 1 1\n",
        printed: "\
root leaf verdict rspec rimpl wspec wimpl
0 0 2 1 2 1 2

verdict equal partial different root leaf address
2 0 0 1 0 0 128
",
    },
    // Byte 16 on would be byte 16 on of the block: one record of 24 bytes.
    Case {
        name: "a bank beyond the block",
        graphs: ONE_BLOCK,
        pairs: "role spec impl at\n0 0 0 0\n1 1 1 0\n1 1 4 128\n",
        printed: "\
root leaf verdict rspec rimpl wspec wimpl
0 0 2 1 1 1 1

verdict equal partial different root leaf address
2 0 0 1 0 0 128
",
    },
    Case {
        name: "a bank that is not contained",
        graphs: ONE_BLOCK,
        pairs: "role spec impl at\n0 0 0 0\n1 1 2 0\n1 1 4 0\n",
        printed: "\
root leaf verdict rspec rimpl wspec wimpl
0 0 2 1 2 1 2

verdict equal partial different root leaf address
2 0 0 1 0 0 96
",
    },
    // Leaf rows 0 and 2 are A, rows 1 and 3 are B, row 4 is C.
    Case {
        name: "groups in turn",
        graphs: TWO_GROUPS,
        pairs: "\
role spec impl at
0 0 0 0
1 1 1 0
1 2 2 0
1 1 3 64
1 2 4 64
1 3 5 0
",
        printed: "\
root leaf verdict rspec rimpl wspec wimpl
0 0 0 1 1 1 1
0 1 2 1 2 1 2
0 4 0 1 1 1 1

verdict equal partial different root leaf address
2 2 0 1 0 1 320
",
    },
    // Leaf rows 0 and 4 are B, row 1 is C, rows 2 and 3 are A.
    Case {
        name: "a group around the others",
        graphs: TWO_GROUPS,
        pairs: "\
role spec impl at
0 0 0 0
1 2 4 64
1 3 5 0
1 1 3 64
1 1 1 0
1 2 2 0
",
        printed: "\
root leaf verdict rspec rimpl wspec wimpl
0 0 2 1 2 1 2
0 1 0 1 1 1 1
0 2 0 1 1 1 1

verdict equal partial different root leaf address
2 2 0 1 0 0 320
",
    },
    // The second half of B has no row.
    Case {
        name: "half of a group",
        graphs: TWO_GROUPS,
        pairs: "\
role spec impl at
0 0 0 0
1 1 3 64
1 1 1 0
1 2 2 0
",
        printed: "\
root leaf verdict rspec rimpl wspec wimpl
0 0 0 1 1 1 1
0 2 1 1 1 1 1

verdict equal partial different root leaf address
1 1 1 0 0 2 320
",
    },
    // Two roots and three groups of five rows: six pairs. The second root sees C alone.
    Case {
        name: "two roots, three groups",
        graphs: TWO_ROOTS,
        pairs: "\
role spec impl at
0 4 6 0
0 0 0 0
1 1 1 0
1 2 2 0
1 1 3 64
1 2 4 64
1 3 5 0
",
        printed: "\
root leaf verdict rspec rimpl wspec wimpl
0 4 0 1 1 1 1
1 0 0 1 1 1 1
1 1 2 1 2 1 2
1 4 0 1 1 1 1

verdict equal partial different root leaf address
2 5 0 1 1 1 320
",
    },
    Case {
        name: "interleaved banks",
        graphs: INTERLEAVED,
        pairs: "role spec impl at\n0 0 0 0\n1 1 6 16\n1 1 5 0\n",
        printed: EQUAL,
    },
    // Word 1 is word 2 of the block, with displacement -16, and word 2 is word 1.
    Case {
        name: "interleaved banks, close together",
        graphs: INTERLEAVED_CLOSE,
        pairs: "role spec impl at\n0 0 0 0\n1 1 5 0\n1 1 6 32\n",
        printed: "\
root leaf verdict rspec rimpl wspec wimpl
0 0 2 1 4 1 4

verdict equal partial different root leaf address
2 0 0 1 0 0 16
",
    },
    Case {
        name: "banks at 2^55 - 128 and 2^55 - 64",
        graphs: FAR,
        pairs: "\
role spec impl at
0 0 0 0
1 1 2 36028797018963904
1 1 1 36028797018963840
",
        printed: EQUAL,
    },
    Case {
        name: "a bank at 2^55 - 1",
        graphs: FAR,
        pairs: "\
role spec impl at
0 0 0 0
1 1 1 36028797018963840
1 1 2 36028797018963967
",
        printed: "\
root leaf verdict rspec rimpl wspec wimpl
0 0 2 1 2 1 2

verdict equal partial different root leaf address
2 0 0 1 0 0 64
",
    },
    Case {
        name: "leaf bits from 2^56 - 129 on",
        graphs: FARTHEST,
        pairs: "role spec impl at\n0 0 0 0\n1 1 1 36028797018963967\n",
        printed: "\
root leaf verdict rspec rimpl wspec wimpl
0 0 2 1 1 1 1

verdict equal partial different root leaf address
2 0 0 1 0 0 0
",
    },
    Case {
        name: "at 2^55",
        graphs: FAR,
        pairs: "role spec impl at\n0 0 0 0\n1 1 1 0\n1 1 2 36028797018963968\n",
        printed: "refusal table row\n16 5 1\n",
    },
    Case {
        name: "at of 18 digits",
        graphs: FAR,
        pairs: "role spec impl at\n0 0 0 0\n1 1 1 999999999999999999\n",
        printed: "refusal table row\n16 5 0\n",
    },
    Case {
        name: "at of 19 digits",
        graphs: FAR,
        pairs: "role spec impl at\n0 0 0 0\n1 1 1 1000000000000000000\n",
        printed: "refusal table row\n14 6 15\n",
    },
    Case {
        name: "at below 0",
        graphs: FAR,
        pairs: "at role spec impl\n0 0 0 0\n0 1 1 2\n-1 1 1 1\n",
        printed: "refusal table row\n16 5 1\n",
    },
    Case {
        name: "at in a root row",
        graphs: FAR,
        pairs: "role spec impl at\n1 1 1 -1\n0 0 0 1\n",
        printed: "refusal table row\n16 4 0\n",
    },
    Case {
        name: "at twice",
        graphs: FAR,
        pairs: "role at spec impl at\n0 0 0 0 0\n1 0 1 1 0\n",
        printed: "refusal table row\n13 6 13\n",
    },
    Case {
        name: "at in place of another name",
        graphs: FAR,
        pairs: "role spec at\n0 0 0\n1 1 1\n",
        printed: "refusal table row\n13 6 13\n",
    },
    Case {
        name: "three values where at is named",
        graphs: FAR,
        pairs: "role spec impl at\n0 0 0 0\n1 1 1\n1 1 2 0\n",
        printed: "refusal table row\n14 6 15\n",
    },
    Case {
        name: "four values where at is not named",
        graphs: FAR,
        pairs: "role spec impl\n0 0 0\n1 1 1 0\n1 1 2\n",
        printed: "refusal table row\n14 6 15\n",
    },
    Case {
        name: "an implementation leaf repeated in its group",
        graphs: ONE_BLOCK,
        pairs: "role spec impl at\n0 0 0 0\n1 1 2 0\n1 1 3 32\n1 1 2 64\n",
        printed: "refusal table row\n8 5 2\n",
    },
    Case {
        name: "an implementation leaf repeated in another group",
        graphs: TWO_GROUPS,
        pairs: "role spec impl at\n0 0 0 0\n1 1 2 0\n1 2 2 0\n",
        printed: "refusal table row\n8 5 1\n",
    },
    Case {
        name: "a specification root repeated",
        graphs: TWO_ROOTS,
        pairs: "role spec impl at\n0 0 0 0\n0 0 6 0\n1 1 1 0\n",
        printed: "refusal table row\n8 4 1\n",
    },
    Case {
        name: "an implementation root repeated",
        graphs: TWO_ROOTS,
        pairs: "role spec impl at\n0 0 0 0\n0 4 0 0\n1 1 1 -1\n",
        printed: "refusal table row\n8 4 1\n",
    },
    Case {
        name: "16 before 8 in one row",
        graphs: ONE_BLOCK,
        pairs: "role spec impl at\n0 0 0 0\n1 1 2 0\n1 1 2 -1\n",
        printed: "refusal table row\n16 5 1\n",
    },
    Case {
        name: "7 before 16 in one row",
        graphs: ONE_BLOCK,
        pairs: "role spec impl at\n0 0 0 0\n1 1 2 0\n1 1 5 -1\n1 1 2 -1\n",
        printed: "refusal table row\n7 5 1\n",
    },
    Case {
        name: "8 in a row before 7 and 16",
        graphs: ONE_BLOCK,
        pairs: "role spec impl at\n0 0 0 0\n1 1 2 0\n1 1 2 8\n1 1 5 0\n1 1 3 -1\n",
        printed: "refusal table row\n8 5 1\n",
    },
];

pub fn cases() -> &'static [Case] {
    &CASES
}
