//! Maps with accesses, with what a check prints: typed in by hand from the documents.

/// A map file in three parts, and what a check prints.
pub struct Case {
    pub name: &'static str,
    nodes: &'static str,
    edges: &'static str,
    pairs: &'static str,
    pub printed: &'static str,
}

impl Case {
    pub fn text(&self) -> String {
        [self.nodes, self.edges, self.pairs].join("\n")
    }
}

/// A root and a leaf on either side, joined at bit 0.
const JOINED: &str = "\
side from to offset
0 0 1 0
1 0 1 0
";

const FIRST_LEAVES: &str = "\
role spec impl
0 0 0
1 1 1
";

/// The implementation has one segment before its leaf, or two, or three. The third leads one
/// byte further down in the leaf.
const ONE_SEGMENT: &str = "\
side from to offset
0 0 1 0
1 0 1 0
1 1 2 0
";

const TWO_SEGMENTS: &str = "\
side from to offset
0 0 1 0
1 0 1 0
1 0 2 0
1 1 3 0
1 2 3 0
";

const THREE_SEGMENTS: &str = "\
side from to offset
0 0 1 0
1 0 1 0
1 0 2 0
1 0 3 0
1 1 4 0
1 2 4 0
1 3 4 1
";

const BEHIND_ONE_SEGMENT: &str = "\
role spec impl
0 0 0
1 1 2
";

const BEHIND_TWO_SEGMENTS: &str = "\
role spec impl
0 0 0
1 1 3
";

const BEHIND_THREE_SEGMENTS: &str = "\
role spec impl
0 0 0
1 1 4
";

/// A root of 64 bytes and a leaf of 16 on either side, all open.
const ALL_OPEN: &str = "\
side kind base range unit access
0 0 0 64 8 0
0 2 0 16 8 0
1 0 0 64 8 0
1 2 0 16 8 0
";

const ALL_EQUAL: &str = "\
root leaf verdict rspec rimpl wspec wimpl
0 0 0 1 1 1 1

verdict equal partial different root leaf address
0 1 0 0 -1 -1 -1
";

/// The leaf is read only in the specification, and open in the implementation.
const READ_ONLY_BUILT_WRITABLE: &str = "\
root leaf verdict rspec rimpl wspec wimpl
0 0 2 1 1 0 1

verdict equal partial different root leaf address
2 0 0 1 0 0 0
";

const NO_LINE: &str = "\
root leaf verdict rspec rimpl wspec wimpl

verdict equal partial different root leaf address
0 1 0 0 -1 -1 -1
";

const CASES: [Case; 54] = [
    Case {
        name: "0 in every row",
        nodes: ALL_OPEN,
        edges: JOINED,
        pairs: FIRST_LEAVES,
        printed: ALL_EQUAL,
    },
    Case {
        name: "access absent",
        nodes: "\
side kind base range unit
0 0 0 64 8
0 2 0 16 8
1 0 0 64 8
1 2 0 16 8
",
        edges: JOINED,
        pairs: FIRST_LEAVES,
        printed: ALL_EQUAL,
    },
    Case {
        name: "access last",
        nodes: "\
side kind base range unit access
0 0 0 64 8 0
0 2 0 16 8 1
1 0 0 64 8 0
1 2 0 16 8 0
",
        edges: JOINED,
        pairs: FIRST_LEAVES,
        printed: READ_ONLY_BUILT_WRITABLE,
    },
    Case {
        name: "access first",
        nodes: "\
access side kind base range unit
0 0 0 0 64 8
1 0 2 0 16 8
0 1 0 0 64 8
0 1 2 0 16 8
",
        edges: JOINED,
        pairs: FIRST_LEAVES,
        printed: READ_ONLY_BUILT_WRITABLE,
    },
    Case {
        name: "access between, names in another order, sides mixed",
        nodes: "\
unit side access range kind base
8 1 0 64 0 0
8 0 0 64 0 0
8 1 0 16 2 0
8 0 1 16 2 0
",
        edges: JOINED,
        pairs: FIRST_LEAVES,
        printed: READ_ONLY_BUILT_WRITABLE,
    },
    // Ends closed.
    Case {
        name: "a leaf that may be written, built read only",
        nodes: "\
side kind base range unit access
0 0 0 64 8 0
0 2 0 16 8 0
1 0 0 64 8 0
1 2 0 16 8 1
",
        edges: JOINED,
        pairs: FIRST_LEAVES,
        printed: "\
root leaf verdict rspec rimpl wspec wimpl
0 0 2 1 1 1 0

verdict equal partial different root leaf address
2 0 0 1 0 0 0
",
    },
    Case {
        name: "a leaf that may be read, built write only",
        nodes: "\
side kind base range unit access
0 0 0 64 8 0
0 2 0 16 8 0
1 0 0 64 8 0
1 2 0 16 8 2
",
        edges: JOINED,
        pairs: FIRST_LEAVES,
        printed: "\
root leaf verdict rspec rimpl wspec wimpl
0 0 2 1 0 1 1

verdict equal partial different root leaf address
2 0 0 1 0 0 0
",
    },
    Case {
        name: "a write only leaf, built readable",
        nodes: "\
side kind base range unit access
0 0 0 64 8 0
0 2 0 16 8 2
1 0 0 64 8 0
1 2 0 16 8 0
",
        edges: JOINED,
        pairs: FIRST_LEAVES,
        printed: "\
root leaf verdict rspec rimpl wspec wimpl
0 0 2 0 1 1 1

verdict equal partial different root leaf address
2 0 0 1 0 0 0
",
    },
    Case {
        name: "leaves read only",
        nodes: "\
side kind base range unit access
0 0 0 64 8 0
0 2 0 16 8 1
1 0 0 64 8 0
1 2 0 16 8 1
",
        edges: JOINED,
        pairs: FIRST_LEAVES,
        printed: "\
root leaf verdict rspec rimpl wspec wimpl
0 0 0 1 1 0 0

verdict equal partial different root leaf address
0 1 0 0 -1 -1 -1
",
    },
    Case {
        name: "leaves write only",
        nodes: "\
side kind base range unit access
0 0 0 64 8 0
0 2 0 16 8 2
1 0 0 64 8 0
1 2 0 16 8 2
",
        edges: JOINED,
        pairs: FIRST_LEAVES,
        printed: "\
root leaf verdict rspec rimpl wspec wimpl
0 0 0 0 0 1 1

verdict equal partial different root leaf address
0 1 0 0 -1 -1 -1
",
    },
    Case {
        name: "a leaf read only, built write only",
        nodes: "\
side kind base range unit access
0 0 0 64 8 0
0 2 0 16 8 1
1 0 0 64 8 0
1 2 0 16 8 2
",
        edges: JOINED,
        pairs: FIRST_LEAVES,
        printed: "\
root leaf verdict rspec rimpl wspec wimpl
0 0 2 1 0 0 1

verdict equal partial different root leaf address
2 0 0 1 0 0 0
",
    },
    Case {
        name: "a root write only",
        nodes: "\
side kind base range unit access
0 0 0 64 8 0
0 2 0 16 8 0
1 0 0 64 8 2
1 2 0 16 8 0
",
        edges: JOINED,
        pairs: FIRST_LEAVES,
        printed: "\
root leaf verdict rspec rimpl wspec wimpl
0 0 2 1 0 1 1

verdict equal partial different root leaf address
2 0 0 1 0 0 0
",
    },
    Case {
        name: "a root read only and a leaf read only are alike",
        nodes: "\
side kind base range unit access
0 0 0 64 8 1
0 2 0 16 8 0
1 0 0 64 8 0
1 2 0 16 8 1
",
        edges: JOINED,
        pairs: FIRST_LEAVES,
        printed: "\
root leaf verdict rspec rimpl wspec wimpl
0 0 0 1 1 0 0

verdict equal partial different root leaf address
0 1 0 0 -1 -1 -1
",
    },
    Case {
        name: "no walk from a root to a leaf",
        nodes: "\
side kind base range unit access
0 0 0 64 8 2
0 2 0 16 8 1
1 0 0 64 8 1
1 2 0 16 8 2
",
        edges: JOINED,
        pairs: FIRST_LEAVES,
        printed: NO_LINE,
    },
    Case {
        name: "no walk on one side",
        nodes: "\
side kind base range unit access
0 0 0 64 8 0
0 2 0 16 8 0
1 0 0 64 8 1
1 2 0 16 8 2
",
        edges: JOINED,
        pairs: FIRST_LEAVES,
        printed: "\
root leaf verdict rspec rimpl wspec wimpl
0 0 2 1 0 1 0

verdict equal partial different root leaf address
2 0 0 1 0 0 0
",
    },
    // Nodes between.
    Case {
        name: "a segment read only",
        nodes: "\
side kind base range unit access
0 0 0 64 8 0
0 2 0 16 8 0
1 0 0 64 8 0
1 1 0 64 8 1
1 2 0 16 8 0
",
        edges: ONE_SEGMENT,
        pairs: BEHIND_ONE_SEGMENT,
        printed: "\
root leaf verdict rspec rimpl wspec wimpl
0 0 2 1 1 1 0

verdict equal partial different root leaf address
2 0 0 1 0 0 0
",
    },
    Case {
        name: "a segment write only",
        nodes: "\
side kind base range unit access
0 0 0 64 8 0
0 2 0 16 8 0
1 0 0 64 8 0
1 1 0 64 8 2
1 2 0 16 8 0
",
        edges: ONE_SEGMENT,
        pairs: BEHIND_ONE_SEGMENT,
        printed: "\
root leaf verdict rspec rimpl wspec wimpl
0 0 2 1 0 1 1

verdict equal partial different root leaf address
2 0 0 1 0 0 0
",
    },
    Case {
        name: "a leaf read only, built behind a read only bridge",
        nodes: "\
side kind base range unit access
0 0 0 64 8 0
0 2 0 16 8 1
1 0 0 64 8 0
1 0 0 64 8 1
1 2 0 16 8 0
",
        edges: ONE_SEGMENT,
        pairs: BEHIND_ONE_SEGMENT,
        printed: "\
root leaf verdict rspec rimpl wspec wimpl
0 0 0 1 1 0 0

verdict equal partial different root leaf address
0 1 0 0 -1 -1 -1
",
    },
    Case {
        name: "a segment and a leaf that no walk stands on both of",
        nodes: "\
side kind base range unit access
0 0 0 64 8 0
0 2 0 16 8 1
1 0 0 64 8 0
1 1 0 64 8 2
1 2 0 16 8 1
",
        edges: ONE_SEGMENT,
        pairs: BEHIND_ONE_SEGMENT,
        printed: "\
root leaf verdict rspec rimpl wspec wimpl
0 0 2 1 0 0 0

verdict equal partial different root leaf address
2 0 0 1 0 0 0
",
    },
    // One of two ways. The first segment shows bits 0 to 63, the second bits 64 to 127.
    Case {
        name: "two halves, both open",
        nodes: "\
side kind base range unit access
0 0 0 64 8 0
0 2 0 16 8 0
1 0 0 64 8 0
1 1 0 8 8 0
1 1 8 8 8 0
1 2 0 16 8 0
",
        edges: TWO_SEGMENTS,
        pairs: BEHIND_TWO_SEGMENTS,
        printed: ALL_EQUAL,
    },
    Case {
        name: "the upper half read only",
        nodes: "\
side kind base range unit access
0 0 0 64 8 0
0 2 0 16 8 0
1 0 0 64 8 0
1 1 0 8 8 0
1 1 8 8 8 1
1 2 0 16 8 0
",
        edges: TWO_SEGMENTS,
        pairs: BEHIND_TWO_SEGMENTS,
        printed: "\
root leaf verdict rspec rimpl wspec wimpl
0 0 1 1 1 1 1

verdict equal partial different root leaf address
1 0 1 0 0 0 64
",
    },
    Case {
        name: "the upper half write only",
        nodes: "\
side kind base range unit access
0 0 0 64 8 0
0 2 0 16 8 0
1 0 0 64 8 0
1 1 0 8 8 0
1 1 8 8 8 2
1 2 0 16 8 0
",
        edges: TWO_SEGMENTS,
        pairs: BEHIND_TWO_SEGMENTS,
        printed: "\
root leaf verdict rspec rimpl wspec wimpl
0 0 1 1 1 1 1

verdict equal partial different root leaf address
1 0 1 0 0 0 64
",
    },
    Case {
        name: "both halves read only",
        nodes: "\
side kind base range unit access
0 0 0 64 8 0
0 2 0 16 8 1
1 0 0 64 8 0
1 1 0 8 8 1
1 1 8 8 8 1
1 2 0 16 8 0
",
        edges: TWO_SEGMENTS,
        pairs: BEHIND_TWO_SEGMENTS,
        printed: "\
root leaf verdict rspec rimpl wspec wimpl
0 0 0 1 1 0 0

verdict equal partial different root leaf address
0 1 0 0 -1 -1 -1
",
    },
    // Reading lacks the upper half, from bit 64 on; writing the lower half, from bit 0 on.
    Case {
        name: "a reading difference above a writing one",
        nodes: "\
side kind base range unit access
0 0 0 64 8 0
0 2 0 16 8 0
1 0 0 64 8 0
1 1 0 8 8 1
1 1 8 8 8 2
1 2 0 16 8 0
",
        edges: TWO_SEGMENTS,
        pairs: BEHIND_TWO_SEGMENTS,
        printed: "\
root leaf verdict rspec rimpl wspec wimpl
0 0 1 1 1 1 1

verdict equal partial different root leaf address
1 0 1 0 0 0 0
",
    },
    Case {
        name: "a writing difference above a reading one",
        nodes: "\
side kind base range unit access
0 0 0 64 8 0
0 2 0 16 8 0
1 0 0 64 8 0
1 1 0 8 8 2
1 1 8 8 8 1
1 2 0 16 8 0
",
        edges: TWO_SEGMENTS,
        pairs: BEHIND_TWO_SEGMENTS,
        printed: "\
root leaf verdict rspec rimpl wspec wimpl
0 0 1 1 1 1 1

verdict equal partial different root leaf address
1 0 1 0 0 0 0
",
    },
    // The lower halves and the upper halves together are equal, of each kind they are apart.
    Case {
        name: "halves of either kind exchanged",
        nodes: "\
side kind base range unit access
0 0 0 64 8 0
0 1 0 8 8 1
0 1 8 8 8 2
0 2 0 16 8 0
1 0 0 64 8 0
1 1 0 8 8 2
1 1 8 8 8 1
1 2 0 16 8 0
",
        edges: "\
side from to offset
0 0 1 0
0 0 2 0
0 1 3 0
0 2 3 0
1 0 1 0
1 0 2 0
1 1 3 0
1 2 3 0
",
        pairs: "\
role spec impl
0 0 0
1 3 3
",
        printed: "\
root leaf verdict rspec rimpl wspec wimpl
0 0 2 1 1 1 1

verdict equal partial different root leaf address
2 0 0 1 0 0 0
",
    },
    // The third segment shows bits 64 to 127 as leaf bits 56 to 119. By writing they are
    // reached there and not where they should be; by reading bits 0 to 63 are missing.
    Case {
        name: "writing different, reading partial from a lower address on",
        nodes: "\
side kind base range unit access
0 0 0 64 8 0
0 2 0 16 8 0
1 0 0 64 8 0
1 1 0 8 8 2
1 1 8 8 8 1
1 1 8 8 8 2
1 2 0 16 8 0
",
        edges: THREE_SEGMENTS,
        pairs: BEHIND_THREE_SEGMENTS,
        printed: "\
root leaf verdict rspec rimpl wspec wimpl
0 0 2 1 1 1 2

verdict equal partial different root leaf address
2 0 0 1 0 0 0
",
    },
    Case {
        name: "reading different, writing partial from a lower address on",
        nodes: "\
side kind base range unit access
0 0 0 64 8 0
0 2 0 16 8 0
1 0 0 64 8 0
1 1 0 8 8 1
1 1 8 8 8 2
1 1 8 8 8 1
1 2 0 16 8 0
",
        edges: THREE_SEGMENTS,
        pairs: BEHIND_THREE_SEGMENTS,
        printed: "\
root leaf verdict rspec rimpl wspec wimpl
0 0 2 1 2 1 1

verdict equal partial different root leaf address
2 0 0 1 0 0 0
",
    },
    // The lower half is open; the upper is as above.
    Case {
        name: "writing different, reading equal",
        nodes: "\
side kind base range unit access
0 0 0 64 8 0
0 2 0 16 8 0
1 0 0 64 8 0
1 1 0 8 8 0
1 1 8 8 8 1
1 1 8 8 8 2
1 2 0 16 8 0
",
        edges: THREE_SEGMENTS,
        pairs: BEHIND_THREE_SEGMENTS,
        printed: "\
root leaf verdict rspec rimpl wspec wimpl
0 0 2 1 1 1 2

verdict equal partial different root leaf address
2 0 0 1 0 0 64
",
    },
    // Several pairs. Leaf 1 is equal. Leaf 2, at bit 64, has its upper half, from bit 96 on,
    // behind a read only segment. Leaf 3 is write only, and built readable. Leaf 4 is read
    // only. Leaf 5 is read only behind a write only segment, and no edge leads there in the
    // implementation.
    Case {
        name: "five leaves",
        nodes: "\
side kind base range unit access
0 0 0 64 8 0
0 2 0 8 8 0
0 2 0 8 8 0
0 2 0 8 8 2
0 2 0 8 8 1
0 2 0 8 8 1
0 1 0 64 8 2
1 0 0 64 8 0
1 2 0 8 8 0
1 2 0 8 8 0
1 2 0 8 8 0
1 2 0 8 8 1
1 2 0 8 8 0
1 1 8 4 8 0
1 1 12 4 8 1
",
        edges: "\
side from to offset
0 0 1 0
0 0 2 8
0 0 3 16
0 0 4 24
0 0 6 0
0 6 5 32
1 0 1 0
1 0 6 0
1 0 7 0
1 6 2 8
1 7 2 8
1 0 3 16
1 0 4 24
",
        pairs: "\
role spec impl
0 0 0
1 1 1
1 2 2
1 3 3
1 4 4
1 5 5
",
        printed: "\
root leaf verdict rspec rimpl wspec wimpl
0 0 0 1 1 1 1
0 1 1 1 1 1 1
0 2 2 0 1 1 1
0 3 0 1 1 0 0

verdict equal partial different root leaf address
2 3 1 1 0 1 96
",
    },
    // Root row 1 writes alone, leaf row 1 is read only.
    Case {
        name: "two roots, two leaves",
        nodes: "\
side kind base range unit access
0 0 0 64 8 0
0 0 0 64 8 2
0 2 0 16 8 0
0 2 0 16 8 1
1 0 0 64 8 0
1 0 0 64 8 2
1 2 0 16 8 0
1 2 0 16 8 1
",
        edges: "\
side from to offset
0 0 2 0
0 0 3 16
0 1 2 0
0 1 3 16
1 0 2 0
1 0 3 16
1 1 2 0
1 1 3 16
",
        pairs: "\
role spec impl
0 0 0
0 1 1
1 2 2
1 3 3
",
        printed: "\
root leaf verdict rspec rimpl wspec wimpl
0 0 0 1 1 1 1
0 1 0 1 1 0 0
1 0 0 0 0 1 1

verdict equal partial different root leaf address
0 4 0 0 -1 -1 -1
",
    },
    // A group of two banks, the second read only.
    Case {
        name: "a bank read only",
        nodes: "\
side kind base range unit access
0 0 0 64 8 0
0 2 0 16 8 0
1 0 0 64 8 0
1 2 0 8 8 0
1 2 0 8 8 1
",
        edges: "\
side from to offset
0 0 1 0
1 0 1 0
1 0 2 8
",
        pairs: "\
role spec impl at
0 0 0 0
1 1 1 0
1 1 2 64
",
        printed: "\
root leaf verdict rspec rimpl wspec wimpl
0 0 1 1 1 1 1

verdict equal partial different root leaf address
1 0 1 0 0 0 64
",
    },
    // Two banks at one place, one for reading and one for writing.
    Case {
        name: "banks of either kind at one place",
        nodes: "\
side kind base range unit access
0 0 0 64 8 0
0 2 0 8 8 0
1 0 0 64 8 0
1 2 0 8 8 1
1 2 0 8 8 2
",
        edges: "\
side from to offset
0 0 1 0
1 0 1 0
1 0 2 0
",
        pairs: "\
role spec impl at
0 0 0 0
1 1 1 0
1 1 2 0
",
        printed: ALL_EQUAL,
    },
    Case {
        name: "banks of either kind, that for writing one byte off",
        nodes: "\
side kind base range unit access
0 0 0 64 8 0
0 2 0 8 8 0
1 0 0 64 8 0
1 2 0 8 8 1
1 2 0 8 8 2
",
        edges: "\
side from to offset
0 0 1 0
1 0 1 0
1 0 2 0
",
        pairs: "\
role spec impl at
0 0 0 0
1 1 1 0
1 1 2 8
",
        printed: "\
root leaf verdict rspec rimpl wspec wimpl
0 0 2 1 1 1 1

verdict equal partial different root leaf address
2 0 0 1 0 0 0
",
    },
    // Names.
    Case {
        name: "access twice",
        nodes: "\
access side kind base range unit access
0 0 0 0 64 8 0
0 0 2 0 16 8 0
0 1 0 0 64 8 0
0 1 2 0 16 8 0
",
        edges: JOINED,
        pairs: FIRST_LEAVES,
        printed: "refusal table row\n13 6 1\n",
    },
    Case {
        name: "access in place of another name",
        nodes: "\
side kind base range access
0 0 0 64 0
0 2 0 16 0
1 0 0 64 0
1 2 0 16 0
",
        edges: JOINED,
        pairs: FIRST_LEAVES,
        printed: "refusal table row\n13 6 1\n",
    },
    Case {
        name: "access among the edges",
        nodes: ALL_OPEN,
        edges: "side from to offset access\n0 0 1 0 0\n1 0 1 0 0\n",
        pairs: FIRST_LEAVES,
        printed: "refusal table row\n13 6 7\n",
    },
    Case {
        name: "access among the pairs",
        nodes: ALL_OPEN,
        edges: JOINED,
        pairs: "access role spec impl\n0 0 0 0\n0 1 1 1\n",
        printed: "refusal table row\n13 6 11\n",
    },
    Case {
        name: "at among the nodes",
        nodes: "\
side kind base range unit at
0 0 0 64 8 0
0 2 0 16 8 0
1 0 0 64 8 0
1 2 0 16 8 0
",
        edges: JOINED,
        pairs: FIRST_LEAVES,
        printed: "refusal table row\n13 6 1\n",
    },
    // Values.
    Case {
        name: "five values where access is named",
        nodes: "\
side kind base range unit access
0 0 0 64 8 0
0 2 0 16 8
1 0 0 64 8 0
1 2 0 16 8 0
",
        edges: JOINED,
        pairs: FIRST_LEAVES,
        printed: "refusal table row\n14 6 3\n",
    },
    Case {
        name: "six values where access is not named",
        nodes: "\
side kind base range unit
0 0 0 64 8
0 2 0 16 8
1 0 0 64 8 0
1 2 0 16 8
",
        edges: JOINED,
        pairs: FIRST_LEAVES,
        printed: "refusal table row\n14 6 4\n",
    },
    Case {
        name: "access -0",
        nodes: "\
side kind base range unit access
0 0 0 64 8 0
0 2 0 16 8 0
1 0 0 64 8 0
1 2 0 16 8 -0
",
        edges: JOINED,
        pairs: FIRST_LEAVES,
        printed: "refusal table row\n14 6 5\n",
    },
    Case {
        name: "access 01",
        nodes: "\
access side kind base range unit
01 0 0 0 64 8
0 0 2 0 16 8
0 1 0 0 64 8
0 1 2 0 16 8
",
        edges: JOINED,
        pairs: FIRST_LEAVES,
        printed: "refusal table row\n14 6 2\n",
    },
    Case {
        name: "access of 19 digits",
        nodes: "\
side kind base range unit access
0 0 0 64 8 0
0 2 0 16 8 1000000000000000000
1 0 0 64 8 0
1 2 0 16 8 0
",
        edges: JOINED,
        pairs: FIRST_LEAVES,
        printed: "refusal table row\n14 6 3\n",
    },
    Case {
        name: "access of 18 digits",
        nodes: "\
side kind base range unit access
0 0 0 64 8 0
0 2 0 16 8 0
1 0 0 64 8 0
1 2 0 16 8 100000000000000000
",
        edges: JOINED,
        pairs: FIRST_LEAVES,
        printed: "refusal table row\n2 2 1\n",
    },
    Case {
        name: "access 3",
        nodes: "\
side kind base range unit access
0 0 0 64 8 0
0 2 0 16 8 3
1 0 0 64 8 0
1 2 0 16 8 0
",
        edges: JOINED,
        pairs: FIRST_LEAVES,
        printed: "refusal table row\n2 0 1\n",
    },
    Case {
        name: "access -1",
        nodes: "\
side kind base range unit access
0 0 0 64 8 0
0 2 0 16 8 0
1 0 0 64 8 -1
1 2 0 16 8 0
",
        edges: JOINED,
        pairs: FIRST_LEAVES,
        printed: "refusal table row\n2 2 0\n",
    },
    Case {
        name: "access 3 of a node that is not paired",
        nodes: "\
side kind base range unit access
0 0 0 64 8 0
0 2 0 16 8 0
0 1 0 1 8 3
1 0 0 64 8 0
1 2 0 16 8 0
",
        edges: JOINED,
        pairs: FIRST_LEAVES,
        printed: "refusal table row\n2 0 2\n",
    },
    // Order.
    Case {
        name: "the unit of a row before the access of the next",
        nodes: "\
side kind base range unit access
0 0 0 64 9 0
0 2 0 16 8 3
1 0 0 64 8 0
1 2 0 16 8 0
",
        edges: JOINED,
        pairs: FIRST_LEAVES,
        printed: "refusal table row\n2 0 0\n",
    },
    Case {
        name: "an access before an edge",
        nodes: "\
side kind base range unit access
0 0 0 64 8 0
0 2 0 16 8 3
1 0 0 64 8 0
1 2 0 16 8 0
",
        edges: "side from to offset\n0 0 2 0\n1 0 1 0\n",
        pairs: FIRST_LEAVES,
        printed: "refusal table row\n2 0 1\n",
    },
    Case {
        name: "an edge of the specification before an access of the implementation",
        nodes: "\
side kind base range unit access
0 0 0 64 8 0
0 2 0 16 8 0
1 0 0 64 8 -1
1 2 0 16 8 0
",
        edges: "side from to offset\n0 0 2 0\n1 0 1 0\n",
        pairs: FIRST_LEAVES,
        printed: "refusal table row\n3 1 0\n",
    },
    Case {
        name: "a value of the last line before an access",
        nodes: "\
side kind base range unit access
0 0 0 64 8 3
0 2 0 16 8 0
1 0 0 64 8 0
1 2 0 16 8 0
",
        edges: JOINED,
        pairs: "role spec impl\n0 0 0\n1 1 x\n",
        printed: "refusal table row\n14 6 13\n",
    },
    Case {
        name: "an access before the pairs",
        nodes: "\
side kind base range unit access
0 0 0 64 8 0
0 2 0 16 8 0
1 0 0 64 8 0
1 2 0 16 8 3
",
        edges: JOINED,
        pairs: "role spec impl\n1 0 0\n",
        printed: "refusal table row\n2 2 1\n",
    },
    Case {
        name: "a closed root that is no root",
        nodes: "\
side kind base range unit access
0 0 0 64 8 1
0 2 0 16 8 2
1 0 0 64 8 0
1 2 0 16 8 0
",
        edges: JOINED,
        pairs: "role spec impl\n0 1 0\n1 1 1\n",
        printed: "refusal table row\n7 4 0\n",
    },
];

pub fn cases() -> &'static [Case] {
    &CASES
}
