//! Document 01's rides: the files and lists byte for byte, and the filters of which it gives no bytes; two of the files as
//! document 02 has them drawn, three as pocket files, and one with a fault. Then two filters for one of the errors that look
//! right.

use crate::file::{Edge, Filter};

pub const A: &[u8] = &[];
pub const B: &[u8] = &[0; 5];
pub const C: &[u8] = &[0; 6];
pub const D: &[u8] = &[0; 7];
pub const E: &[u8] = &[0x00, 0x00, 0x04, 0x00, 0x00, 0x00];
pub const F: &[u8] = &[0x00, 0x00, 0x00, 0x00, 0x10, 0x00];
pub const G: &[u8] = &[0x00, 0x00, 0x00, 0x00, 0x08, 0x00];
pub const H: &[u8] = &[0x00, 0x00, 0x00, 0x00, 0x00, 0x01];

pub const K: &[u8] = &[
    0x02, 0x04, 0x00, 0x00, 0x20, 0x00, 0x82, 0x00, 0x00, 0x08, 0x00, 0x20, 0x40, 0x20, 0x00, 0x01,
    0x02, 0x00,
];
pub const K_REDUCED: &[u8] = &[
    0x01, 0x04, 0x00, 0x00, 0x20, 0x00, 0x80, 0x00, 0x02, 0x00, 0x08, 0x08, 0x08, 0x00, 0x00, 0x20,
    0x80, 0x00,
];

/// C and K as pocket files, which the documents do not give: tests/pocket.rs writes them out by hand.
pub const C_POCKET: &[u8] = &[0; 3];
pub const K_POCKET: &[u8] = &[0x22, 0x00, 0x80, 0x22, 0x00, 0x40, 0x90, 0x80, 0x22, 0x00];
pub const K_REDUCED_POCKET: &[u8] = &[0x12, 0x00, 0x80, 0x20, 0x04, 0x08, 0x88, 0x01, 0x20];

/// K with a fault for its state 1, once left by edge 2, and once kept by an edge 2 that leads to state 1: docs/FORMAT.md has both,
/// and tests/faults.rs writes them out by hand.
pub const K_LEFT: &[u8] = &[
    0x02, 0x04, 0x00, 0x00, 0x20, 0x1f, 0x82, 0x00, 0x00, 0x08, 0x00, 0x20, 0x40, 0x20, 0x00, 0x01,
    0x02, 0x00,
];
pub const K_KEPT: &[u8] = &[
    0x02, 0x04, 0x00, 0x00, 0x20, 0x1f, 0x82, 0x00, 0x00, 0x08, 0x00, 0x20, 0x40, 0x20, 0x00, 0x81,
    0x02, 0x00,
];

/// P itself is given by colours and edges; document 02 makes one state of it, with the edge of state 0.
pub const P: &[u8] = &[
    0x02, 0x00, 0x00, 0x00, 0x10, 0x00, 0x02, 0x00, 0x00, 0x00, 0x08, 0x00, 0x40,
];
pub const P_REDUCED: &[u8] = &[0x00, 0x00, 0x00, 0x00, 0x08, 0x00, 0x00, 0x00, 0x00];

pub const K_COLOURS: &[u8] = &[0, 1, 1];
pub const K_EDGES: &[u8] = &[0, 0, 1, 0, 1, 2, 1, 0, 0, 2, 1, 0];
pub const K_REDUCED_COLOURS: &[u8] = &[0, 1];
pub const K_REDUCED_EDGES: &[u8] = &[0, 0, 1, 0, 1, 1, 1, 0, 0, 1, 1, 0];

pub const K_DRAWN: &str = "digraph {
0 [label=0];
1 [label=1];
2 [label=1];
0 -> 1 [label=0];
0 -> 2 [label=1];
1 -> 0 [label=0];
2 -> 0 [label=1];
}
";
pub const K_REDUCED_DRAWN: &str = "digraph {
0 [label=0];
1 [label=1];
0 -> 1 [label=0];
0 -> 1 [label=1];
1 -> 0 [label=0];
1 -> 0 [label=1];
}
";
pub const C_DRAWN: &str = "digraph {
0 [label=0];
}
";

/// Tracing these stops at 1 in K and is traced by K reduced.
pub const K_OBSERVATIONS: &[u8] = &[0, 1];
/// R's, of which the latter is no label of K.
pub const R_OBSERVATIONS: &[u8] = &[0, 2];

/// Q's edge lists, which K's colours, m = 2 and start 0 go with.
pub const Q_LABEL_OUTSIDE: &[u8] = &[0, 2, 1];
pub const Q_DESCENDING: &[u8] = &[0, 1, 2, 0, 0, 1];
pub const Q_REPEATED: &[u8] = &[0, 0, 1, 0, 0, 2];

pub fn edge(source: u64, label: u64, target: u64) -> Edge {
    Edge {
        source,
        label,
        target,
    }
}

/// With start 0 and the largest label plus one as m, as L to P have them.
pub fn filter_of(colours: &[u64], edges: &[(u64, u64, u64)]) -> Filter {
    let labels = edges.iter().map(|&(_, label, _)| label);
    Filter {
        colours: colours.to_vec(),
        m: labels.max().expect("an edge") + 1,
        start: 0,
        edges: edges
            .iter()
            .map(|&(source, label, target)| edge(source, label, target))
            .collect(),
    }
}

pub fn ride_l() -> Filter {
    filter_of(&[0, 0], &[(0, 0, 1)])
}

pub fn ride_m() -> Filter {
    let edges = [
        [(0, 0, 1), (0, 1, 2), (0, 2, 3)],
        [(1, 0, 0), (1, 1, 3), (1, 2, 2)],
        [(2, 0, 3), (2, 1, 0), (2, 2, 1)],
        [(3, 0, 2), (3, 1, 1), (3, 2, 0)],
    ];
    filter_of(&[0, 1, 1, 1], &edges.concat())
}

pub fn ride_n() -> Filter {
    let edges = [
        (0, 0, 1),
        (0, 1, 2),
        (1, 0, 3),
        (2, 0, 4),
        (3, 0, 5),
        (4, 0, 6),
    ];
    filter_of(&[0, 1, 1, 2, 2, 3, 4], &edges)
}

pub fn ride_p() -> Filter {
    filter_of(&[0, 0, 1], &[(0, 0, 0), (1, 0, 2)])
}

/// Judging by classes already split in the same round parts state 3 from 0 a round too early, since 1 has just left: one
/// round instead of two. No smaller filter shows that error, for a class needs three members, so that one is judged after
/// a split, and a conflict needs a second class. State 2 is alone in that class, and its edge is there to reach 3.
pub fn parted_in_the_next_round() -> Filter {
    filter_of(&[0, 0, 1, 0], &[(0, 0, 1), (1, 0, 2), (2, 0, 3), (3, 0, 3)])
}

/// The same error parts states 1 and 3, which lead to each other, for 1 has left and 3 has not: four states instead of
/// three. Again 2 is alone, and its edge is there to reach 1.
pub fn never_parted() -> Filter {
    filter_of(&[0, 0, 1, 0], &[(0, 0, 2), (1, 0, 3), (2, 0, 1), (3, 0, 1)])
}
