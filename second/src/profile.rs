//! The kinds of filter file, which differ in nothing but the widths of their fields.

use crate::file::Filter;
use std::fmt;

/// How many bits each field has.
#[derive(Clone, Copy, PartialEq, Eq, PartialOrd, Ord)]
pub struct Profile {
    pub name: &'static str,
    /// The header's fields: n - 1, m - 1, the start and e.
    pub states: usize,
    pub labels: usize,
    pub start: usize,
    pub edges: usize,
    /// A state's.
    pub colour: usize,
    /// An edge's.
    pub source: usize,
    pub label: usize,
    pub target: usize,
}

/// Document 01's file.
pub const LARGE: Profile = Profile {
    name: "large",
    states: 8,
    labels: 6,
    start: 8,
    edges: 15,
    colour: 6,
    source: 8,
    label: 6,
    target: 8,
};

/// Document 02's, wish 5.
pub const POCKET: Profile = Profile {
    name: "pocket",
    states: 4,
    labels: 3,
    start: 4,
    edges: 8,
    colour: 4,
    source: 4,
    label: 3,
    target: 4,
};

pub const PROFILES: [Profile; 2] = [LARGE, POCKET];

/// Its name says it all.
impl fmt::Debug for Profile {
    fn fmt(&self, f: &mut fmt::Formatter) -> fmt::Result {
        f.write_str(self.name)
    }
}

impl Profile {
    pub fn header_bits(self) -> usize {
        self.states + self.labels + self.start + self.edges
    }

    /// The bytes that a file needs to have a header.
    pub fn header_bytes(self) -> usize {
        self.header_bits().div_ceil(8)
    }

    pub fn edge_bits(self) -> usize {
        self.source + self.label + self.target
    }

    /// The bit where the edges of a file with n states begin.
    pub fn edges_at(self, n: u64) -> u64 {
        self.header_bits() as u64 + self.colour as u64 * n
    }

    /// The bits that a file of n states and e edges has, without the filling.
    pub fn bits(self, n: u64, e: u64) -> u64 {
        self.edges_at(n) + self.edge_bits() as u64 * e
    }

    /// The bytes that it has.
    pub fn length(self, n: u64, e: u64) -> u64 {
        self.bits(n, e).div_ceil(8)
    }

    pub fn most_states(self) -> u64 {
        1 << self.states
    }

    pub fn most_labels(self) -> u64 {
        1 << self.labels
    }

    /// What a filter can have, which is less than the header can say.
    pub fn most_edges(self) -> u64 {
        self.most_states() * self.most_labels()
    }

    /// The most that the header can say of the edges.
    pub fn top_count(self) -> u64 {
        (1 << self.edges) - 1
    }

    pub fn top_colour(self) -> u64 {
        (1 << self.colour) - 1
    }

    /// Whether its states, labels and colours are not more than the fields can say.
    pub fn can_hold(self, filter: &Filter) -> bool {
        (1..=self.most_states()).contains(&filter.n())
            && (1..=self.most_labels()).contains(&filter.m)
            && (filter.colours.iter()).all(|&colour| colour <= self.top_colour())
    }
}
