//! The filter file: fields one after another, most significant bit first, no gaps.

use crate::bits::{bytes_of, push, Bits};
use crate::profile::{Profile, LARGE};

/// Why a call says no. Only 7, 8, 9 and 17, trace's 13 and the 15 of a text have a place other than 0. That of 7, 8, 9 and 17
/// is a bit of the file, or the edge's index where there is no file yet.
#[derive(Clone, Copy, Debug, PartialEq, Eq)]
pub struct Refusal {
    pub number: u8,
    pub place: u64,
}

impl Refusal {
    pub fn new(number: u8) -> Refusal {
        Refusal { number, place: 0 }
    }
}

#[derive(Clone, Copy, Debug, PartialEq, Eq)]
pub struct Edge {
    pub source: u64,
    pub label: u64,
    pub target: u64,
}

/// The colour that tells the driver to shut down, which no edge may leave for another: document 02's sixth wish. It is the
/// highest of a large file; a pocket file has none so high.
pub const FAULT: u64 = 63;

/// What a file holds. Nothing here keeps it in bounds: the generator also writes filters that must be refused.
#[derive(Clone, Debug, PartialEq, Eq)]
pub struct Filter {
    pub colours: Vec<u64>,
    pub m: u64,
    pub start: u64,
    pub edges: Vec<Edge>,
}

impl Filter {
    pub fn n(&self) -> u64 {
        self.colours.len() as u64
    }

    pub fn e(&self) -> u64 {
        self.edges.len() as u64
    }

    /// Its colour list and its edge list, as pack takes them. What does not fit in a byte is cut down.
    pub fn lists(&self) -> (Vec<u8>, Vec<u8>) {
        let colours = self.colours.iter().map(|&colour| colour as u8);
        let edge = |edge: &Edge| [edge.source, edge.label, edge.target].map(|value| value as u8);
        let edges = self.edges.iter().flat_map(edge);
        (colours.collect(), edges.collect())
    }

    /// Whether an edge leads from the fault to another colour. Its ends have to be states.
    pub fn is_way_out(&self, edge: &Edge) -> bool {
        let [from, to] = [edge.source, edge.target].map(|state| self.colours[state as usize]);
        from == FAULT && to != FAULT
    }
}

/// What a file begins with.
#[derive(Clone, Copy, Debug, PartialEq, Eq)]
pub struct Header {
    pub n: u64,
    pub m: u64,
    pub start: u64,
    pub e: u64,
}

impl Profile {
    /// The header of a file that is long enough to have one, whatever follows.
    pub fn header(self, file: &[u8]) -> Option<Header> {
        let bytes = file.get(..self.header_bytes())?;
        Some(self.eat_header(&mut Bits::of(bytes)))
    }

    fn eat_header(self, bits: &mut Bits) -> Header {
        Header {
            n: bits.eat(self.states) + 1,
            m: bits.eat(self.labels) + 1,
            start: bits.eat(self.start),
            e: bits.eat(self.edges),
        }
    }

    /// Reads a file, or says why not.
    pub fn read(self, bytes: &[u8]) -> Result<Filter, Refusal> {
        let (filter, places) = self.unjudged(bytes)?;
        judge_edges(&filter.edges, &places, filter.n(), filter.m)?;
        judge_ways_out(&filter, &places)?;
        Ok(filter)
    }

    /// What a file of the right length says, and the places of each edge's source, label and target, or why it is none: all
    /// that comes before the edges are judged.
    pub fn unjudged(self, bytes: &[u8]) -> Result<(Filter, Vec<[u64; 3]>), Refusal> {
        if bytes.len() < self.header_bytes() {
            return Err(Refusal::new(1));
        }
        let mut bits = Bits::of(bytes);
        let Header { n, m, start, e } = self.eat_header(&mut bits);
        if start >= n {
            return Err(Refusal::new(2));
        }
        if e > n * m {
            return Err(Refusal::new(3));
        }
        let have = bytes.len() as u64;
        if have < self.length(n, e) {
            return Err(Refusal::new(4));
        }
        if have > self.length(n, e) {
            return Err(Refusal::new(5));
        }
        let mut colours = Vec::new();
        for _ in 0..n {
            colours.push(bits.eat(self.colour));
        }
        let mut edges = Vec::new();
        let mut places = Vec::new();
        for _ in 0..e {
            let mut stood = [0; 3];
            let mut read = [0; 3];
            let widths = [self.source, self.label, self.target];
            for (field, width) in widths.into_iter().enumerate() {
                stood[field] = bits.eaten();
                read[field] = bits.eat(width);
            }
            let [source, label, target] = read;
            edges.push(Edge {
                source,
                label,
                target,
            });
            places.push(stood);
        }
        if bits.rest().contains(&true) {
            return Err(Refusal::new(6));
        }
        let filter = Filter {
            colours,
            m,
            start,
            edges,
        };
        Ok((filter, places))
    }

    /// Writes the fields as they are; it judges nothing.
    pub fn write(self, filter: &Filter) -> Vec<u8> {
        bytes_of(&self.fields(filter, filter.e()))
    }

    /// All bits of the file but the filling ones, with `e` as the header's number of edges.
    pub fn fields(self, filter: &Filter, e: u64) -> Vec<bool> {
        let mut row = Vec::new();
        self.push_header(
            &mut row,
            Header {
                n: filter.n(),
                m: filter.m,
                start: filter.start,
                e,
            },
        );
        for &colour in &filter.colours {
            push(&mut row, colour, self.colour);
        }
        for edge in &filter.edges {
            push(&mut row, edge.source, self.source);
            push(&mut row, edge.label, self.label);
            push(&mut row, edge.target, self.target);
        }
        row
    }

    pub fn push_header(self, row: &mut Vec<bool>, header: Header) {
        push(row, header.n - 1, self.states);
        push(row, header.m - 1, self.labels);
        push(row, header.start, self.start);
        push(row, header.e, self.edges);
    }
}

/// Reads a large file, which is what the programs and the drawings take.
pub fn read(bytes: &[u8]) -> Result<Filter, Refusal> {
    LARGE.read(bytes)
}

/// Writes a large one.
pub fn write(filter: &Filter) -> Vec<u8> {
    LARGE.write(filter)
}

/// Of edges that stand in a list, where the place is the edge's index: 7, 8 and 9.
pub fn judge_list(edges: &[Edge], n: u64, m: u64) -> Result<(), Refusal> {
    judge_edges(edges, &indices(edges), n, m)
}

/// The same for 17, of edges that have none of the others.
pub fn judge_ways_out_of_list(filter: &Filter) -> Result<(), Refusal> {
    judge_ways_out(filter, &indices(&filter.edges))
}

fn indices(edges: &[Edge]) -> Vec<[u64; 3]> {
    (0..edges.len() as u64).map(|index| [index; 3]).collect()
}

/// The first faulty edge decides, and within it 7, 8, 9. Each edge comes with the places of its source, label and target:
/// 7 has that of the first which is too high, 8 and 9 the source's.
fn judge_edges(edges: &[Edge], places: &[[u64; 3]], n: u64, m: u64) -> Result<(), Refusal> {
    let mut before = None;
    for (edge, place) in edges.iter().zip(places) {
        let fault = |number, field: usize| {
            Err(Refusal {
                number,
                place: place[field],
            })
        };
        let limits = [(edge.source, n), (edge.label, m), (edge.target, n)];
        if let Some(field) = limits.iter().position(|(value, limit)| value >= limit) {
            return fault(7, field);
        }
        let own = Some((edge.source, edge.label));
        if own < before {
            return fault(8, 0);
        }
        if own == before {
            return fault(9, 0);
        }
        before = own;
    }
    Ok(())
}

/// The first edge out of the fault decides, wherever the start leads.
fn judge_ways_out(filter: &Filter, places: &[[u64; 3]]) -> Result<(), Refusal> {
    for (edge, place) in filter.edges.iter().zip(places) {
        if filter.is_way_out(edge) {
            return Err(Refusal {
                number: 17,
                place: place[0],
            });
        }
    }
    Ok(())
}
