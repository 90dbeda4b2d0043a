//! The library's calls: a number, a place, the counts, and the rooms that were lent.

use crate::dot::{self, can_be_drawn, labels_up_to};
use crate::file::{judge_list, judge_ways_out_of_list, read, write, Edge, Filter, Refusal};
use crate::profile::{Profile, LARGE, POCKET};
use crate::{reduce, trace};

/// `number` is 0 where the call accepts. Every count of a refused call is 0.
#[derive(Clone, Copy, Debug, PartialEq, Eq)]
pub struct Answer {
    pub number: u8,
    pub place: u64,
    pub counts: [u64; 4],
}

impl Answer {
    fn accepted(counts: [u64; 4]) -> Answer {
        Answer {
            number: 0,
            place: 0,
            counts,
        }
    }

    fn refused(refusal: Refusal) -> Answer {
        Answer {
            number: refusal.number,
            place: refusal.place,
            counts: [0; 4],
        }
    }
}

/// Those for a file of either kind.
impl Profile {
    /// Counts: n, m, start, e.
    pub fn check(self, file: &[u8]) -> Answer {
        match self.read(file) {
            Ok(filter) => Answer::accepted(sizes(&filter)),
            Err(refusal) => Answer::refused(refusal),
        }
    }

    /// Counts: n, m, start, e. Fills the first n bytes of one room and the first 3e of the other.
    pub fn unpack(self, file: &[u8], colour_room: &mut [u8], edge_room: &mut [u8]) -> Answer {
        let filter = match self.read(file) {
            Ok(filter) => filter,
            Err(refusal) => return Answer::refused(refusal),
        };
        if colour_room.len() < filter.colours.len() || edge_room.len() < 3 * filter.edges.len() {
            return Answer::refused(Refusal::new(12));
        }
        for (i, &colour) in filter.colours.iter().enumerate() {
            colour_room[i] = colour as u8;
        }
        for (i, edge) in filter.edges.iter().enumerate() {
            edge_room[3 * i] = edge.source as u8;
            edge_room[3 * i + 1] = edge.label as u8;
            edge_room[3 * i + 2] = edge.target as u8;
        }
        Answer::accepted(sizes(&filter))
    }

    /// Counts: the file's length and three zeros.
    pub fn pack(self, colours: &[u8], edges: &[u8], m: u64, start: u64, room: &mut [u8]) -> Answer {
        match from_lists(colours, edges, m, start).and_then(|filter| judged(self, filter)) {
            Ok(filter) => put(&self.write(&filter), room),
            Err(refusal) => Answer::refused(refusal),
        }
    }

    /// Counts: four zeros where the ride is traced; 1, i and two zeros where it stops at i. Fills the room with the colours
    /// shown.
    pub fn trace(self, file: &[u8], observations: &[u8], colour_room: &mut [u8]) -> Answer {
        let ride = match trace::trace(self, file, observations, colour_room.len()) {
            Ok(ride) => ride,
            Err(refusal) => return Answer::refused(refusal),
        };
        for (i, &colour) in ride.colours.iter().enumerate() {
            colour_room[i] = colour as u8;
        }
        Answer::accepted(match ride.stopped_at {
            None => [0; 4],
            Some(i) => [1, i, 0, 0],
        })
    }

    /// Counts: the reduced states, the distinct colours, the rounds, the reduced file's length. Writes the reduced file to
    /// the front of the answer room and the new numbers to the first n entries.
    pub fn reduce(self, file: &[u8], answer_room: &mut [u8], class_entries: &mut [u16]) -> Answer {
        let filter = match self.read(file) {
            Ok(filter) => filter,
            Err(refusal) => return Answer::refused(refusal),
        };
        if answer_room.len() < file.len() {
            return Answer::refused(Refusal::new(10));
        }
        if class_entries.len() < filter.colours.len() {
            return Answer::refused(Refusal::new(11));
        }
        let reduced = reduce::reduce(&filter);
        let answer = self.write(&reduced.filter);
        for (i, &byte) in answer.iter().enumerate() {
            answer_room[i] = byte;
        }
        for (state, &number) in reduced.numbers.iter().enumerate() {
            class_entries[state] = number.map_or(DROPPED, |number| number as u16);
        }
        Answer::accepted([
            reduced.filter.n(),
            reduced.distinct_colours,
            reduced.rounds,
            answer.len() as u64,
        ])
    }

    /// Writes the file of the other kind that holds the same filter. Counts: its length and three zeros.
    pub fn convert(self, other: Profile, file: &[u8], room: &mut [u8]) -> Answer {
        match self.read(file) {
            Ok(filter) if !other.can_hold(&filter) => Answer::refused(Refusal::new(16)),
            Ok(filter) => put(&other.write(&filter), room),
            Err(refusal) => Answer::refused(refusal),
        }
    }
}

/// Of a large file.
pub fn check(file: &[u8]) -> Answer {
    LARGE.check(file)
}

/// Of a pocket file.
pub fn to_large(file: &[u8], room: &mut [u8]) -> Answer {
    POCKET.convert(LARGE, file, room)
}

/// Of a large file.
pub fn to_pocket(file: &[u8], room: &mut [u8]) -> Answer {
    LARGE.convert(POCKET, file, room)
}

/// Counts: the file's length and three zeros.
pub fn from_dot(text: &[u8], room: &mut [u8]) -> Answer {
    match from_text(text).and_then(|filter| judged(LARGE, filter)) {
        Ok(filter) => put(&write(&filter), room),
        Err(refusal) => Answer::refused(refusal),
    }
}

/// Counts: the text's length and three zeros.
pub fn to_dot(file: &[u8], room: &mut [u8]) -> Answer {
    match read(file) {
        Ok(filter) if !can_be_drawn(&filter) => Answer::refused(Refusal::new(15)),
        Ok(filter) => put(dot::write(&filter.colours, &filter.edges).as_bytes(), room),
        Err(refusal) => Answer::refused(refusal),
    }
}

/// What a call writes, at the front of its room.
fn put(bytes: &[u8], room: &mut [u8]) -> Answer {
    if room.len() < bytes.len() {
        return Answer::refused(Refusal::new(10));
    }
    for (i, &byte) in bytes.iter().enumerate() {
        room[i] = byte;
    }
    Answer::accepted([bytes.len() as u64, 0, 0, 0])
}

/// What a class list has for a state that is dropped.
pub const DROPPED: u16 = 65_535;

fn sizes(filter: &Filter) -> [u64; 4] {
    [filter.n(), filter.m, filter.start, filter.e()]
}

/// What is asked of pack, which is still to be judged.
pub fn from_lists(colours: &[u8], edges: &[u8], m: u64, start: u64) -> Result<Filter, Refusal> {
    let left_over = edges.len() % 3;
    if left_over != 0 {
        return Err(Refusal::new(14));
    }
    let mut list = Vec::new();
    for three in edges.chunks(3) {
        list.push(Edge {
            source: u64::from(three[0]),
            label: u64::from(three[1]),
            target: u64::from(three[2]),
        });
    }
    Ok(Filter {
        colours: colours.iter().map(|&colour| u64::from(colour)).collect(),
        m,
        start,
        edges: list,
    })
}

/// What a text draws, which is still to be judged as well.
pub fn from_text(text: &[u8]) -> Result<Filter, Refusal> {
    let drawing = dot::read(text).map_err(|place| Refusal {
        number: 15,
        place: place as u64,
    })?;
    Ok(Filter {
        m: labels_up_to(&drawing.edges),
        colours: drawing.colours,
        start: 0,
        edges: drawing.edges,
    })
}

/// The filter that is to be packed, unless pack refuses it.
fn judged(profile: Profile, filter: Filter) -> Result<Filter, Refusal> {
    let (n, m) = (filter.n(), filter.m);
    if !profile.can_hold(&filter) {
        return Err(Refusal::new(14));
    }
    if filter.start >= n {
        return Err(Refusal::new(2));
    }
    if filter.e() > n * m {
        return Err(Refusal::new(3));
    }
    judge_list(&filter.edges, n, m)?;
    judge_ways_out_of_list(&filter)?;
    Ok(filter)
}
