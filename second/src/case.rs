//! One call with all that is lent to it, and its outcome with all that was lent.

use crate::call::{from_dot, to_dot, to_large, to_pocket, Answer};
use crate::profile::{Profile, LARGE, POCKET};

#[derive(Clone, Copy, Debug, PartialEq, Eq, PartialOrd, Ord)]
pub enum Call {
    Check(Profile),
    Unpack(Profile),
    Pack(Profile),
    Trace(Profile),
    Reduce(Profile),
    FromDot,
    ToDot,
    ToLarge,
    ToPocket,
}

impl Call {
    /// In the order of the bytes that stand for them in a batch, of which the first is 1.
    pub const ALL: [Call; 14] = [
        Call::Check(LARGE),
        Call::Unpack(LARGE),
        Call::Pack(LARGE),
        Call::Trace(LARGE),
        Call::Reduce(LARGE),
        Call::FromDot,
        Call::ToDot,
        Call::Check(POCKET),
        Call::Unpack(POCKET),
        Call::Pack(POCKET),
        Call::Trace(POCKET),
        Call::Reduce(POCKET),
        Call::ToLarge,
        Call::ToPocket,
    ];

    /// The byte that stands for the call in a batch.
    pub fn byte(self) -> u8 {
        let position = Call::ALL.iter().position(|&call| call == self);
        position.expect("a call of the library") as u8 + 1
    }

    /// The numbers that the call can answer with, 0 for accepted.
    pub fn numbers(self) -> Vec<u8> {
        let of_either_file: &[u8] = match self {
            Call::Check(_) => &[0, 1, 2, 3, 4, 5, 6, 7, 8, 9],
            Call::Unpack(_) => &[0, 1, 2, 3, 4, 5, 6, 7, 8, 9, 12],
            Call::Pack(_) => &[0, 14, 2, 3, 7, 8, 9, 10],
            Call::Trace(_) => &[0, 1, 2, 3, 4, 5, 6, 7, 8, 9, 12, 13],
            Call::Reduce(_) => &[0, 1, 2, 3, 4, 5, 6, 7, 8, 9, 10, 11],
            Call::FromDot => &[0, 15, 14, 3, 7, 8, 9, 10],
            Call::ToDot => &[0, 1, 2, 3, 4, 5, 6, 7, 8, 9, 15, 10],
            Call::ToLarge => &[0, 1, 2, 3, 4, 5, 6, 7, 8, 9, 10],
            Call::ToPocket => &[0, 1, 2, 3, 4, 5, 6, 7, 8, 9, 16, 10],
        };
        let of_the_fault: &[u8] = if self.meets_the_fault() { &[17] } else { &[] };
        [of_either_file, of_the_fault].concat()
    }

    /// Whether it takes the colours of a large file, of which the highest is the fault.
    pub fn meets_the_fault(self) -> bool {
        self.reads() == Some(LARGE) || [Call::Pack(LARGE), Call::FromDot].contains(&self)
    }

    /// The kind of file that it reads, if it reads one.
    pub fn reads(self) -> Option<Profile> {
        match self {
            Call::Check(profile)
            | Call::Unpack(profile)
            | Call::Trace(profile)
            | Call::Reduce(profile) => Some(profile),
            Call::ToDot | Call::ToPocket => Some(LARGE),
            Call::ToLarge => Some(POCKET),
            Call::Pack(_) | Call::FromDot => None,
        }
    }
}

/// What the numbers and the strings are depends on the call: see the functions that build one.
#[derive(Clone, Debug, PartialEq, Eq)]
pub struct Case {
    pub call: Call,
    pub first: u64,
    pub second: u64,
    pub a: Vec<u8>,
    pub b: Vec<u8>,
    pub c: Vec<u8>,
}

impl Case {
    /// Both numbers are 0: pack alone has a use for them.
    fn of_strings(call: Call, a: Vec<u8>, b: Vec<u8>, c: Vec<u8>) -> Case {
        Case {
            call,
            first: 0,
            second: 0,
            a,
            b,
            c,
        }
    }

    pub fn check(profile: Profile, file: Vec<u8>) -> Case {
        Case::of_strings(Call::Check(profile), file, Vec::new(), Vec::new())
    }

    pub fn unpack(
        profile: Profile,
        file: Vec<u8>,
        colour_room: Vec<u8>,
        edge_room: Vec<u8>,
    ) -> Case {
        Case::of_strings(Call::Unpack(profile), file, colour_room, edge_room)
    }

    pub fn pack(
        profile: Profile,
        colours: Vec<u8>,
        edges: Vec<u8>,
        m: u64,
        start: u64,
        room: Vec<u8>,
    ) -> Case {
        Case {
            first: m,
            second: start,
            ..Case::of_strings(Call::Pack(profile), colours, edges, room)
        }
    }

    pub fn trace(
        profile: Profile,
        file: Vec<u8>,
        observations: Vec<u8>,
        colour_room: Vec<u8>,
    ) -> Case {
        Case::of_strings(Call::Trace(profile), file, observations, colour_room)
    }

    /// The class list takes two bytes an entry, big-endian; an odd last byte is no entry.
    pub fn reduce(
        profile: Profile,
        file: Vec<u8>,
        answer_room: Vec<u8>,
        class_list: Vec<u8>,
    ) -> Case {
        Case::of_strings(Call::Reduce(profile), file, answer_room, class_list)
    }

    pub fn from_dot(text: Vec<u8>, room: Vec<u8>) -> Case {
        Case::of_strings(Call::FromDot, text, Vec::new(), room)
    }

    pub fn to_dot(file: Vec<u8>, room: Vec<u8>) -> Case {
        Case::of_strings(Call::ToDot, file, Vec::new(), room)
    }

    pub fn to_large(file: Vec<u8>, room: Vec<u8>) -> Case {
        Case::of_strings(Call::ToLarge, file, Vec::new(), room)
    }

    pub fn to_pocket(file: Vec<u8>, room: Vec<u8>) -> Case {
        Case::of_strings(Call::ToPocket, file, Vec::new(), room)
    }

    /// Makes the call.
    pub fn outcome(&self) -> Outcome {
        let mut b = self.b.clone();
        let mut c = self.c.clone();
        let answer = match self.call {
            Call::Check(profile) => profile.check(&self.a),
            Call::Unpack(profile) => profile.unpack(&self.a, &mut b, &mut c),
            Call::Pack(profile) => profile.pack(&self.a, &self.b, self.first, self.second, &mut c),
            Call::Trace(profile) => profile.trace(&self.a, &self.b, &mut c),
            Call::Reduce(profile) => {
                let mut entries = entries_of(&c);
                let answer = profile.reduce(&self.a, &mut b, &mut entries);
                put_entries(&entries, &mut c);
                answer
            }
            Call::FromDot => from_dot(&self.a, &mut c),
            Call::ToDot => to_dot(&self.a, &mut c),
            Call::ToLarge => to_large(&self.a, &mut c),
            Call::ToPocket => to_pocket(&self.a, &mut c),
        };
        Outcome { answer, b, c }
    }
}

/// A class list as it stands in a case or an outcome.
pub fn entries_of(class_list: &[u8]) -> Vec<u16> {
    class_list
        .chunks_exact(2)
        .map(|two| u16::from_be_bytes([two[0], two[1]]))
        .collect()
}

fn put_entries(entries: &[u16], class_list: &mut [u8]) {
    for (two, entry) in class_list.chunks_exact_mut(2).zip(entries) {
        two.copy_from_slice(&entry.to_be_bytes());
    }
}

/// The answer, and the strings B and C as they stand after the call.
#[derive(Clone, Debug, PartialEq, Eq)]
pub struct Outcome {
    pub answer: Answer,
    pub b: Vec<u8>,
    pub c: Vec<u8>,
}
