//! A file before it is written, which can be spoilt in several ways at once.

use crate::bits::{bytes_of, free_bits, push};
use crate::file::{Edge, Filter};
use crate::make::damage::{damage_one, outside, Tops};
use crate::make::ways_out::lead_out;
use crate::profile::{Profile, LARGE};
use crate::random::Random;

/// The numbers of the faults that a file can have, in the order in which they are told.
pub fn faults(profile: Profile) -> Vec<u8> {
    let of_either: Vec<u8> = (1..=9).collect();
    let of_large: &[u8] = if profile == LARGE { &[17] } else { &[] };
    [&of_either, of_large].concat()
}

pub struct Draft {
    pub profile: Profile,
    pub filter: Filter,
    /// What the header says of the number of edges.
    pub e: u64,
    /// The filling bits, as many of the low ones as there is room for.
    pub filling: u64,
    /// The bytes that are kept, where the file is cut.
    pub keep: Option<usize>,
    /// The bytes that follow the file.
    pub extra: Vec<u8>,
}

impl Draft {
    pub fn of(profile: Profile, filter: Filter) -> Draft {
        Draft {
            profile,
            e: filter.e(),
            filter,
            filling: 0,
            keep: None,
            extra: Vec::new(),
        }
    }

    pub fn bytes(&self) -> Vec<u8> {
        let mut row = self.profile.fields(&self.filter, self.e);
        let free = free_bits(row.len());
        push(&mut row, self.filling % (1 << free), free);
        let mut bytes = bytes_of(&row);
        if let Some(keep) = self.keep {
            bytes.truncate(keep);
        }
        bytes.extend(&self.extra);
        bytes
    }

    /// How many filling bits the file has.
    pub fn free(&self) -> usize {
        self.free_with(self.filter.e())
    }

    /// How many it would have with so many edges.
    fn free_with(&self, edges: u64) -> usize {
        free_bits(self.profile.bits(self.filter.n(), edges) as usize)
    }

    /// Gives it the fault of this number, one of `faults`; a pocket file, in which 17 is none, gets the same edge. For two at
    /// once: those of the header first, then the edges', then the filling's, then the length's.
    pub fn spoil(&mut self, number: u8, random: &mut Random) {
        let n = self.filter.n();
        let m = self.filter.m;
        let least = self.profile.header_bytes() as u64;
        let have = self.profile.length(n, self.filter.e());
        let tops = Tops::of_files(self.profile);
        match number {
            1 => self.keep = Some(random.between(0, least - 1) as usize),
            2 => self.filter.start = outside(random, n, tops.end),
            3 => {
                let mut too_many = vec![n * m + 1, n * m + 2, n * m + 3];
                // So that it can have fault 6 too.
                too_many.retain(|&edges| self.free_with(edges) > 0);
                self.e = random.pick(&too_many);
                // The edges are there, so that the length is right and only their number is wrong.
                while self.filter.e() < self.e {
                    self.filter.edges.push(Edge {
                        source: n - 1,
                        label: m - 1,
                        target: n - 1,
                    });
                }
            }
            4 => {
                let shorter = random.between(least, have - 1);
                self.keep = Some(random.pick(&[least, have - 1, shorter]) as usize);
            }
            5 => {
                let more = random.between(1, 4) as usize;
                self.extra = if random.once_in(2) {
                    vec![0; more]
                } else {
                    random.bytes(more)
                };
            }
            6 => self.filling = random.between(1, (1 << self.free()) - 1),
            17 => {
                let at = random.between(0, self.filter.e() - 1) as usize;
                lead_out(self.profile, &mut self.filter, &[at], random);
            }
            _ => damage_one(&mut self.filter, number, tops, random),
        }
    }
}
