//! Rooms, which are found full of something, since what a call leaves alone must stay.

use crate::case::Case;
use crate::file::Header;
use crate::make::{conversions, reduces, traces};
use crate::profile::{Profile, LARGE};
use crate::random::Random;

#[derive(Clone, Copy, Debug, PartialEq, Eq)]
pub enum Room {
    Exact,
    Longer,
    OneShort,
    Empty,
}

impl Room {
    pub const ALL: [Room; 4] = [Room::Exact, Room::Longer, Room::OneShort, Room::Empty];

    /// A room for something of `wanted` bytes.
    pub fn found(self, wanted: usize, random: &mut Random) -> Vec<u8> {
        let length = match self {
            Room::Exact => wanted,
            Room::Longer => wanted + random.between(1, 20) as usize,
            Room::OneShort => wanted.saturating_sub(1),
            Room::Empty => 0,
        };
        random.bytes(length)
    }
}

/// Enough room more often than not.
pub fn any(random: &mut Random) -> Room {
    random.pick(&[
        Room::Exact,
        Room::Exact,
        Room::Exact,
        Room::Longer,
        Room::Longer,
        Room::OneShort,
        Room::Empty,
    ])
}

/// Now and then with a string B, which a call that has no use for it gives back.
pub fn unused_string(mut case: Case, random: &mut Random) -> Case {
    if random.once_in(10) {
        let length = random.between(1, 30) as usize;
        case.b = random.bytes(length);
    }
    case
}

/// The file checked, unpacked into rooms of some kind, traced with some observations, converted, and reduced; of pocket files
/// one in three, since a reduction takes the proved program as long as twenty other calls, whatever the file.
pub fn cases_of_file(profile: Profile, random: &mut Random, file: Vec<u8>) -> Vec<Case> {
    let (colours, edges) = wanted_by(profile, &file);
    let colour_room = any(random).found(colours, random);
    let edge_room = any(random).found(edges, random);
    let mut cases = vec![
        Case::check(profile, file.clone()),
        Case::unpack(profile, file.clone(), colour_room, edge_room),
        traces::of_any_file(profile, random, file.clone()),
        conversions::of_file(profile, random, file.clone()),
    ];
    if profile == LARGE || random.once_in(3) {
        cases.push(reduces::of_file(profile, random, file));
    }
    cases
}

/// What the header asks for; but little where the file is far too short to hold that.
fn wanted_by(profile: Profile, file: &[u8]) -> (usize, usize) {
    let Some(Header { n, e, .. }) = profile.header(file) else {
        return (3, 12);
    };
    if 2 * (file.len() as u64) < profile.length(n, e) {
        return (n as usize, 12);
    }
    (n as usize, 3 * e as usize)
}
