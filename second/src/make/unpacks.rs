//! The families of rooms, for unpack. Each file of every family is unpacked too, in rooms of some kind.

use crate::case::Case;
use crate::make::draft::{faults, Draft};
use crate::make::filters::{damageable, largest};
use crate::make::rooms::Room;
use crate::profile::Profile;
use crate::random::Random;

of_each_profile! { Case, once in 1:
    "rooms of unpacking" => 1 * all_rooms,
    "faulty files unpacked" => 2 * of_faulty_files,
}

/// A small file, which has edges, and the largest, with each kind of colour room and each kind of edge room.
pub fn all_rooms(profile: Profile, random: &mut Random) -> Vec<Case> {
    let mut cases = Vec::new();
    for filter in [damageable(profile, random), largest(profile, random)] {
        for colours in Room::ALL {
            for edges in Room::ALL {
                let colour_room = colours.found(filter.colours.len(), random);
                let edge_room = edges.found(3 * filter.edges.len(), random);
                let file = profile.write(&filter);
                cases.push(Case::unpack(profile, file, colour_room, edge_room));
            }
        }
    }
    cases
}

/// A file with each fault of a file, in rooms that are enough, of which one is short, or both: the file's number comes always.
pub fn of_faulty_files(profile: Profile, random: &mut Random) -> Vec<Case> {
    let mut cases = Vec::new();
    for number in faults(profile) {
        for rooms in [
            [Room::Exact, Room::Exact],
            [Room::OneShort, Room::Longer],
            [Room::Longer, Room::OneShort],
            [Room::Empty, Room::Empty],
        ] {
            let filter = damageable(profile, random);
            let wanted = [filter.colours.len(), 3 * filter.edges.len()];
            let mut draft = Draft::of(profile, filter);
            draft.spoil(number, random);
            let [colours, edges] = [0, 1].map(|i| rooms[i].found(wanted[i], random));
            cases.push(Case::unpack(profile, draft.bytes(), colours, edges));
        }
    }
    cases
}
