//! The families of files, for the conversions. Each file of every other family is converted too: `of_file`.

use crate::case::Case;
use crate::file::{read, Filter};
use crate::make::draft::{faults, Draft};
use crate::make::filters::{damageable, filter, large, largest, led, shapes, turn_back};
use crate::make::rooms::{any, unused_string, Room};
use crate::make::Family;
use crate::profile::{Profile, LARGE, POCKET, PROFILES};
use crate::random::Random;
use crate::rides::{ride_l, ride_m, ride_n, ride_p, C, K, K_REDUCED};

pub const FAMILIES: &[Family<Case>] = &[
    Family {
        name: "the document's filters converted",
        times: 1,
        make: of_the_document,
    },
    Family {
        name: "filters of pocket files converted both ways",
        times: 6,
        make: both_ways,
    },
    Family {
        name: "filters at the limits of pocket files",
        times: 2,
        make: at_the_limits,
    },
    Family {
        name: "one colour too high for a pocket file",
        times: 4,
        make: one_high_colour,
    },
    Family {
        name: "filters far too large for pocket files",
        times: 1,
        make: far_too_large,
    },
    Family {
        name: "faulty files converted",
        times: 3,
        make: of_faulty_files,
    },
];

/// The other kind of file.
pub fn other(profile: Profile) -> Profile {
    match profile {
        POCKET => LARGE,
        _ => POCKET,
    }
}

pub fn conversion(profile: Profile, file: Vec<u8>, room: Vec<u8>) -> Case {
    match profile {
        POCKET => Case::to_large(file, room),
        _ => Case::to_pocket(file, room),
    }
}

/// The file converted in a room of some kind, for what would be written if it could be; any room where the file is refused.
fn in_room(profile: Profile, file: Vec<u8>, room: Room, random: &mut Random) -> Case {
    let wanted = match profile.read(&file) {
        Ok(filter) => other(profile).length(filter.n(), filter.e()),
        Err(_) => 40,
    };
    let found = room.found(wanted as usize, random);
    unused_string(conversion(profile, file, found), random)
}

pub fn of_file(profile: Profile, random: &mut Random, file: Vec<u8>) -> Case {
    let room = any(random);
    in_room(profile, file, room, random)
}

fn in_each_room(profile: Profile, filter: &Filter, random: &mut Random) -> Vec<Case> {
    Room::ALL
        .map(|room| in_room(profile, profile.write(filter), room, random))
        .to_vec()
}

pub fn of_the_document(random: &mut Random) -> Vec<Case> {
    let files = [C, K, K_REDUCED].map(|file| read(file).expect("accepted"));
    let rides = [ride_l(), ride_m(), ride_n(), ride_p()];
    let filters = [&files[..], &rides].concat();
    in_each_room_both_ways(&filters, random)
}

/// Each shape and the largest, in each room.
pub fn both_ways(random: &mut Random) -> Vec<Case> {
    let mut filters = shapes(POCKET, random);
    filters.push(largest(POCKET, random));
    in_each_room_both_ways(&filters, random)
}

fn in_each_room_both_ways(filters: &[Filter], random: &mut Random) -> Vec<Case> {
    let mut cases = Vec::new();
    for profile in PROFILES {
        for filter in filters {
            cases.extend(in_each_room(profile, filter, random));
        }
    }
    cases
}

/// As many states, as many labels and as high a colour as a pocket file has, and each of them one more, in every combination
/// and each room. The colour is that of the first, a middle or the last state.
pub fn at_the_limits(random: &mut Random) -> Vec<Case> {
    let (most, labels, top) = (
        POCKET.most_states(),
        POCKET.most_labels(),
        POCKET.top_colour(),
    );
    let mut cases = Vec::new();
    for n in [most, most + 1] {
        for m in [labels, labels + 1] {
            for colour in [top, top + 1] {
                for state in [0, n / 2, n - 1] {
                    let e = random.between(0, n * m);
                    let mut filter = filter(POCKET, random, n, m, e);
                    filter.colours[state as usize] = colour;
                    cases.extend(in_each_room(LARGE, &filter, random));
                }
            }
        }
    }
    cases
}

/// In a filter that would fit else: 16, 63 or one between them, in the first, a middle and the last state; and in a state that
/// the start does not lead to, which counts as well.
pub fn one_high_colour(random: &mut Random) -> Vec<Case> {
    let mut cases = Vec::new();
    for colour in [16, 63, random.between(17, 62)] {
        let n = random.between(3, POCKET.most_states());
        let m = random.between(1, POCKET.most_labels());
        for state in [0, n / 2, n - 1] {
            let others: Vec<u64> = (0..n).filter(|&other| other != state).collect();
            let start = random.pick(&others);
            for mut filter in [
                filter(POCKET, random, n, m, n),
                led(POCKET, random, n, m, &[start], 2),
            ] {
                filter.colours[state as usize] = colour;
                turn_back(&mut filter);
                cases.extend(in_each_room(LARGE, &filter, random));
            }
        }
    }
    cases
}

/// The shapes of large files, of which some are small enough; any; and the largest.
pub fn far_too_large(random: &mut Random) -> Vec<Case> {
    let mut filters = shapes(LARGE, random);
    filters.push(large(LARGE, random));
    filters.push(largest(LARGE, random));
    filters
        .iter()
        .flat_map(|filter| in_each_room(LARGE, filter, random))
        .collect()
}

/// A file with each fault of a file, with room enough and without; of large files one that would else be converted and one
/// that would not: the file's number comes always.
pub fn of_faulty_files(random: &mut Random) -> Vec<Case> {
    let mut cases = Vec::new();
    for (profile, colour) in [(POCKET, 0), (LARGE, 0), (LARGE, 16)] {
        for number in faults(profile) {
            for room in [Room::Longer, Room::Empty] {
                let mut draft = Draft::of(profile, damageable(POCKET, random));
                draft.filter.colours[0] = colour;
                draft.spoil(number, random);
                cases.push(in_room(profile, draft.bytes(), room, random));
            }
        }
    }
    cases
}
