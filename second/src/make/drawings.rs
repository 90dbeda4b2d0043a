//! The families of files, for drawing them.

use crate::case::Case;
use crate::dot::can_be_drawn;
use crate::file::{write, Filter};
use crate::frame::LONGEST;
use crate::make::draft::{faults, Draft};
use crate::make::filters::{damageable, filter, largest, shapes};
use crate::make::rooms::{any, unused_string, Room};
use crate::make::texts::{drawable, text_of};
use crate::make::ways_out::kept;
use crate::make::{files, Family};
use crate::profile::LARGE;
use crate::random::Random;
use crate::rides::{ride_l, ride_m, ride_n, ride_p, C, K, K_REDUCED};

pub const FAMILIES: &[Family<Case>] = &[
    Family {
        name: "the document's filters drawn",
        times: 1,
        make: of_the_document,
    },
    Family {
        name: "filters drawn",
        times: 6,
        make: drawn,
    },
    Family {
        name: "filters that cannot be drawn",
        times: 2,
        make: not_drawn,
    },
    Family {
        name: "faulty files drawn",
        times: 3,
        make: of_faulty_files,
    },
    Family {
        name: "files of all families drawn",
        times: 1,
        make: of_all_files,
    },
    Family {
        name: "the largest filter drawn",
        times: 1,
        make: largest_drawn,
    },
];

/// The file drawn in a room of some kind, for the text that it asks for, whatever its edges; any room where it asks for none.
fn in_room(file: Vec<u8>, room: Room, random: &mut Random) -> Case {
    let wanted = match LARGE.unjudged(&file) {
        Ok((filter, _)) if can_be_drawn(&filter) => text_of(&filter).len(),
        _ => 40,
    };
    let found = room.found(wanted, random);
    unused_string(Case::to_dot(file, found), random)
}

fn in_each_room(file: &[u8], random: &mut Random) -> Vec<Case> {
    Room::ALL
        .map(|room| in_room(file.to_vec(), room, random))
        .to_vec()
}

fn in_any_rooms(files: Vec<Vec<u8>>, random: &mut Random) -> Vec<Case> {
    files
        .into_iter()
        .map(|file| {
            let room = any(random);
            in_room(file, room, random)
        })
        .collect()
}

pub fn of_the_document(random: &mut Random) -> Vec<Case> {
    let mut files = [C, K, K_REDUCED].map(<[u8]>::to_vec).to_vec();
    files.extend([ride_l(), ride_m(), ride_n(), ride_p()].iter().map(write));
    files
        .iter()
        .flat_map(|file| in_each_room(file, random))
        .collect()
}

/// Each shape in each room, and where the fault is kept.
pub fn drawn(random: &mut Random) -> Vec<Case> {
    let filters = [shapes(LARGE, random), kept(LARGE, random)].concat();
    let filters: Vec<Filter> = filters.into_iter().map(drawable).collect();
    filters
        .iter()
        .flat_map(|filter| in_each_room(&write(filter), random))
        .collect()
}

/// Another start, a label unused at the top, and both; with edges and without, in each room.
pub fn not_drawn(random: &mut Random) -> Vec<Case> {
    let mut cases = Vec::new();
    for e in [0, 1, random.between(2, 8)] {
        for [start, labels] in [[true, false], [false, true], [true, true]] {
            let n = random.between(2, 12);
            let m = random.between(4, 63);
            let mut filter = drawable(filter(LARGE, random, n, m, e));
            if start {
                let any = random.between(1, n - 1);
                filter.start = random.pick(&[1, n - 1, any]);
            }
            if labels {
                let any = random.between(filter.m + 1, 64);
                filter.m = random.pick(&[filter.m + 1, 64, any]);
            }
            cases.extend(in_each_room(&write(&filter), random));
        }
    }
    cases
}

/// A file with each fault of a file that could else be drawn, and one that could not, each with room enough and without: the
/// file's number comes always.
pub fn of_faulty_files(random: &mut Random) -> Vec<Case> {
    let mut cases = Vec::new();
    for number in faults(LARGE) {
        for start in [0, 1] {
            for room in [Room::Longer, Room::Empty] {
                let mut draft = Draft::of(LARGE, drawable(damageable(LARGE, random)));
                draft.filter.start = start;
                draft.spoil(number, random);
                cases.push(in_room(draft.bytes(), room, random));
            }
        }
    }
    cases
}

pub fn of_all_files(random: &mut Random) -> Vec<Case> {
    let makes = [
        files::one_bit_turned,
        files::cut_or_extended,
        files::fillings,
        files::two_faults,
        files::faulty_edge,
        files::faults_in_one_edge,
        files::faulty_edges,
        files::one_way_out,
        files::several_ways_out,
        files::in_each_state,
        files::way_out_beside_a_faulty_edge,
        files::faulty_way_out,
        files::next_to_the_highest,
        files::noise,
        files::noise_behind_header,
        files::headers_alone,
    ];
    let mut files: Vec<Vec<u8>> = makes.iter().flat_map(|make| make(LARGE, random)).collect();
    for filter in shapes(LARGE, random).into_iter().map(drawable) {
        let mut turned = write(&filter);
        let bit = random.between(0, 8 * turned.len() as u64 - 1) as usize;
        files::turn_bit(&mut turned, bit);
        files.push(turned);
    }
    in_any_rooms(files, random)
}

/// In each room and in the longest that a case can hold; and with a start that is another.
pub fn largest_drawn(random: &mut Random) -> Vec<Case> {
    let mut filter = drawable(largest(LARGE, random));
    let mut cases = in_each_room(&write(&filter), random);
    cases.push(Case::to_dot(write(&filter), random.bytes(LONGEST)));
    filter.start = random.between(1, 255);
    cases.extend(in_any_rooms(vec![write(&filter)], random));
    cases
}
