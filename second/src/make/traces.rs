//! The families of observations, for trace.

use crate::case::Case;
use crate::file::{read, Edge, Filter};
use crate::frame::LONGEST;
use crate::make::damage::outside;
use crate::make::draft::{faults, Draft};
use crate::make::filters::{
    any_target, damageable, filter, large, largest, many_labels, many_states, shapes, small,
};
use crate::make::rooms::{any, Room};
use crate::make::ways_out::kept;
use crate::profile::{Profile, LARGE};
use crate::random::Random;
use crate::rides::{K, K_OBSERVATIONS, K_REDUCED, R_OBSERVATIONS};
use crate::trace::MOST_OBSERVATIONS;

of_each_profile! { Case, once in 2:
    "the document's traces" => 1 * of_the_document,
    "no observations" => 10 * no_observations,
    "full rides" => 25 * full_rides,
    "stopped rides" => 100 * stopped_rides,
    "labels outside" => 60 * labels_outside,
    "two faults of a trace" => 40 * two_faults,
    "traces through faulty files" => 10 * through_faulty_files,
    "rides to the highest colour" => 20 * to_the_highest_colour,
    "random observations" => 1500 * random_observations,
    "rides through large files" => 1 * through_large_files,
    "as many observations as a ride takes, and more" => 1 * many_observations,
}

/// The observations traced in a room of some kind.
fn of_bytes(
    profile: Profile,
    file: Vec<u8>,
    observations: Vec<u8>,
    room: Room,
    random: &mut Random,
) -> Case {
    let found = room.found(observations.len() + 1, random);
    Case::trace(profile, file, observations, found)
}

/// The same of a file that holds the filter.
fn in_room(
    profile: Profile,
    filter: &Filter,
    observations: &[u8],
    room: Room,
    random: &mut Random,
) -> Case {
    let file = profile.write(filter);
    of_bytes(profile, file, observations.to_vec(), room, random)
}

/// A large file traced, as the next.
pub fn of_file(random: &mut Random, file: Vec<u8>) -> Case {
    of_any_file(LARGE, random, file)
}

/// The file traced with a few observations, mostly of labels that its header allows.
pub fn of_any_file(profile: Profile, random: &mut Random, file: Vec<u8>) -> Case {
    let m = profile.header(&file).map_or(3, |header| header.m);
    let count = random.between(0, 12);
    let mut observations = labels(m, count as usize, random);
    if random.once_in(8) {
        observations.push(outside(random, m, 255) as u8);
    }
    let room = any(random);
    of_bytes(profile, file, observations, room, random)
}

/// Any labels below m.
fn labels(m: u64, count: usize, random: &mut Random) -> Vec<u8> {
    (0..count).map(|_| random.between(0, m - 1) as u8).collect()
}

/// Labels along edges from the start on, and the state where they lead: as many as asked for, or fewer where the way
/// comes to a state without edges.
pub fn walk(filter: &Filter, count: usize, random: &mut Random) -> (Vec<u8>, u64) {
    let mut ways = vec![Vec::new(); filter.colours.len()];
    for edge in &filter.edges {
        ways[edge.source as usize].push(*edge);
    }
    let mut state = filter.start;
    let mut observations = Vec::new();
    while observations.len() < count && !ways[state as usize].is_empty() {
        let edge = random.pick(&ways[state as usize]);
        observations.push(edge.label as u8);
        state = edge.target;
    }
    (observations, state)
}

/// A way that never ends: `count` labels along edges.
fn full_walk(filter: &Filter, count: usize, random: &mut Random) -> Vec<u8> {
    let (observations, _) = walk(filter, count, random);
    assert_eq!(observations.len(), count, "a state has no edge");
    observations
}

/// As many labels, of which that at `stop` is the first without an edge.
fn stopping(filter: &Filter, count: usize, stop: usize, random: &mut Random) -> Vec<u8> {
    let (mut observations, state) = walk(filter, stop, random);
    assert_eq!(observations.len(), stop, "a state has no edge");
    let missing: Vec<u8> = (0..filter.m)
        .filter(|&label| {
            let mut edges = filter.edges.iter();
            !edges.any(|edge| edge.source == state && edge.label == label)
        })
        .map(|label| label as u8)
        .collect();
    observations.push(random.pick(&missing));
    let behind = count - observations.len();
    observations.extend(labels(filter.m, behind, random));
    observations
}

/// A filter where one can go on for ever and stop anywhere: each state has an edge and lacks one.
fn open(profile: Profile, random: &mut Random, n: u64, m: u64) -> Filter {
    let mut open = filter(profile, random, n, m, 0);
    for source in 0..n {
        let kept = random.between(0, m - 1);
        let left_out = (kept + random.between(1, m - 1)) % m;
        for label in 0..m {
            if label == kept || label != left_out && random.once_in(2) {
                open.edges.push(Edge {
                    source,
                    label,
                    target: any_target(random, &open.colours, source),
                });
            }
        }
    }
    open
}

fn small_open(profile: Profile, random: &mut Random) -> Filter {
    let n = random.between(1, 10);
    let m = random.between(2, 6);
    open(profile, random, n, m)
}

/// An open filter, now and then one with many states or labels.
fn any_open(profile: Profile, random: &mut Random) -> Filter {
    let n = random.between(1, 10);
    let m = random.between(2, 6);
    let many_states = many_states(profile, random);
    let many_labels = many_labels(profile, random);
    match random.between(1, 12) {
        1 => open(profile, random, many_states, m),
        2 => open(profile, random, n, many_labels),
        _ => small_open(profile, random),
    }
}

/// The first, a middle and the last of `count` observations, which are three at least.
pub fn places(count: usize, random: &mut Random) -> [usize; 3] {
    let middle = random.between(1, count as u64 - 2) as usize;
    [0, middle, count - 1]
}

fn some_count(random: &mut Random) -> usize {
    random.between(3, 40) as usize
}

/// K, K reduced and ride R, with each room.
pub fn of_the_document(profile: Profile, random: &mut Random) -> Vec<Case> {
    let mut cases = Vec::new();
    for file in [K, K_REDUCED] {
        let filter = read(file).expect("accepted");
        for observations in [K_OBSERVATIONS, R_OBSERVATIONS] {
            for room in Room::ALL {
                cases.push(in_room(profile, &filter, observations, room, random));
            }
        }
    }
    cases
}

/// Each shape with each room.
pub fn no_observations(profile: Profile, random: &mut Random) -> Vec<Case> {
    let mut cases = Vec::new();
    for filter in shapes(profile, random) {
        for room in Room::ALL {
            cases.push(in_room(profile, &filter, &[], room, random));
        }
    }
    cases
}

/// Each shape and some open filters, with each room.
pub fn full_rides(profile: Profile, random: &mut Random) -> Vec<Case> {
    let mut filters = shapes(profile, random);
    for _ in 0..10 {
        filters.push(any_open(profile, random));
    }
    let mut cases = Vec::new();
    for filter in &filters {
        let count = some_count(random);
        let (observations, _) = walk(filter, count, random);
        for room in Room::ALL {
            cases.push(in_room(profile, filter, &observations, room, random));
        }
    }
    cases
}

/// Stopped at the first, a middle and the last observation, with each room.
pub fn stopped_rides(profile: Profile, random: &mut Random) -> Vec<Case> {
    let mut cases = Vec::new();
    for nth in 0..3 {
        for room in Room::ALL {
            let filter = any_open(profile, random);
            let count = some_count(random);
            let stop = places(count, random)[nth];
            let observations = stopping(&filter, count, stop, random);
            cases.push(in_room(profile, &filter, &observations, room, random));
        }
    }
    cases
}

/// m, 255, one between them and one that is a label once it is cut down to the bits of one, each at the first, a middle and
/// the last observation; with room enough, and in rides that would be traced or that would stop before.
pub fn labels_outside(profile: Profile, random: &mut Random) -> Vec<Case> {
    let most = profile.most_labels();
    let mut cases = Vec::new();
    for nth in 0..3 {
        for which in 0..4 {
            for stops in [false, true] {
                let filter = any_open(profile, random);
                let m = filter.m;
                let cut_down = most * random.between(1, 255 / most) + random.between(0, m - 1);
                let label = [m, 255, random.between(m, 255), cut_down][which];
                let count = some_count(random);
                let at = places(count, random)[nth];
                let mut observations = if stops {
                    stopping(&filter, count, 0, random)
                } else {
                    full_walk(&filter, count, random)
                };
                observations[at] = label as u8;
                let room = random.pick(&[Room::Exact, Room::Longer]);
                cases.push(in_room(profile, &filter, &observations, room, random));
            }
        }
    }
    cases
}

/// Two labels outside, of which the first decides; a label outside and a room too short, which is 12; and a room that
/// holds all that a stopped ride would write but not what is asked for, which is 12 too.
pub fn two_faults(profile: Profile, random: &mut Random) -> Vec<Case> {
    let mut cases = Vec::new();
    for nth in 0..3 {
        let filter = any_open(profile, random);
        let count = some_count(random);
        let at = places(count, random)[nth];

        let mut observations = full_walk(&filter, count, random);
        observations[at] = outside(random, filter.m, 255) as u8;
        for room in [Room::OneShort, Room::Empty] {
            cases.push(in_room(profile, &filter, &observations, room, random));
        }
        observations.push(outside(random, filter.m, 255) as u8);
        let room = random.pick(&[Room::Exact, Room::Longer]);
        cases.push(in_room(profile, &filter, &observations, room, random));

        let observations = stopping(&filter, count + 1, at, random);
        let found = random.bytes(at + 1);
        cases.push(Case::trace(
            profile,
            profile.write(&filter),
            observations,
            found,
        ));
    }
    cases
}

/// A file with each fault of a file, in a trace that is right otherwise, that has a label outside, too short a room, or both:
/// the file's number comes always.
pub fn through_faulty_files(profile: Profile, random: &mut Random) -> Vec<Case> {
    let mut cases = Vec::new();
    for number in faults(profile) {
        for (label_outside, short_room) in
            [(false, false), (true, false), (false, true), (true, true)]
        {
            let filter = damageable(profile, random);
            let count = some_count(random);
            let (mut observations, _) = walk(&filter, count, random);
            if label_outside {
                observations.insert(0, outside(random, filter.m, 255) as u8);
            }
            let room = if short_room {
                random.pick(&[Room::OneShort, Room::Empty])
            } else {
                random.pick(&[Room::Exact, Room::Longer])
            };
            let mut draft = Draft::of(profile, filter);
            draft.spoil(number, random);
            cases.push(of_bytes(profile, draft.bytes(), observations, room, random));
        }
    }
    cases
}

/// Along edges and then along any labels, in each room.
pub fn to_the_highest_colour(profile: Profile, random: &mut Random) -> Vec<Case> {
    let mut cases = Vec::new();
    for filter in kept(profile, random) {
        let count = some_count(random);
        let (mut observations, _) = walk(&filter, count, random);
        observations.extend(labels(filter.m, 3, random));
        for room in Room::ALL {
            cases.push(in_room(profile, &filter, &observations, room, random));
        }
    }
    cases
}

/// Labels below m or, once in a while, up to it.
pub fn random_observations(profile: Profile, random: &mut Random) -> Vec<Case> {
    let filter = small(profile, random);
    let top = if random.once_in(4) {
        filter.m
    } else {
        filter.m - 1
    };
    let count = random.between(0, 12);
    let observations: Vec<u8> = (0..count).map(|_| random.between(0, top) as u8).collect();
    let room = any(random);
    vec![in_room(profile, &filter, &observations, room, random)]
}

/// Through all states, labels and edges that there can be, through open filters of that size, and through any.
pub fn through_large_files(profile: Profile, random: &mut Random) -> Vec<Case> {
    let (states, labels) = (profile.most_states(), profile.most_labels());
    let count = random.between(100, 300) as usize;
    let mut cases = Vec::new();
    let mut add = |filter: &Filter, observations: &[u8], room: Room, random: &mut Random| {
        cases.push(in_room(profile, filter, observations, room, random));
    };

    let filter = largest(profile, random);
    let mut observations = full_walk(&filter, count, random);
    for room in [Room::Exact, Room::Longer] {
        add(&filter, &observations, room, random);
    }
    observations[count / 2] = labels as u8;
    add(&filter, &observations, Room::Exact, random);

    let filter = open(profile, random, states, labels);
    let observations = full_walk(&filter, count, random);
    add(&filter, &observations, Room::Exact, random);
    let stops = places(count, random);
    let stop = random.pick(&stops);
    let observations = stopping(&filter, count, stop, random);
    add(&filter, &observations, Room::Longer, random);

    let filter = large(profile, random);
    let (observations, _) = walk(&filter, count, random);
    add(&filter, &observations, Room::Exact, random);
    cases
}

/// Around 65,535, and as many as a case can hold. The rooms are enough, too short by one, or right for a number that
/// was cut down to 16 bits.
pub fn many_observations(profile: Profile, random: &mut Random) -> Vec<Case> {
    // Few edges, for each step may look through all of them.
    let filter = small_open(profile, random);
    let most = MOST_OBSERVATIONS;
    let full = full_walk(&filter, most, random);
    let mut label_outside = full.clone();
    label_outside[most - 1] = outside(random, filter.m, 255) as u8;
    let middle = random.between(1, most as u64 - 2) as usize;
    let mut traces = vec![
        (full.clone(), Room::Exact),
        (full.clone(), Room::OneShort),
        (full.clone(), Room::Empty),
        (full[1..].to_vec(), Room::Longer),
        (label_outside, Room::Longer),
        (stopping(&filter, most, most - 1, random), Room::Exact),
        (stopping(&filter, most, middle, random), Room::Exact),
    ];
    let one_more = full_walk(&filter, most + 1, random);
    let mut label_outside = one_more.clone();
    label_outside[random.pick(&[0, most])] = outside(random, filter.m, 255) as u8;
    traces.extend([
        (one_more.clone(), Room::Exact),
        (one_more.clone(), Room::OneShort),
        (label_outside, Room::Longer),
        (stopping(&filter, most + 1, 0, random), Room::Exact),
        (full_walk(&filter, most + 2, random), Room::Exact),
    ]);
    let mut cases = Vec::new();
    for (observations, room) in traces {
        cases.push(in_room(profile, &filter, &observations, room, random));
    }
    let file = profile.write(&filter);
    let many = full_walk(&filter, LONGEST, random);
    for (count, room) in [
        (most + 1, 1),
        (most + 2, 2),
        (LONGEST - 1, LONGEST),
        (LONGEST, LONGEST),
    ] {
        let observations = many[..count].to_vec();
        let found = random.bytes(room);
        cases.push(Case::trace(profile, file.clone(), observations, found));
    }
    cases
}
