//! The families of filters with leftovers, which are states that the start does not lead to, for reduce.

use crate::case::Case;
use crate::file::{Edge, Filter};
use crate::make::chains::in_some_order;
use crate::make::filters::{led, recolour};
use crate::make::reduces::{coloured_with, in_rooms, with_enough_room};
use crate::make::rooms::Room;
use crate::profile::Profile;
use crate::random::Random;
use crate::rides::{filter_of, ride_p};

/// A filter in which exactly these states are live, the first of them the start. Few colours, so that live states and
/// leftovers share them.
fn with_live(profile: Profile, random: &mut Random, n: u64, live: &[u64]) -> Filter {
    let m = random.between(1, 4);
    let often = random.between(1, 5);
    let mut filter = led(profile, random, n, m, live, often);
    let colours = random.between(1, 4);
    coloured_with(profile, &mut filter, colours, random);
    filter
}

/// These states in any order.
fn in_disorder(random: &mut Random, states: &[u64]) -> Vec<u64> {
    let order = random.shuffled(states.len() as u64);
    order.iter().map(|&at| states[at as usize]).collect()
}

/// Some of n states and not all, in any order.
fn some_of(random: &mut Random, n: u64) -> Vec<u64> {
    let mut states = random.shuffled(n);
    states.truncate(random.between(1, n - 1) as usize);
    states
}

/// Few enough states that every way to mix the two comes by.
pub fn anywhere(profile: Profile, random: &mut Random) -> Vec<Case> {
    let mut filters = Vec::new();
    for n in 2..=8 {
        let live = some_of(random, n);
        filters.push(with_live(profile, random, n, &live));
    }
    with_enough_room(profile, &filters, random)
}

/// Leftovers before all live states, between them, behind all of them, and on both sides.
pub fn before_between_and_behind(profile: Profile, random: &mut Random) -> Vec<Case> {
    let n = random.between(3, profile.most_states().min(40));
    let from = random.between(1, n - 2);
    let to = random.between(from + 1, n - 1);
    let all: Vec<u64> = (0..n).collect();
    let (before, others) = all.split_at(from as usize);
    let (between, behind) = others.split_at((to - from) as usize);
    let mut filters = Vec::new();
    for live in [
        behind.to_vec(),
        [before, behind].concat(),
        before.to_vec(),
        between.to_vec(),
    ] {
        let live = in_disorder(random, &live);
        filters.push(with_live(profile, random, n, &live));
    }
    with_enough_room(profile, &filters, random)
}

/// State 0 is left over, and leads to the start.
pub fn the_first_state(profile: Profile, random: &mut Random) -> Vec<Case> {
    let n = random.between(2, profile.most_states().min(20));
    let mut live: Vec<u64> = random
        .shuffled(n - 1)
        .iter()
        .map(|other| other + 1)
        .collect();
    live.truncate(random.between(1, n - 1) as usize);
    let mut filter = with_live(profile, random, n, &live);
    filter.edges.retain(|edge| edge.source != 0);
    let to_the_start = Edge {
        source: 0,
        label: random.between(0, filter.m - 1),
        target: filter.start,
    };
    filter.edges.insert(0, to_the_start);
    recolour(&mut filter, 0);
    with_enough_room(profile, &[filter], random)
}

/// The start alone is live: as the first, a middle and the last of few states, and of as many as there can be.
pub fn all_but_the_start(profile: Profile, random: &mut Random) -> Vec<Case> {
    let mut filters = Vec::new();
    let most = profile.most_states();
    for n in [random.between(3, most.min(20)), most] {
        let middle = random.between(1, n - 2);
        for start in [0, middle, n - 1] {
            filters.push(with_live(profile, random, n, &[start]));
        }
    }
    with_enough_room(profile, &filters, random)
}

/// Every edge of a leftover leads to a live state.
pub fn leading_to_the_live(profile: Profile, random: &mut Random) -> Vec<Case> {
    let n = random.between(2, profile.most_states().min(30));
    let live = some_of(random, n);
    let mut filter = with_live(profile, random, n, &live);
    for edge in &mut filter.edges {
        if !live.contains(&edge.source) {
            edge.target = random.pick(&live);
        }
    }
    recolour(&mut filter, 0);
    with_enough_room(profile, &[filter], random)
}

/// No leftover shares its colour with a live state.
pub fn with_own_colours(profile: Profile, random: &mut Random) -> Vec<Case> {
    let n = random.between(2, profile.most_states().min(60));
    let live = some_of(random, n);
    let mut filter = with_live(profile, random, n, &live);
    let (even, odd): (Vec<u64>, Vec<u64>) =
        (0..=profile.top_colour()).partition(|colour| colour % 2 == 0);
    for (state, colour) in (0..).zip(&mut filter.colours) {
        let from = if live.contains(&state) { &even } else { &odd };
        *colour = random.pick(from);
    }
    recolour(&mut filter, odd[0]);
    with_enough_room(profile, &[filter], random)
}

/// Nothing is left over, but the last state is as many steps away as there are others. Of few states and of as many as there
/// can be.
pub fn far_to_the_last(profile: Profile, random: &mut Random) -> Vec<Case> {
    let most = profile.most_states();
    let sizes = [random.between(2, 12), random.between(13, most - 1), most];
    let filters = sizes.map(|n| in_a_line(profile, random, n));
    with_enough_room(profile, &filters, random)
}

/// A line through all n states, and an edge of each back along it.
fn in_a_line(profile: Profile, random: &mut Random, n: u64) -> Filter {
    let line = in_some_order(random, n);
    let m = random.between(2, 4);
    let onward = random.between(0, m - 1);
    let mut edges = Vec::new();
    for (i, &source) in line.iter().enumerate() {
        let mut add = |label, target| {
            edges.push(Edge {
                source,
                label,
                target,
            })
        };
        add((onward + 1) % m, random.pick(&line[..=i]));
        if let Some(&next) = line.get(i + 1) {
            add(onward, next);
        }
    }
    edges.sort_by_key(|edge| (edge.source, edge.label));
    let mut filter = Filter {
        colours: vec![0; n as usize],
        m,
        start: line[0],
        edges,
    };
    let colours = random.between(1, 4);
    coloured_with(profile, &mut filter, colours, random);
    filter
}

/// P; and live states of one colour that would be parted if leftovers took part. The start leads along a line of them, and
/// some have an edge within the line by label 0. The leftovers have the same colour, come first and lead by that label to
/// another colour: so they conflict with those that have the edge, and with no other.
pub fn keeping_apart(profile: Profile, random: &mut Random) -> Vec<Case> {
    let leftovers = random.between(1, 5);
    let start = leftovers;
    let line: Vec<u64> = (start + 1..=start + random.between(2, 8)).collect();
    let elsewhere = line[line.len() - 1] + 1;
    let mut with_the_edge = in_disorder(random, &line);
    with_the_edge.truncate(random.between(1, line.len() as u64 - 1) as usize);

    let mut edges: Vec<(u64, u64, u64)> = (0..leftovers).map(|one| (one, 0, elsewhere)).collect();
    edges.push((start, 1, line[0]));
    for &state in &line {
        if with_the_edge.contains(&state) {
            edges.push((state, 0, random.pick(&line)));
        }
        if line.contains(&(state + 1)) {
            edges.push((state, 1, state + 1));
        }
    }
    let mut colours = vec![0; elsewhere as usize + 1];
    colours[start as usize] = 1;
    colours[elsewhere as usize] = random.between(1, 2);
    let filter = Filter {
        start,
        ..filter_of(&colours, &edges)
    };
    with_enough_room(profile, &[ride_p(), filter], random)
}

/// Rooms go by the whole file: a class list for the live states alone is short, and so is an answer room for a file of them.
pub fn room_for_the_live_alone(profile: Profile, random: &mut Random) -> Vec<Case> {
    let n = random.between(2, profile.most_states().min(20));
    let live = some_of(random, n);
    let file = profile.write(&with_live(profile, random, n, &live));
    let mut short_list = in_rooms(profile, file.clone(), Room::Exact, Room::Exact, random);
    short_list.c.truncate(2 * live.len());
    let mut short_answer = in_rooms(profile, file, Room::Exact, Room::Exact, random);
    let for_the_live = profile.length(live.len() as u64, 0);
    short_answer.b.truncate(for_the_live as usize);
    vec![short_list, short_answer]
}
