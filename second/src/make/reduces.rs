//! The families of filters and rooms, for reduce.

use crate::case::Case;
use crate::file::{read, Edge, Filter, FAULT};
use crate::kinds::many_rounds;
use crate::make::chains::{chains, lengths};
use crate::make::draft::{faults, Draft};
use crate::make::filters::{damageable, large, largest, led, recolour, turn_back, with_colours};
use crate::make::groups;
use crate::make::leftovers;
use crate::make::rooms::{any, Room};
use crate::make::ways_out::kept;
use crate::profile::Profile;
use crate::random::Random;
use crate::reduce::reduce;
use crate::rides::{
    never_parted, parted_in_the_next_round, ride_l, ride_m, ride_n, ride_p, C, K, K_REDUCED,
};

of_each_profile! { Case, once in 6:
    "the document's reductions" => 1 * of_the_document,
    "classes judged in the midst of a round" => 1 * judged_in_the_midst,
    "small filters" => 300 * small_filters,
    "dense filters" => 60 * dense,
    "sparse filters" => 60 * sparse,
    "one colour" => 15 * one_colour,
    "as many colours as there can be" => 15 * many_colours,
    "filters with parts that the start does not lead to" => 60 * unreachable_parts,
    "filters of copied states" => 60 * copied_states,
    "short chains" => 30 * short_chains,
    "filters of any size" => 1 * any_size,
    "chains of many rounds" => 1 * chains_of_many_rounds,
    "classes of many groups" => 1 * groups::with_many_groups,
    "rooms of a reduction" => 4 * all_rooms,
    "room for the reduced file alone" => 20 * room_for_the_reduced_alone,
    "leftovers anywhere" => 200 * leftovers::anywhere,
    "leftovers before, between and behind live states" => 50 * leftovers::before_between_and_behind,
    "the first state left over" => 60 * leftovers::the_first_state,
    "all but the start left over" => 10 * leftovers::all_but_the_start,
    "leftovers that lead to live states" => 60 * leftovers::leading_to_the_live,
    "leftovers with colours of their own" => 60 * leftovers::with_own_colours,
    "leftovers that would keep live states apart" => 30 * leftovers::keeping_apart,
    "nothing left over, far to the last state" => 3 * leftovers::far_to_the_last,
    "room for the live states alone" => 20 * leftovers::room_for_the_live_alone,
    "the highest colour kept in a reduction" => 20 * highest_kept,
    "reductions of faulty files" => 5 * of_faulty_files,
}

/// Room for so many entries. Where one is short there may be half of it.
fn class_list(room: Room, entries: u64, random: &mut Random) -> Vec<u8> {
    let mut found = room.found(2 * entries as usize, random);
    if room == Room::OneShort && random.once_in(2) {
        found.pop();
    }
    found
}

/// The file reduced in rooms of these kinds.
pub fn in_rooms(
    profile: Profile,
    file: Vec<u8>,
    answer: Room,
    list: Room,
    random: &mut Random,
) -> Case {
    // Without a header any number will do.
    let entries = profile.header(&file).map_or(3, |header| header.n);
    let answer_room = answer.found(file.len(), random);
    let list = class_list(list, entries, random);
    Case::reduce(profile, file, answer_room, list)
}

pub fn of_file(profile: Profile, random: &mut Random, file: Vec<u8>) -> Case {
    let (answer, list) = (any(random), any(random));
    in_rooms(profile, file, answer, list, random)
}

fn enough(random: &mut Random) -> Room {
    random.pick(&[Room::Exact, Room::Longer])
}

fn short(random: &mut Random) -> Room {
    random.pick(&[Room::OneShort, Room::Empty])
}

pub fn with_enough_room(profile: Profile, filters: &[Filter], random: &mut Random) -> Vec<Case> {
    filters
        .iter()
        .map(|filter| {
            let (answer, list) = (enough(random), enough(random));
            in_rooms(profile, profile.write(filter), answer, list, random)
        })
        .collect()
}

/// Each kind of answer room with each kind of class list.
fn with_each_room(profile: Profile, filter: &Filter, random: &mut Random) -> Vec<Case> {
    let mut cases = Vec::new();
    for answer in Room::ALL {
        for list in Room::ALL {
            let file = profile.write(filter);
            cases.push(in_rooms(profile, file, answer, list, random));
        }
    }
    cases
}

/// A filter of these sizes with no more than so many colours.
fn coloured(profile: Profile, random: &mut Random, n: u64, m: u64, e: u64, colours: u64) -> Filter {
    let palette = some_colours(profile, random, colours);
    let colours = (0..n).map(|_| random.pick(&palette)).collect();
    with_colours(random, colours, m, e)
}

fn some_colours(profile: Profile, random: &mut Random, count: u64) -> Vec<u64> {
    let mut palette = random.shuffled(profile.top_colour() + 1);
    palette.truncate(count as usize);
    palette
}

/// Gives it no more than so many colours.
pub fn coloured_with(profile: Profile, filter: &mut Filter, colours: u64, random: &mut Random) {
    let palette = some_colours(profile, random, colours);
    for colour in &mut filter.colours {
        *colour = random.pick(&palette);
    }
    // Where there is no other colour, there is no way out of it.
    if let Some(&other) = palette.iter().find(|&&colour| colour != FAULT) {
        recolour(filter, other);
    }
}

/// The same of a filter whose start leads to all n states, where one in `often` of the other edges is there.
fn all_live(
    profile: Profile,
    random: &mut Random,
    n: u64,
    m: u64,
    often: u64,
    colours: u64,
) -> Filter {
    let states = random.shuffled(n);
    let mut filter = led(profile, random, n, m, &states, often);
    coloured_with(profile, &mut filter, colours, random);
    filter
}

/// Of at most so many states, in which there is something to merge and something to part.
fn any_coloured(profile: Profile, random: &mut Random, most_states: u64) -> Filter {
    let n = random.between(2, most_states.min(profile.most_states()));
    let m = random.between(1, 6);
    let e = random.between(0, n * m);
    let colours = random.between(1, 5);
    coloured(profile, random, n, m, e, colours)
}

pub fn of_the_document(profile: Profile, random: &mut Random) -> Vec<Case> {
    let files = [C, K, K_REDUCED].map(|file| read(file).expect("accepted"));
    let mut filters = files.to_vec();
    filters.extend([ride_l(), ride_m(), ride_n(), ride_p()]);
    filters
        .iter()
        .flat_map(|filter| with_each_room(profile, filter, random))
        .collect()
}

pub fn judged_in_the_midst(profile: Profile, random: &mut Random) -> Vec<Case> {
    with_enough_room(
        profile,
        &[parted_in_the_next_round(), never_parted()],
        random,
    )
}

/// Few enough states and labels that every way to merge and to part comes by. The start leads to some of them, and to all.
pub fn small_filters(profile: Profile, random: &mut Random) -> Vec<Case> {
    let mut filters = Vec::new();
    for n in 2..=6 {
        let m = random.between(1, 3);
        let e = random.between(1, n * m);
        let often = random.between(1, 4);
        let colours = random.between(1, 3);
        filters.push(coloured(profile, random, n, m, e, colours));
        filters.push(all_live(profile, random, n, m, often, colours));
    }
    with_enough_room(profile, &filters, random)
}

/// Every pair of state and label has an edge, or all but a few.
pub fn dense(profile: Profile, random: &mut Random) -> Vec<Case> {
    let n = random.between(2, profile.most_states().min(30));
    let m = random.between(1, 8);
    let colours = random.between(2, 8);
    let few = random.between(1, n * m / 2);
    let filters = [n * m, n * m - few].map(|e| coloured(profile, random, n, m, e, colours));
    with_enough_room(profile, &filters, random)
}

/// No more than one edge a state on the average, of which the start leads to a few; and few more than it takes to lead to all.
pub fn sparse(profile: Profile, random: &mut Random) -> Vec<Case> {
    let n = random.between(2, profile.most_states().min(60));
    let m = random.between(1, 8);
    let colours = random.between(2, 8);
    let mut filters = [n, n.div_ceil(3)]
        .map(|e| coloured(profile, random, n, m, e, colours))
        .to_vec();
    filters.push(all_live(profile, random, n, m, 5 * m, colours));
    with_enough_room(profile, &filters, random)
}

pub fn one_colour(profile: Profile, random: &mut Random) -> Vec<Case> {
    let n = random.between(1, profile.most_states());
    let m = random.between(1, 4);
    let mut filters = [0, n, n * m]
        .map(|e| coloured(profile, random, n, m, e, 1))
        .to_vec();
    filters.push(all_live(profile, random, n, m, 4, 1));
    with_enough_room(profile, &filters, random)
}

/// All different in as many states as there are colours or fewer, and all of them in more; the start leads to all states, and to
/// some.
pub fn many_colours(profile: Profile, random: &mut Random) -> Vec<Case> {
    let most = profile.most_states();
    let colours = profile.top_colour() + 1;
    let more = random.between(most.min(colours + 1), most);
    let mut filters = Vec::new();
    for n in [random.between(1, colours - 1), colours, more] {
        let m = random.between(1, 4);
        let e = random.between(0, n * m);
        let palette = random.shuffled(colours);
        let mut again = palette.clone();
        // This one is to be one state's alone.
        again.retain(|&colour| colour != FAULT);
        let colour = |state| match palette.get(state as usize) {
            Some(&own) => own,
            None => random.pick(&again),
        };
        let colours: Vec<u64> = (0..n).map(colour).collect();
        filters.push(all_live_of(profile, random, m, colours.clone()));
        filters.push(with_colours(random, colours, m, e));
    }
    with_enough_room(profile, &filters, random)
}

/// With these colours, in some order, and a start that leads to all states. The fault goes to the last that is led to, which can
/// do without a way out.
fn all_live_of(profile: Profile, random: &mut Random, m: u64, mut colours: Vec<u64>) -> Filter {
    let n = colours.len() as u64;
    let states = random.shuffled(n);
    let last = states[states.len() - 1] as usize;
    if let Some(at) = colours.iter().position(|&colour| colour == FAULT) {
        colours.swap(at, last);
    }
    let mut filter = Filter {
        colours,
        ..led(profile, random, n, m, &states, 3)
    };
    turn_back(&mut filter);
    filter
}

/// No edge leads from the states around the start to the others, which share their colours and may lead back.
pub fn unreachable_parts(profile: Profile, random: &mut Random) -> Vec<Case> {
    let mut filter = any_coloured(profile, random, 30);
    let states = random.shuffled(filter.n());
    let reached = &states[..random.between(1, filter.n() - 1) as usize];
    filter.start = random.pick(reached);
    for edge in &mut filter.edges {
        if reached.contains(&edge.source) {
            edge.target = random.pick(reached);
        }
    }
    turn_back(&mut filter);
    with_enough_room(profile, &[filter], random)
}

/// A filter of which the start leads to some states, and one of which it leads to all, with each state several times.
pub fn copied_states(profile: Profile, random: &mut Random) -> Vec<Case> {
    // So that there can be three copies.
    let most = (profile.most_states() / 3).min(12);
    let n = random.between(2, most);
    let m = random.between(1, 6);
    let colours = random.between(1, 5);
    let firsts = [
        any_coloured(profile, random, most),
        all_live(profile, random, n, m, 2, colours),
    ];
    let filters = firsts.map(|first| copied(profile, random, first));
    with_enough_room(profile, &filters, random)
}

/// Each copy of a state has some of its edges, to any copy of their targets.
fn copied(profile: Profile, random: &mut Random, first: Filter) -> Filter {
    let copies = random.between(2, (profile.most_states() / first.n()).min(6));
    let missing = random.between(2, 9);
    let mut edges = Vec::new();
    for copy in 0..copies {
        for edge in &first.edges {
            if !random.once_in(missing) {
                edges.push(Edge {
                    source: edge.source + copy * first.n(),
                    label: edge.label,
                    target: edge.target + random.between(0, copies - 1) * first.n(),
                });
            }
        }
    }
    Filter {
        colours: first.colours.repeat(copies as usize),
        edges,
        ..first
    }
}

/// One chain, and several, in a few dozen states at most; and each of them entered anywhere, so that what lies before is left over.
pub fn short_chains(profile: Profile, random: &mut Random) -> Vec<Case> {
    let most = profile.most_states();
    let mut filters = Vec::new();
    for count in [1, random.between(2, 5)] {
        let states = random.between(2 * count, most.min(40));
        let n = most.min(states + random.between(0, 6));
        let m = random.between(1, 6);
        let lengths = lengths(random, count, states);
        let whole = chains(profile, random, n, m, &lengths);
        let start = random.between(0, n - 1);
        filters.extend([
            Filter {
                start,
                ..whole.clone()
            },
            whole,
        ]);
    }
    with_enough_room(profile, &filters, random)
}

/// The largest sizes with few and with all colours, and any.
pub fn any_size(profile: Profile, random: &mut Random) -> Vec<Case> {
    let (n, m, e) = (
        profile.most_states(),
        profile.most_labels(),
        profile.most_edges(),
    );
    let few = random.between(2, 6);
    let filters = [
        coloured(profile, random, n, m, e, few),
        coloured(profile, random, n, m, e / 16, few),
        largest(profile, random),
        large(profile, random),
    ];
    with_enough_room(profile, &filters, random)
}

/// As many states and labels as there can be, in one chain and in several.
pub fn chains_of_many_rounds(profile: Profile, random: &mut Random) -> Vec<Case> {
    let (most, labels) = (profile.most_states(), profile.most_labels());
    let rounds = many_rounds(profile);
    let mut filters = Vec::new();
    for count in [1, random.between(2, (most - rounds) / 2)] {
        let any = random.between(rounds + 2 * count, most);
        let states = random.pick(&[most, any]);
        let lengths = lengths(random, count, states);
        filters.push(chains(profile, random, most, labels, &lengths));
    }
    with_enough_room(profile, &filters, random)
}

pub fn all_rooms(profile: Profile, random: &mut Random) -> Vec<Case> {
    let filter = any_coloured(profile, random, 20);
    with_each_room(profile, &filter, random)
}

/// Shorter than the original, so too short, though all that would be written fits in; with the class list short too, and
/// not.
pub fn room_for_the_reduced_alone(profile: Profile, random: &mut Random) -> Vec<Case> {
    let mut cases = Vec::new();
    for list in [enough(random), short(random)] {
        // Fewer edges than states and few colours, so that something is merged.
        let filter = coloured(profile, random, 12, 3, 9, 2);
        let reduced = profile.write(&reduce(&filter).filter);
        let mut case = in_rooms(profile, profile.write(&filter), Room::Exact, list, random);
        case.b.truncate(reduced.len());
        cases.push(case);
    }
    cases
}

pub fn highest_kept(profile: Profile, random: &mut Random) -> Vec<Case> {
    let filters = kept(profile, random);
    with_enough_room(profile, &filters, random)
}

/// A file with each fault of a file, in rooms that are enough, of which one is short, or both: the file's number comes always.
pub fn of_faulty_files(profile: Profile, random: &mut Random) -> Vec<Case> {
    let mut cases = Vec::new();
    for number in faults(profile) {
        for rooms in [[true, true], [false, true], [true, false], [false, false]] {
            let mut draft = Draft::of(profile, damageable(profile, random));
            draft.spoil(number, random);
            let [answer, list] =
                rooms.map(|fits| if fits { enough(random) } else { short(random) });
            cases.push(in_rooms(profile, draft.bytes(), answer, list, random));
        }
    }
    cases
}
