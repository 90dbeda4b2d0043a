//! The families of lists, for pack.

use crate::case::Case;
use crate::file::Filter;
use crate::frame::LONGEST;
use crate::make::damage::{
    one_faulty_edge, outside, several_faults_in_an_edge, two_faulty_edges, Damage, Damaged, Tops,
};
use crate::make::filters::{damageable, filter, large, largest, shapes, small};
use crate::make::rooms::{any, Room};
use crate::make::ways_out;
use crate::profile::Profile;
use crate::random::Random;

of_each_profile! { Case, once in 2:
    "accepted lists" => 30 * accepted,
    "lists and numbers outside the form" => 20 * outside_the_form,
    "start outside" => 20 * start_outside,
    "one edge too many" => 20 * one_edge_too_many,
    "lists with one faulty edge" => 20 * faulty_edge,
    "lists with several faults in one edge" => 4 * faults_in_one_edge,
    "lists with two faulty edges" => 10 * faulty_edges,
    "lists with edges out of the highest colour" => 10 * ways_out_in_lists,
    "lists with the highest colour in each state" => 2 * in_each_state,
    "lists with an edge out of the highest colour and a faulty one" => 4 * ways_out_and_faulty_edges,
    "lists with the highest colour kept" => 10 * highest_kept,
    "two faults in the lists" => 30 * two_faults,
    "random lists" => 300 * random_lists,
    "large lists" => 1 * large_lists,
}

/// What pack takes, before a room is lent to it.
#[derive(Clone)]
struct Lists {
    profile: Profile,
    colours: Vec<u8>,
    edges: Vec<u8>,
    m: u64,
    start: u64,
}

impl Lists {
    fn of(profile: Profile, filter: &Filter) -> Lists {
        let (colours, edges) = filter.lists();
        Lists {
            profile,
            colours,
            edges,
            m: filter.m,
            start: filter.start,
        }
    }

    fn with_room(self, room: Room, random: &mut Random) -> Case {
        let (n, e) = (self.colours.len() as u64, self.edges.len() as u64 / 3);
        let found = room.found(self.profile.length(n, e) as usize, random);
        Case::pack(
            self.profile,
            self.colours,
            self.edges,
            self.m,
            self.start,
            found,
        )
    }

    fn with_any_room(self, random: &mut Random) -> Case {
        let room = any(random);
        self.with_room(room, random)
    }

    /// Makes the lists longer by edges of which each is allowed alone.
    fn fill_up(&mut self, e: u64, random: &mut Random) {
        while (self.edges.len() as u64) < 3 * e {
            let top = self.colours.len() as u64 - 1;
            self.edges.push(random.between(0, top) as u8);
            self.edges.push(random.between(0, self.m - 1) as u8);
            self.edges.push(random.between(0, top) as u8);
        }
    }

    fn high_colour(&mut self, random: &mut Random) {
        let at = random.between(0, self.colours.len() as u64 - 1) as usize;
        self.colours[at] = outside(random, self.profile.top_colour() + 1, 255) as u8;
    }
}

/// Each shape in each room.
pub fn accepted(profile: Profile, random: &mut Random) -> Vec<Case> {
    in_each_room(profile, &shapes(profile, random), random)
}

fn in_each_room(profile: Profile, filters: &[Filter], random: &mut Random) -> Vec<Case> {
    let mut cases = Vec::new();
    for filter in filters {
        for room in Room::ALL {
            cases.push(Lists::of(profile, filter).with_room(room, random));
        }
    }
    cases
}

/// No m, though some would be one once they are cut down to fewer bits.
fn not_m(profile: Profile) -> [u64; 11] {
    let most = profile.most_labels();
    [
        0,
        most + 1,
        2 * most,
        255,
        (1 << 8) + 2,
        (1 << 16) + 2,
        1 << 32,
        (1 << 32) + 2,
        1 << 63,
        (1 << 63) + 2,
        u64::MAX,
    ]
}

pub fn outside_the_form(profile: Profile, random: &mut Random) -> Vec<Case> {
    let base = Lists::of(profile, &damageable(profile, random));
    let (most, top) = (profile.most_states(), profile.top_colour());
    let mut all = Vec::new();
    for count in [
        0,
        most + 1,
        most + 2,
        256.max(most + 1),
        random.between(most + 1, 600),
    ] {
        let mut lists = base.clone();
        lists.colours = vec![random.between(0, top) as u8; count as usize];
        all.push(lists);
    }
    for m in not_m(profile) {
        let mut lists = base.clone();
        lists.m = m;
        all.push(lists);
    }
    for colour in [top + 1, top + 2, 64, 128, 255] {
        for at in [0, base.colours.len() / 2, base.colours.len() - 1] {
            let mut lists = base.clone();
            lists.colours[at] = colour as u8;
            all.push(lists);
        }
    }
    for more in [1, 2] {
        let mut lists = base.clone();
        lists.edges.extend(random.bytes(more));
        all.push(lists);
        let mut lists = base.clone();
        lists.edges.truncate(more);
        all.push(lists);
    }
    all.into_iter()
        .map(|lists| lists.with_any_room(random))
        .collect()
}

/// Starts of which some are right once they are cut down to fewer bits.
pub fn start_outside(profile: Profile, random: &mut Random) -> Vec<Case> {
    let mut all = Vec::new();
    let most = profile.most_states();
    let n = random.between(1, most);
    for states in [1, n, most - 1, most] {
        let e = random.between(0, 5);
        for start in [
            states,
            states + 1,
            states.max(most - 1),
            most,
            256,
            256 + states - 1,
            1 << 16,
            1 << 32,
            (1 << 32) + states - 1,
            1 << 63,
            u64::MAX,
        ] {
            let mut lists = Lists::of(profile, &filter(profile, random, states, 5, e));
            lists.start = start;
            all.push(lists.with_any_room(random));
        }
        // The highest that is still inside.
        let mut lists = Lists::of(profile, &filter(profile, random, states, 5, e));
        lists.start = states - 1;
        all.push(lists.with_any_room(random));
    }
    all
}

pub fn one_edge_too_many(profile: Profile, random: &mut Random) -> Vec<Case> {
    let mut all = Vec::new();
    for base in shapes(profile, random) {
        let full = base.n() * base.m;
        if full <= 300 {
            let mut lists = Lists::of(profile, &base);
            lists.fill_up(full + 1, random);
            all.push(lists.with_any_room(random));
        }
    }
    all
}

pub fn faulty_edge(profile: Profile, random: &mut Random) -> Vec<Case> {
    let mut filters = one_faulty_edge(profile, Tops::OF_LISTS, random);
    // A label that a file could not even hold.
    let most = profile.most_labels();
    let mut full = filter(profile, random, 2, most, 2 * most);
    Damage::Label.apply(&mut full, most as usize - 1, Tops::OF_LISTS, random);
    filters.push(full);
    in_any_rooms(profile, &filters, random)
}

pub fn faults_in_one_edge(profile: Profile, random: &mut Random) -> Vec<Case> {
    let all = several_faults_in_an_edge(profile, Tops::OF_LISTS, random);
    damaged_in_any_rooms(profile, all, random)
}

pub fn faulty_edges(profile: Profile, random: &mut Random) -> Vec<Case> {
    let all = two_faulty_edges(profile, Tops::OF_LISTS, random);
    damaged_in_any_rooms(profile, all, random)
}

pub fn ways_out_in_lists(profile: Profile, random: &mut Random) -> Vec<Case> {
    let filters = ways_out::any_number(profile, random);
    in_any_rooms(profile, &filters, random)
}

pub fn in_each_state(profile: Profile, random: &mut Random) -> Vec<Case> {
    let filters = ways_out::in_each_state(profile, random);
    in_any_rooms(profile, &filters, random)
}

pub fn ways_out_and_faulty_edges(profile: Profile, random: &mut Random) -> Vec<Case> {
    let mut all = ways_out::beside_a_faulty_edge(profile, Tops::OF_LISTS, random);
    all.extend(ways_out::in_a_faulty_edge(profile, Tops::OF_LISTS, random));
    damaged_in_any_rooms(profile, all, random)
}

/// In each room.
pub fn highest_kept(profile: Profile, random: &mut Random) -> Vec<Case> {
    in_each_room(profile, &ways_out::kept(profile, random), random)
}

fn damaged_in_any_rooms(profile: Profile, all: Vec<Damaged>, random: &mut Random) -> Vec<Case> {
    let filters: Vec<Filter> = all.into_iter().map(|damaged| damaged.filter).collect();
    in_any_rooms(profile, &filters, random)
}

fn in_any_rooms(profile: Profile, filters: &[Filter], random: &mut Random) -> Vec<Case> {
    filters
        .iter()
        .map(|filter| Lists::of(profile, filter).with_any_room(random))
        .collect()
}

/// Pairs of refusals that one call of pack can deserve, the one that it gets first. Pocket files get no 17.
pub const PAIRS: &[(u8, u8)] = &[
    (14, 2),
    (14, 3),
    (14, 7),
    (14, 8),
    (14, 9),
    (14, 17),
    (14, 10),
    (2, 3),
    (2, 7),
    (2, 8),
    (2, 9),
    (2, 17),
    (2, 10),
    (3, 7),
    (3, 8),
    (3, 9),
    (3, 17),
    (3, 10),
    (7, 17),
    (7, 10),
    (8, 17),
    (8, 10),
    (9, 17),
    (9, 10),
    (17, 10),
];

/// One case for each of `PAIRS`.
pub fn two_faults(profile: Profile, random: &mut Random) -> Vec<Case> {
    let two = |&pair| two_of(profile, pair, random);
    PAIRS.iter().map(two).collect()
}

fn two_of(profile: Profile, pair: (u8, u8), random: &mut Random) -> Case {
    let has = |number| pair.0 == number || pair.1 == number;
    let mut filter = damageable(profile, random);
    if has(17) {
        ways_out::lead_out(profile, &mut filter, &[0], random);
    }
    for number in 7..=9 {
        if has(number) {
            let damage = Damage::of(number, random);
            // Not the first place, where it would touch the edge that leads out.
            let from = usize::from(has(17));
            let at = random.pick(&damage.places(&filter)[from..]);
            damage.apply(&mut filter, at, Tops::OF_LISTS, random);
        }
    }
    let mut lists = Lists::of(profile, &filter);
    if has(3) {
        let too_many = filter.n() * filter.m + random.between(1, 3);
        lists.fill_up(too_many, random);
    }
    if has(2) {
        let n = filter.n();
        lists.start = random.pick(&[n, 256, 1 << 32, u64::MAX]);
    }
    if has(14) {
        // A number of labels that is out of bounds would leave 3 and 7 without a meaning.
        lists.high_colour(random);
    }
    let room = if has(10) {
        random.pick(&[Room::OneShort, Room::Empty])
    } else {
        random.pick(&[Room::Exact, Room::Longer])
    };
    lists.with_room(room, random)
}

/// Mostly of a form that leaves the edges to decide. The highest colours are left by edges as it happens.
pub fn random_lists(profile: Profile, random: &mut Random) -> Vec<Case> {
    let n = random.between(0, 8);
    let top = profile.top_colour();
    let (lowest, highest) = random.pick(&[(0, 3), (0, top), (top - 2, top), (0, top + 7)]);
    let edge_bytes = 3 * random.between(0, 4) + random.pick(&[0, 0, 0, 1]);
    let edge_top = random.pick(&[1, 3, 8, 255]);
    let few_labels = random.between(1, 8);
    let labels = random.between(0, profile.most_labels() + 6);
    let lists = Lists {
        profile,
        colours: bytes_between(lowest, highest, n, random),
        edges: bytes_between(0, edge_top, edge_bytes, random),
        m: random.pick(&[few_labels, few_labels, labels]),
        start: random.between(0, 4),
    };
    vec![lists.with_any_room(random)]
}

fn bytes_between(least: u64, most: u64, count: u64, random: &mut Random) -> Vec<u8> {
    let byte = |_| random.between(least, most) as u8;
    (0..count).map(byte).collect()
}

/// The largest file's lists in each room, lists that are too long by one edge and by far, and with an edge that repeats the one
/// before it or leads out of the highest colour.
pub fn large_lists(profile: Profile, random: &mut Random) -> Vec<Case> {
    let full = Lists::of(profile, &largest(profile, random));
    let few = Lists::of(profile, &small(profile, random));
    let mut cases = Vec::new();
    for room in Room::ALL {
        cases.push(full.clone().with_room(room, random));
    }
    let any = Lists::of(profile, &large(profile, random));
    cases.push(any.with_any_room(random));
    // One more than fits; around the most that the header can say; the most that a case can hold.
    let said = profile.top_count();
    for e in [profile.most_edges() + 1, said, said + 1, said + 2, 133_333] {
        let mut lists = full.clone();
        lists.fill_up(e, random);
        cases.push(lists.with_any_room(random));
    }
    let mut lists = few.clone();
    lists.fill_up(said + 1, random);
    cases.push(lists.with_any_room(random));
    let mut lists = few;
    lists.colours = vec![0; random.pick(&[65_536, 65_537, 131_072, LONGEST])];
    cases.push(lists.with_room(Room::Empty, random));
    let mut lists = full;
    let damaged = random.between(1, profile.most_edges() - 1) as usize;
    lists
        .edges
        .copy_within(3 * damaged - 3..3 * damaged, 3 * damaged);
    cases.push(lists.with_any_room(random));
    let mut way_out = largest(profile, random);
    let last = way_out.edges.len() - 1;
    ways_out::lead_out(profile, &mut way_out, &[last], random);
    cases.push(Lists::of(profile, &way_out).with_any_room(random));
    cases
}
