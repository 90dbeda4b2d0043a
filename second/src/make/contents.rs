//! The families of texts that are well formed, for reading a drawing: what a filter can have decides over them.

use crate::case::Case;
use crate::dot;
use crate::file::{Edge, Filter, FAULT};
use crate::frame::LONGEST;
use crate::make::damage::{outside, Damage, Tops};
use crate::make::filters::{filter, largest, shapes};
use crate::make::rooms::Room;
use crate::make::texts::{drawable, framed, in_any_rooms, in_room, text_of};
use crate::make::ways_out::{any_number, in_each_state, kept, lead_out, two_apart};
use crate::make::Family;
use crate::profile::LARGE;
use crate::random::Random;

pub const FAMILIES: &[Family<Case>] = &[
    Family {
        name: "numbers of states",
        times: 1,
        make: numbers_of_states,
    },
    Family {
        name: "the line behind some states",
        times: 3,
        make: behind_some_states,
    },
    Family {
        name: "numbers at the limits",
        times: 1,
        make: at_the_limits,
    },
    Family {
        name: "texts with too many edges",
        times: 2,
        make: too_many_edges,
    },
    Family {
        name: "texts with one faulty edge",
        times: 3,
        make: faulty_edge,
    },
    Family {
        name: "texts with two faulty edges",
        times: 2,
        make: faulty_edges,
    },
    Family {
        name: "texts with edges out of the fault",
        times: 5,
        make: ways_out_in_texts,
    },
    Family {
        name: "texts with the fault in each state",
        times: 1,
        make: fault_in_each_state,
    },
    Family {
        name: "texts with an edge out of the fault and a faulty one",
        times: 3,
        make: ways_out_and_faulty_edges,
    },
    Family {
        name: "texts with the fault kept",
        times: 5,
        make: fault_kept,
    },
    Family {
        name: "two faults of a text",
        times: 5,
        make: two_faults,
    },
    Family {
        name: "the largest texts",
        times: 1,
        make: largest_texts,
    },
];

/// The numbers around every bound, with a few edges and without.
pub fn numbers_of_states(random: &mut Random) -> Vec<Case> {
    let mut texts = Vec::new();
    for n in [0, 1, 255, 256, 257, 999, 1000, 1001] {
        for e in [0, 1, random.between(2, 5)] {
            // All edges are of state 0, which is not to be the fault.
            let colours: Vec<u64> = (0..n).map(|_| random.between(0, FAULT - 1)).collect();
            let edge = |label| Edge {
                source: 0,
                label,
                target: random.between(0, n.clamp(1, 1000) - 1),
            };
            let edges: Vec<Edge> = (0..e).map(edge).collect();
            texts.push(dot::write(&colours, &edges).into_bytes());
        }
    }
    in_any_rooms(texts, random)
}

/// Behind some states a line that begins with a number: the next state's, one that has a beginning in common with it, and
/// others.
pub fn behind_some_states(random: &mut Random) -> Vec<Case> {
    let any = random.between(2, 998);
    let n = random.pick(&[0, 1, 9, 10, 11, 19, 99, 100, 101, 255, 256, 999, 1000, any]);
    let colours: Vec<u64> = (0..n).map(|_| random.between(0, 63)).collect();
    let text = dot::write(&colours, &[]);
    let states = text.strip_suffix("}\n").expect("a brace");
    let mut texts = Vec::new();
    for number in [
        n,
        n + 1,
        n.saturating_sub(1),
        n / 10,
        n / 100,
        10 * n,
        10 * n + 1,
        0,
        999,
    ] {
        for line in [" [label=1];\n", " -> 0 [label=0];\n"] {
            texts.push(format!("{states}{number}{line}}}\n").into_bytes());
        }
    }
    in_any_rooms(texts, random)
}

/// A colour, a label, a source or a target around the bounds of states, labels and bytes.
pub fn at_the_limits(random: &mut Random) -> Vec<Case> {
    let mut texts = Vec::new();
    for n in [4, 63, 64, 255, 256] {
        for number in [
            62, 63, 64, 65, 127, 128, 254, 255, 256, 257, 319, 320, 511, 512, 999,
        ] {
            for field in 0..4 {
                // Edges of different sources, so that the labels can be any.
                let mut filter = filter(LARGE, random, n, 1, 4);
                let at = random.between(0, 3) as usize;
                match field {
                    0 => filter.colours[at] = number,
                    1 => filter.edges[at].label = number,
                    2 => filter.edges[3].source = number,
                    _ => filter.edges[at].target = number,
                }
                texts.push(text_of(&filter));
            }
        }
    }
    in_any_rooms(texts, random)
}

/// As many edges as there can be and some more, each of which is allowed alone.
pub fn too_many_edges(random: &mut Random) -> Vec<Case> {
    let mut texts = Vec::new();
    for base in shapes(LARGE, random) {
        if base.n() * base.m <= 300 {
            let mut full = drawable(filter(LARGE, random, base.n(), base.m, base.n() * base.m));
            fill_up(&mut full, random);
            texts.push(text_of(&full));
        }
    }
    in_any_rooms(texts, random)
}

/// Makes the edges more than n times m, without a label that was not there.
fn fill_up(filter: &mut Filter, random: &mut Random) {
    let too_many = filter.n() * filter.m + random.between(1, 3);
    while filter.e() < too_many {
        filter.edges.push(Edge {
            source: random.between(0, filter.n() - 1),
            label: random.between(0, filter.m - 1),
            target: random.between(0, filter.n() - 1),
        });
    }
}

/// The damages that a text can have: its labels are never too high for it.
const DAMAGES: [Damage; 5] = [
    Damage::Source,
    Damage::Target,
    Damage::Before,
    Damage::EqualSameTarget,
    Damage::EqualOtherTarget,
];

/// With no more edges than states, or a damage that takes away the highest label could leave too many of them.
fn damageable(random: &mut Random) -> Filter {
    let n = if random.once_in(8) {
        random.between(200, 255)
    } else {
        random.between(4, 12)
    };
    let m = random.between(2, 64);
    let e = random.between(4, n.min(20));
    drawable(filter(LARGE, random, n, m, e))
}

/// As in a file, but with ends that no file can hold too.
fn damage(filter: &mut Filter, damage: Damage, at: usize, random: &mut Random) {
    let n = filter.n();
    let top = random.pick(&[255, 256, 999]).max(n);
    let end = outside(random, n, top);
    match damage {
        Damage::Source => filter.edges[at].source = end,
        Damage::Target => filter.edges[at].target = end,
        _ => damage.apply(filter, at, Tops::of_files(LARGE), random),
    }
}

/// Each damage in the earliest, a middle and the last edge.
pub fn faulty_edge(random: &mut Random) -> Vec<Case> {
    let mut texts = Vec::new();
    for kind in DAMAGES {
        for nth in 0..3 {
            let mut filter = damageable(random);
            let at = kind.places(&filter)[nth];
            damage(&mut filter, kind, at, random);
            texts.push(text_of(&filter));
        }
    }
    in_any_rooms(texts, random)
}

/// Each damage in an edge and each in a later one, and each with an end outside in the same.
pub fn faulty_edges(random: &mut Random) -> Vec<Case> {
    let mut texts = Vec::new();
    for earlier in DAMAGES {
        for later in DAMAGES {
            let mut filter = damageable(random);
            let last = filter.edges.len() as u64 - 1;
            let at = random.between(earlier.earliest() as u64, last - 2);
            let behind = random.between(at + 2, last);
            damage(&mut filter, later, behind as usize, random);
            damage(&mut filter, earlier, at as usize, random);
            texts.push(text_of(&filter));
        }
        let mut filter = damageable(random);
        let at = random.pick(&earlier.places(&filter));
        damage(&mut filter, earlier, at, random);
        damage(&mut filter, Damage::Target, at, random);
        texts.push(text_of(&filter));
    }
    in_any_rooms(texts, random)
}

pub fn ways_out_in_texts(random: &mut Random) -> Vec<Case> {
    drawn_in_any_rooms(any_number(LARGE, random), random)
}

pub fn fault_in_each_state(random: &mut Random) -> Vec<Case> {
    drawn_in_any_rooms(in_each_state(LARGE, random), random)
}

fn drawn_in_any_rooms(filters: Vec<Filter>, random: &mut Random) -> Vec<Case> {
    let texts = filters.into_iter().map(|filter| text_of(&drawable(filter)));
    in_any_rooms(texts.collect(), random)
}

/// Each damage behind an edge that leads out of the fault, and before it.
pub fn ways_out_and_faulty_edges(random: &mut Random) -> Vec<Case> {
    let mut texts = Vec::new();
    for kind in DAMAGES {
        for behind in [true, false] {
            let mut filter = damageable(random);
            let (leads_out, at) = two_apart(&filter, kind, behind, random);
            lead_out(LARGE, &mut filter, &[leads_out], random);
            damage(&mut filter, kind, at, random);
            texts.push(text_of(&filter));
        }
    }
    in_any_rooms(texts, random)
}

/// In each room.
pub fn fault_kept(random: &mut Random) -> Vec<Case> {
    let mut cases = Vec::new();
    for filter in kept(LARGE, random).into_iter().map(drawable) {
        for room in Room::ALL {
            cases.push(in_room(text_of(&filter), room, random));
        }
    }
    cases
}

/// Pairs of refusals that one text and its room can deserve, the one that it gets first.
pub const PAIRS: &[(u8, u8)] = &[
    (15, 14),
    (15, 3),
    (15, 7),
    (15, 8),
    (15, 9),
    (15, 17),
    (15, 10),
    (14, 3),
    (14, 7),
    (14, 8),
    (14, 9),
    (14, 17),
    (14, 10),
    (3, 7),
    (3, 8),
    (3, 9),
    (3, 17),
    (3, 10),
    (7, 17),
    (7, 10),
    (8, 17),
    (8, 10),
    (9, 17),
    (9, 10),
    (17, 10),
];

/// One case for each of `PAIRS`.
pub fn two_faults(random: &mut Random) -> Vec<Case> {
    PAIRS.iter().map(|&pair| two_of(pair, random)).collect()
}

fn two_of(pair: (u8, u8), random: &mut Random) -> Case {
    let has = |number| pair.0 == number || pair.1 == number;
    let mut filter = damageable(random);
    if has(17) {
        lead_out(LARGE, &mut filter, &[0], random);
    }
    for kind in [Damage::Target, Damage::Before, Damage::EqualSameTarget] {
        if has(kind.number()) {
            // Not the first place, where it would touch the edge that leads out.
            let from = usize::from(has(17));
            let at = random.pick(&kind.places(&filter)[from..]);
            damage(&mut filter, kind, at, random);
        }
    }
    if has(3) {
        fill_up(&mut filter, random);
    }
    if has(14) {
        let at = random.between(0, filter.n() - 1) as usize;
        filter.colours[at] = outside(random, 64, 999);
    }
    let room = if has(10) {
        random.pick(&[Room::OneShort, Room::Empty])
    } else {
        random.pick(&[Room::Exact, Room::Longer])
    };
    let mut text = text_of(&filter);
    if has(15) {
        let at = random.between(0, text.len() as u64) as usize;
        text.insert(at, b'\t');
    }
    in_room(text, room, random)
}

/// The most that a file can hold, in each room; then spoilt somewhere, with another byte, and cut off; and more edges than
/// any file has, in a text that may be as long as a case can hold.
pub fn largest_texts(random: &mut Random) -> Vec<Case> {
    let full = drawable(largest(LARGE, random));
    let text = text_of(&full);
    let mut cases = Vec::new();
    for room in Room::ALL {
        cases.push(in_room(text.clone(), room, random));
    }
    let mut spoilt = full;
    match random.between(1, 6) {
        1 => {
            let at = random.between(1, 16_383) as usize;
            damage(&mut spoilt, Damage::EqualOtherTarget, at, random);
        }
        2 => damage(&mut spoilt, Damage::Before, 16_383, random),
        3 => damage(&mut spoilt, Damage::Target, 16_383, random),
        4 => spoilt.edges[16_383].label = 64,
        5 => lead_out(LARGE, &mut spoilt, &[16_383], random),
        _ => fill_up(&mut spoilt, random),
    }
    let mut edited = text.clone();
    let at = random.between(0, text.len() as u64 - 1) as usize;
    edited[at] = random.between(0, 255) as u8;
    let mut cut = text;
    cut.pop();
    let edges = "0 -> 0 [label=0];\n".repeat(22_220);
    let mut longest = framed(&format!("0 [label=0];\n{edges}"));
    if random.once_in(2) {
        longest.resize(LONGEST, b'\n');
    }
    let texts = vec![text_of(&spoilt), edited, cut, longest];
    cases.extend(in_any_rooms(texts, random));
    cases
}
