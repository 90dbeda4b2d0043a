//! Document 02's fault by hand: which edges leave it, what both programs have to say to them, and in what order.

#[path = "common/bits.rs"]
mod bits;
#[path = "common/by_hand.rs"]
mod by_hand;
mod common;

use bits::bytes;
use by_hand::{ridden, Ride};
use second::case::{Call, Case};
use second::dot;
use second::file::{read, Filter};
use second::profile::{LARGE, POCKET};
use second::program;
use second::rides::*;

fn found(length: usize) -> Vec<u8> {
    vec![0xee; length]
}

fn check(file: &[u8]) -> Case {
    Case::check(LARGE, file.to_vec())
}

fn unpack(file: &[u8], colours: usize, edges: usize) -> Case {
    Case::unpack(LARGE, file.to_vec(), found(colours), found(edges))
}

fn trace(file: &[u8], observations: &[u8], room: usize) -> Case {
    Case::trace(LARGE, file.to_vec(), observations.to_vec(), found(room))
}

fn reduce(file: &[u8], room: usize, entries: usize) -> Case {
    Case::reduce(LARGE, file.to_vec(), found(room), found(2 * entries))
}

fn to_dot(file: &[u8], room: usize) -> Case {
    Case::to_dot(file.to_vec(), found(room))
}

fn to_pocket(file: &[u8], room: usize) -> Case {
    Case::to_pocket(file.to_vec(), found(room))
}

fn pack(colours: &[u8], edges: &[u8], m: u64, start: u64, room: usize) -> Case {
    Case::pack(
        LARGE,
        colours.to_vec(),
        edges.to_vec(),
        m,
        start,
        found(room),
    )
}

fn from_dot(text: &str, room: usize) -> Case {
    Case::from_dot(text.as_bytes().to_vec(), found(room))
}

/// Of three states, m = 2 and start 0.
fn filter(colours: [u64; 3], edges: &[(u64, u64, u64)]) -> Filter {
    Filter {
        m: 2,
        ..filter_of(&colours, edges)
    }
}

const OF_K: [(u64, u64, u64); 4] = [(0, 0, 1), (0, 1, 2), (1, 0, 0), (2, 1, 0)];

/// K's edges, with another one at an index.
fn k_but(index: usize, edge: (u64, u64, u64)) -> [(u64, u64, u64); 4] {
    let mut edges = OF_K;
    edges[index] = edge;
    edges
}

fn text(filter: &Filter) -> String {
    dot::write(&filter.colours, &filter.edges)
}

/// A filter that every call refuses with this number: a file of it at the bit, lists and a text of it at the edge's index. Nothing
/// else is at fault, and then all that can be tested behind it.
fn refused(filter: &Filter, number: u8, bit: u64, index: u64) -> Vec<Ride> {
    let file = &LARGE.write(filter);
    let other_start = &LARGE.write(&Filter {
        start: 1,
        ..filter.clone()
    });
    let unused_label = &LARGE.write(&Filter {
        m: 64,
        ..filter.clone()
    });
    let (colours, edges) = filter.lists();
    let text = text(filter);
    let mut rides = Vec::new();
    for case in [
        check(file),
        unpack(file, 3, 12),
        unpack(file, 2, 12),
        unpack(file, 3, 2),
        unpack(file, 0, 0),
        trace(file, &[0, 0], 3),
        trace(file, &[], 1),
        trace(file, &[0, 0], 2),
        trace(file, &[0, 64], 3),
        trace(file, &[64, 64], 0),
        reduce(file, file.len(), 3),
        reduce(file, file.len() - 1, 3),
        reduce(file, file.len(), 2),
        reduce(file, 0, 0),
        to_dot(file, text.len()),
        to_dot(file, text.len() - 1),
        to_dot(file, 0),
        to_dot(other_start, text.len()),
        to_pocket(file, 20),
        to_pocket(file, 0),
    ] {
        rides.push(Ride::refused(case, number, bit));
    }
    if number == 17 {
        rides.push(Ride::refused(to_dot(unused_label, text.len()), number, bit));
    }
    for case in [
        pack(&colours, &edges, filter.m, 0, file.len()),
        pack(&colours, &edges, filter.m, 0, file.len() - 1),
        pack(&colours, &edges, filter.m, 2, 0),
        from_dot(&text, file.len()),
        from_dot(&text, 0),
    ] {
        rides.push(Ride::refused(case, number, index));
    }
    rides
}

/// 37 + 3 * 6 + 4 * 22 bits, and one that fills.
#[test]
fn k_with_a_fault() {
    let header = "00000010 000001 00000000 000000000000100";
    let before = "00000000 000000 00000001  00000000 000001 00000010";
    let behind = "00000010 000001 00000000";
    for (state_1, edge_2, file) in [
        ("000001", "00000001 000000 00000000", K),
        ("111111", "00000001 000000 00000000", K_LEFT),
        ("111111", "00000001 000000 00000001", K_KEPT),
    ] {
        let colours = format!("000000 {state_1} 000001");
        let bits = format!("{header} {colours} {before} {edge_2} {behind} 0");
        assert_eq!(bytes(&bits), file);
    }
    let left = filter([0, 63, 1], &OF_K);
    assert_eq!(LARGE.write(&left), K_LEFT);
    ridden(&refused(&left, 17, 99, 2));
    for observations in [&[][..], &[0, 0], &[2], &[0; 65_536]] {
        assert_eq!(program::trace(K_LEFT, observations), "refused 17 99\n");
    }
    assert_eq!(program::reduce(K_LEFT), "refused 17 99\n");
    assert_eq!(program::shrink(K_LEFT), A);
}

/// K's edges begin at 55, 77, 99 and 121, and lead from 0 to 1 and 2, and from 1 and 2 to 0.
#[test]
fn the_first_edge_that_leaves_is_named() {
    let mut rides = Vec::new();
    for (colours, bit, index) in [
        ([63, 1, 1], 55, 0),
        ([63, 1, 63], 55, 0),
        ([63, 0, 0], 55, 0),
        ([63, 62, 62], 55, 0),
        ([63, 63, 1], 77, 1),
        ([63, 63, 62], 77, 1),
        ([0, 63, 63], 99, 2),
        ([62, 63, 0], 99, 2),
        ([0, 1, 63], 121, 3),
        ([62, 62, 63], 121, 3),
    ] {
        rides.extend(refused(&filter(colours, &OF_K), 17, bit, index));
    }
    ridden(&rides);
}

/// P's start leads to itself alone. State 1, which nothing leads to, leaves the fault: for state 2, which nothing else leads to
/// either, and for the start. Edge 1 begins at 37 + 3 * 6 + 22.
#[test]
fn a_leftover_that_leaves_is_named() {
    for target in [2, 0] {
        let p = filter_of(&[0, 63, 1], &[(0, 0, 0), (1, 0, target)]);
        ridden(&refused(&p, 17, 77, 1));
    }
}

/// Edge 2 leaves, and another is at fault behind it, before it, or is edge 2 itself: that one is named, by the field or the edge.
#[test]
fn faulty_edges_come_first() {
    let mut rides = Vec::new();
    for (edges, number, bit, index) in [
        (k_but(3, (3, 1, 0)), 7, 121, 3),
        (k_but(3, (2, 2, 0)), 7, 129, 3),
        (k_but(3, (2, 1, 3)), 7, 135, 3),
        (k_but(3, (0, 0, 0)), 8, 121, 3),
        (k_but(3, (1, 0, 0)), 9, 121, 3),
        (k_but(3, (1, 0, 1)), 9, 121, 3),
        (k_but(0, (0, 0, 3)), 7, 69, 0),
        (k_but(0, (0, 2, 1)), 7, 63, 0),
        (k_but(1, (3, 1, 0)), 7, 77, 1),
        (k_but(0, (0, 1, 1)), 9, 77, 1),
        (k_but(1, (0, 0, 1)), 9, 77, 1),
        (k_but(0, (1, 0, 0)), 8, 77, 1),
        (k_but(2, (1, 2, 0)), 7, 107, 2),
        (k_but(2, (1, 0, 3)), 7, 113, 2),
        (k_but(1, (1, 1, 1)), 8, 99, 2),
        (k_but(1, (1, 0, 1)), 9, 99, 2),
    ] {
        let mut of_all = refused(&filter([0, 63, 1], &edges), number, bit, index);
        if edges.iter().any(|&(_, label, _)| label > 1) {
            // A text has all the labels that it needs.
            of_all.retain(|ride| ride.case.call != Call::FromDot);
        }
        rides.extend(of_all);
    }
    ridden(&rides);
}

/// What is tested before the edges.
#[test]
fn all_else_comes_first() {
    let left = filter([0, 63, 1], &OF_K);
    let (colours, edges) = left.lists();
    let spoilt = |at: usize, byte: u8| {
        let mut file = K_LEFT.to_vec();
        file[at] = byte;
        file
    };
    let longer = [K_LEFT, &[0]].concat();
    let mut rides = Vec::new();
    for (file, number) in [
        (&K_LEFT[..4], 1),
        // The start is 3.
        (&spoilt(2, 0x0c), 2),
        // m is 1, for four edges of three states.
        (&spoilt(1, 0x00), 3),
        (&K_LEFT[..17], 4),
        (&longer, 5),
        (&spoilt(17, 0x01), 6),
    ] {
        for case in [
            check(file),
            unpack(file, 0, 0),
            trace(file, &[64], 0),
            reduce(file, 0, 0),
            to_dot(file, 0),
            to_pocket(file, 0),
        ] {
            rides.push(Ride::refused(case, number, 0));
        }
    }
    let text = text(&left);
    let without_end = &text[..text.len() - 1];
    let too_high = text.replace("2 [label=1]", "2 [label=64]");
    let one_label = "digraph {\n0 [label=63];\n1 [label=0];\n0 -> 1 [label=0];\n1 -> 0 [label=0];\n1 -> 1 [label=0];\n}\n";
    rides.extend([
        Ride::refused(pack(&[0, 63, 64], &edges, 2, 0, 18), 14, 0),
        Ride::refused(pack(&colours, &edges[..11], 2, 0, 18), 14, 0),
        Ride::refused(pack(&colours, &edges, 65, 0, 18), 14, 0),
        Ride::refused(pack(&colours, &edges, 2, 3, 18), 2, 0),
        Ride::refused(pack(&colours, &edges, 1, 0, 18), 3, 0),
        Ride::refused(from_dot(without_end, 18), 15, without_end.len() as u64),
        Ride::refused(from_dot(&too_high, 18), 14, 0),
        Ride::refused(from_dot(one_label, 18), 3, 0),
    ]);
    ridden(&rides);
}

/// What every call makes of a filter that has faults and is accepted: with these shown on a ride, and this reduced filter.
struct Kept {
    filter: Filter,
    ride: (Vec<u8>, Vec<u8>),
    reduced: Filter,
    list: Vec<u16>,
}

impl Kept {
    fn rides(&self) -> Vec<Ride> {
        let filter = &self.filter;
        let (n, e) = (filter.colours.len(), filter.edges.len());
        let file = &LARGE.write(filter);
        let text = text(filter);
        let (colours, edges) = filter.lists();
        let (observations, shown) = &self.ride;
        let reduced = LARGE.write(&self.reduced);
        let colours_left = self.reduced.colours.len() as u64;
        let sizes = [n as u64, filter.m, filter.start, e as u64];
        // No class is split, so that there is one state a colour.
        let reduction = [colours_left, colours_left, 0, reduced.len() as u64];
        vec![
            Ride::accepted(check(file), sizes),
            Ride {
                b: colours.clone(),
                c: edges.clone(),
                ..Ride::accepted(unpack(file, n + 1, 3 * e + 1), sizes)
            },
            Ride {
                c: shown.clone(),
                ..Ride::accepted(trace(file, observations, shown.len()), [0; 4])
            },
            Ride {
                b: reduced,
                c: self
                    .list
                    .iter()
                    .flat_map(|entry| entry.to_be_bytes())
                    .collect(),
                ..Ride::accepted(reduce(file, file.len(), n), reduction)
            },
            Ride::written(
                pack(&colours, &edges, filter.m, filter.start, file.len()),
                file,
            ),
            Ride::written(to_dot(file, text.len()), text.as_bytes()),
            Ride::written(from_dot(&text, file.len()), file),
            Ride::refused(to_pocket(file, 20), 16, 0),
            Ride::refused(unpack(file, n, 3 * e - 1), 12, 0),
            Ride::refused(trace(file, &[64], 2), 13, 0),
            Ride::refused(reduce(file, file.len() - 1, n), 10, 0),
            Ride::refused(reduce(file, file.len(), n - 1), 11, 0),
            Ride::refused(to_dot(file, text.len() - 1), 10, 0),
        ]
    }
}

/// Edges to the fault and within it: K with an edge 2 that stays, with all of its states, and two faults that lead to each other.
#[test]
fn a_fault_is_led_to_and_kept() {
    let stays = filter([0, 63, 1], &k_but(2, (1, 0, 1)));
    assert_eq!(LARGE.write(&stays), K_KEPT);
    let everywhere = filter([63; 3], &OF_K);
    let to_each_other = [(0, 0, 1), (0, 1, 2), (1, 0, 2), (2, 1, 1)];
    let two = filter([0, 63, 63], &to_each_other);
    for kept in [
        Kept {
            ride: (vec![1, 1, 0, 0, 0], vec![0, 1, 0, 63, 63, 63]),
            reduced: stays.clone(),
            list: vec![0, 1, 2],
            filter: stays,
        },
        Kept {
            ride: (vec![0, 0, 1, 1], vec![63; 5]),
            reduced: filter_of(&[63], &[(0, 0, 0), (0, 1, 0)]),
            list: vec![0, 0, 0],
            filter: everywhere,
        },
        Kept {
            ride: (vec![0, 0, 1, 0], vec![0, 63, 63, 63, 63]),
            reduced: filter_of(&[0, 63], &[(0, 0, 1), (0, 1, 1), (1, 0, 1), (1, 1, 1)]),
            list: vec![0, 1, 1],
            filter: two,
        },
    ] {
        ridden(&kept.rides());
    }
}

/// Only 63 is the fault: K's states leave 62 and every colour below it, and may lead to 63 from any, which then has no edge.
#[test]
fn any_other_colour_is_left() {
    let mut rides = Vec::new();
    for colour in 0..=62 {
        for colours in [[colour, 0, 1], [1, colour, colour], [0, 1, colour]] {
            let file = LARGE.write(&filter(colours, &OF_K));
            rides.push(Ride::accepted(check(&file), [3, 2, 0, 4]));
        }
        let into = filter([colour, 63, 63], &OF_K[..2]);
        rides.push(Ride::accepted(check(&LARGE.write(&into)), [3, 2, 0, 2]));
        let back = filter([colour, 63, 63], &OF_K[..3]);
        rides.push(Ride::refused(check(&LARGE.write(&back)), 17, 99));
    }
    ridden(&rides);
}

/// All of 256 states and 64 labels have an edge to state 255, the only fault; then the last edge leads to 254. It begins at
/// 37 + 256 * 6 + 16,383 * 22.
#[test]
fn the_last_edge_of_all() {
    let mut filter = Filter {
        colours: vec![0; 256],
        m: 64,
        start: 0,
        edges: Vec::new(),
    };
    for source in 0..256 {
        let edges = (0..64).map(|label| edge(source, label, 255));
        filter.edges.extend(edges);
    }
    filter.colours[255] = 63;
    let kept = LARGE.write(&filter);
    assert_eq!(kept.len(), 45_253);
    filter.edges[16_383].target = 254;
    let left = LARGE.write(&filter);
    let (colours, edges) = filter.lists();
    ridden(&[
        Ride::accepted(check(&kept), [256, 64, 0, 16_384]),
        Ride::refused(check(&left), 17, 361_999),
        Ride::refused(trace(&left, &[63], 2), 17, 361_999),
        Ride::refused(reduce(&left, 45_253, 256), 17, 361_999),
        Ride::refused(to_pocket(&left, 0), 17, 361_999),
        Ride::refused(to_dot(&left, 0), 17, 361_999),
        Ride::refused(pack(&colours, &edges, 64, 0, 45_253), 17, 16_383),
        Ride::refused(from_dot(&text(&filter), 45_253), 17, 16_383),
    ]);
}

/// A pocket file's highest colour, 15, is no fault: K with 15 for state 1, which edge 2 leaves. 19 + 3 * 4 + 4 * 11 bits, and five
/// that fill.
#[test]
fn no_pocket_colour_is_a_fault() {
    let file = bytes(
        "0010 001 0000 00000100  0000 1111 0001 \
         0000 000 0001  0000 001 0010  0001 000 0000  0010 001 0000  00000",
    );
    let large = LARGE.write(&Filter {
        colours: vec![0, 15, 1],
        ..read(K).expect("accepted")
    });
    let colours = [0, 15, 1];
    let given = || file.clone();
    ridden(&[
        Ride::accepted(Case::check(POCKET, given()), [3, 2, 0, 4]),
        Ride {
            b: colours.to_vec(),
            c: K_EDGES.to_vec(),
            ..Ride::accepted(
                Case::unpack(POCKET, given(), found(3), found(12)),
                [3, 2, 0, 4],
            )
        },
        Ride::written(
            Case::pack(POCKET, colours.to_vec(), K_EDGES.to_vec(), 2, 0, found(10)),
            &file,
        ),
        Ride {
            c: vec![0, 15, 0],
            ..Ride::accepted(Case::trace(POCKET, given(), vec![0, 0], found(3)), [0; 4])
        },
        Ride {
            b: given(),
            c: vec![0, 0, 0, 1, 0, 2],
            ..Ride::accepted(
                Case::reduce(POCKET, given(), found(10), found(6)),
                [3, 3, 0, 10],
            )
        },
        Ride::written(Case::to_large(given(), found(18)), &large),
        Ride::written(to_pocket(&large, 10), &file),
    ]);
}
