//! Document 02's pocket files by hand: their bits, and what both programs have to say to them.

#[path = "common/bits.rs"]
mod bits;
#[path = "common/by_hand.rs"]
mod by_hand;
mod common;

use bits::bytes;
use by_hand::{ridden, Ride};
use second::case::Case;
use second::file::{read, Filter};
use second::profile::{LARGE, POCKET};
use second::rides::*;

fn check(file: &[u8]) -> Case {
    Case::check(POCKET, file.to_vec())
}

fn unpack(file: &[u8], colours: usize, edges: usize) -> Case {
    Case::unpack(
        POCKET,
        file.to_vec(),
        vec![0xee; colours],
        vec![0xee; edges],
    )
}

fn pack(colours: &[u8], edges: &[u8], m: u64, start: u64, room: usize) -> Case {
    let (colours, edges) = (colours.to_vec(), edges.to_vec());
    Case::pack(POCKET, colours, edges, m, start, vec![0xee; room])
}

fn trace(file: &[u8], observations: &[u8], room: usize) -> Case {
    Case::trace(
        POCKET,
        file.to_vec(),
        observations.to_vec(),
        vec![0xee; room],
    )
}

fn reduce(file: &[u8], room: usize, entries: usize) -> Case {
    Case::reduce(
        POCKET,
        file.to_vec(),
        vec![0xee; room],
        vec![0xee; 2 * entries],
    )
}

fn to_large(file: &[u8], room: usize) -> Case {
    Case::to_large(file.to_vec(), vec![0xee; room])
}

fn to_pocket(file: &[u8], room: usize) -> Case {
    Case::to_pocket(file.to_vec(), vec![0xee; room])
}

fn unpacked(case: Case, counts: [u64; 4], colours: &[u8], edges: &[u8]) -> Ride {
    Ride {
        b: colours.to_vec(),
        c: edges.to_vec(),
        ..Ride::accepted(case, counts)
    }
}

fn traced(case: Case, shown: &[u8]) -> Ride {
    Ride {
        c: shown.to_vec(),
        ..Ride::accepted(case, [0; 4])
    }
}

fn stopped(case: Case, at: u64, shown: &[u8]) -> Ride {
    Ride {
        c: shown.to_vec(),
        ..Ride::accepted(case, [1, at, 0, 0])
    }
}

/// The list of new numbers has two bytes an entry.
fn reduced(case: Case, counts: [u64; 4], file: &[u8], list: &[u16]) -> Ride {
    Ride {
        b: file.to_vec(),
        c: list.iter().flat_map(|entry| entry.to_be_bytes()).collect(),
        ..Ride::accepted(case, counts)
    }
}

/// n = 1, m = 1, start 0, no edge and colour 0: 4 + 3 + 4 + 8 + 4 bits, and one that fills.
#[test]
fn the_smallest_file() {
    assert_eq!(bytes("0000 000 0000 00000000  0000  0"), C_POCKET);
    let c = C_POCKET;
    ridden(&[
        Ride::accepted(check(c), [1, 1, 0, 0]),
        unpacked(unpack(c, 1, 0), [1, 1, 0, 0], &[0], &[]),
        unpacked(unpack(c, 4, 7), [1, 1, 0, 0], &[0], &[]),
        Ride::refused(unpack(c, 0, 7), 12, 0),
        Ride::written(pack(&[0], &[], 1, 0, 3), c),
        Ride::written(pack(&[0], &[], 1, 0, 9), c),
        Ride::refused(pack(&[0], &[], 1, 0, 2), 10, 0),
        traced(trace(c, &[], 1), &[0]),
        stopped(trace(c, &[0], 4), 0, &[0]),
        Ride::refused(trace(c, &[0], 1), 12, 0),
        Ride::refused(trace(c, &[0, 1], 3), 13, 1),
        reduced(reduce(c, 3, 1), [1, 1, 0, 3], c, &[0]),
        reduced(reduce(c, 8, 4), [1, 1, 0, 3], c, &[0]),
        Ride::refused(reduce(c, 2, 1), 10, 0),
        Ride::refused(reduce(c, 3, 0), 11, 0),
        Ride::written(to_large(c, 6), C),
        Ride::refused(to_large(c, 5), 10, 0),
        Ride::written(to_pocket(C, 3), c),
        Ride::refused(to_pocket(C, 2), 10, 0),
    ]);
}

/// What rides A to H are for the large file.
#[test]
fn small_files_that_are_refused() {
    let start_1 = bytes("0000 000 0001 00000000  0000  0");
    let two_edges = bytes("0000 000 0000 00000010  0000  0");
    // It takes 19 + 4 + 11 bits, so five bytes.
    let one_edge = bytes("0000 000 0000 00000001  0000  0");
    let filled = bytes("0000 000 0000 00000000  0000  1");
    let most_edges = bytes("0000 111 0000 11111111  0000  0");
    // With as many edges as they have labels, of which none is there.
    let eight_labels = bytes("0000 111 0000 00001000  0000  0");
    let sixteen_states = bytes("1111 000 1111 00000000  0000  0");
    let rides: Vec<Ride> = [
        (&[][..], 1),
        (&[0; 2], 1),
        (&[0xff; 2], 1),
        (&[0; 4], 5),
        (&[0; 6], 5),
        (&start_1, 2),
        (&two_edges, 3),
        (&one_edge, 4),
        (&filled, 6),
        (&most_edges, 3),
        (&eight_labels, 4),
        (&sixteen_states, 4),
    ]
    .into_iter()
    .flat_map(|(file, number)| {
        // Whatever is lent besides.
        [
            check(file),
            unpack(file, 0, 0),
            trace(file, &[255], 0),
            reduce(file, 0, 0),
            to_large(file, 0),
            to_large(file, 50),
        ]
        .map(|case| Ride::refused(case, number, 0))
    })
    .collect();
    ridden(&rides);
}

#[test]
fn ride_k() {
    // 75 bits and five that fill.
    let k = bytes(
        "0010 001 0000 00000100  0000 0001 0001 \
         0000 000 0001  0000 001 0010  0001 000 0000  0010 001 0000  00000",
    );
    assert_eq!(k, K_POCKET);
    // 71 bits and one that fills.
    let k_reduced = bytes(
        "0001 001 0000 00000100  0000 0001 \
         0000 000 0001  0000 001 0001  0001 000 0000  0001 001 0000  0",
    );
    assert_eq!(k_reduced, K_REDUCED_POCKET);
    let (k, k_reduced) = (K_POCKET, K_REDUCED_POCKET);
    ridden(&[
        Ride::accepted(check(k), [3, 2, 0, 4]),
        Ride::accepted(check(k_reduced), [2, 2, 0, 4]),
        unpacked(unpack(k, 3, 12), [3, 2, 0, 4], K_COLOURS, K_EDGES),
        unpacked(unpack(k, 9, 20), [3, 2, 0, 4], K_COLOURS, K_EDGES),
        Ride::refused(unpack(k, 2, 12), 12, 0),
        Ride::refused(unpack(k, 3, 11), 12, 0),
        Ride::written(pack(K_COLOURS, K_EDGES, 2, 0, 10), k),
        Ride::written(
            pack(K_REDUCED_COLOURS, K_REDUCED_EDGES, 2, 0, 20),
            k_reduced,
        ),
        Ride::refused(pack(K_COLOURS, K_EDGES, 2, 0, 9), 10, 0),
        stopped(trace(k, K_OBSERVATIONS, 3), 1, &[0, 1]),
        traced(trace(k_reduced, K_OBSERVATIONS, 5), &[0, 1, 0]),
        Ride::refused(trace(k, R_OBSERVATIONS, 2), 12, 0),
        Ride::refused(trace(k, R_OBSERVATIONS, 3), 13, 1),
        Ride::refused(trace(k, &[8], 2), 13, 0),
        reduced(reduce(k, 10, 3), [2, 2, 0, 9], k_reduced, &[0, 1, 1]),
        reduced(reduce(k, 30, 8), [2, 2, 0, 9], k_reduced, &[0, 1, 1]),
        reduced(reduce(k_reduced, 9, 2), [2, 2, 0, 9], k_reduced, &[0, 1]),
        // It would fit, but the room goes by the file that is read.
        Ride::refused(reduce(k, 9, 3), 10, 0),
        Ride::refused(reduce(k, 10, 2), 11, 0),
        Ride::refused(reduce(k, 9, 2), 10, 0),
        Ride::written(to_large(k, 18), K),
        Ride::written(to_large(k, 25), K),
        Ride::refused(to_large(k, 17), 10, 0),
        Ride::written(to_large(k_reduced, 18), K_REDUCED),
        Ride::written(to_pocket(K, 10), k),
        Ride::written(to_pocket(K, 17), k),
        Ride::refused(to_pocket(K, 9), 10, 0),
        Ride::written(to_pocket(K_REDUCED, 9), k_reduced),
    ]);
}

/// K with another edge 2: in a pocket file its source is at bit 19 + 3 * 4 + 2 * 11 = 53, its label 4 and its target 7 bits
/// behind that; in a large file at 99, 107 and 113. In a list it is edge 2.
#[test]
fn places_of_faulty_edges() {
    let mut rides = Vec::new();
    for (edge, number, place, in_large) in [
        (edge(3, 0, 0), 7, 53, 99),
        (edge(1, 2, 0), 7, 57, 107),
        (edge(1, 0, 3), 7, 60, 113),
        (edge(3, 2, 0), 7, 53, 99),
        (edge(3, 0, 3), 7, 53, 99),
        (edge(1, 2, 3), 7, 57, 107),
        (edge(15, 7, 15), 7, 53, 99),
        (edge(0, 0, 0), 8, 53, 99),
        (edge(0, 1, 0), 9, 53, 99),
        (edge(0, 0, 3), 7, 60, 113),
        (edge(0, 2, 0), 7, 57, 107),
    ] {
        let mut filter = read(K).expect("K");
        filter.edges[2] = edge;
        let file = POCKET.write(&filter);
        for case in [
            check(&file),
            unpack(&file, 3, 12),
            trace(&file, &[0], 2),
            reduce(&file, 10, 3),
            to_large(&file, 18),
        ] {
            rides.push(Ride::refused(case, number, place));
        }
        let large = LARGE.write(&filter);
        rides.push(Ride::refused(to_pocket(&large, 10), number, in_large));
        let (_, edges) = filter.lists();
        rides.push(Ride::refused(pack(K_COLOURS, &edges, 2, 0, 10), number, 2));
    }
    ridden(&rides);
}

/// Ride Q's lists, and 14's limits: 16 states, 8 labels, colour 15.
#[test]
fn what_pack_refuses() {
    let k = |edges, start| pack(K_COLOURS, edges, 2, start, 10);
    let states = |n: usize| pack(&vec![15; n], &[], 8, 0, 20);
    // 19 + 16 * 4 bits; n - 1 and m - 1 are all ones, as is each colour.
    let full = bytes(&format!(
        "1111 111 0000 00000000 {} 00000",
        "1111".repeat(16)
    ));
    ridden(&[
        Ride::refused(k(Q_LABEL_OUTSIDE, 0), 7, 0),
        Ride::refused(k(Q_DESCENDING, 0), 8, 1),
        Ride::refused(k(Q_REPEATED, 0), 9, 1),
        Ride::refused(k(K_EDGES, 3), 2, 0),
        Ride::refused(k(&[0, 0, 1].repeat(7), 0), 3, 0),
        Ride::refused(k(&K_EDGES[..11], 0), 14, 0),
        Ride::written(states(16), &full),
        Ride::refused(states(0), 14, 0),
        Ride::refused(states(17), 14, 0),
        Ride::refused(states(256), 14, 0),
        Ride::refused(pack(&[0], &[], 0, 0, 20), 14, 0),
        Ride::refused(pack(&[0], &[], 9, 0, 20), 14, 0),
        Ride::refused(pack(&[0], &[], 64, 0, 20), 14, 0),
        Ride::refused(pack(&[16], &[], 1, 0, 20), 14, 0),
        Ride::refused(pack(&[0, 63], &[], 1, 0, 20), 14, 0),
        Ride::refused(pack(&[0, 15, 255], &[], 1, 0, 20), 14, 0),
    ]);
}

/// An edge for each of 16 states and 8 labels: 19 + 16 * 4 + 128 * 11 bits are 187 bytes, of which five bits fill. A large file
/// of it takes 37 + 16 * 6 + 128 * 22 bits, so 369 bytes.
#[test]
fn the_largest_file() {
    let mut filter = Filter {
        colours: vec![15; 16],
        m: 8,
        start: 15,
        edges: Vec::new(),
    };
    for source in 0..16 {
        let edges = (0..8).map(|label| edge(source, label, 15 - source));
        filter.edges.extend(edges);
    }
    let (file, large) = (POCKET.write(&filter), LARGE.write(&filter));
    assert_eq!((file.len(), large.len()), (187, 369));
    let longer = [&file[..], &[0]].concat();
    // The last edge repeats the one before it: bit 19 + 16 * 4 + 127 * 11, in byte 185.
    let mut repeated = filter.clone();
    repeated.edges[127].label = 6;
    let repeated = POCKET.write(&repeated);
    // One edge more than there can be, which the header can say.
    let mut too_many = filter.clone();
    too_many.edges.push(edge(15, 7, 0));
    let too_many = POCKET.write(&too_many);
    // The start, 15, and 0 lead to each other and to no other state. They look alike, so they become one.
    let one = Filter {
        colours: vec![15],
        m: 8,
        start: 0,
        edges: (0..8).map(|label| edge(0, label, 0)).collect(),
    };
    let one = POCKET.write(&one);
    assert_eq!(one.len(), 14);
    let mut list = [65_535; 16];
    list[0] = 0;
    list[15] = 0;
    let mut rides = vec![
        Ride::accepted(check(&file), [16, 8, 15, 128]),
        Ride::refused(check(&longer), 5, 0),
        Ride::refused(check(&file[..186]), 4, 0),
        Ride::refused(check(&repeated), 9, 1480),
        Ride::refused(to_large(&repeated, 369), 9, 1480),
        Ride::refused(check(&too_many), 3, 0),
        traced(trace(&file, &[7, 0], 3), &[15, 15, 15]),
        Ride::refused(trace(&file, &[7, 8], 3), 13, 1),
        Ride::refused(unpack(&file, 16, 383), 12, 0),
        Ride::refused(unpack(&file, 15, 384), 12, 0),
        Ride::refused(reduce(&file, 186, 16), 10, 0),
        Ride::refused(reduce(&file, 187, 15), 11, 0),
        Ride::refused(to_large(&file, 368), 10, 0),
        Ride::refused(to_pocket(&large, 186), 10, 0),
        reduced(reduce(&file, 187, 16), [1, 1, 0, 14], &one, &list),
    ];
    for room in [369, 400] {
        rides.push(Ride::written(to_large(&file, room), &large));
        rides.push(Ride::written(to_pocket(&large, room), &file));
    }
    ridden(&rides);
}

/// Of a large filter 16 is told after the file's own refusals and before the room's, at place 0.
#[test]
fn what_is_too_large_for_a_pocket_file() {
    let filter = |n: usize, m: u64, state: usize, colour: u64| {
        let mut colours = vec![15; n];
        colours[state] = colour;
        LARGE.write(&Filter {
            colours,
            m,
            start: 0,
            edges: vec![edge(0, m - 1, 0)],
        })
    };
    let fits = filter(16, 8, 0, 15);
    // 19 + 16 * 4 + 11 bits.
    let pocket = bytes(&format!(
        "1111 111 0000 00000001 {} 0000 111 0000 00",
        "1111".repeat(16)
    ));
    let mut rides = vec![
        Ride::written(to_pocket(&fits, 12), &pocket),
        Ride::refused(to_pocket(&fits, 11), 10, 0),
    ];
    for too_large in [
        filter(17, 8, 0, 15),
        filter(16, 9, 0, 15),
        filter(16, 8, 0, 16),
        filter(16, 8, 8, 16),
        filter(16, 8, 15, 16),
        filter(16, 8, 15, 63),
        filter(17, 9, 16, 16),
        filter(256, 64, 255, 63),
    ] {
        for room in [0, 11, 12, 500] {
            rides.push(Ride::refused(to_pocket(&too_large, room), 16, 0));
        }
        let longer = [&too_large[..], &[0]].concat();
        let cut = &too_large[..too_large.len() - 1];
        rides.push(Ride::refused(to_pocket(&longer, 0), 5, 0));
        rides.push(Ride::refused(to_pocket(cut, 0), 4, 0));
    }
    ridden(&rides);
}
