//! The second program against what documents 01 and 02 say in numbers.

use second::call::{check, Answer};
use second::case::Case;
use second::file::{read, write, Filter};
use second::profile::LARGE;
use second::program;
use second::rides::*;

fn accepted(counts: [u64; 4]) -> Answer {
    Answer {
        number: 0,
        place: 0,
        counts,
    }
}

fn refused(number: u8, place: u64) -> Answer {
    Answer {
        number,
        place,
        counts: [0; 4],
    }
}

#[test]
fn rides_a_to_h() {
    assert_eq!(check(A), refused(1, 0));
    assert_eq!(check(B), refused(4, 0));
    assert_eq!(check(C), accepted([1, 1, 0, 0]));
    assert_eq!(check(D), refused(5, 0));
    assert_eq!(check(E), refused(2, 0));
    assert_eq!(check(F), refused(3, 0));
    assert_eq!(check(G), refused(4, 0));
    assert_eq!(LARGE.length(1, 1), 9);
    assert_eq!(check(H), refused(6, 0));
}

#[test]
fn ride_k_is_read_as_it_says() {
    let k = Filter {
        colours: vec![0, 1, 1],
        m: 2,
        start: 0,
        edges: vec![edge(0, 0, 1), edge(0, 1, 2), edge(1, 0, 0), edge(2, 1, 0)],
    };
    let reduced = Filter {
        colours: vec![0, 1],
        m: 2,
        start: 0,
        edges: vec![edge(0, 0, 1), edge(0, 1, 1), edge(1, 0, 0), edge(1, 1, 0)],
    };
    assert_eq!(check(K), accepted([3, 2, 0, 4]));
    assert_eq!(check(K_REDUCED), accepted([2, 2, 0, 4]));
    assert_eq!(write(&k), K);
    assert_eq!(write(&reduced), K_REDUCED);
    assert_eq!(read(K), Ok(k));
    assert_eq!(read(K_REDUCED), Ok(reduced));
}

#[test]
fn ride_k_there_and_back() {
    for (file, colours, edges) in [
        (K, K_COLOURS, K_EDGES),
        (K_REDUCED, K_REDUCED_COLOURS, K_REDUCED_EDGES),
    ] {
        let n = colours.len();
        let mut colour_room = [0xee; 9];
        let mut edge_room = [0xee; 20];
        let counts = [n as u64, 2, 0, 4];
        assert_eq!(
            LARGE.unpack(file, &mut colour_room, &mut edge_room),
            accepted(counts)
        );
        assert_eq!(&colour_room[..n], colours);
        assert!(colour_room[n..].iter().all(|&byte| byte == 0xee));
        assert_eq!(&edge_room[..12], edges);
        assert!(edge_room[12..].iter().all(|&byte| byte == 0xee));

        let mut room = [0xee; 25];
        assert_eq!(
            LARGE.pack(colours, edges, 2, 0, &mut room),
            accepted([18, 0, 0, 0])
        );
        assert_eq!(&room[..18], file);
        assert!(room[18..].iter().all(|&byte| byte == 0xee));
    }
}

#[test]
fn ride_k_in_short_rooms() {
    for (colours, edges, answer) in [
        (2, 12, refused(12, 0)),
        (3, 11, refused(12, 0)),
        (0, 0, refused(12, 0)),
        (3, 12, accepted([3, 2, 0, 4])),
    ] {
        let mut colour_room = vec![0xee; colours];
        let mut edge_room = vec![0xee; edges];
        assert_eq!(LARGE.unpack(K, &mut colour_room, &mut edge_room), answer);
        if answer.number != 0 {
            assert_eq!(colour_room, vec![0xee; colours]);
            assert_eq!(edge_room, vec![0xee; edges]);
        }
    }
    for (length, answer) in [(17, refused(10, 0)), (18, accepted([18, 0, 0, 0]))] {
        let mut room = vec![0xee; length];
        assert_eq!(LARGE.pack(K_COLOURS, K_EDGES, 2, 0, &mut room), answer);
        assert_eq!(room == vec![0xee; length], answer.number != 0);
    }
}

#[test]
fn ride_q() {
    let many = [0; 257];
    for (colours, edges, start, answer) in [
        (K_COLOURS, Q_LABEL_OUTSIDE, 0, refused(7, 0)),
        (K_COLOURS, Q_DESCENDING, 0, refused(8, 1)),
        (K_COLOURS, Q_REPEATED, 0, refused(9, 1)),
        (K_COLOURS, K_EDGES, 3, refused(2, 0)),
        (&[0, 64, 1], K_EDGES, 0, refused(14, 0)),
        (&many, K_EDGES, 0, refused(14, 0)),
    ] {
        let mut room = [0xee; 300];
        assert_eq!(LARGE.pack(colours, edges, 2, start, &mut room), answer);
        assert_eq!(room, [0xee; 300]);
    }
}

#[test]
fn the_largest_file() {
    assert_eq!(LARGE.length(256, 16_384), 45_253);
    let mut edges = Vec::new();
    for source in 0..=255 {
        for label in 0..64 {
            edges.extend([source, label, 255 - source]);
        }
    }
    let mut room = vec![0xee; 45_254];
    let answer = LARGE.pack(&[63; 256], &edges, 64, 255, &mut room);
    assert_eq!(answer, accepted([45_253, 0, 0, 0]));
    assert_eq!(room[45_253], 0xee);
    assert_eq!(check(&room), refused(5, 0));
    assert_eq!(check(&room[..45_252]), refused(4, 0));
    let mut colour_room = vec![0xee; 256];
    let mut edge_room = vec![0xee; 49_152];
    let answer = LARGE.unpack(&room[..45_253], &mut colour_room, &mut edge_room);
    assert_eq!(answer, accepted([256, 64, 255, 16_384]));
    assert_eq!(colour_room, vec![63; 256]);
    assert_eq!(edge_room, edges);
}

/// Traces with a room of so many bytes, and looks at each of them afterwards.
fn traced_in(file: &[u8], observations: &[u8], room: usize, answer: Answer, shown: &[u8]) {
    let mut colours = vec![0xee; room];
    assert_eq!(LARGE.trace(file, observations, &mut colours), answer);
    assert_eq!(&colours[..shown.len()], shown);
    assert!(colours[shown.len()..].iter().all(|&byte| byte == 0xee));
}

fn traced() -> Answer {
    accepted([0, 0, 0, 0])
}

fn stopped(i: u64) -> Answer {
    accepted([1, i, 0, 0])
}

#[test]
fn ride_k_traced() {
    for room in [3, 4, 100] {
        traced_in(K, &[0, 1], room, stopped(1), &[0, 1]);
        traced_in(K_REDUCED, &[0, 1], room, traced(), &[0, 1, 0]);
    }
    assert_eq!(program::trace(K, &[0, 1]), "0\n1\nstopped 1\n");
    assert_eq!(program::trace(K_REDUCED, &[0, 1]), "0\n1\n0\ntraced\n");
}

#[test]
fn ride_r_traced() {
    traced_in(K, &[0, 2], 2, refused(12, 0), &[]);
    traced_in(K, &[0, 2], 3, refused(13, 1), &[]);
    assert_eq!(program::trace(K, &[0, 2]), "refused 13 1\n");
}

#[test]
fn other_rides_through_k() {
    // There and back by 0, there and back by 1.
    traced_in(K, &[0, 0, 1, 1], 7, traced(), &[0, 1, 0, 1, 0]);
    traced_in(K, &[1, 0], 3, stopped(1), &[0, 1]);
    traced_in(K, &[0, 0, 1, 0], 5, stopped(3), &[0, 1, 0, 1]);
    // Room is asked for all observations, also where the ride stops before.
    traced_in(K, &[0, 1, 0, 0], 5, stopped(1), &[0, 1]);
    traced_in(K, &[0, 1, 0, 0], 4, refused(12, 0), &[]);
    // All labels are tested, also those behind the stop, and the first one outside is named.
    traced_in(K, &[0, 1, 0, 2], 5, refused(13, 3), &[]);
    traced_in(K, &[255, 2], 3, refused(13, 0), &[]);
}

#[test]
fn without_observations() {
    traced_in(K, &[], 1, traced(), &[0]);
    traced_in(K, &[], 5, traced(), &[0]);
    traced_in(K, &[], 0, refused(12, 0), &[]);
    assert_eq!(program::trace(K, &[]), "0\ntraced\n");
}

#[test]
fn without_edges() {
    traced_in(C, &[0], 2, stopped(0), &[0]);
    traced_in(C, &[1], 2, refused(13, 0), &[]);
    assert_eq!(program::trace(C, &[0]), "0\nstopped 0\n");
}

#[test]
fn a_refused_file_ends_the_trace() {
    for (file, number) in [(A, 1), (B, 4), (D, 5), (E, 2), (F, 3), (G, 4), (H, 6)] {
        // Though there is no room, and a label is outside.
        traced_in(file, &[255], 0, refused(number, 0), &[]);
        traced_in(file, &[0], 2, refused(number, 0), &[]);
        let text = format!("refused {number} 0\n");
        assert_eq!(program::trace(file, &[255]), text);
    }
    let second_edge_repeats = write(&Filter {
        colours: vec![0, 1, 1],
        m: 2,
        start: 0,
        edges: vec![edge(0, 0, 1), edge(0, 0, 2)],
    });
    // 37 + 3 * 6 + 22
    traced_in(&second_edge_repeats, &[0], 2, refused(9, 77), &[]);
    assert_eq!(program::trace(&second_edge_repeats, &[0]), "refused 9 77\n");
}

/// K with another edge 2: its source is at bit 37 + 3 * 6 + 2 * 22 = 99, its label 8 and its target 14 bits behind that.
#[test]
fn the_place_in_a_file_is_the_faulty_field_s_first_bit() {
    for (edge, number, place) in [
        (edge(3, 0, 0), 7, 99),
        (edge(1, 2, 0), 7, 107),
        (edge(1, 0, 3), 7, 113),
        (edge(3, 2, 0), 7, 99),
        (edge(3, 0, 3), 7, 99),
        (edge(1, 2, 3), 7, 107),
        (edge(255, 63, 255), 7, 99),
        (edge(0, 0, 0), 8, 99),
        (edge(0, 1, 0), 9, 99),
        (edge(0, 0, 3), 7, 113),
        (edge(0, 2, 0), 7, 107),
    ] {
        let mut filter = read(K).expect("K");
        filter.edges[2] = edge;
        let file = write(&filter);
        assert_eq!(check(&file), refused(number, place), "{edge:?}");
        let text = format!("refused {number} {place}\n");
        assert_eq!(program::reduce(&file), text);
        assert_eq!(program::trace(&file, &[0]), text);
        assert_eq!(program::shrink(&file), A);
    }
}

/// The last edge of the largest file repeats the one before it: 37 + 256 * 6 + 16,383 * 22, in byte 45,249 of 45,253.
#[test]
fn the_last_place_of_all() {
    let mut edges = Vec::new();
    for source in 0..256 {
        edges.extend((0..64).map(|label| edge(source, label, 0)));
    }
    edges[16_383] = edge(255, 62, 0);
    let file = write(&Filter {
        colours: vec![0; 256],
        m: 64,
        start: 0,
        edges,
    });
    assert_eq!(check(&file), refused(9, 361_999));
    assert_eq!(check(&file).place / 8, file.len() as u64 - 4);
}

#[test]
fn as_many_observations_as_a_ride_takes() {
    let mut shown = vec![0];
    let mut observations = Vec::new();
    for i in 1..=65_535 {
        observations.push(0);
        shown.push(i as u8 % 2);
    }
    traced_in(K, &observations, 65_536, traced(), &shown);
    traced_in(K, &observations, 65_535, refused(12, 0), &[]);
    observations[65_534] = 2;
    traced_in(K, &observations, 65_536, refused(13, 65_534), &[]);
    assert_eq!(program::trace(K, &observations), "refused 13 65534\n");
    observations[65_534] = 0;
    observations.push(0);
    traced_in(K, &observations, 70_000, refused(12, 0), &[]);
    // 12 comes before 13, and before any stop.
    observations[0] = 2;
    traced_in(K, &observations, 70_000, refused(12, 0), &[]);
    observations[..2].copy_from_slice(&[0, 1]);
    traced_in(K, &observations, 70_000, refused(12, 0), &[]);
    assert_eq!(program::trace(K, &observations), "refused 12 0\n");
}

/// Reduces in rooms of so many bytes and entries, and looks at each of them afterwards.
fn reduced_in(file: &[u8], rooms: (usize, usize), answer: Answer, wrote: (&[u8], &[u16])) {
    let mut answer_room = vec![0xee; rooms.0];
    let mut class_entries = vec![0xeeee; rooms.1];
    assert_eq!(
        LARGE.reduce(file, &mut answer_room, &mut class_entries),
        answer
    );
    let (bytes, numbers) = wrote;
    assert_eq!(&answer_room[..bytes.len()], bytes);
    assert!(answer_room[bytes.len()..].iter().all(|&byte| byte == 0xee));
    assert_eq!(&class_entries[..numbers.len()], numbers);
    assert!(class_entries[numbers.len()..]
        .iter()
        .all(|&entry| entry == 0xeeee));
}

const NOTHING: (&[u8], &[u16]) = (&[], &[]);

#[test]
fn rides_c_and_k_reduced() {
    for more in [0, 1, 40] {
        let c = accepted([1, 1, 0, 6]);
        reduced_in(C, (6 + more, 1 + more), c, (C, &[0]));
        let k = accepted([2, 2, 0, 18]);
        let rooms = (18 + more, 3 + more);
        reduced_in(K, rooms, k, (K_REDUCED, &[0, 1, 1]));
        reduced_in(K_REDUCED, rooms, k, (K_REDUCED, &[0, 1]));
    }
}

#[test]
fn ride_r_reduced() {
    reduced_in(K, (17, 3), refused(10, 0), NOTHING);
    reduced_in(K, (18, 2), refused(11, 0), NOTHING);
    let k = accepted([2, 2, 0, 18]);
    reduced_in(K, (18, 3), k, (K_REDUCED, &[0, 1, 1]));
    // 10 comes before 11.
    reduced_in(K, (17, 2), refused(10, 0), NOTHING);
    reduced_in(K, (0, 0), refused(10, 0), NOTHING);
}

/// P's start leads to itself alone, so states 1 and 2 are dropped. Rooms still go by the whole file, of 13 bytes and three
/// states.
#[test]
fn ride_p_reduced() {
    assert_eq!(write(&ride_p()), P);
    assert_eq!(write(&filter_of(&[0], &[(0, 0, 0)])), P_REDUCED);
    assert_eq!(check(P), accepted([3, 1, 0, 2]));
    let one = accepted([1, 1, 0, 9]);
    let wrote: (&[u8], &[u16]) = (P_REDUCED, &[0, 65_535, 65_535]);
    reduced_in(P, (13, 3), one, wrote);
    reduced_in(P, (20, 7), one, wrote);
    reduced_in(P_REDUCED, (9, 1), one, (P_REDUCED, &[0]));
    reduced_in(P, (12, 3), refused(10, 0), NOTHING);
    reduced_in(P, (13, 2), refused(11, 0), NOTHING);
    assert_eq!(program::reduce(P), "3 1 1 0\n0 0\n1 -\n2 -\n");
    assert_eq!(program::reduce(P_REDUCED), "1 1 1 0\n0 0\n");
    assert_eq!(program::shrink(P), P_REDUCED);
}

/// Dropping changes no trace, and a trace looks at every state: P from its state 1 shows what only leftovers lead to.
#[test]
fn ride_p_traced() {
    for file in [P, P_REDUCED] {
        traced_in(file, &[0, 0, 0], 5, traced(), &[0, 0, 0, 0]);
    }
    let from_1 = Filter {
        start: 1,
        ..ride_p()
    };
    traced_in(&write(&from_1), &[0, 0], 3, stopped(1), &[0, 1]);
    assert_eq!(program::reduce(&write(&from_1)), "3 2 2 0\n0 -\n1 0\n2 1\n");
}

/// 10 goes by the original's length: of eight states without an edge the start is left.
#[test]
fn the_answer_room_is_as_long_as_the_original() {
    let eight = write(&Filter {
        colours: vec![0; 8],
        m: 1,
        start: 7,
        edges: Vec::new(),
    });
    assert_eq!((eight.len(), C.len()), (11, 6));
    for room in [6, 10] {
        reduced_in(&eight, (room, 8), refused(10, 0), NOTHING);
    }
    let mut list = [65_535; 8];
    list[7] = 0;
    reduced_in(&eight, (11, 8), accepted([1, 1, 0, 6]), (C, &list));
}

#[test]
fn a_refused_file_ends_the_reduction() {
    for (file, number) in [(A, 1), (B, 4), (D, 5), (E, 2), (F, 3), (G, 4), (H, 6)] {
        for rooms in [(0, 0), (50, 0), (0, 50), (50, 50)] {
            reduced_in(file, rooms, refused(number, 0), NOTHING);
        }
        let text = format!("refused {number} 0\n");
        assert_eq!(program::reduce(file), text);
        assert_eq!(program::shrink(file), A);
    }
}

#[test]
fn a_class_list_in_a_batch_has_two_bytes_an_entry() {
    let list = |bytes| {
        let case = Case::reduce(LARGE, K.to_vec(), vec![0xee; 18], vec![0xee; bytes]);
        let outcome = case.outcome();
        (outcome.answer.number, outcome.c)
    };
    assert_eq!(list(4), (11, vec![0xee; 4]));
    // An odd last byte is no entry.
    assert_eq!(list(5), (11, vec![0xee; 5]));
    assert_eq!(list(6), (0, vec![0, 0, 0, 1, 0, 1]));
    assert_eq!(list(7), (0, vec![0, 0, 0, 1, 0, 1, 0xee]));
    assert_eq!(list(8), (0, vec![0, 0, 0, 1, 0, 1, 0xee, 0xee]));
    let of_p = Case::reduce(LARGE, P.to_vec(), vec![0xee; 13], vec![0xee; 6]).outcome();
    assert_eq!(of_p.c, [0, 0, 0xff, 0xff, 0xff, 0xff]);
}

#[test]
fn what_reduce_prints_for_k_and_what_shrink_writes() {
    assert_eq!(program::reduce(K), "3 2 2 0\n0 0\n1 1\n2 1\n");
    assert_eq!(program::shrink(K), K_REDUCED);
}

#[test]
fn programs_judge_what_they_have_read() {
    // 60,000 bytes count as 45,254, but 2 and 3 still come before 5.
    for (file, text) in [
        (C, "refused 5 0\n"),
        (E, "refused 2 0\n"),
        (F, "refused 3 0\n"),
    ] {
        let mut file = file.to_vec();
        file.resize(60_000, 0);
        assert_eq!(program::trace(&file, &[]), text);
        assert_eq!(program::reduce(&file), text);
        assert_eq!(program::shrink(&file), A);
    }
    // 70,000 observations count as 65,536, which are too many whatever they are.
    assert_eq!(program::trace(K, &[0; 70_000]), "refused 12 0\n");
    assert_eq!(program::trace(K, &[9; 70_000]), "refused 12 0\n");
}
