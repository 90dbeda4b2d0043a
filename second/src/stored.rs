//! The batch that is stored beside `answers`: small, and the same in every run.

use crate::case::Case;
use crate::dot;
use crate::file::{read, Filter};
use crate::make::chains;
use crate::make::conversions::{conversion, other};
use crate::make::filters::turn_back;
use crate::profile::{Profile, LARGE, POCKET, PROFILES};
use crate::rides::*;

pub fn cases() -> Vec<Case> {
    let mut cases = Vec::new();
    for profile in PROFILES {
        let calls = Calls { profile };
        cases.extend(calls.of_k());
        cases.extend(calls.of_refused_files());
        cases.extend(calls.of_the_highest_colour());
        cases.extend(calls.refused_by_pack());
        cases.extend(calls.traces());
        cases.extend(calls.rooms_of_a_reduction());
        cases.extend(calls.reduces());
        cases.extend(calls.longer());
        cases.extend(calls.conversions());
    }
    cases.extend(too_large());
    cases.extend(out_of_the_fault());
    cases.extend(drawings());
    cases.extend(texts_outside());
    cases.extend(texts_refused_by_pack());
    cases
}

/// A room as found: not of zeros, and no two bytes near each other alike.
fn found(length: usize) -> Vec<u8> {
    (0..length).map(|i| 0xa0 + (i % 89) as u8).collect()
}

fn from_dot(text: &str, room: usize) -> Case {
    Case::from_dot(text.as_bytes().to_vec(), found(room))
}

fn to_dot(file: &[u8], room: usize) -> Case {
    Case::to_dot(file.to_vec(), found(room))
}

/// K's colours, m = 2 and start 0, with these edges.
fn k_with(edges: &[[u64; 3]]) -> Filter {
    let edge = |&[source, label, target]: &[u64; 3]| edge(source, label, target);
    Filter {
        colours: vec![0, 1, 1],
        m: 2,
        start: 0,
        edges: edges.iter().map(edge).collect(),
    }
}

fn coloured(filter: &Filter, colours: [u64; 3]) -> Filter {
    Filter {
        colours: colours.to_vec(),
        ..filter.clone()
    }
}

/// The calls of one kind of file, with rooms given by their lengths.
struct Calls {
    profile: Profile,
}

impl Calls {
    fn check(&self, file: &[u8]) -> Case {
        Case::check(self.profile, file.to_vec())
    }

    fn unpack(&self, file: &[u8], colours: usize, edges: usize) -> Case {
        Case::unpack(self.profile, file.to_vec(), found(colours), found(edges))
    }

    fn pack(&self, colours: &[u8], edges: &[u8], m: u64, start: u64, room: usize) -> Case {
        let (colours, edges) = (colours.to_vec(), edges.to_vec());
        Case::pack(self.profile, colours, edges, m, start, found(room))
    }

    fn trace(&self, file: &[u8], observations: &[u8], room: usize) -> Case {
        Case::trace(
            self.profile,
            file.to_vec(),
            observations.to_vec(),
            found(room),
        )
    }

    /// Both rooms in bytes.
    fn reduce(&self, file: &[u8], answer_room: usize, class_list: usize) -> Case {
        let (answer_room, class_list) = (found(answer_room), found(class_list));
        Case::reduce(self.profile, file.to_vec(), answer_room, class_list)
    }

    fn convert(&self, file: &[u8], room: usize) -> Case {
        conversion(self.profile, file.to_vec(), found(room))
    }

    /// Of one kind of file the first, of the other the second.
    fn either<T>(&self, of_large: T, of_pocket: T) -> T {
        match self.profile {
            POCKET => of_pocket,
            _ => of_large,
        }
    }

    fn c(&self) -> &'static [u8] {
        self.either(C, C_POCKET)
    }

    fn k(&self) -> &'static [u8] {
        self.either(K, K_POCKET)
    }

    fn k_reduced(&self) -> &'static [u8] {
        self.either(K_REDUCED, K_REDUCED_POCKET)
    }

    /// The document's rides with K, Q's lists among them.
    fn of_k(&self) -> Vec<Case> {
        let mut cases = Vec::new();
        for file in [self.c(), self.k(), self.k_reduced()] {
            cases.push(self.check(file));
        }
        for (colours, edges) in [(2, 12), (3, 11), (3, 12), (5, 20)] {
            cases.push(self.unpack(self.k(), colours, edges));
        }
        cases.push(self.unpack(self.k_reduced(), 2, 12));
        let too_high = self.profile.top_colour() as u8 + 1;
        let too_many = vec![0; self.profile.most_states() as usize + 1];
        let room = self.k().len();
        cases.extend([
            self.pack(K_COLOURS, Q_LABEL_OUTSIDE, 2, 0, room),
            self.pack(K_COLOURS, Q_DESCENDING, 2, 0, room),
            self.pack(K_COLOURS, Q_REPEATED, 2, 0, room),
            self.pack(K_COLOURS, K_EDGES, 2, 3, room),
            self.pack(&[0, too_high, 1], K_EDGES, 2, 0, room),
            self.pack(&too_many, K_EDGES, 2, 0, 209),
        ]);
        for (file, colours, edges) in [
            (self.k(), K_COLOURS, K_EDGES),
            (self.k_reduced(), K_REDUCED_COLOURS, K_REDUCED_EDGES),
        ] {
            cases.push(self.pack(colours, edges, 2, 0, file.len()));
            cases.push(self.pack(colours, edges, 2, 0, file.len() + 9));
        }
        cases.push(self.pack(K_COLOURS, K_EDGES, 2, 0, room - 1));
        cases
    }

    fn of_refused_files(&self) -> Vec<Case> {
        let files = self.refused();
        let cases = files.iter().map(|file| self.of_file(file, K_DRAWN.len()));
        cases.collect::<Vec<_>>().concat()
    }

    /// Put to each call that reads such a file, with room enough for K and so much for a drawing.
    fn of_file(&self, file: &[u8], drawing: usize) -> Vec<Case> {
        let mut cases = vec![
            self.check(file),
            self.unpack(file, 3, 12),
            self.trace(file, K_OBSERVATIONS, 3),
            self.reduce(file, file.len(), 6),
            self.convert(file, 20),
        ];
        if self.profile == LARGE {
            cases.push(to_dot(file, drawing));
        }
        cases
    }

    /// K with the highest colour, which its first edge leaves, and P, in which a leftover leaves it; then K with no other colour.
    /// In pocket files none of them is refused.
    fn of_the_highest_colour(&self) -> Vec<Case> {
        let top = self.profile.top_colour();
        let k = read(K).expect("accepted");
        let mut cases = Vec::new();
        for filter in [
            coloured(&k, [top, 1, 1]),
            coloured(&ride_p(), [0, top, 1]),
            coloured(&k, [top; 3]),
        ] {
            let text = dot::write(&filter.colours, &filter.edges);
            cases.extend(self.of_file(&self.profile.write(&filter), text.len()));
            let (colours, edges) = filter.lists();
            cases.push(self.pack(&colours, &edges, filter.m, filter.start, 20));
            if self.profile == LARGE {
                cases.push(from_dot(&text, 20));
            }
        }
        cases
    }

    /// A file for each refusal from 1 to 9, K spoilt where the rides have none. The small pocket files stand for the rides: the
    /// start is 1, e is 2 and 1, and the filling bit is 1.
    fn refused(&self) -> Vec<Vec<u8>> {
        let small: [&[u8]; 7] = self.either(
            [A, B, D, E, F, G, H],
            [
                A,
                &[0; 2],
                &[0; 4],
                &[0x00, 0x20, 0x00],
                &[0x00, 0x00, 0x40],
                &[0x00, 0x00, 0x20],
                &[0x00, 0x00, 0x01],
            ],
        );
        let mut files: Vec<Vec<u8>> = small.map(<[u8]>::to_vec).to_vec();
        let k = self.k();
        files.push(k[..k.len() - 1].to_vec());
        let mut filling = k.to_vec();
        filling[k.len() - 1] |= 1;
        files.push(filling);
        for edges in [
            // 7 by source, label and target alone; 8; 9 with other and with equal targets; 7 before 8 and 9 in one edge.
            [[0, 0, 1], [3, 1, 2], [1, 0, 0], [2, 1, 0]],
            [[0, 0, 1], [0, 2, 2], [1, 0, 0], [2, 1, 0]],
            [[0, 0, 1], [0, 1, 2], [1, 0, 0], [2, 2, 0]],
            [[0, 0, 1], [0, 1, 2], [1, 0, 0], [2, 1, 3]],
            [[0, 0, 1], [1, 0, 0], [0, 1, 2], [2, 1, 0]],
            [[0, 0, 1], [0, 1, 2], [2, 1, 0], [2, 0, 0]],
            [[0, 0, 1], [0, 1, 2], [0, 1, 1], [2, 1, 0]],
            [[0, 0, 1], [0, 1, 2], [1, 0, 0], [1, 0, 0]],
            [[0, 1, 1], [0, 0, 3], [1, 0, 0], [2, 1, 0]],
            [[0, 1, 1], [0, 1, 3], [1, 0, 0], [2, 1, 0]],
            // 7 by two fields of an edge and by all three, of which the first is named; and in two edges.
            [[0, 0, 1], [3, 2, 0], [1, 0, 0], [2, 1, 0]],
            [[3, 0, 3], [0, 1, 2], [1, 0, 0], [2, 1, 0]],
            [[0, 2, 3], [0, 1, 2], [1, 0, 0], [2, 1, 0]],
            [[0, 0, 1], [0, 1, 2], [1, 0, 0], [3, 2, 3]],
            [[0, 0, 3], [0, 1, 2], [3, 0, 0], [2, 1, 0]],
        ] {
            files.push(self.profile.write(&k_with(&edges)));
        }
        files
    }

    fn refused_by_pack(&self) -> Vec<Case> {
        let seven_edges = [
            0, 0, 1, 0, 1, 2, 1, 0, 0, 1, 1, 0, 2, 0, 0, 2, 1, 0, 2, 1, 0,
        ];
        let too_high = self.profile.top_colour() as u8 + 1;
        let too_many_labels = self.profile.most_labels() + 1;
        let room = self.k().len();
        vec![
            self.pack(&[], &[], 1, 0, 10),
            self.pack(K_COLOURS, K_EDGES, 0, 0, room),
            self.pack(K_COLOURS, K_EDGES, too_many_labels, 0, room),
            self.pack(K_COLOURS, K_EDGES, (1 << 32) + 2, 0, room),
            self.pack(K_COLOURS, K_EDGES, u64::MAX, 0, room),
            self.pack(&[0, 1, 255], K_EDGES, 2, 0, room),
            self.pack(K_COLOURS, &K_EDGES[..10], 2, 0, room),
            self.pack(K_COLOURS, &K_EDGES[..11], 2, 0, room),
            self.pack(K_COLOURS, K_EDGES, 2, 1 << 32, room),
            self.pack(K_COLOURS, K_EDGES, 2, u64::MAX, room),
            self.pack(K_COLOURS, &seven_edges, 2, 0, 30),
            self.pack(K_COLOURS, &[0, 0, 1, 3, 0, 0, 2, 1, 0], 2, 0, 20),
            self.pack(K_COLOURS, &[0, 0, 1, 1, 0, 0, 2, 1, 3], 2, 0, 20),
            self.pack(K_COLOURS, &[0, 0, 1, 1, 0, 0, 1, 0, 0], 2, 0, 20),
            self.pack(K_COLOURS, K_EDGES, 2, 0, 0),
            // Two at once: 14 and 2, 2 and 3, 3 and 7, 9 and 10.
            self.pack(&[0, too_high, 1], K_EDGES, 2, 3, room),
            self.pack(K_COLOURS, &seven_edges, 2, 3, 30),
            self.pack(
                K_COLOURS,
                &[&[9, 9, 9], &seven_edges[..]].concat(),
                2,
                0,
                30,
            ),
            self.pack(K_COLOURS, Q_REPEATED, 2, 0, 0),
        ]
    }

    /// K's two files and ride R; then traced to the end, without observations, stopped at the first, a middle and the last
    /// observation, with rooms too short, and with labels outside.
    fn traces(&self) -> Vec<Case> {
        let k = self.k();
        vec![
            self.trace(k, K_OBSERVATIONS, 3),
            self.trace(self.k_reduced(), K_OBSERVATIONS, 3),
            self.trace(k, R_OBSERVATIONS, 2),
            self.trace(k, R_OBSERVATIONS, 3),
            self.trace(k, &[0, 0, 1, 1, 1, 1, 0, 0], 12),
            self.trace(k, &[], 3),
            self.trace(k, &[], 0),
            self.trace(self.c(), &[0, 0], 6),
            self.trace(k, &[0, 1, 0, 0], 9),
            self.trace(k, &[0, 0, 1, 0], 5),
            // The two colours of a ride that stops at 1 would fit.
            self.trace(k, &[0, 1, 0, 0], 4),
            self.trace(k, &[2, 0, 0], 4),
            // It would stop before the labels outside, of which the first is named.
            self.trace(k, &[0, 1, 64, 255], 7),
        ]
    }

    /// Ride R's and others.
    fn rooms_of_a_reduction(&self) -> Vec<Case> {
        let k = self.k();
        let room = k.len();
        let mut filling = self.c().to_vec();
        filling[self.c().len() - 1] |= 1;
        vec![
            self.reduce(k, room - 1, 6),
            self.reduce(k, room, 4),
            self.reduce(k, room, 6),
            // Both short; nothing lent; half an entry missing; half an entry too many.
            self.reduce(k, room - 1, 4),
            self.reduce(k, 0, 0),
            self.reduce(k, room, 5),
            self.reduce(k, room, 7),
            // The file's own refusal comes before those of the rooms.
            self.reduce(&filling, 0, 0),
        ]
    }

    /// The rides; the most rounds that there can be; some rounds with some states merged; leftovers; and rooms that would hold
    /// the reduced file but not the original.
    fn reduces(&self) -> Vec<Case> {
        let mut cases = Vec::new();
        for file in [self.c(), self.k(), self.k_reduced()] {
            cases.push(self.reduce(file, file.len() + 11, 15));
        }
        let most = self.profile.most_states();
        for filter in [
            ride_l(),
            ride_m(),
            ride_n(),
            ride_p(),
            chains::plain(most),
            self.thinned(self.either(40, 12), 4, 3),
            self.thinned(self.either(90, most), 6, self.either(20, 7)),
            self.parted_by_leftovers(),
            from_the_middle(self.either(20, most)),
            self.regular(9, 2, 0),
        ] {
            let file = self.profile.write(&filter);
            let entries = filter.colours.len();
            cases.push(self.reduce(&file, file.len(), 2 * entries));
            cases.push(self.reduce(&file, file.len() + 13, 2 * entries + 9));
        }
        let without_edges = self.profile.write(&self.regular(most, 1, 0));
        let reduced = self.profile.length(1, 0) as usize;
        let list = 2 * most as usize;
        cases.push(self.reduce(&without_edges, reduced, list));
        cases.push(self.reduce(&without_edges, reduced, list - 1));
        cases.push(self.reduce(&without_edges, without_edges.len(), list));
        cases
    }

    /// The start, 2, leads to 3 and to 4, which become one. If the leftovers 0 and 1 took part they would be in 4's group and
    /// not in 3's, which alone has an edge by the same label, and their colour and 5's would be counted.
    fn parted_by_leftovers(&self) -> Filter {
        let edges = [(0, 0, 5), (1, 0, 5), (2, 0, 3), (2, 1, 4), (3, 0, 3)];
        Filter {
            start: 2,
            ..filter_of(&[7, 7, 1, 7, 7, self.profile.top_colour()], &edges)
        }
    }

    /// Few colours, and two of five pairs without an edge.
    fn thinned(&self, n: u64, m: u64, colours: u64) -> Filter {
        let mut filter = self.regular(n, m, n * m);
        filter.colours = (0..n).map(|state| state * state % colours).collect();
        filter
            .edges
            .retain(|edge| (edge.source * 3 + edge.label * edge.source) % 5 > 1);
        filter
    }

    /// The first e pairs of source and label, with colours and targets that go round.
    fn regular(&self, n: u64, m: u64, e: u64) -> Filter {
        let colours = self.profile.top_colour() + 1;
        Filter {
            colours: (0..n).map(|state| state * 5 % colours).collect(),
            m,
            start: n - 1,
            edges: (0..e)
                .map(|pair| edge(pair / m, pair % m, (pair * 7 + 3) % n))
                .collect(),
        }
    }

    fn longer(&self) -> Vec<Case> {
        let (most, labels) = (self.profile.most_states(), self.profile.most_labels());
        let mut cases = Vec::new();
        for (n, m, e) in [
            (most, 1, 0),
            (most, labels, 3),
            (1, labels, labels),
            self.either((20, 7, 140), (10, 7, 70)),
        ] {
            let filter = self.regular(n, m, e);
            let file = self.profile.write(&filter);
            let (n, e) = (n as usize, e as usize);
            let read = self.unpack(&file, n, 3 * e).outcome();
            cases.push(self.check(&file));
            cases.push(self.unpack(&file, n + 3, 3 * e + 5));
            cases.push(self.unpack(&file, n - 1, 3 * e));
            cases.push(self.pack(&read.b, &read.c, m, filter.start, file.len() + 7));
        }
        let largest = self.profile.write(&self.largest());
        let length = self.profile.length(most, most * labels);
        assert_eq!(largest.len() as u64, length);
        assert_eq!(self.profile.check(&largest).number, 0);
        cases.push(self.check(&largest));
        cases
    }

    fn largest(&self) -> Filter {
        let (most, labels) = (self.profile.most_states(), self.profile.most_labels());
        let mut largest = self.regular(most, labels, most * labels);
        turn_back(&mut largest);
        largest
    }

    /// The rides and the largest that either file holds, in rooms that are exact, longer, short by one and empty.
    fn conversions(&self) -> Vec<Case> {
        let k = read(K).expect("accepted");
        let largest = Calls { profile: POCKET }.largest();
        let mut cases = Vec::new();
        for filter in [k, ride_m(), ride_n(), ride_p(), largest] {
            let file = self.profile.write(&filter);
            let room = other(self.profile).length(filter.n(), filter.e()) as usize;
            for room in [room, room + 5, room - 1, 0] {
                cases.push(self.convert(&file, room));
            }
        }
        cases
    }
}

/// A chain from a state behind its middle.
fn from_the_middle(states: u64) -> Filter {
    Filter {
        start: states * 3 / 5,
        ..chains::plain(states)
    }
}

/// Large files that are as much as a pocket file holds, and more by one state, one label or one colour, that of the first, a
/// middle or the last state; and by all of them. With and without room.
fn too_large() -> Vec<Case> {
    let calls = Calls { profile: LARGE };
    let mut cases = Vec::new();
    for (n, m, state, colour) in [
        (16, 8, 0, 15),
        (17, 8, 0, 15),
        (16, 9, 0, 15),
        (16, 8, 0, 16),
        (16, 8, 7, 16),
        (16, 8, 15, 16),
        (16, 8, 7, 63),
        (17, 9, 7, 16),
    ] {
        let mut filter = calls.regular(n, m, 6);
        filter.colours = vec![15; n as usize];
        filter.colours[state] = colour;
        for room in [40, 0] {
            cases.push(calls.convert(&LARGE.write(&filter), room));
        }
    }
    cases
}

/// K with a fault for state 1, which edge 2 leaves. 17 comes before the rooms, a label outside and what cannot be drawn, and
/// behind 7, 8 and 9 of another edge, be it behind the one that leaves or before it, and behind 14, 2 and 3.
fn out_of_the_fault() -> Vec<Case> {
    let calls = Calls { profile: LARGE };
    let left = |edges: &[[u64; 3]]| coloured(&k_with(edges), [0, 63, 1]);
    let k = left(&[[0, 0, 1], [0, 1, 2], [1, 0, 0], [2, 1, 0]]);
    let file = LARGE.write(&k);
    let from_2 = LARGE.write(&Filter {
        start: 2,
        ..k.clone()
    });
    let (colours, edges) = k.lists();
    let text = dot::write(&k.colours, &k.edges);
    let mut cases = vec![
        calls.unpack(&file, 2, 12),
        calls.unpack(&file, 3, 11),
        calls.trace(&file, R_OBSERVATIONS, 3),
        calls.trace(&file, R_OBSERVATIONS, 2),
        calls.reduce(&file, 17, 6),
        calls.reduce(&file, 18, 4),
        calls.reduce(&file, 0, 0),
        calls.convert(&file, 0),
        to_dot(&file, 0),
        to_dot(&from_2, text.len()),
        calls.pack(&colours, &edges, 2, 0, 0),
        from_dot(&text, 0),
        calls.pack(&[0, 63, 64], &edges, 2, 0, 18),
        calls.pack(&colours, &edges, 2, 3, 18),
        calls.pack(&colours, &edges, 1, 0, 18),
    ];
    for edges in [
        [[0, 0, 1], [0, 1, 2], [1, 0, 0], [2, 1, 3]],
        [[0, 0, 1], [0, 1, 2], [1, 0, 0], [0, 1, 0]],
        [[0, 0, 1], [0, 1, 2], [1, 0, 0], [1, 0, 1]],
        [[0, 0, 3], [0, 1, 2], [1, 0, 0], [2, 1, 0]],
        [[0, 1, 1], [0, 0, 2], [1, 0, 0], [2, 1, 0]],
        [[0, 0, 1], [0, 0, 2], [1, 0, 0], [2, 1, 0]],
    ] {
        let filter = left(&edges);
        let (colours, edges) = filter.lists();
        cases.extend([
            calls.check(&LARGE.write(&filter)),
            calls.pack(&colours, &edges, 2, 0, 18),
            from_dot(&dot::write(&filter.colours, &filter.edges), 18),
        ]);
    }
    cases
}

/// Both ways, in rooms that are exact, longer, short by one and empty; then what cannot be drawn: another start, labels
/// unused at the top, with edges and without, and before the room's refusal.
fn drawings() -> Vec<Case> {
    let mut cases = Vec::new();
    for (file, text) in [(C, C_DRAWN), (K, K_DRAWN), (K_REDUCED, K_REDUCED_DRAWN)] {
        for room in [text.len(), text.len() + 5, text.len() - 1, 0] {
            cases.push(to_dot(file, room));
        }
        for room in [file.len(), file.len() + 5, file.len() - 1, 0] {
            cases.push(from_dot(text, room));
        }
    }
    let calls = Calls { profile: LARGE };
    let drawn = ride_n();
    let other_start = Filter {
        start: 6,
        ..drawn.clone()
    };
    let unused_label = Filter {
        m: 3,
        ..drawn.clone()
    };
    for filter in [
        drawn,
        other_start,
        unused_label,
        calls.regular(2, 2, 0),
        calls.regular(1, 2, 0),
    ] {
        let file = LARGE.write(&filter);
        cases.push(to_dot(&file, 250));
        cases.push(to_dot(&file, 0));
    }
    cases
}

/// At the first byte, inside each kind of line, behind the last, and cut off.
fn texts_outside() -> Vec<Case> {
    [
        "",
        "Digraph {\n}\n",
        "digraph\n{\n}\n",
        "digraph {\r\n}\r\n",
        "digraph {\n1 [label=0];\n}\n",
        "digraph {\n00 [label=0];\n}\n",
        "digraph {\n0  [label=0];\n}\n",
        "digraph {\n0 [label=07];\n}\n",
        "digraph {\n0 [label=1000];\n}\n",
        "digraph {\n0 [label=0];\n0 [label=0];\n}\n",
        "digraph {\n0 [label=0];\n2 [label=0];\n}\n",
        "digraph {\n0 [label=0];\n1 -> 1000 [label=0];\n}\n",
        "digraph {\n0 [label=0];\n1 ->\t0 [label=0];\n}\n",
        "digraph {\n0 -> 0 [label=0];\n0 [label=0];\n}\n",
        "digraph {\n0 [label=0];\n}\n\n",
        "digraph {\n0 [label=0];\n}",
        "digraph {\n0 [label=0];\n0 -> 1",
    ]
    .map(|text| from_dot(text, 20))
    .to_vec()
}

/// Each number, with the numbers in the text around what a filter can have; then two at once.
fn texts_refused_by_pack() -> Vec<Case> {
    let states =
        |count: usize| "0 [label=0];\n1 [label=1];\n2 [label=1];\n"[..13 * count].to_string();
    [
        (0, ""),
        (0, "0 -> 0 [label=0];\n"),
        (1, "1 [label=63];\n"),
        (1, "1 [label=64];\n"),
        (1, "1 [label=256];\n"),
        (1, "0 -> 0 [label=63];\n"),
        (1, "0 -> 0 [label=64];\n"),
        (1, "0 -> 0 [label=256];\n"),
        (1, "0 -> 0 [label=0];\n0 -> 0 [label=0];\n"),
        (3, "0 -> 3 [label=0];\n"),
        (3, "0 -> 1 [label=0];\n256 -> 1 [label=0];\n"),
        (3, "0 -> 1 [label=0];\n1 -> 256 [label=0];\n"),
        (3, "0 -> 1 [label=0];\n1 -> 999 [label=0];\n"),
        (3, "0 -> 2 [label=1];\n0 -> 1 [label=0];\n"),
        (3, "0 -> 1 [label=0];\n0 -> 2 [label=0];\n"),
        (3, "0 -> 2 [label=1];\n0 -> 9 [label=0];\n"),
        (3, "9 -> 9 [label=9];\n9 -> 9 [label=64];\n"),
        (1, "9 -> 9 [label=0];\n9 -> 9 [label=0];\n"),
    ]
    .into_iter()
    .flat_map(|(count, lines)| {
        let text = format!("digraph {{\n{}{lines}}}\n", states(count));
        [from_dot(&text, 20), from_dot(&text, 0)]
    })
    .collect()
}
