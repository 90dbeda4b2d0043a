//! The families of texts, most of them outside the profile, for reading a drawing.

use crate::case::Case;
use crate::dot::{self, labels_up_to};
use crate::file::{Edge, Filter};
use crate::make::edits::{byte_edits, numbers, replaced, HABITS, NUMBERS};
use crate::make::filters::{filter, shapes, small};
use crate::make::rooms::{any, unused_string, Room};
use crate::make::Family;
use crate::profile::LARGE;
use crate::random::Random;

pub const FAMILIES: &[Family<Case>] = &[
    Family {
        name: "accepted texts",
        times: 3,
        make: accepted,
    },
    Family {
        name: "every byte of a text edited",
        times: 3,
        make: every_byte_edited,
    },
    Family {
        name: "every beginning of a text",
        times: 3,
        make: every_beginning,
    },
    Family {
        name: "something behind a text",
        times: 5,
        make: something_behind,
    },
    Family {
        name: "numbers written otherwise",
        times: 1,
        make: numbers_otherwise,
    },
    Family {
        name: "habits of other hands",
        times: 2,
        make: habits,
    },
    Family {
        name: "states in disorder",
        times: 10,
        make: states_in_disorder,
    },
    Family {
        name: "lines in any order",
        times: 100,
        make: lines_in_any_order,
    },
    Family {
        name: "arbitrary bytes as a text",
        times: 1,
        make: noise,
    },
];

/// What a drawing can say of a filter: the start is 0, and no label at the top is unused.
pub fn drawable(mut filter: Filter) -> Filter {
    filter.start = 0;
    filter.m = labels_up_to(&filter.edges);
    filter
}

pub fn text_of(filter: &Filter) -> Vec<u8> {
    dot::write(&filter.colours, &filter.edges).into_bytes()
}

/// The text read into a room of some kind, for the file that it asks for if it is of the profile.
pub fn in_room(text: Vec<u8>, room: Room, random: &mut Random) -> Case {
    let lines = text.iter().filter(|&&byte| byte == b'\n').count();
    let edges = text.iter().filter(|&&byte| byte == b'>').count();
    let states = lines.saturating_sub(edges + 2);
    let wanted = LARGE.length(states as u64, edges as u64);
    let found = room.found(wanted as usize, random);
    unused_string(Case::from_dot(text, found), random)
}

fn in_any_room(text: Vec<u8>, random: &mut Random) -> Case {
    let room = any(random);
    in_room(text, room, random)
}

pub fn in_any_rooms(texts: Vec<Vec<u8>>, random: &mut Random) -> Vec<Case> {
    texts
        .into_iter()
        .map(|text| in_any_room(text, random))
        .collect()
}

/// A text with few lines, of which labels and colours have one digit or two.
fn few_lines(random: &mut Random) -> Filter {
    let n = random.between(1, 3);
    let m = random.between(1, 64);
    let e = random.between(0, (n * m).min(3));
    drawable(filter(LARGE, random, n, m, e))
}

/// One with numbers of one to three digits, which may have no states.
fn any_numbers(random: &mut Random) -> Vec<u8> {
    let mut number = || {
        let top = random.pick(&[9, 99, 999]);
        random.between(0, top)
    };
    let colours: Vec<u64> = (0..number() % 4).map(|_| number()).collect();
    let edges: Vec<Edge> = (0..number() % 4)
        .map(|_| Edge {
            source: number(),
            label: number(),
            target: number(),
        })
        .collect();
    dot::write(&colours, &edges).into_bytes()
}

fn few_lines_of_both_kinds(random: &mut Random) -> [Vec<u8>; 2] {
    [text_of(&few_lines(random)), any_numbers(random)]
}

/// Each shape in each room.
pub fn accepted(random: &mut Random) -> Vec<Case> {
    let mut cases = Vec::new();
    for filter in shapes(LARGE, random).into_iter().map(drawable) {
        for room in Room::ALL {
            cases.push(in_room(text_of(&filter), room, random));
        }
    }
    cases
}

pub fn every_byte_edited(random: &mut Random) -> Vec<Case> {
    let mut texts = Vec::new();
    for text in few_lines_of_both_kinds(random) {
        for at in 0..text.len() {
            texts.extend(byte_edits(&text, at, random));
        }
    }
    in_any_rooms(texts, random)
}

/// The empty one too, but not the whole text.
pub fn every_beginning(random: &mut Random) -> Vec<Case> {
    let mut texts = Vec::new();
    for text in few_lines_of_both_kinds(random) {
        texts.extend((0..text.len()).map(|length| text[..length].to_vec()));
    }
    in_any_rooms(texts, random)
}

pub fn something_behind(random: &mut Random) -> Vec<Case> {
    let text = text_of(&few_lines(random));
    let more = random.between(1, 20) as usize;
    let behind = [
        &b"\n"[..],
        b" ",
        b"\0",
        b"\r\n",
        b"}",
        b"}\n",
        b"0",
        b"0 [label=0];\n",
        b"0 -> 0 [label=0];\n",
        b"0 -> 0 [label=0];\n}\n",
        b"digraph {\n}\n",
        &text,
        &random.bytes(more),
    ]
    .map(|behind| [&text, behind].concat());
    in_any_rooms(behind.to_vec(), random)
}

/// Each number of a text in each other writing.
pub fn numbers_otherwise(random: &mut Random) -> Vec<Case> {
    let text = text_of(&few_lines(random));
    let mut texts = Vec::new();
    for (from, to) in numbers(&text) {
        for other in NUMBERS {
            texts.push([&text[..from], other.as_bytes(), &text[to..]].concat());
        }
    }
    in_any_rooms(texts, random)
}

pub fn habits(random: &mut Random) -> Vec<Case> {
    let text = text_of(&few_lines(random));
    let mut texts = Vec::new();
    for (piece, other) in HABITS {
        texts.extend(replaced(&text, piece.as_bytes(), other.as_bytes()));
    }
    in_any_rooms(texts, random)
}

/// The lines of a text, to be put in other orders.
struct Lines {
    states: Vec<String>,
    edges: Vec<String>,
}

impl Lines {
    fn of(filter: &Filter) -> Lines {
        let text = dot::write(&filter.colours, &filter.edges);
        let mut states: Vec<String> = text.split_inclusive('\n').map(String::from).collect();
        states.pop();
        states.remove(0);
        let edges = states.split_off(filter.colours.len());
        Lines { states, edges }
    }

    fn text(&self) -> Vec<u8> {
        let lines = [self.states.concat(), self.edges.concat()].concat();
        framed(&lines)
    }
}

pub fn framed(lines: &str) -> Vec<u8> {
    format!("digraph {{\n{lines}}}\n").into_bytes()
}

/// Skipped, repeated, exchanged, counted down, counted from 1, and behind an edge: all of them are outside the profile.
pub fn states_in_disorder(random: &mut Random) -> Vec<Case> {
    let n = random.between(3, 13);
    let base = drawable(filter(LARGE, random, n, 3, 3));
    let at = random.between(0, n - 2) as usize;
    let edit = |edit: fn(&mut Lines, usize)| {
        let mut lines = Lines::of(&base);
        edit(&mut lines, at);
        lines.text()
    };
    let texts = vec![
        edit(|lines, at| drop(lines.states.remove(at))),
        edit(|lines, _| drop(lines.states.remove(0))),
        edit(|lines, at| lines.states.insert(at, lines.states[at].clone())),
        edit(|lines, _| lines.states.extend(lines.states.last().cloned())),
        edit(|lines, at| lines.states.swap(at, at + 1)),
        edit(|lines, _| lines.states.reverse()),
        edit(|lines, _| lines.edges.extend(lines.states.pop())),
        edit(|lines, _| lines.edges.insert(1, lines.states[0].clone())),
        edit(|lines, _| {
            let next = format!("{} [label=0];\n", lines.states.len());
            lines.edges.insert(1, next);
        }),
        edit(|lines, _| lines.edges.append(&mut lines.states)),
        edit(|lines, at| lines.states.insert(at, lines.edges[0].clone())),
    ];
    in_any_rooms(texts, random)
}

/// Mostly behind the line that has to be first.
pub fn lines_in_any_order(random: &mut Random) -> Vec<Case> {
    let mut text = String::new();
    let mut next = 0;
    if !random.once_in(20) {
        text += "digraph {\n";
    }
    for _ in 0..random.between(0, 9) {
        let [one, two, three] = [0; 3].map(|_| random.between(0, 3));
        match random.between(1, 10) {
            1..=5 => {
                text += &format!("{next} [label={one}];\n");
                next += 1;
            }
            6..=8 => text += &format!("{one} -> {two} [label={three}];\n"),
            9 => text += &format!("{one} [label={two}];\n"),
            _ => text += random.pick(&["digraph {\n", "}\n", "\n"]),
        }
    }
    if !random.once_in(20) {
        text += "}\n";
    }
    vec![in_any_room(text.into_bytes(), random)]
}

/// Every length up to 64, of any bytes, and of any behind the first line or some states.
pub fn noise(random: &mut Random) -> Vec<Case> {
    let mut texts = Vec::new();
    for length in 0..=64 {
        texts.push(random.bytes(length));
        texts.push([b"digraph {\n", &random.bytes(length)[..]].concat());
        let text = text_of(&small(LARGE, random));
        let kept = random.between(0, text.len() as u64) as usize;
        texts.push([&text[..kept], &random.bytes(length)].concat());
    }
    in_any_rooms(texts, random)
}
