//! Document 02's drawings by hand: what it says in numbers, put to the second program and to the proved `answers`.

#[path = "common/by_hand.rs"]
mod by_hand;
mod common;

use by_hand::{ridden, Ride};
use second::case::Case;
use second::file::{write, Edge, Filter};
use second::rides::*;

fn read_in(text: impl AsRef<[u8]>, room: usize) -> Case {
    Case::from_dot(text.as_ref().to_vec(), vec![0xee; room])
}

fn draw_in(file: &[u8], room: usize) -> Case {
    Case::to_dot(file.to_vec(), vec![0xee; room])
}

/// In a room that is enough.
fn outside(text: impl AsRef<[u8]>, place: u64) -> Ride {
    Ride::refused(read_in(text, 50), 15, place)
}

#[test]
fn k_both_ways() {
    let mut rides = Vec::new();
    for (file, text) in [(C, C_DRAWN), (K, K_DRAWN), (K_REDUCED, K_REDUCED_DRAWN)] {
        let text = text.as_bytes();
        for more in [0, 1, 40] {
            rides.push(Ride::written(read_in(text, file.len() + more), file));
            rides.push(Ride::written(draw_in(file, text.len() + more), text));
        }
        for room in [0, 1, file.len() - 1] {
            rides.push(Ride::refused(read_in(text, room), 10, 0));
        }
        for room in [0, 1, text.len() - 1] {
            rides.push(Ride::refused(draw_in(file, room), 10, 0));
        }
    }
    ridden(&rides);
}

/// The start is 0 and m the largest label plus one, so L to P can be drawn too.
#[test]
fn rides_l_and_p() {
    let l = "digraph {\n0 [label=0];\n1 [label=0];\n0 -> 1 [label=0];\n}\n";
    let p = "digraph {\n0 [label=0];\n1 [label=0];\n2 [label=1];\n\
             0 -> 0 [label=0];\n1 -> 2 [label=0];\n}\n";
    let mut rides = Vec::new();
    for (filter, text) in [(ride_l(), l), (ride_p(), p)] {
        let (file, text) = (write(&filter), text.as_bytes());
        rides.push(Ride::written(draw_in(&file, text.len()), text));
        rides.push(Ride::written(read_in(text, file.len()), &file));
    }
    ridden(&rides);
}

#[test]
fn what_is_asked_of_the_first_line() {
    ridden(&[
        outside("", 0),
        outside("\n", 0),
        outside("graph {\n}\n", 0),
        outside("Digraph {\n}\n", 0),
        outside("digraph", 7),
        outside("digraph{\n}\n", 7),
        outside("digraph  {\n}\n", 8),
        outside("digraph k {\n}\n", 8),
        outside("digraph {", 9),
        outside("digraph { \n}\n", 9),
        outside("digraph {\r\n}\n", 9),
        outside("digraph {\n", 10),
        outside("digraph {\n\n}\n", 10),
        outside("digraph {\n {", 10),
    ]);
}

#[test]
fn what_is_asked_of_a_state() {
    // A number that is not the next state's may still begin an edge.
    ridden(&[
        outside("digraph {\n1 [", 12),
        outside("digraph {\n1 ", 12),
        outside("digraph {\n0 [", 13),
        outside("digraph {\n0 [label=0];\n0 [", 25),
        outside("digraph {\n0 [label=0];\n2 [label=0];\n}\n", 25),
        outside("digraph {\n0 [label=0];\n1 [label=0];\n", 36),
        // Spaces as shown.
        outside("digraph {\n0[", 11),
        outside("digraph {\n0\t[", 11),
        outside("digraph {\n0  [", 12),
        outside("digraph {\n0 [ label=0];\n}\n", 13),
        outside("digraph {\n0 [label =0];\n}\n", 18),
        outside("digraph {\n0 [label=0] ;\n}\n", 21),
        outside("digraph {\n0 [label=0];}\n", 22),
        outside("digraph {\n0 [label=0];\r\n}\n", 22),
        outside("digraph {\n0 [label=0];\n\n}\n", 23),
        // One to three digits, without leading zeros.
        outside("digraph {\n0 [label=];\n}\n", 19),
        outside("digraph {\n0 [label=-1];\n}\n", 19),
        outside("digraph {\n0 [label=00];\n}\n", 20),
        outside("digraph {\n0 [label=01];\n}\n", 20),
        outside("digraph {\n0 [label=1000];\n}\n", 22),
        outside("digraph {\n00 [label=0];\n}\n", 11),
        outside("digraph {\n1000", 13),
    ]);
}

#[test]
fn what_is_asked_of_an_edge() {
    // `digraph {` and state 0 have 23 bytes.
    let with = |line: &str, place| {
        let text = format!("digraph {{\n0 [label=0];\n{line}");
        outside(text, place)
    };
    ridden(&[
        with("0 ", 25),
        with("0 -", 26),
        with("0 --", 26),
        with("0->", 24),
        with("0 -> ", 28),
        with("0 ->  0", 28),
        with("0 -> 00", 29),
        with("0 -> 1000", 31),
        with("1000 -> 0", 26),
        with("01 -> 0", 24),
        with("999 -> 999 [label=999];\n", 47),
        with("0 -> 0 [label=0];\n", 41),
        with("0 -> 0 [label=007];\n}\n", 38),
        with("0 -> 0 [label=1000];\n}\n", 40),
        with("0 -> 0;\n}\n", 29),
        with("0 -> 0 -> 0 [label=0];\n}\n", 30),
        // No state follows an edge, not even the next.
        with("0 -> 0 [label=0];\n1 [label=0];\n}\n", 43),
        with("0 -> 0 [label=0];\n1 -> 0 [label=0]\n}\n", 57),
    ]);
}

#[test]
fn what_is_asked_of_the_end() {
    // Of the last brace's newline too.
    assert_eq!(K_DRAWN.len(), 123);
    let whole = K_DRAWN.as_bytes();
    let mut rides: Vec<Ride> = (0..whole.len())
        .map(|length| outside(&whole[..length], length as u64))
        .collect();
    for behind in ["\n", " ", "}", "}\n", "\0", "0 -> 0 [label=0];\n", K_DRAWN] {
        rides.push(outside([K_DRAWN, behind].concat(), 123));
    }
    rides.push(outside("digraph {\n}", 11));
    rides.push(outside("digraph {\n}\r\n", 11));
    rides.push(outside("digraph {\n};\n", 11));
    rides.push(outside("digraph {\n}\n\n", 12));
    ridden(&rides);
}

/// A text of these lines.
fn text(lines: &[&str]) -> String {
    let lines: String = lines.iter().map(|line| format!("{line};\n")).collect();
    format!("digraph {{\n{lines}}}\n")
}

/// A text of so many states without colour, and these lines.
fn with_states(count: u64, lines: &[&str]) -> String {
    let states: Vec<String> = (0..count).map(|i| format!("{i} [label=0]")).collect();
    let mut all: Vec<&str> = states.iter().map(String::as_str).collect();
    all.extend(lines);
    text(&all)
}

/// In a room that is enough.
fn refused(text: impl AsRef<[u8]>, number: u8, place: u64) -> Ride {
    Ride::refused(read_in(text, 500), number, place)
}

/// In a room that is exact. The file is a filter's that has the start 0.
fn accepted(text: impl AsRef<[u8]>, colours: &[u64], m: u64, edges: &[(u64, u64, u64)]) -> Ride {
    let edges = edges.iter().map(|&(source, label, target)| Edge {
        source,
        label,
        target,
    });
    let file = write(&Filter {
        colours: colours.to_vec(),
        m,
        start: 0,
        edges: edges.collect(),
    });
    Ride::written(read_in(text, file.len()), &file)
}

#[test]
fn packs_14() {
    ridden(&[
        refused("digraph {\n}\n", 14, 0),
        refused(text(&["0 -> 0 [label=0]"]), 14, 0),
        accepted(with_states(1, &[]), &[0], 1, &[]),
        accepted(with_states(256, &[]), &[0; 256], 1, &[]),
        refused(with_states(257, &[]), 14, 0),
        refused(with_states(1000, &[]), 14, 0),
        refused(with_states(1000, &["1 -> 2 [label=3]"]), 14, 0),
        // Ten states of 13 bytes, ninety of 14, nine hundred of 15; then `1000` has a digit too many.
        refused(with_states(1001, &[]), 15, 14_903),
        accepted(text(&["0 [label=63]"]), &[63], 1, &[]),
        refused(text(&["0 [label=64]"]), 14, 0),
        refused(text(&["0 [label=256]"]), 14, 0),
        refused(text(&["0 [label=999]"]), 14, 0),
        accepted(
            with_states(1, &["0 -> 0 [label=63]"]),
            &[0],
            64,
            &[(0, 63, 0)],
        ),
        // A label that is too high is a number of labels that is too high.
        refused(with_states(1, &["0 -> 0 [label=64]"]), 14, 0),
        refused(with_states(1, &["0 -> 0 [label=255]"]), 14, 0),
        refused(with_states(1, &["0 -> 0 [label=256]"]), 14, 0),
        refused(with_states(1, &["0 -> 0 [label=999]"]), 14, 0),
    ]);
}

#[test]
fn packs_3_and_the_edges() {
    let first = "0 -> 1 [label=0]";
    ridden(&[
        refused(with_states(1, &["0 -> 0 [label=0]"; 2]), 3, 0),
        refused(with_states(3, &[first; 4]), 3, 0),
        refused(with_states(3, &["0 -> 3 [label=0]"]), 7, 0),
        refused(with_states(3, &["3 -> 0 [label=0]"]), 7, 0),
        // 256 is no state whatever the states are, and is not 0.
        refused(with_states(3, &[first, "1 -> 256 [label=0]"]), 7, 1),
        refused(with_states(3, &[first, "257 -> 0 [label=0]"]), 7, 1),
        refused(with_states(3, &[first, "1 -> 999 [label=0]"]), 7, 1),
        refused(with_states(256, &[first, "1 -> 256 [label=0]"]), 7, 1),
        refused(with_states(256, &[first, "256 -> 1 [label=0]"]), 7, 1),
        accepted(
            with_states(256, &[first, "255 -> 255 [label=0]"]),
            &[0; 256],
            1,
            &[(0, 0, 1), (255, 0, 255)],
        ),
        // Q's edges, drawn.
        refused(with_states(3, &["0 -> 2 [label=1]", first]), 8, 1),
        refused(with_states(3, &[first, "0 -> 2 [label=0]"]), 9, 1),
        refused(with_states(3, &[first, first]), 9, 1),
        refused(with_states(3, &["1 -> 0 [label=0]", first]), 8, 1),
        // The first faulty edge decides, and within it 7.
        refused(with_states(3, &[first, "0 -> 9 [label=0]"]), 7, 1),
        refused(with_states(3, &[first, first, "0 -> 9 [label=0]"]), 9, 1),
    ]);
}

#[test]
fn the_order_of_a_texts_refusals() {
    let outside_too = |text: String| text.replace("}\n", "");
    let none = with_states(0, &["9 -> 9 [label=64]"]);
    let high = text(&["0 [label=64]", "9 -> 9 [label=0]", "9 -> 9 [label=0]"]);
    let many = with_states(1, &["9 -> 9 [label=0]"; 2]);
    let faulty = with_states(2, &["9 -> 9 [label=0]"]);
    for room in [0, 5, 500] {
        let mut rides = Vec::new();
        for (text, number) in [(&none, 14), (&high, 14), (&many, 3), (&faulty, 7)] {
            rides.push(Ride::refused(read_in(text, room), number, 0));
            let cut = outside_too(text.clone());
            let place = cut.len() as u64;
            rides.push(Ride::refused(read_in(cut, room), 15, place));
        }
        ridden(&rides);
    }
}

/// A file with K's colours.
fn file(m: u64, start: u64, edges: &[(u64, u64, u64)]) -> Vec<u8> {
    write(&Filter {
        colours: vec![0, 1, 1],
        m,
        start,
        edges: edges
            .iter()
            .map(|&(source, label, target)| Edge {
                source,
                label,
                target,
            })
            .collect(),
    })
}

#[test]
fn what_is_not_drawn() {
    let drawn = b"digraph {\n0 [label=0];\n1 [label=1];\n2 [label=1];\n}\n";
    let mut rides = vec![
        Ride::written(draw_in(&file(1, 0, &[]), 51), drawn),
        Ride::refused(draw_in(&file(1, 0, &[]), 50), 10, 0),
    ];
    for room in [0, 50, 51, 500] {
        for (m, start, edges) in [
            // m = 2 without edges, and a start that is not 0.
            (2, 0, &[][..]),
            (64, 0, &[]),
            (1, 1, &[]),
            (1, 2, &[]),
            (2, 1, &[]),
            (2, 0, &[(0, 0, 1)]),
            (3, 0, &[(0, 1, 1), (1, 0, 0)]),
            (2, 2, &[(0, 1, 1)]),
        ] {
            rides.push(Ride::refused(draw_in(&file(m, start, edges), room), 15, 0));
        }
        // The file's own refusals come before.
        for (file, number) in [(A, 1), (B, 4), (D, 5), (E, 2), (F, 3), (G, 4), (H, 6)] {
            rides.push(Ride::refused(draw_in(file, room), number, 0));
        }
        for (edges, number, place) in [
            // Edge 1 begins at bit 37 + 3 * 6 + 22, its target 14 bits behind that.
            ([(0, 0, 1), (3, 0, 0)], 7, 77),
            ([(0, 0, 1), (1, 0, 3)], 7, 91),
            ([(0, 1, 1), (0, 0, 1)], 8, 77),
            ([(0, 0, 1), (0, 0, 2)], 9, 77),
        ] {
            for (m, start) in [(2, 0), (9, 0), (2, 1)] {
                let faulty = file(m, start, &edges);
                rides.push(Ride::refused(draw_in(&faulty, room), number, place));
            }
        }
    }
    ridden(&rides);
}

/// 256 states of two-digit colours, and every edge that there can be, to a state of three digits.
#[test]
fn the_longest_drawing() {
    let mut text = String::from("digraph {\n");
    let mut edges = Vec::new();
    for state in 0..256 {
        text += &format!("{state} [label=63];\n");
    }
    for source in 0..256 {
        for label in 0..64 {
            text += &format!("{source} -> 255 [label={label}];\n");
            edges.push(Edge {
                source,
                label,
                target: 255,
            });
        }
    }
    text += "}\n";
    assert_eq!(text.len(), 371_230);
    let file = write(&Filter {
        colours: vec![63; 256],
        m: 64,
        start: 0,
        edges,
    });
    let text = text.as_bytes();
    ridden(&[
        Ride::written(draw_in(&file, 371_230), text),
        Ride::written(draw_in(&file, 371_240), text),
        Ride::refused(draw_in(&file, 371_229), 10, 0),
        Ride::written(read_in(text, 45_253), &file),
        Ride::written(read_in(text, 45_260), &file),
        Ride::refused(read_in(text, 45_252), 10, 0),
        Ride::refused(read_in(&text[..371_229], 45_253), 15, 371_229),
        Ride::refused(read_in([text, b"\n"].concat(), 45_253), 15, 371_230),
    ]);
}
