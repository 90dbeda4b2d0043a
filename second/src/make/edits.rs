//! Texts of the profile spoilt a little, so that most of them leave it somewhere.

use crate::random::Random;

/// The bytes that texts of the profile are made of.
const LETTERS: &[u8] = b"digraph {}\n0123456789 [label=]; ->";

/// One byte gone, doubled, or another in its place, which may be one that other texts have.
pub fn byte_edits(text: &[u8], at: usize, random: &mut Random) -> Vec<Vec<u8>> {
    let own = text[at];
    let any = random.between(0, 255) as u8;
    let with = |bytes: &[u8]| [&text[..at], bytes, &text[at + 1..]].concat();
    vec![
        with(&[]),
        with(&[own, own]),
        with(&[any]),
        with(&[random.pick(LETTERS)]),
        with(&[own ^ 1 << random.between(0, 7)]),
    ]
}

/// Each place where a piece stands, with another in its place.
pub fn replaced(text: &[u8], piece: &[u8], other: &[u8]) -> Vec<Vec<u8>> {
    let places = (0..text.len()).filter(|&at| text[at..].starts_with(piece));
    places
        .map(|at| [&text[..at], other, &text[at + piece.len()..]].concat())
        .collect()
}

/// Where each number begins and ends.
pub fn numbers(text: &[u8]) -> Vec<(usize, usize)> {
    let digit = |at: usize| text.get(at).is_some_and(u8::is_ascii_digit);
    let begins = (0..text.len()).filter(|&at| digit(at) && (at == 0 || !digit(at - 1)));
    begins
        .map(|from| (from, (from..).find(|&at| !digit(at)).expect("an end")))
        .collect()
}

/// Numbers as other programs may write them, and some that are too long.
pub const NUMBERS: &[&str] = &[
    "",
    "00",
    "01",
    "000",
    "010",
    "0000",
    "0001",
    "1000",
    "9999",
    "10000",
    "65536",
    "4294967296",
    "18446744073709551616",
    "+1",
    "-1",
    "1.",
    "1.0",
    "1e0",
    "0x1",
    "a",
    "1a",
    "\"1\"",
    "\u{661}",
    " 1",
    "1 ",
];

/// What stands in texts of the profile, and what a hand or another program may write instead.
pub const HABITS: &[(&str, &str)] = &[
    (" ", ""),
    (" ", "  "),
    (" ", "\t"),
    (" ", "\n"),
    (" ", "\u{a0}"),
    ("\n", ""),
    ("\n", "\r\n"),
    ("\n", "\r"),
    ("\n", "\n\n"),
    ("\n", "\n\r"),
    ("\n", " \n"),
    ("\n", "\t\n"),
    ("\n", "\n "),
    ("\n", "\n\t"),
    ("\n", "\n//\n"),
    ("\n", "\0"),
    (";", ""),
    (";", ";;"),
    (";", ","),
    ("];", "]"),
    ("]", " ]"),
    ("[", "[ "),
    (" [", "["),
    ("=", " = "),
    ("=", "=="),
    ("=", ":"),
    ("label", "Label"),
    ("label", "color"),
    ("label", "label=0, label"),
    (" [label=", " [label=1"),
    (" [label=", " [label=0"),
    ("->", "--"),
    ("->", "→"),
    (" -> ", "->"),
    (" -> ", " -> 0 -> "),
    ("digraph", "graph"),
    ("digraph", "Digraph"),
    ("digraph", "strict digraph"),
    ("digraph", "\u{feff}digraph"),
    ("digraph {", "digraph{"),
    ("digraph {", "digraph f {"),
    ("digraph {\n", "digraph\n{\n"),
    ("digraph {\n", "digraph {\n}\n"),
    ("digraph {\n", "digraph {\ndigraph {\n"),
    ("digraph {\n", ""),
    ("{", "("),
    ("}", ")"),
    ("}", "};"),
    ("}", "}}"),
    ("}", " }"),
    ("}\n", ""),
];
