//! Document 02's drawings, wish 1: a narrow profile of DOT, read and written.
//!
//! A text is read byte by byte with all lines in mind that it may be in the midst of; those that a byte does not fit are
//! given up, and the text leaves the profile where none is left.

pub mod by_force;

use crate::file::{Edge, Filter};

/// What a text says. Its numbers go up to 999, whatever a filter may have.
#[derive(Clone, Debug, Default, PartialEq, Eq)]
pub struct Drawing {
    pub colours: Vec<u64>,
    pub edges: Vec<Edge>,
}

/// What a drawing has for m: the largest label plus one, or 1 without edges.
pub fn labels_up_to(edges: &[Edge]) -> u64 {
    edges.iter().map(|edge| edge.label + 1).max().unwrap_or(1)
}

/// Whether a drawing says all of a filter, for it gives neither the start nor m.
pub fn can_be_drawn(filter: &Filter) -> bool {
    filter.start == 0 && filter.m == labels_up_to(&filter.edges)
}

/// The text of these lists, which may have more than a filter can.
pub fn write(colours: &[u64], edges: &[Edge]) -> String {
    let mut text = String::from(FIRST);
    for (state, colour) in colours.iter().enumerate() {
        text += &format!("{state} [label={colour}];\n");
    }
    for edge in edges {
        let Edge {
            source,
            label,
            target,
        } = edge;
        text += &format!("{source} -> {target} [label={label}];\n");
    }
    text + LAST
}

const FIRST: &str = "digraph {\n";
const LAST: &str = "}\n";

/// In the template of a line this stands for a number.
const NUMBER: u8 = b'#';

/// The most that three digits can say.
const TOP: u64 = 999;

/// Reads a text, or says how long its longest beginning is that a text of the profile also has.
pub fn read(text: &[u8]) -> Result<Drawing, usize> {
    let mut drawing = Drawing::default();
    let mut hopes = vec![Hope::of(Line::First, FIRST)];
    for (place, &byte) in text.iter().enumerate() {
        hopes.retain_mut(|hope| hope.takes(byte));
        if hopes.is_empty() {
            return Err(place);
        }
        if byte == b'\n' {
            // No two lines are alike to their ends, so one is left.
            hopes = after(&mut drawing, &hopes[0]);
        }
    }
    if hopes.is_empty() {
        Ok(drawing)
    } else {
        Err(text.len())
    }
}

/// Takes a whole line, and says which may follow.
fn after(drawing: &mut Drawing, whole: &Hope) -> Vec<Hope> {
    match (whole.line, &whole.numbers[..]) {
        (Line::First, []) => {}
        (Line::State, &[colour]) => drawing.colours.push(colour),
        (Line::Edge, &[source, target, label]) => drawing.edges.push(Edge {
            source,
            label,
            target,
        }),
        (Line::Last, []) => return Vec::new(),
        (line, numbers) => panic!("{line:?} with {numbers:?}"),
    }
    let mut hopes = vec![
        Hope::of(Line::Edge, "# -> # [label=#];\n"),
        Hope::of(Line::Last, LAST),
    ];
    let next = drawing.colours.len() as u64;
    if drawing.edges.is_empty() && next <= TOP {
        let template = format!("{next} [label=#];\n");
        hopes.push(Hope::of(Line::State, &template));
    }
    hopes
}

#[derive(Clone, Copy, Debug, PartialEq, Eq)]
enum Line {
    First,
    State,
    Edge,
    Last,
}

/// A line that the text may be in the midst of.
struct Hope {
    line: Line,
    template: Vec<u8>,
    /// How much of the template has been met.
    met: usize,
    /// Those that are whole, and the digits of one that is not.
    numbers: Vec<u64>,
    digits: String,
}

impl Hope {
    fn of(line: Line, template: &str) -> Hope {
        Hope {
            line,
            template: template.as_bytes().to_vec(),
            met: 0,
            numbers: Vec::new(),
            digits: String::new(),
        }
    }

    /// Goes on by a byte, if the line can.
    fn takes(&mut self, byte: u8) -> bool {
        if self.template[self.met] == NUMBER {
            self.digits.push(char::from(byte));
            if is_number(&self.digits) {
                return true;
            }
            // The number has ended before this byte, unless it has not even begun.
            self.digits.pop();
            let Ok(number) = self.digits.parse() else {
                return false;
            };
            self.numbers.push(number);
            self.digits.clear();
            self.met += 1;
        }
        self.met += 1;
        self.template[self.met - 1] == byte
    }
}

/// Whether it is what one writes for a number, so without leading zeros. A beginning of such digits is a number too.
fn is_number(digits: &str) -> bool {
    let number = digits.parse::<u64>();
    number.is_ok_and(|number| number <= TOP && number.to_string() == digits)
}
