//! Errors that look right in reading and drawing, made on purpose: the families of a batch tell each of them from what
//! document 02 says.

#[path = "common/errors.rs"]
mod errors;

use errors::{differing, made, told_apart};
use second::case::Case;
use second::dot::{self, labels_up_to, Drawing};
use second::file::{judge_list, judge_ways_out_of_list, read, write, Edge, Filter, Refusal};
use second::make::{contents, drawings, texts, Family};
use second::profile::LARGE;
use second::random::{seed, Random};

/// Number, place, and what is written.
type Told = (u8, u64, Vec<u8>);

fn told(case: &Case) -> Told {
    let outcome = case.outcome();
    let written = outcome.answer.counts[0] as usize;
    let written = outcome.c[..written].to_vec();
    (outcome.answer.number, outcome.answer.place, written)
}

fn refused(number: u8, place: u64) -> Told {
    (number, place, Vec::new())
}

/// The cases of one batch, and what they come to.
fn tried(families: &[&[Family<Case>]]) -> Vec<(Case, Told)> {
    errors::tried(made(families, &mut Random::new(seed())), told)
}

/// A text that is taken though it is outside the profile, as if it were this one.
#[derive(Clone, Copy, Debug)]
enum Taken {
    LeadingZeros,
    FourDigits,
    CarriageReturns,
    Tabs,
    TwoSpaces,
    BlankLines,
    NoLastNewline,
    SomethingBehind,
    StatesBehindEdges,
    StatesInDisorder,
    StatesTwice,
}

impl Taken {
    const ALL: [Taken; 11] = [
        Taken::LeadingZeros,
        Taken::FourDigits,
        Taken::CarriageReturns,
        Taken::Tabs,
        Taken::TwoSpaces,
        Taken::BlankLines,
        Taken::NoLastNewline,
        Taken::SomethingBehind,
        Taken::StatesBehindEdges,
        Taken::StatesInDisorder,
        Taken::StatesTwice,
    ];

    fn text(self, text: &str) -> String {
        match self {
            Taken::LeadingZeros => with_numbers(text, |digits| {
                let cut = digits.trim_start_matches('0');
                String::from(if cut.is_empty() { "0" } else { cut })
            }),
            Taken::FourDigits => with_numbers(text, |digits| {
                String::from(if digits.len() == 4 { "999" } else { digits })
            }),
            Taken::CarriageReturns => text.replace("\r\n", "\n"),
            Taken::Tabs => text.replace("\t", " "),
            Taken::TwoSpaces => text.replace("  ", " "),
            Taken::BlankLines => text.replace("\n\n", "\n"),
            Taken::NoLastNewline => format!("{text}\n"),
            Taken::SomethingBehind => match text.find("}\n") {
                Some(brace) => String::from(&text[..brace + 2]),
                None => String::from(text),
            },
            Taken::StatesBehindEdges => reordered(text, |lines| {
                lines.sort_by_key(|line| line.contains("->"));
            }),
            Taken::StatesInDisorder => reordered(text, |lines| {
                let states = lines.iter().take_while(|line| !line.contains("->"));
                let states = states.count();
                let number = |line: &String| line.split(' ').next()?.parse::<u64>().ok();
                lines[..states].sort_by_key(number);
            }),
            Taken::StatesTwice => reordered(text, |lines| {
                lines.dedup_by_key(|line| line.split(" [").next().unwrap_or_default().to_string());
            }),
        }
    }
}

fn with_numbers(text: &str, edit: impl Fn(&str) -> String) -> String {
    let mut edited = String::new();
    let mut digits = String::new();
    for letter in text.chars().chain(['\n']) {
        if letter.is_ascii_digit() {
            digits.push(letter);
            continue;
        }
        if !digits.is_empty() {
            edited += &edit(&digits);
            digits.clear();
        }
        edited.push(letter);
    }
    edited.pop();
    edited
}

/// The lines between the first and the last in another order.
fn reordered(text: &str, order: impl Fn(&mut Vec<String>)) -> String {
    let mut lines: Vec<String> = text.split_inclusive('\n').map(String::from).collect();
    let Some(last) = lines.pop() else {
        return String::new();
    };
    let mut inner = lines.split_off(lines.len().min(1));
    order(&mut inner);
    [lines.concat(), inner.concat(), last].concat()
}

#[test]
fn texts_outside_the_profile_that_are_taken() {
    let families = [texts::FAMILIES, contents::FAMILIES];
    let tried = tried(&families);
    for error in Taken::ALL {
        told_apart(&tried, error, 3, |case| {
            dot::read(&case.a).err()?;
            let text = error.text(std::str::from_utf8(&case.a).ok()?).into_bytes();
            dot::read(&text).ok()?;
            Some(told(&Case::from_dot(text, case.c.clone())))
        });
    }
}

/// A place that is not the end of the longest beginning.
#[derive(Clone, Copy, Debug)]
enum Place {
    OfTheLine,
    OfTheNumber,
    /// As if no edge could begin with the number.
    OfTheWrongState,
    /// As if an edge could follow the number.
    BehindTheWrongState,
    CutOffAtZero,
    BehindAtTheEnd,
    OneFurther,
}

impl Place {
    const ALL: [Place; 7] = [
        Place::OfTheLine,
        Place::OfTheNumber,
        Place::OfTheWrongState,
        Place::BehindTheWrongState,
        Place::CutOffAtZero,
        Place::BehindAtTheEnd,
        Place::OneFurther,
    ];

    fn instead_of(self, place: usize, text: &[u8]) -> usize {
        let before = &text[..place];
        let line = before
            .iter()
            .rposition(|&byte| byte == b'\n')
            .map_or(0, |at| at + 1);
        let wrong_state = before.ends_with(b" ") && text[place..].starts_with(b"[");
        match self {
            Place::OfTheLine => line,
            Place::OfTheNumber => {
                let digits = before.iter().rev().take_while(|byte| byte.is_ascii_digit());
                place - digits.count()
            }
            Place::OfTheWrongState if wrong_state => line,
            Place::BehindTheWrongState if wrong_state => place + 1,
            Place::CutOffAtZero if place == text.len() => 0,
            Place::BehindAtTheEnd if before.ends_with(b"}\n") => text.len(),
            Place::OneFurther if place < text.len() => place + 1,
            _ => place,
        }
    }
}

#[test]
fn places_that_are_not_the_longest_beginnings() {
    let tried = tried(&[texts::FAMILIES]);
    for error in Place::ALL {
        told_apart(&tried, error, 20, |case| {
            let place = dot::read(&case.a).err()?;
            Some(refused(15, error.instead_of(place, &case.a) as u64))
        });
    }
}

/// A text of the profile whose numbers are taken wrongly, or judged in another order.
#[derive(Clone, Copy, Debug, PartialEq, Eq)]
enum Judged {
    /// No error.
    Nothing,
    EndsOfAByte,
    ColoursOfSixBits,
    LabelsOfSixBits,
    LabelsCounted,
    HighLabelsAre7,
    HighEndsAre14,
    StatesOfAByte,
    AtMost255States,
    NoStatesIs7,
    EdgesBefore3,
    EdgesBefore14,
    RoomFirst,
    RoomBefore17,
    EndsBehindOrder,
    /// Two edges of one source and label are one too many only if their targets are equal; else the former stands.
    TargetsCount,
}

impl Judged {
    const ALL: [Judged; 15] = [
        Judged::EndsOfAByte,
        Judged::ColoursOfSixBits,
        Judged::LabelsOfSixBits,
        Judged::LabelsCounted,
        Judged::HighLabelsAre7,
        Judged::HighEndsAre14,
        Judged::StatesOfAByte,
        Judged::AtMost255States,
        Judged::NoStatesIs7,
        Judged::EdgesBefore3,
        Judged::EdgesBefore14,
        Judged::RoomFirst,
        Judged::RoomBefore17,
        Judged::EndsBehindOrder,
        Judged::TargetsCount,
    ];

    fn told(self, drawing: Drawing, room: usize) -> Told {
        let Drawing {
            mut colours,
            mut edges,
        } = drawing;
        for edge in &mut edges {
            if self == Judged::EndsOfAByte {
                edge.source %= 256;
                edge.target %= 256;
            }
            if self == Judged::LabelsOfSixBits {
                edge.label %= 64;
            }
        }
        if self == Judged::TargetsCount {
            edges.dedup_by(|next, edge| {
                (edge.source, edge.label) == (next.source, next.label) && edge.target != next.target
            });
        }
        if self == Judged::ColoursOfSixBits {
            colours.iter_mut().for_each(|colour| *colour %= 64);
        }
        let n = match colours.len() as u64 {
            n if self == Judged::StatesOfAByte => (n + 255) % 256 + 1,
            n => n,
        };
        // No states are 256 of a byte, of whatever colour.
        colours.resize(n as usize, 0);
        let mut labels: Vec<u64> = edges.iter().map(|edge| edge.label).collect();
        labels.sort();
        labels.dedup();
        let m = match self {
            Judged::LabelsCounted => (labels.len() as u64).max(1),
            _ => labels_up_to(&edges),
        };
        let high_end = edges
            .iter()
            .any(|edge| edge.source > 255 || edge.target > 255);
        let most = if self == Judged::AtMost255States {
            255
        } else {
            256
        };
        let outside = n > most
            || n == 0 && self != Judged::NoStatesIs7
            || colours.iter().any(|&colour| colour > 63)
            || m > 64 && self != Judged::HighLabelsAre7
            || high_end && self == Judged::HighEndsAre14;
        let bits = 37 + 6 * n + 22 * edges.len() as u64;
        let short = (room as u64) < bits.div_ceil(8);
        let m_of_edges = if self == Judged::HighLabelsAre7 {
            m.min(64)
        } else {
            m
        };
        let faulty = self.faulty(&edges, n, m_of_edges);
        let too_many = edges.len() as u64 > n * m;
        let filter = Filter {
            colours,
            m,
            start: 0,
            edges,
        };
        let way_out = match faulty {
            Some(_) => None,
            None => told_of(judge_ways_out_of_list(&filter)),
        };
        let mut tests = vec![
            outside.then_some(refused(14, 0)),
            too_many.then_some(refused(3, 0)),
            faulty,
            way_out,
            short.then_some(refused(10, 0)),
        ];
        match self {
            Judged::EdgesBefore3 => tests.swap(1, 2),
            Judged::EdgesBefore14 => tests.rotate_left(2),
            Judged::RoomFirst => tests.rotate_right(1),
            Judged::RoomBefore17 => tests.swap(3, 4),
            Judged::NoStatesIs7 if n == 0 => return refused(7, 0),
            _ => {}
        }
        let refusal = tests.into_iter().flatten().next();
        refusal.unwrap_or_else(|| (0, 0, write(&filter)))
    }

    fn faulty(self, edges: &[Edge], n: u64, m: u64) -> Option<Told> {
        let judged = |n| judge_list(edges, n, m);
        told_of(match self {
            // The order in a first walk, the ends in a second.
            Judged::EndsBehindOrder => judged(1000).and_then(|()| judged(n)),
            _ => judged(n),
        })
    }
}

fn told_of(judgement: Result<(), Refusal>) -> Option<Told> {
    let refusal = judgement.err()?;
    Some(refused(refusal.number, refusal.place))
}

#[test]
fn numbers_that_are_taken_or_judged_wrongly() {
    let families = [texts::FAMILIES, contents::FAMILIES];
    let tried = tried(&families);
    let wrong = |error: Judged, case: &Case| {
        let drawing = dot::read(&case.a).ok()?;
        Some(error.told(drawing, case.c.len()))
    };
    assert_eq!(differing(&tried, |case| wrong(Judged::Nothing, case)), 0);
    for error in Judged::ALL {
        told_apart(&tried, error, 3, |case| wrong(error, case));
    }
}

#[derive(Clone, Copy, Debug, PartialEq, Eq)]
enum Drawn {
    /// No error.
    Nothing,
    AnyStart,
    UnusedLabels,
    UnusedLabelsWithoutEdges,
    RoomFirst,
    BeforeTheEdges,
    BeforeTheFault,
    TargetBeforeSource,
    NoLastNewline,
    ColoursFromOne,
}

impl Drawn {
    const ALL: [Drawn; 9] = [
        Drawn::AnyStart,
        Drawn::UnusedLabels,
        Drawn::UnusedLabelsWithoutEdges,
        Drawn::RoomFirst,
        Drawn::BeforeTheEdges,
        Drawn::BeforeTheFault,
        Drawn::TargetBeforeSource,
        Drawn::NoLastNewline,
        Drawn::ColoursFromOne,
    ];

    fn told(self, filter: Filter, room: usize) -> Told {
        let without_edges = filter.edges.is_empty();
        let labels = filter.m != labels_up_to(&filter.edges)
            && self != Drawn::UnusedLabels
            && !(self == Drawn::UnusedLabelsWithoutEdges && without_edges);
        let start = filter.start != 0 && self != Drawn::AnyStart;
        let mut edges = filter.edges;
        let mut colours = filter.colours;
        if self == Drawn::TargetBeforeSource {
            edges.iter_mut().for_each(|edge| {
                std::mem::swap(&mut edge.source, &mut edge.target);
            });
        }
        if self == Drawn::ColoursFromOne {
            colours.iter_mut().for_each(|colour| *colour += 1);
        }
        let mut text = dot::write(&colours, &edges);
        if self == Drawn::NoLastNewline {
            text.pop();
        }
        let mut tests = [
            (start || labels, refused(15, 0)),
            (room < text.len(), refused(10, 0)),
        ];
        if self == Drawn::RoomFirst {
            tests.swap(0, 1);
        }
        match tests.into_iter().find(|(holds, _)| *holds) {
            Some((_, refusal)) => refusal,
            None => (0, 0, text.into_bytes()),
        }
    }
}

#[test]
fn filters_that_are_drawn_wrongly() {
    let tried = tried(&[drawings::FAMILIES]);
    let wrong = |error: Drawn, case: &Case| match read(&case.a) {
        Ok(filter) => Some(error.told(filter, case.c.len())),
        Err(refusal) => {
            let comes_first = match refusal.number {
                7..=9 => error == Drawn::BeforeTheEdges,
                17 => error == Drawn::BeforeTheFault,
                _ => false,
            };
            let other_start = LARGE.header(&case.a)?.start != 0;
            (comes_first && other_start).then(|| refused(15, 0))
        }
    };
    assert_eq!(differing(&tried, |case| wrong(Drawn::Nothing, case)), 0);
    for error in Drawn::ALL {
        told_apart(&tried, error, 5, |case| wrong(error, case));
    }
}
