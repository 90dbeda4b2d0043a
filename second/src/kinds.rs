//! The kinds of outcome that a run has to hit, so that none is left to luck.

use crate::call::{from_lists, from_text, Answer, DROPPED};
use crate::case::{entries_of, Call, Case, Outcome};
use crate::dot::{self, labels_up_to, Drawing};
use crate::file::{read, write, Edge, Filter, Header, FAULT};
use crate::make::groups::many_groups;
use crate::profile::{Profile, POCKET};
use crate::reach::reached;
use crate::reduce::{groups_made, stages};
use crate::trace::MOST_OBSERVATIONS;
use std::collections::BTreeSet;

/// Of the outcome of some call, which goes without saying.
#[derive(Clone, Copy, Debug, PartialEq, Eq, PartialOrd, Ord)]
pub enum Kind {
    Number(u8),
    /// A refusal that names an edge or an observation.
    At(u8, Where),
    /// A file's 7 by this field of an edge.
    AtField(Field, Where),
    /// Accepted with as many states, labels and edges as there can be, and the highest colour.
    Largest,
    Traced,
    /// Traced without any observation.
    StartAlone,
    Stopped(Where),
    /// Trace's 12 with room enough, and with few enough observations.
    TooMany,
    ShortRoom,
    /// Reduce's 10 where the class list is short too.
    BothShort,
    NoRound,
    ManyRounds,
    NothingMerged,
    Merged,
    /// So many groups in one round.
    Groups(u64),
    /// A member that joins a group of this word of 64, while there are groups with higher numbers.
    JoinedInWord(usize),
    /// Where dropped states stand among those that the start reaches, and that it reaches itself alone.
    NothingDropped,
    DroppedBefore,
    DroppedBetween,
    DroppedBehind,
    AllButOneDropped,
    /// A text's 15: at its first byte, further on, behind the closing brace, and at its end, where something is missing.
    AtOnce,
    Inside,
    Behind,
    CutOff,
    /// A text's 14.
    NoStates,
    ManyStates,
    HighColour,
    HighLabel,
    /// A text's 7 by an end that one byte could hold, and by one that it could not.
    EndOfAByte,
    HighEnd,
    /// A filter's 15.
    OtherStart,
    UnusedLabel,
    /// A large file's 16: by these of n, m and the colours.
    TooLarge {
        states: bool,
        labels: bool,
        colours: bool,
    },
    /// By one colour alone, of a state that stands here, and of one that the start does not lead to.
    OneHighColour(Where),
    OfALeftover,
    /// In no room at all.
    WithoutRoom,
    /// A 17 by the only edge out of the fault, by the first of several, and by one that the start does not lead to.
    OnlyWayOut,
    FirstWayOut,
    WayOutOfALeftover,
    /// A 17 where this would come otherwise.
    InsteadOf(u8),
    /// A 7, 8 or 9 though some edge before it leads out of the fault, or some edge behind it.
    BehindAWayOut(u8),
    BeforeAWayOut(u8),
    /// Accepted with an edge into the fault, with one within it, and with edges but no other colour.
    IntoTheFault,
    WithinTheFault,
    TheFaultAlone,
}

/// The kinds that were hit, by call.
#[derive(Debug, Default)]
pub struct Seen(BTreeSet<(Call, Kind)>);

impl Seen {
    pub fn add(&mut self, call: Call, kinds: Vec<Kind>) {
        self.0.extend(kinds.into_iter().map(|kind| (call, kind)));
    }

    /// What no case has led to.
    pub fn missing(&self) -> Vec<(Call, Kind)> {
        let of_call = |call| all_of(call).into_iter().map(move |kind| (call, kind));
        let all = Call::ALL.into_iter().flat_map(of_call);
        all.filter(|kind| !self.0.contains(kind)).collect()
    }

    /// Numbers that came though the call cannot answer with them.
    pub fn beyond(&self) -> Vec<(Call, u8)> {
        let number = |&(call, kind): &(Call, Kind)| match kind {
            Kind::Number(number) if !call.numbers().contains(&number) => Some((call, number)),
            _ => None,
        };
        self.0.iter().filter_map(number).collect()
    }
}

/// So many rounds are many; two less than the states are the most that there can be.
pub fn many_rounds(profile: Profile) -> u64 {
    profile.most_states() * 4 / 5
}

/// Where something stands among its like.
#[derive(Clone, Copy, Debug, PartialEq, Eq, PartialOrd, Ord)]
pub enum Where {
    First,
    Middle,
    Last,
}

impl Where {
    pub const ALL: [Where; 3] = [Where::First, Where::Middle, Where::Last];

    fn of(place: u64, count: u64) -> Where {
        if place == 0 {
            Where::First
        } else if place == count - 1 {
            Where::Last
        } else {
            Where::Middle
        }
    }
}

/// A field of an edge.
#[derive(Clone, Copy, Debug, PartialEq, Eq, PartialOrd, Ord)]
pub enum Field {
    Source,
    Label,
    Target,
}

impl Field {
    pub const ALL: [Field; 3] = [Field::Source, Field::Label, Field::Target];

    /// How many of the edge's bits stand before it.
    pub fn within(self, profile: Profile) -> u64 {
        let before = match self {
            Field::Source => 0,
            Field::Label => profile.source,
            Field::Target => profile.source + profile.label,
        };
        before as u64
    }
}

/// All kinds that a call has.
pub fn all_of(call: Call) -> Vec<Kind> {
    let mut all: Vec<Kind> = call.numbers().iter().copied().map(Kind::Number).collect();
    // The first edge has none before it, so it can only have 7.
    all.push(Kind::At(7, Where::First));
    for number in 7..=9 {
        all.push(Kind::At(number, Where::Middle));
        all.push(Kind::At(number, Where::Last));
    }
    if call.reads().is_some() {
        for field in Field::ALL {
            all.extend(Where::ALL.map(|place| Kind::AtField(field, place)));
        }
    }
    if held_by(call).is_some() {
        all.push(Kind::Largest);
    }
    if call.meets_the_fault() {
        all.extend(all_of_the_fault(call));
    }
    all.extend(match call {
        Call::Check(_) | Call::Unpack(_) | Call::Pack(_) | Call::ToLarge => Vec::new(),
        Call::Trace(_) => all_of_trace(),
        Call::Reduce(profile) => all_of_reduce(profile),
        Call::FromDot => all_of_text(),
        Call::ToDot => vec![Kind::OtherStart, Kind::UnusedLabel],
        Call::ToPocket => all_of_too_large(),
    });
    all
}

fn all_of_the_fault(call: Call) -> Vec<Kind> {
    let mut all = vec![Kind::OnlyWayOut, Kind::FirstWayOut, Kind::WayOutOfALeftover];
    all.extend(Where::ALL.map(|place| Kind::At(17, place)));
    all.extend(behind_17(call).iter().copied().map(Kind::InsteadOf));
    for number in 7..=9 {
        all.extend([Kind::BehindAWayOut(number), Kind::BeforeAWayOut(number)]);
    }
    // No pocket file has such a colour.
    if call != Call::ToPocket {
        all.extend([
            Kind::IntoTheFault,
            Kind::WithinTheFault,
            Kind::TheFaultAlone,
        ]);
    }
    all
}

/// What can come instead of 17, since it is tested behind it; or 0.
fn behind_17(call: Call) -> &'static [u8] {
    match call {
        Call::Check(_) => &[0],
        Call::Unpack(_) => &[0, 12],
        Call::Pack(_) | Call::FromDot => &[0, 10],
        Call::Trace(_) => &[0, 12, 13],
        Call::Reduce(_) => &[0, 10, 11],
        Call::ToDot => &[0, 15, 10],
        // The fault is too high a colour, and 10 comes behind that.
        Call::ToPocket => &[16],
        Call::ToLarge => &[],
    }
}

fn all_of_trace() -> Vec<Kind> {
    let mut all = vec![
        Kind::Traced,
        Kind::StartAlone,
        Kind::TooMany,
        Kind::ShortRoom,
    ];
    all.extend(Where::ALL.map(|place| Kind::At(13, place)));
    all.extend(Where::ALL.map(Kind::Stopped));
    all
}

fn all_of_reduce(profile: Profile) -> Vec<Kind> {
    let mut all = vec![
        Kind::BothShort,
        Kind::NoRound,
        Kind::ManyRounds,
        Kind::NothingMerged,
        Kind::Merged,
        Kind::NothingDropped,
        Kind::DroppedBefore,
        Kind::DroppedBetween,
        Kind::DroppedBehind,
        Kind::AllButOneDropped,
    ];
    all.extend(many_groups(profile).into_iter().map(Kind::Groups));
    let words = profile.most_states().div_ceil(64);
    all.extend((0..words as usize).map(Kind::JoinedInWord));
    all
}

fn all_of_text() -> Vec<Kind> {
    vec![
        Kind::AtOnce,
        Kind::Inside,
        Kind::Behind,
        Kind::CutOff,
        Kind::NoStates,
        Kind::ManyStates,
        Kind::HighColour,
        Kind::HighLabel,
        Kind::EndOfAByte,
        Kind::HighEnd,
    ]
}

fn all_of_too_large() -> Vec<Kind> {
    let mut all = vec![Kind::OfALeftover, Kind::WithoutRoom];
    all.extend(Where::ALL.map(Kind::OneHighColour));
    for reasons in 1..8 {
        all.push(Kind::TooLarge {
            states: reasons & 1 != 0,
            labels: reasons & 2 != 0,
            colours: reasons & 4 != 0,
        });
    }
    all
}

/// The kinds that this outcome is of.
pub fn of(case: &Case, outcome: &Outcome) -> Vec<Kind> {
    let answer = outcome.answer;
    let mut kinds = vec![Kind::Number(answer.number)];
    if [7, 8, 9, 17].contains(&answer.number) {
        let (edge, field) = faulty_field(case, answer.place);
        let place = Where::of(edge, edges_of(case));
        kinds.push(Kind::At(answer.number, place));
        if answer.number == 7 {
            kinds.extend(field.map(|field| Kind::AtField(field, place)));
        }
    }
    if answer.number == 0 && is_largest(case) {
        kinds.push(Kind::Largest);
    }
    if case.call.meets_the_fault() {
        kinds.extend(of_the_fault(case, answer));
    }
    match case.call {
        Call::Trace(_) => kinds.extend(of_trace(case, outcome)),
        Call::Reduce(profile) => kinds.extend(of_reduce(profile, case, outcome)),
        Call::FromDot => kinds.extend(of_text(case, outcome)),
        Call::ToDot => kinds.extend(of_drawn(case, outcome)),
        Call::ToPocket => kinds.extend(of_too_large(case, outcome)),
        Call::Check(_) | Call::Unpack(_) | Call::Pack(_) | Call::ToLarge => {}
    }
    kinds
}

/// The edge at fault; and which of its fields, where the place is a bit of a file.
fn faulty_field(case: &Case, place: u64) -> (u64, Option<Field>) {
    let Some(profile) = case.call.reads() else {
        return (place, None);
    };
    let n = profile.header(&case.a).expect("a header").n;
    let bit = place - profile.edges_at(n);
    let width = profile.edge_bits() as u64;
    let field = Field::ALL
        .into_iter()
        .find(|&field| field.within(profile) == bit % width)
        .expect("the first bit of a field");
    (bit / width, Some(field))
}

/// The profile whose limits bound what the call accepts. Texts are left to those who count them.
fn held_by(call: Call) -> Option<Profile> {
    match call {
        Call::FromDot | Call::ToDot => None,
        Call::Pack(profile) => Some(profile),
        // The smaller of the two that it has to do with.
        Call::ToPocket => Some(POCKET),
        _ => call.reads(),
    }
}

/// Of an accepted case.
fn is_largest(case: &Case) -> bool {
    let Some(held_by) = held_by(case.call) else {
        return false;
    };
    let most = (
        held_by.most_states(),
        held_by.most_labels(),
        held_by.most_edges(),
    );
    let top = held_by.top_colour();
    match case.call.reads() {
        Some(profile) => {
            let Header { n, m, e, .. } = profile.header(&case.a).expect("a header");
            let colours = || profile.read(&case.a).expect("accepted").colours;
            (n, m, e) == most && colours().contains(&top)
        }
        None => {
            let sizes = (case.a.len() as u64, case.first, edges_of(case));
            sizes == most && case.a.contains(&(top as u8))
        }
    }
}

/// The filter that a call was given, where nothing but its edges can be wrong with it.
pub fn filter_of(case: &Case) -> Filter {
    let filter = match (case.call, case.call.reads()) {
        (_, Some(profile)) => profile.unjudged(&case.a).map(|(filter, _)| filter),
        (Call::FromDot, None) => from_text(&case.a),
        (_, None) => from_lists(&case.a, &case.b, case.first, case.second),
    };
    filter.expect("what is accepted, or refused for an edge")
}

fn of_the_fault(case: &Case, answer: Answer) -> Vec<Kind> {
    match answer.number {
        0 => of_kept(&filter_of(case)),
        7..=9 => {
            let (edge, _) = faulty_field(case, answer.place);
            beside_ways_out(&filter_of(case), answer.number, edge as usize)
        }
        17 => of_left(case, &filter_of(case)),
        _ => Vec::new(),
    }
}

/// Of a filter that was accepted.
fn of_kept(filter: &Filter) -> Vec<Kind> {
    let is_fault = |state: u64| filter.colours[state as usize] == FAULT;
    let leads = |from: bool, to: bool| {
        let ends = |edge: &Edge| (is_fault(edge.source), is_fault(edge.target)) == (from, to);
        filter.edges.iter().any(ends)
    };
    those([
        (Kind::IntoTheFault, leads(false, true)),
        (Kind::WithinTheFault, leads(true, true)),
        (
            Kind::TheFaultAlone,
            filter.e() > 0 && (0..filter.n()).all(is_fault),
        ),
    ])
}

/// Of a call that was refused with 17.
fn of_left(case: &Case, filter: &Filter) -> Vec<Kind> {
    let ways_out: Vec<&Edge> = (filter.edges.iter())
        .filter(|edge| filter.is_way_out(edge))
        .collect();
    let left_over = !reached(filter).contains(&ways_out[0].source);
    let mut kinds = those([
        (Kind::OnlyWayOut, ways_out.len() == 1),
        (Kind::FirstWayOut, ways_out.len() > 1),
        (Kind::WayOutOfALeftover, left_over),
    ]);
    let otherwise = without_the_fault(case, filter).outcome().answer.number;
    kinds.push(Kind::InsteadOf(otherwise));
    kinds
}

/// The same call for a filter that has the next lower colour for the fault.
pub fn without_the_fault(case: &Case, filter: &Filter) -> Case {
    let lower = |&colour: &u64| if colour == FAULT { FAULT - 1 } else { colour };
    let filter = Filter {
        colours: filter.colours.iter().map(lower).collect(),
        ..filter.clone()
    };
    let a = match case.call {
        Call::Pack(_) => filter.lists().0,
        Call::FromDot => dot::write(&filter.colours, &filter.edges).into_bytes(),
        _ => write(&filter),
    };
    Case { a, ..case.clone() }
}

/// Of a call that was refused with 7, 8 or 9 for this edge.
fn beside_ways_out(filter: &Filter, number: u8, edge: usize) -> Vec<Kind> {
    // The ends of an edge that is not tested may be no states.
    let leads_out =
        |edge: &Edge| edge.source.max(edge.target) < filter.n() && filter.is_way_out(edge);
    let (before, behind) = (&filter.edges[..edge], &filter.edges[edge + 1..]);
    those([
        (Kind::BehindAWayOut(number), before.iter().any(leads_out)),
        (Kind::BeforeAWayOut(number), behind.iter().any(leads_out)),
    ])
}

/// Those that hold.
fn those<const COUNT: usize>(kinds: [(Kind, bool); COUNT]) -> Vec<Kind> {
    let hold = kinds.into_iter().filter(|&(_, holds)| holds);
    hold.map(|(kind, _)| kind).collect()
}

fn of_trace(case: &Case, outcome: &Outcome) -> Option<Kind> {
    let answer = outcome.answer;
    let observations = case.b.len();
    let place = |index| Where::of(index, observations as u64);
    match answer.number {
        0 if answer.counts[0] == 1 => Some(Kind::Stopped(place(answer.counts[1]))),
        0 if observations == 0 => Some(Kind::StartAlone),
        0 => Some(Kind::Traced),
        12 if case.c.len() > observations => Some(Kind::TooMany),
        12 if observations <= MOST_OBSERVATIONS => Some(Kind::ShortRoom),
        13 => Some(Kind::At(13, place(answer.place))),
        _ => None,
    }
}

fn of_reduce(profile: Profile, case: &Case, outcome: &Outcome) -> Vec<Kind> {
    let n = profile.header(&case.a).map_or(0, |header| header.n);
    let [states, colours, rounds, _] = outcome.answer.counts;
    let mut kinds = Vec::new();
    match outcome.answer.number {
        0 => {
            if rounds == 0 {
                kinds.push(Kind::NoRound);
            }
            if rounds >= many_rounds(profile) {
                kinds.push(Kind::ManyRounds);
            }
            let list = &entries_of(&outcome.c)[..n as usize];
            let dropped: Vec<bool> = list.iter().map(|&entry| entry == DROPPED).collect();
            let reached = dropped.iter().filter(|&&dropped| !dropped).count();
            kinds.push(if states == reached as u64 {
                Kind::NothingMerged
            } else {
                Kind::Merged
            });
            kinds.extend(of_dropped(&dropped));
            // Each round makes one class more at least, so that only few reductions can have had one with many groups.
            if states + 2 >= colours + rounds + many_groups(profile)[0] {
                let filter = profile.read(&case.a).expect("an accepted file");
                kinds.extend(of_groups(&filter));
            }
        }
        10 if (case.c.len() as u64) < 2 * n => kinds.push(Kind::BothShort),
        _ => {}
    }
    kinds
}

fn of_groups(filter: &Filter) -> Vec<Kind> {
    let mut kinds = Vec::new();
    for groups in groups_made(&stages(filter)) {
        kinds.push(Kind::Groups(groups.len() as u64));
        for (number, two) in groups.windows(2).enumerate() {
            if two[0].last() > two[1].first() {
                kinds.push(Kind::JoinedInWord(number / 64));
            }
        }
    }
    kinds
}

/// Of each state whether it is dropped.
fn of_dropped(states: &[bool]) -> Vec<Kind> {
    let first = states.iter().position(|&dropped| !dropped);
    let last = states.iter().rposition(|&dropped| !dropped);
    let (Some(first), Some(last)) = (first, last) else {
        return Vec::new();
    };
    those([
        (Kind::NothingDropped, !states.contains(&true)),
        (Kind::DroppedBefore, first > 0),
        (Kind::DroppedBetween, states[first..last].contains(&true)),
        (Kind::DroppedBehind, last + 1 < states.len()),
        (Kind::AllButOneDropped, first == last && states.len() > 1),
    ])
}

fn of_text(case: &Case, outcome: &Outcome) -> Option<Kind> {
    match outcome.answer.number {
        15 => Some(of_place(&case.a, outcome.answer.place as usize)),
        14 => of_sizes(&drawing_of(case)),
        7 => {
            let edge = drawing_of(case).edges[outcome.answer.place as usize];
            Some(if edge.source > 255 || edge.target > 255 {
                Kind::HighEnd
            } else {
                Kind::EndOfAByte
            })
        }
        _ => None,
    }
}

fn of_place(text: &[u8], place: usize) -> Kind {
    if place == text.len() {
        Kind::CutOff
    } else if place == 0 {
        Kind::AtOnce
    } else if text[..place].ends_with(b"}\n") {
        Kind::Behind
    } else {
        Kind::Inside
    }
}

/// The reason of a 14, where there is no other.
fn of_sizes(drawing: &Drawing) -> Option<Kind> {
    let states = drawing.colours.len();
    let reasons = [
        (Kind::NoStates, states == 0),
        (Kind::ManyStates, states > 256),
        (Kind::HighColour, drawing.colours.iter().any(|&c| c > 63)),
        (Kind::HighLabel, labels_up_to(&drawing.edges) > 64),
    ];
    let mut given = reasons.into_iter().filter(|&(_, holds)| holds);
    match (given.next(), given.next()) {
        (Some((kind, _)), None) => Some(kind),
        _ => None,
    }
}

/// Of a text that was not refused as one.
fn drawing_of(case: &Case) -> Drawing {
    dot::read(&case.a).expect("a text of the profile")
}

/// The reason of a filter's 15, where there is no other.
fn of_drawn(case: &Case, outcome: &Outcome) -> Option<Kind> {
    if outcome.answer.number != 15 {
        return None;
    }
    let filter = read(&case.a).expect("an accepted file");
    let all_used = filter.m == labels_up_to(&filter.edges);
    match (filter.start == 0, all_used) {
        (false, true) => Some(Kind::OtherStart),
        (true, false) => Some(Kind::UnusedLabel),
        _ => None,
    }
}

/// Why a large file is none that a pocket file can stand for.
fn of_too_large(case: &Case, outcome: &Outcome) -> Vec<Kind> {
    if outcome.answer.number != 16 {
        return Vec::new();
    }
    let filter = read(&case.a).expect("an accepted file");
    let high: Vec<u64> = (0..)
        .zip(&filter.colours)
        .filter(|&(_, &colour)| colour > POCKET.top_colour())
        .map(|(state, _)| state)
        .collect();
    let states = filter.n() > POCKET.most_states();
    let labels = filter.m > POCKET.most_labels();
    let colours = !high.is_empty();
    let mut kinds = vec![Kind::TooLarge {
        states,
        labels,
        colours,
    }];
    if case.c.is_empty() {
        kinds.push(Kind::WithoutRoom);
    }
    if let ([state], false, false) = (&high[..], states, labels) {
        kinds.push(Kind::OneHighColour(Where::of(*state, filter.n())));
        if !reached(&filter).contains(state) {
            kinds.push(Kind::OfALeftover);
        }
    }
    kinds
}

fn edges_of(case: &Case) -> u64 {
    match (case.call, case.call.reads()) {
        (_, Some(profile)) => profile.header(&case.a).map_or(0, |header| header.e),
        (Call::FromDot, None) => drawing_of(case).edges.len() as u64,
        (_, None) => case.b.len() as u64 / 3,
    }
}
