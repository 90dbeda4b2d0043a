//! Errors that look right about a fault that stays a fault, made on purpose: the families of a batch tell each of them from what
//! document 02 says, in every call that has 17.

use second::case::{Call, Case};
use second::file::{Edge, Filter};
use second::kinds::{self, filter_of, without_the_fault, Field, Kind};
use second::make::batch;
use second::profile::POCKET;
use second::random::{seed, Random};
use second::reach::reached;

/// Number and place.
type Told = (u8, u64);

fn told(case: &Case) -> Told {
    let answer = case.outcome().answer;
    (answer.number, answer.place)
}

/// A call that comes to the test of the edges.
struct Tried {
    call: Call,
    filter: Filter,
    right: Told,
    /// What would come if the filter had no fault.
    rest: Told,
}

impl Tried {
    /// The calls of so many batches, without the longest, which show nothing that others do not.
    fn all(batches: usize) -> Vec<Tried> {
        let mut random = Random::new(seed());
        let mut all = Vec::new();
        for _ in 0..batches {
            let cases = batch(&mut random).into_iter().map(|made| made.case);
            all.extend(
                cases
                    .filter(|case| case.a.len() < 20_000)
                    .filter_map(Tried::of),
            );
        }
        all
    }

    fn of(case: Case) -> Option<Tried> {
        let right = told(&case);
        match right.0 {
            1..=6 | 14 => return None,
            15 if case.call == Call::FromDot => return None,
            _ => {}
        }
        let filter = filter_of(&case);
        let rest = match right.0 {
            17 => told(&without_the_fault(&case, &filter)),
            _ => right,
        };
        Some(Tried {
            call: case.call,
            filter,
            right,
            rest,
        })
    }

    /// A field of an edge, as the call names it.
    fn place(&self, edge: usize, field: Field) -> u64 {
        match self.call.reads() {
            Some(profile) => profile.bits(self.filter.n(), edge as u64) + field.within(profile),
            None => edge as u64,
        }
    }
}

#[derive(Clone, Copy, Debug, PartialEq, Eq)]
enum Error {
    /// No error.
    Nothing,
    NotTested,
    /// Other edges than those that leave the fault.
    IntoTheFault,
    BothWays,
    /// All edges of a fault, or all but those to itself.
    AnyOfAFault,
    ToAnotherState,
    /// Another colour for the fault, or one more.
    NextLower,
    NextLowerToo,
    /// The faults that the start leads to alone, or those among the first 64 states.
    LiveAlone,
    FirstWordAlone,
    /// Another edge, or another place of that one.
    LastOfAll,
    EdgeBehind,
    PlaceOfTheLabel,
    PlaceOfTheTarget,
    IndexAsPlace,
    StateAsPlace,
    NoPlace,
    /// Told before 7, 8 and 9, or before those of later edges.
    BeforeTheEdges,
    EdgeByEdge,
    /// Told behind this number.
    Behind(u8),
}

impl Error {
    const OF_EACH_CALL: [Error; 15] = [
        Error::NotTested,
        Error::IntoTheFault,
        Error::BothWays,
        Error::AnyOfAFault,
        Error::ToAnotherState,
        Error::NextLower,
        Error::NextLowerToo,
        Error::LiveAlone,
        Error::FirstWordAlone,
        Error::LastOfAll,
        Error::EdgeBehind,
        Error::StateAsPlace,
        Error::NoPlace,
        Error::BeforeTheEdges,
        Error::EdgeByEdge,
    ];

    /// Those that a call can show: in lists and texts an edge has one place, and what comes behind 17 depends on the call.
    fn all(call: Call) -> Vec<Error> {
        let mut all = Error::OF_EACH_CALL.to_vec();
        if call.reads().is_some() {
            all.extend([
                Error::PlaceOfTheLabel,
                Error::PlaceOfTheTarget,
                Error::IndexAsPlace,
            ]);
        }
        for kind in kinds::all_of(call) {
            if let Kind::InsteadOf(number @ 1..) = kind {
                all.push(Error::Behind(number));
            }
        }
        all
    }

    /// What the call would tell.
    fn told(self, tried: &Tried) -> Told {
        let found = self.found(&tried.filter);
        let way_out = found.map(|edge| (17, self.place(tried, edge)));
        let faulty = (7..=9).contains(&tried.right.0).then_some(tried.right);
        match self {
            Error::BeforeTheEdges => way_out.or(faulty).unwrap_or(tried.rest),
            Error::EdgeByEdge => match (found, faulty) {
                // The faulty edge is that one, or stands before it.
                (Some(edge), Some(faulty)) if tried.place(edge + 1, Field::Source) > faulty.1 => {
                    faulty
                }
                _ => way_out.or(faulty).unwrap_or(tried.rest),
            },
            Error::Behind(number) if number == tried.rest.0 => tried.rest,
            _ => faulty.or(way_out).unwrap_or(tried.rest),
        }
    }

    /// The edge that is told.
    fn found(self, filter: &Filter) -> Option<usize> {
        let colour = |state: u64| filter.colours[state as usize];
        let is_fault = |state: u64| match self {
            Error::NextLower => colour(state) == 62,
            Error::NextLowerToo => colour(state) >= 62,
            _ => colour(state) == 63,
        };
        let is_told = |edge: &Edge| {
            // The ends of an edge that is refused with 7 may be no states.
            if edge.source.max(edge.target) >= filter.n() {
                return false;
            }
            let (from, to) = (is_fault(edge.source), is_fault(edge.target));
            match self {
                Error::NotTested => false,
                Error::IntoTheFault => !from && to,
                Error::BothWays => from != to,
                Error::AnyOfAFault => from,
                Error::ToAnotherState => from && edge.source != edge.target,
                Error::LiveAlone => from && !to && reached(filter).contains(&edge.source),
                Error::FirstWordAlone => from && !to && edge.source < 64,
                _ => from && !to,
            }
        };
        let mut edges = filter.edges.iter();
        match self {
            Error::LastOfAll => edges.rposition(is_told),
            _ => edges.position(is_told),
        }
    }

    fn place(self, tried: &Tried, edge: usize) -> u64 {
        match self {
            Error::EdgeBehind => tried.place(edge + 1, Field::Source),
            Error::PlaceOfTheLabel => tried.place(edge, Field::Label),
            Error::PlaceOfTheTarget => tried.place(edge, Field::Target),
            Error::IndexAsPlace => edge as u64,
            Error::StateAsPlace => tried.filter.edges[edge].source,
            Error::NoPlace => 0,
            _ => tried.place(edge, Field::Source),
        }
    }
}

#[test]
fn ways_out_that_are_told_wrongly() {
    let tried = Tried::all(2);
    for call in Call::ALL.into_iter().filter(|call| call.meets_the_fault()) {
        let differing = |error: Error| {
            let of_call = tried.iter().filter(|tried| tried.call == call);
            of_call
                .filter(|tried| error.told(tried) != tried.right)
                .count()
        };
        assert_eq!(differing(Error::Nothing), 0, "{call:?}");
        for error in Error::all(call) {
            let count = differing(error);
            println!("{call:?}, {error:?}: {count}");
            assert!(count >= 3, "{call:?}, {error:?}: only {count}");
        }
    }
}

/// 15, which a pocket file may leave, taken for a fault.
#[test]
fn the_highest_colour_of_a_pocket_file_as_a_fault() {
    let tried = Tried::all(1);
    for call in Call::ALL.into_iter().filter(|call| !call.meets_the_fault()) {
        let leaves = |tried: &&Tried| {
            let Filter { colours, edges, .. } = &tried.filter;
            let is_highest = |state: u64| colours[state as usize] == POCKET.top_colour();
            let mut edges = edges.iter();
            edges.any(|edge| is_highest(edge.source) && !is_highest(edge.target))
        };
        let accepted = tried
            .iter()
            .filter(|tried| (tried.call, tried.right.0) == (call, 0));
        let count = accepted.filter(leaves).count();
        assert!(count >= 20, "{call:?}: only {count}");
    }
}
