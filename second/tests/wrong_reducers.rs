//! Errors that look right, made on purpose: those that document 01 names, and those that document 02 invites with states that
//! nobody can reach. The generated filters tell each of them from the reducer.

use second::case::Case;
use second::file::{read, Edge, Filter};
use second::make::{leftovers, reduces};
use second::profile::{Profile, PROFILES};
use second::random::{seed, Random};
use second::reduce::reduce;
use second::rides::*;
use std::collections::BTreeSet;

#[derive(Clone, Copy, Debug, PartialEq, Eq)]
enum Error {
    None,
    /// A label that only one of two states has counts as a conflict.
    MissingEdgeParts,
    /// Targets are compared by colour.
    ByColourOnly,
    /// Later members are judged by classes already split in the same round.
    InTheMidst,
    /// Each class is looked at once.
    OnePass,
    /// Only a state that some edge leads to is reached, so the start may not be.
    StartNotReached,
    /// State 0 is taken for the start.
    FromStateZero,
    /// Only the edges of the start are followed.
    OneStep,
    /// Edges are followed one step less than it can take.
    LastStepForgotten,
    /// The edges are gone through once, as they stand in the file.
    EdgesOnce,
    /// Edges are followed backwards too.
    BothWays,
    /// Dropped states are in classes while these are split.
    DroppedTakesPart,
    /// Edges of dropped states are written, with 0 for the number that these do not have.
    EdgesOfDropped,
    /// The class list has 0 for a dropped state.
    ZeroInTheList,
    /// Colours of dropped states are counted.
    ColoursOfAll,
}

/// Those of document 01, then those of document 02.
const OF_CLASSES: [Error; 4] = [
    Error::MissingEdgeParts,
    Error::ByColourOnly,
    Error::InTheMidst,
    Error::OnePass,
];
const OF_LEFTOVERS: [Error; 10] = [
    Error::StartNotReached,
    Error::FromStateZero,
    Error::OneStep,
    Error::LastStepForgotten,
    Error::EdgesOnce,
    Error::BothWays,
    Error::DroppedTakesPart,
    Error::EdgesOfDropped,
    Error::ZeroInTheList,
    Error::ColoursOfAll,
];

/// What a class list has for a dropped state.
const DROPPED: u64 = 65_535;

/// All that a reduction comes to.
#[derive(Debug, PartialEq, Eq)]
struct Outcome {
    list: Vec<u64>,
    distinct_colours: u64,
    rounds: u64,
    /// Of the reduced filter.
    colours: Vec<u64>,
    start: u64,
    edges: BTreeSet<(u64, u64, u64)>,
}

struct Wrong<'a> {
    filter: &'a Filter,
    error: Error,
    /// For each state the name of its class, where it is in one.
    names: Vec<Option<u64>>,
    rounds: u64,
}

fn target(filter: &Filter, state: u64, label: u64) -> Option<u64> {
    let at = |edge: &&Edge| (edge.source, edge.label) == (state, label);
    filter.edges.iter().find(at).map(|edge| edge.target)
}

/// The states that are taken for reached.
fn live(filter: &Filter, error: Error) -> BTreeSet<u64> {
    let start = match error {
        Error::FromStateZero => 0,
        _ => filter.start,
    };
    let steps = match error {
        Error::OneStep | Error::EdgesOnce => 1,
        Error::LastStepForgotten => filter.n().saturating_sub(2),
        _ => filter.n(),
    };
    let mut live = BTreeSet::from([start]);
    for _ in 0..steps {
        let mut judged_by = live.clone();
        for edge in &filter.edges {
            if error == Error::EdgesOnce {
                judged_by = live.clone();
            }
            if judged_by.contains(&edge.source) {
                live.insert(edge.target);
            }
            if error == Error::BothWays && judged_by.contains(&edge.target) {
                live.insert(edge.source);
            }
        }
    }
    let is_led_to = |edge: &Edge| edge.target == start && live.contains(&edge.source);
    if error == Error::StartNotReached && !filter.edges.iter().any(is_led_to) {
        live.remove(&start);
    }
    live
}

impl Wrong<'_> {
    fn reduce(filter: &Filter, error: Error) -> Outcome {
        let live = live(filter, error);
        let takes_part = |state: &u64| error == Error::DroppedTakesPart || live.contains(state);
        let of_colour = |colour: u64| {
            let mut states = (0..filter.n()).filter(takes_part);
            states.find(|&state| filter.colours[state as usize] == colour)
        };
        let name = |state: u64| {
            takes_part(&state).then(|| of_colour(filter.colours[state as usize]).expect("itself"))
        };
        let mut wrong = Wrong {
            filter,
            error,
            names: (0..filter.n()).map(name).collect(),
            rounds: 0,
        };
        let mut from = 0;
        while let Some(name) = wrong.torn(from) {
            wrong.split(name);
            if error == Error::OnePass {
                from = name + 1;
            }
        }
        wrong.outcome(&live)
    }

    fn members(&self, name: u64) -> Vec<u64> {
        let states = 0..self.filter.n();
        states
            .filter(|&state| self.names[state as usize] == Some(name))
            .collect()
    }

    /// The first class that has a conflicting pair, of that name or a later one.
    fn torn(&self, from: u64) -> Option<u64> {
        let names: BTreeSet<u64> = self.names.iter().copied().flatten().collect();
        names.range(from..).copied().find(|&name| {
            let members = self.members(name);
            let mut firsts = members.iter();
            firsts.any(|&one| {
                members
                    .iter()
                    .any(|&other| self.conflict(&self.names, one, other))
            })
        })
    }

    fn split(&mut self, name: u64) {
        let at_the_beginning = self.names.clone();
        let mut groups: Vec<Vec<u64>> = Vec::new();
        for state in self.members(name) {
            let judged_by = match self.error {
                Error::InTheMidst => self.names.clone(),
                _ => at_the_beginning.clone(),
            };
            let fits = |group: &&mut Vec<u64>| {
                !group
                    .iter()
                    .any(|&member| self.conflict(&judged_by, member, state))
            };
            match groups.iter_mut().find(fits) {
                Some(group) => group.push(state),
                None => groups.push(vec![state]),
            }
            for group in &groups {
                for &member in group {
                    self.names[member as usize] = Some(group[0]);
                }
            }
        }
        self.rounds += 1;
    }

    fn conflict(&self, names: &[Option<u64>], one: u64, other: u64) -> bool {
        let shown = |state: u64| match self.error {
            Error::ByColourOnly => Some(self.filter.colours[state as usize]),
            _ => names[state as usize],
        };
        (0..self.filter.m).any(|label| {
            let [left, right] = [one, other].map(|state| target(self.filter, state, label));
            match (left, right) {
                (Some(left), Some(right)) => shown(left) != shown(right),
                (None, None) => false,
                _ => self.error == Error::MissingEdgeParts,
            }
        })
    }

    /// What the classes come to, of which those states are written.
    fn outcome(&self, live: &BTreeSet<u64>) -> Outcome {
        let filter = self.filter;
        let name = |state: &u64| self.names[*state as usize].expect("a class");
        let names: BTreeSet<u64> = live.iter().map(name).collect();
        let number = |state: u64, of_dropped: u64| match live.contains(&state) {
            true => names.range(..name(&state)).count() as u64,
            false => of_dropped,
        };
        let in_the_list = match self.error {
            Error::ZeroInTheList => 0,
            _ => DROPPED,
        };
        let mut edges = BTreeSet::new();
        for edge in &filter.edges {
            let ends = |of_dropped| [edge.source, edge.target].map(|end| number(end, of_dropped));
            let [source, target] = match self.error {
                Error::EdgesOfDropped => ends(0),
                _ => ends(DROPPED),
            };
            if source != DROPPED {
                edges.insert((source, edge.label, target));
            }
        }
        let all: BTreeSet<u64> = (0..filter.n()).collect();
        let counted = match self.error {
            Error::ColoursOfAll => &all,
            _ => live,
        };
        let colour = |state: &u64| filter.colours[*state as usize];
        Outcome {
            list: (0..filter.n())
                .map(|state| number(state, in_the_list))
                .collect(),
            distinct_colours: counted.iter().map(colour).collect::<BTreeSet<_>>().len() as u64,
            rounds: self.rounds,
            colours: names.iter().map(colour).collect(),
            start: number(filter.start, DROPPED),
            edges,
        }
    }
}

/// What the second program says.
fn right(filter: &Filter) -> Outcome {
    let reduced = reduce(filter);
    let ends = |edge: &Edge| (edge.source, edge.label, edge.target);
    Outcome {
        list: (reduced.numbers.iter())
            .map(|number| number.unwrap_or(DROPPED))
            .collect(),
        distinct_colours: reduced.distinct_colours,
        rounds: reduced.rounds,
        edges: reduced.filter.edges.iter().map(ends).collect(),
        colours: reduced.filter.colours,
        start: reduced.filter.start,
    }
}

fn tells(filter: &Filter, error: Error) -> bool {
    Wrong::reduce(filter, error) != right(filter)
}

/// The class list and the rounds.
fn wrong(filter: &Filter, error: Error) -> (Vec<u64>, u64) {
    let outcome = Wrong::reduce(filter, error);
    (outcome.list, outcome.rounds)
}

/// As the document says, and as the two filters say that were made for one of them.
#[test]
fn the_document_s_filters_tell_the_errors() {
    let k = read(K).expect("accepted");
    assert_eq!(wrong(&k, Error::MissingEdgeParts), (vec![0, 1, 2], 1));
    assert_eq!(
        wrong(&ride_n(), Error::ByColourOnly),
        (vec![0, 1, 1, 2, 3, 4, 5], 1)
    );
    assert!(tells(&ride_n(), Error::OnePass));
    assert_eq!(
        wrong(&parted_in_the_next_round(), Error::InTheMidst),
        (vec![0, 1, 2, 3], 1)
    );
    assert_eq!(
        wrong(&never_parted(), Error::InTheMidst),
        (vec![0, 1, 2, 3], 1)
    );
}

/// P's leftovers are 1, which conflicts with 0, and 2, which alone has colour 1.
#[test]
fn ride_p_tells_what_becomes_of_leftovers() {
    let p = ride_p();
    let none = (vec![0, DROPPED, DROPPED], 0);
    assert_eq!(wrong(&p, Error::None), none);
    assert_eq!(Wrong::reduce(&p, Error::None), right(&p));
    assert_eq!(wrong(&p, Error::DroppedTakesPart), (none.0, 1));
    assert_eq!(wrong(&p, Error::ZeroInTheList), (vec![0, 0, 0], 0));
    assert_eq!(Wrong::reduce(&p, Error::ColoursOfAll).distinct_colours, 2);
}

fn filters(profile: Profile, cases: impl Iterator<Item = Case>) -> Vec<Filter> {
    let filter = |case: Case| profile.read(&case.a).expect("accepted");
    cases.map(filter).collect()
}

/// No error at all is never told, each of the others often enough.
fn each_is_told(filters: &[Filter], errors: &[Error], seed: u64) {
    let told = |error| filters.iter().filter(|filter| tells(filter, error)).count();
    assert_eq!(told(Error::None), 0, "SEED={seed}");
    for &error in errors {
        let told = told(error);
        assert!(told >= 5, "SEED={seed}: {error:?} is told {told} times");
    }
}

#[test]
fn small_filters_tell_the_errors() {
    let seed = seed();
    let mut random = Random::new(seed);
    for profile in PROFILES {
        let cases = (0..300).flat_map(|_| reduces::small_filters(profile, &mut random));
        let filters = filters(profile, cases);
        each_is_told(&filters, &OF_CLASSES, seed);
        each_is_told(&filters, &OF_LEFTOVERS, seed);
    }
}

#[test]
fn filters_with_leftovers_tell_the_errors() {
    let seed = seed();
    let mut random = Random::new(seed);
    // Where a state is left over, no other is as far as it takes to forget the last step.
    let mut errors = OF_LEFTOVERS.to_vec();
    errors.retain(|&error| error != Error::LastStepForgotten);
    for profile in PROFILES {
        let cases = (0..100).flat_map(|_| leftovers::anywhere(profile, &mut random));
        each_is_told(&filters(profile, cases), &errors, seed);
    }
}

/// The families that were made for an error tell it each time; the largest filters would take these reducers too long.
#[test]
fn each_error_has_a_family() {
    let seed = seed();
    let mut random = Random::new(seed);
    for profile in [PROFILES; 10].concat() {
        for (make, error) in [
            (
                leftovers::the_first_state as fn(Profile, &mut Random) -> _,
                Error::FromStateZero,
            ),
            (leftovers::with_own_colours, Error::ColoursOfAll),
            (leftovers::far_to_the_last, Error::LastStepForgotten),
            (leftovers::keeping_apart, Error::DroppedTakesPart),
            (leftovers::all_but_the_start, Error::ZeroInTheList),
        ] {
            let cases: Vec<Case> = make(profile, &mut random);
            let mut filters = filters(profile, cases.into_iter());
            filters.retain(|filter| filter.n() <= 60);
            assert!(!filters.is_empty(), "SEED={seed}, {error:?}");
            for filter in filters {
                assert!(tells(&filter, error), "SEED={seed}, {error:?}: {filter:?}");
            }
        }
    }
}

/// What is kept apart by leftovers is a live state or more.
#[test]
fn leftovers_that_take_part_leave_more_states() {
    let seed = seed();
    let mut random = Random::new(seed);
    for profile in [PROFILES; 50].concat() {
        let cases = leftovers::keeping_apart(profile, &mut random);
        // The first is P, in which only a round is gained.
        for filter in filters(profile, cases.into_iter().skip(1)) {
            let more = Wrong::reduce(&filter, Error::DroppedTakesPart);
            let (own, more) = (right(&filter).colours.len(), more.colours.len());
            assert!(more > own, "SEED={seed}: {filter:?}");
        }
    }
}
