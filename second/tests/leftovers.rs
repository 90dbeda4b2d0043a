//! States that the start cannot reach: the second program's search for the others, and the cases, of which many have some.

use second::call::DROPPED;
use second::case::{entries_of, Call, Case};
use second::file::{read, Edge, Filter};
use second::kinds::{self, Kind};
use second::make::leftovers::*;
use second::make::{self, reduces};
use second::profile::{Profile, PROFILES};
use second::random::{seed, Random};
use second::reach::reached;
use second::reduce::reduce;
use second::rides::*;
use std::collections::BTreeSet;

/// The same by another way: edges are followed, as they come in the file, until a pass over all of them finds nothing more.
fn by_passes(filter: &Filter) -> BTreeSet<u64> {
    let mut found = BTreeSet::from([filter.start]);
    loop {
        let before = found.len();
        for edge in &filter.edges {
            if found.contains(&edge.source) {
                found.insert(edge.target);
            }
        }
        if found.len() == before {
            return found;
        }
    }
}

fn filter_of_case(case: &Case) -> Filter {
    let profile = case.call.reads().expect("a call that reads a file");
    profile.read(&case.a).expect("accepted")
}

/// So many times what a family makes of either kind of file.
fn made(times: usize, make: fn(Profile, &mut Random) -> Vec<Case>) -> Vec<Case> {
    let mut random = Random::new(seed());
    PROFILES
        .repeat(times)
        .into_iter()
        .flat_map(|profile| make(profile, &mut random))
        .collect()
}

/// The most states that either kind of file has.
fn largest_sizes() -> [u64; 2] {
    PROFILES.map(Profile::most_states)
}

#[test]
fn the_document_s_rides() {
    let all = |count| (0..count).collect::<BTreeSet<u64>>();
    assert_eq!(reached(&read(K).expect("accepted")), all(3));
    assert_eq!(reached(&ride_l()), all(2));
    assert_eq!(reached(&ride_m()), all(4));
    assert_eq!(reached(&ride_n()), all(7));
    assert_eq!(reached(&ride_p()), all(1));
}

/// N from its state 2, from which an edge leads to 4 and one from there to 6.
#[test]
fn from_another_start() {
    let mut filter = ride_n();
    for (start, found) in [(2, &[2, 4, 6][..]), (4, &[4, 6]), (6, &[6])] {
        filter.start = start;
        assert_eq!(reached(&filter), found.iter().copied().collect());
    }
}

#[test]
fn both_ways_to_search_find_the_same() {
    let seed = seed();
    let mut random = Random::new(seed);
    for profile in PROFILES {
        for family in reduces::families(profile) {
            for case in family.at_most(20, &mut random) {
                if let Ok(filter) = profile.read(&case.a) {
                    assert_eq!(reached(&filter), by_passes(&filter), "SEED={seed}");
                }
            }
        }
    }
}

/// A quarter of all that is put to reduce has leftovers that have to be dropped, and enough has none. What is refused counts
/// as having none.
#[test]
fn a_quarter_of_the_reductions_drops_states() {
    let seed = seed();
    let mut random = Random::new(seed);
    let (mut all, mut dropping, mut whole) = (0, 0, 0);
    let mut seen = BTreeSet::new();
    for made in (0..3).flat_map(|_| make::batch(&mut random)) {
        if let Call::Reduce(_) = made.case.call {
            let outcome = made.case.outcome();
            let kinds = kinds::of(&made.case, &outcome);
            let accepted = outcome.answer.number == 0;
            let drops = accepted && !kinds.contains(&Kind::NothingDropped);
            all += 1;
            dropping += usize::from(drops);
            whole += usize::from(accepted && !drops);
            seen.extend(kinds);
        }
    }
    assert!(4 * dropping >= all, "SEED={seed}: {dropping} of {all}");
    assert!(10 * whole >= all, "SEED={seed}: {whole} of {all} whole");
    for kind in [
        Kind::DroppedBefore,
        Kind::DroppedBetween,
        Kind::DroppedBehind,
        Kind::AllButOneDropped,
    ] {
        assert!(seen.contains(&kind), "SEED={seed}: no {kind:?}");
    }
}

/// The entries of the class list in the outcome, as far as there are states.
fn list(case: &Case) -> Vec<u16> {
    let n = filter_of_case(case).n() as usize;
    entries_of(&case.outcome().c)[..n].to_vec()
}

#[test]
fn the_class_list_drops_what_is_not_reached_and_nothing_else() {
    for case in made(200, anywhere) {
        let filter = filter_of_case(&case);
        let live = by_passes(&filter);
        assert!((live.len() as u64) < filter.n());
        for (state, entry) in (0..).zip(list(&case)) {
            assert_eq!(entry == DROPPED, !live.contains(&state), "{filter:?}");
        }
    }
}

/// What is dropped of a filter, as a text of one letter a state.
fn shape(filter: &Filter) -> String {
    let live = by_passes(filter);
    let letter = |state| if live.contains(&state) { 'x' } else { '-' };
    (0..filter.n()).map(letter).collect()
}

#[test]
fn leftovers_stand_where_the_family_says() {
    for four in made(100, before_between_and_behind).chunks(4) {
        let shapes: Vec<String> = four
            .iter()
            .map(|case| shape(&filter_of_case(case)))
            .collect();
        let runs: Vec<String> = shapes.iter().map(|shape| runs(shape)).collect();
        assert_eq!(runs, ["-x", "x-x", "x-", "-x-"], "{shapes:?}");
    }
    for case in made(100, the_first_state) {
        let filter = filter_of_case(&case);
        assert!(shape(&filter).starts_with('-'), "{filter:?}");
        assert_eq!(
            (filter.edges[0].source, filter.edges[0].target),
            (0, filter.start)
        );
    }
}

/// Each run of equal letters as one of them.
fn runs(shape: &str) -> String {
    let mut letters: Vec<char> = shape.chars().collect();
    letters.dedup();
    letters.into_iter().collect()
}

#[test]
fn the_start_alone_is_left() {
    let mut sizes = BTreeSet::new();
    for case in made(20, all_but_the_start) {
        let filter = filter_of_case(&case);
        assert_eq!(by_passes(&filter), BTreeSet::from([filter.start]));
        assert_eq!(case.outcome().answer.counts[..3], [1, 1, 0]);
        sizes.insert(filter.n());
    }
    for largest in largest_sizes() {
        assert!(sizes.remove(&largest), "{sizes:?}");
    }
    assert!(sizes.len() > 2, "{sizes:?}");
}

#[test]
fn leftovers_lead_to_live_states() {
    let mut leading = 0;
    for case in made(100, leading_to_the_live) {
        let filter = filter_of_case(&case);
        let live = by_passes(&filter);
        assert!((live.len() as u64) < filter.n());
        for edge in &filter.edges {
            assert!(live.contains(&edge.target), "{filter:?}");
            leading += u32::from(!live.contains(&edge.source));
        }
    }
    assert!(leading >= 100, "only {leading} edges of leftovers");
}

#[test]
fn leftovers_have_colours_of_their_own() {
    for case in made(100, with_own_colours) {
        let filter = filter_of_case(&case);
        let live = by_passes(&filter);
        let colours = |of_live: bool| -> BTreeSet<u64> {
            let states = (0..filter.n()).filter(|state| live.contains(state) == of_live);
            states.map(|state| filter.colours[state as usize]).collect()
        };
        assert!(!colours(false).is_empty());
        assert!(colours(true).is_disjoint(&colours(false)), "{filter:?}");
        let shown = case.outcome().answer.counts[1];
        assert_eq!(shown, colours(true).len() as u64);
    }
}

/// So many steps of all edges at once from the start.
fn within(filter: &Filter, steps: u64) -> BTreeSet<u64> {
    let mut found = BTreeSet::from([filter.start]);
    for _ in 0..steps {
        let leaving = filter
            .edges
            .iter()
            .filter(|edge| found.contains(&edge.source));
        let further: Vec<u64> = leaving.map(|edge| edge.target).collect();
        found.extend(further);
    }
    found
}

#[test]
fn the_last_state_is_as_far_as_there_are_others() {
    let mut sizes = BTreeSet::new();
    for case in made(10, far_to_the_last) {
        let filter = filter_of_case(&case);
        let n = filter.n();
        assert_eq!(within(&filter, n - 1).len() as u64, n);
        assert_eq!(within(&filter, n - 2).len() as u64, n - 1);
        assert!(!list(&case).contains(&DROPPED));
        sizes.insert(n);
    }
    for largest in largest_sizes() {
        assert!(sizes.contains(&largest), "{sizes:?}");
    }
}

/// Live states of one colour that become one state in no round, and the start, which has its own colour; and ride P.
#[test]
fn what_leftovers_would_keep_apart_becomes_one() {
    for two in made(100, keeping_apart).chunks(2) {
        assert_eq!(filter_of_case(&two[0]), ride_p());
        assert_eq!(two[1].outcome().answer.counts[..3], [2, 2, 0]);
        assert!(shape(&filter_of_case(&two[1])).starts_with('-'));
    }
}

#[test]
fn rooms_go_by_the_whole_file() {
    for two in made(100, room_for_the_live_alone).chunks(2) {
        let numbers = [&two[0], &two[1]].map(|case| case.outcome().answer.number);
        assert_eq!(numbers, [11, 10]);
        let live = by_passes(&filter_of_case(&two[0])).len();
        assert_eq!(entries_of(&two[0].c).len(), live);
    }
}

/// The filter without its leftovers, the live states numbered in their order.
fn without_leftovers(filter: &Filter) -> Filter {
    let live: Vec<u64> = by_passes(filter).into_iter().collect();
    let number = |state| live.binary_search(&state).expect("live") as u64;
    let kept = filter
        .edges
        .iter()
        .filter(|edge| live.contains(&edge.source));
    Filter {
        colours: live.iter().map(|&s| filter.colours[s as usize]).collect(),
        m: filter.m,
        start: number(filter.start),
        edges: kept
            .map(|edge| Edge {
                source: number(edge.source),
                label: edge.label,
                target: number(edge.target),
            })
            .collect(),
    }
}

#[test]
fn without_its_leftovers_a_filter_is_reduced_to_the_same() {
    let mut dropped = 0;
    for case in [anywhere, before_between_and_behind, leading_to_the_live]
        .into_iter()
        .flat_map(|family| made(100, family))
    {
        let filter = filter_of_case(&case);
        let whole = reduce(&filter);
        let part = reduce(&without_leftovers(&filter));
        assert_eq!(whole.filter, part.filter, "{filter:?}");
        assert_eq!(whole.rounds, part.rounds, "{filter:?}");
        assert_eq!(whole.distinct_colours, part.distinct_colours);
        let numbers: Vec<_> = whole.numbers.iter().filter(|n| n.is_some()).collect();
        assert_eq!(numbers, part.numbers.iter().collect::<Vec<_>>());
        dropped += whole.numbers.len() - part.numbers.len();
    }
    assert!(dropped > 1000, "only {dropped} leftovers");
}
