//! What the second program reduces does the work of its original, by the search over both; and the search finds what is
//! wrong.

use second::file::{read, Edge, Filter};
use second::make::reduces;
use second::make::traces::walk;
use second::profile::LARGE;
use second::random::{seed, Random};
use second::reduce::{reduce, Reduced};
use second::rides::*;
use second::side_by_side::{pairs, Failure, Pair, Parting};
use second::trace::ride;
use std::collections::BTreeSet;

/// Filters of all families, and many of those that are small.
fn filters(random: &mut Random) -> Vec<Filter> {
    let mut filters = Vec::new();
    for family in reduces::FAMILIES {
        let cases = family.at_most(40, random);
        filters.extend(cases.iter().filter_map(|case| read(&case.a).ok()));
    }
    filters
}

/// The states that the start leads to.
fn reached(filter: &Filter) -> Vec<u64> {
    let pairs = pairs(filter, filter).expect("a filter does its own work");
    pairs.into_iter().map(|(state, _)| state).collect()
}

/// The new number of a state that is reached.
fn number(numbers: &[Option<u64>], state: u64) -> u64 {
    numbers[state as usize].expect("a reached state is in a class")
}

/// Each state that is reached goes with its class and with no other.
fn does_its_work(original: &Filter, other: &Filter, numbers: &[Option<u64>], seed: u64) {
    let with_its_class = |state: u64| (state, number(numbers, state));
    let expected = reached(original).into_iter().map(with_its_class).collect();
    assert_eq!(
        pairs(original, other),
        Ok(expected),
        "SEED={seed}, {original:?}"
    );
}

#[test]
fn a_reduced_filter_does_its_original_s_work() {
    let seed = seed();
    let mut merged = 0;
    for original in filters(&mut Random::new(seed)) {
        let reduced = reduce(&original);
        does_its_work(&original, &reduced.filter, &reduced.numbers, seed);
        merged += u32::from(reduced.filter.n() < original.n());
    }
    assert!(merged >= 100, "SEED={seed}: only {merged} merged");
}

/// The same from any state that the own start leads to. Of the others nothing is left, so in the reduced filter each state is
/// reached.
#[test]
fn a_class_does_the_work_of_each_member() {
    let seed = seed();
    let mut with_other_parts = 0;
    let few_states = |filter: &Filter| filter.n() <= 60;
    let filters = filters(&mut Random::new(seed));
    for mut original in filters.into_iter().filter(few_states) {
        let live = reached(&original);
        with_other_parts += u32::from((live.len() as u64) < original.n());
        let Reduced {
            mut filter,
            numbers,
            ..
        } = reduce(&original);
        assert_eq!(reached(&filter).len() as u64, filter.n(), "SEED={seed}");
        for start in live {
            original.start = start;
            filter.start = number(&numbers, start);
            does_its_work(&original, &filter, &numbers, seed);
        }
    }
    assert!(
        with_other_parts >= 100,
        "SEED={seed}: only {with_other_parts} with parts not reached"
    );
}

fn parts(observations: &[u8], failure: Failure) -> Result<BTreeSet<Pair>, Parting> {
    Err(Parting {
        observations: observations.to_vec(),
        failure,
    })
}

#[test]
fn a_wrong_start_is_found() {
    let k = read(K).expect("accepted");
    let mut wrong = read(K_REDUCED).expect("accepted");
    wrong.start = 1;
    assert_eq!(pairs(&k, &wrong), parts(&[], Failure::Colour));
}

#[test]
fn a_wrong_colour_is_found() {
    let k = read(K).expect("accepted");
    let mut wrong = read(K_REDUCED).expect("accepted");
    wrong.colours[1] = 2;
    assert_eq!(pairs(&k, &wrong), parts(&[0], Failure::Colour));
}

/// State 2 of K takes label 1 back to 0, and nothing else tells that the edge is needed.
#[test]
fn a_missing_edge_is_found() {
    let k = read(K).expect("accepted");
    let mut wrong = read(K_REDUCED).expect("accepted");
    wrong
        .edges
        .retain(|edge| (edge.source, edge.label) != (1, 1));
    assert_eq!(pairs(&k, &wrong), parts(&[1, 1], Failure::NoEdge));
}

/// N with 1 and 2 as one state, as targets compared by colour only have it, and the edge to 3 kept. 2 leads through 4 to
/// the last colour.
#[test]
fn a_merged_pair_that_differs_is_found() {
    let edges = [(0, 0, 1), (0, 1, 1), (1, 0, 2), (2, 0, 4), (3, 0, 5)];
    let wrong = filter_of(&[0, 1, 2, 2, 3, 4], &edges);
    assert_eq!(pairs(&ride_n(), &wrong), parts(&[1, 0, 0], Failure::Colour));
}

/// The reduced filter may trace more, so K does not do its work.
#[test]
fn the_original_s_sequences_decide() {
    let [k, reduced] = [K, K_REDUCED].map(|file| read(file).expect("accepted"));
    assert!(pairs(&k, &reduced).is_ok());
    assert_eq!(pairs(&reduced, &k), parts(&[0, 1], Failure::NoEdge));
}

fn reductions(random: &mut Random) -> Vec<(Filter, Reduced)> {
    let mut all = Vec::new();
    for make in [
        reduces::small_filters,
        reduces::copied_states,
        reduces::short_chains,
    ] {
        for case in (0..10).flat_map(|_| make(LARGE, random)) {
            let original = read(&case.a).expect("accepted");
            let reduced = reduce(&original);
            all.push((original, reduced));
        }
    }
    all
}

/// What the search says of the two holds when they are traced.
fn found(original: &Filter, other: &Filter, random: &mut Random) -> bool {
    match pairs(original, other) {
        Err(Parting { observations, .. }) => {
            let shown = ride(original, &observations);
            assert_eq!(shown.stopped_at, None, "{original:?}, {observations:?}");
            assert_ne!(ride(other, &observations), shown, "{original:?}, {other:?}");
            true
        }
        Ok(_) => {
            for _ in 0..10 {
                let (observations, _) = walk(original, 20, random);
                let shown = ride(original, &observations);
                assert_eq!(ride(other, &observations), shown, "{original:?}, {other:?}");
            }
            false
        }
    }
}

#[test]
fn every_wrong_colour_and_missing_edge_is_found() {
    let seed = seed();
    let mut random = Random::new(seed);
    for (original, reduced) in reductions(&mut random) {
        for state in reached(&original) {
            let number = number(&reduced.numbers, state);
            let mut wrong = reduced.filter.clone();
            let colour = &mut wrong.colours[number as usize];
            *colour = (*colour + random.between(1, 63)) % 64;
            assert!(found(&original, &wrong, &mut random), "SEED={seed}");
            for edge in original.edges.iter().filter(|edge| edge.source == state) {
                let mut wrong = reduced.filter.clone();
                let gone = (number, edge.label);
                wrong.edges.retain(|edge| (edge.source, edge.label) != gone);
                assert!(found(&original, &wrong, &mut random), "SEED={seed}");
            }
        }
    }
}

/// Some pairs of one colour can be merged though the reduction keeps them apart, since it is no search for the smallest.
/// A pair of two colours never can.
#[test]
fn merged_pairs_are_found_where_they_differ() {
    let seed = seed();
    let mut random = Random::new(seed);
    let mut of_one_colour = 0;
    for (original, reduced) in reductions(&mut random) {
        let number = |state: u64| number(&reduced.numbers, state);
        let numbers: BTreeSet<u64> = reached(&original).into_iter().map(number).collect();
        let colour = |number: u64| reduced.filter.colours[number as usize];
        for &kept in &numbers {
            for &gone in numbers.iter().filter(|&&number| number != kept) {
                let wrong = merged(&reduced.filter, kept, gone);
                let differs = found(&original, &wrong, &mut random);
                if colour(kept) == colour(gone) {
                    of_one_colour += u32::from(differs);
                } else {
                    assert!(differs, "SEED={seed}, {original:?}: {kept} and {gone}");
                }
            }
        }
    }
    assert!(of_one_colour >= 100, "SEED={seed}: only {of_one_colour}");
}

/// One state stands for both; where both have an edge, its own is kept.
fn merged(filter: &Filter, kept: u64, gone: u64) -> Filter {
    let (of_others, of_gone): (Vec<Edge>, Vec<Edge>) =
        filter.edges.iter().partition(|edge| edge.source != gone);
    let lacks = |edge: &Edge| {
        let mut own = of_others.iter().filter(|own| own.source == kept);
        own.all(|own| own.label != edge.label)
    };
    let added: Vec<Edge> = of_gone.into_iter().filter(lacks).collect();
    let stands_for = |state: u64| if state == gone { kept } else { state };
    let mut merged = filter.clone();
    merged.start = stands_for(filter.start);
    merged.edges = [of_others, added].concat();
    for edge in &mut merged.edges {
        edge.source = stands_for(edge.source);
        edge.target = stands_for(edge.target);
    }
    merged
}
