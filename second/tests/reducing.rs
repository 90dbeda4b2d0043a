//! The second program's reducer against what documents 01 and 02 say in numbers, and against what must hold of any reduction.

use second::file::{read, write, Filter, FAULT};
use second::make::chains::plain;
use second::make::groups::{crowd, many_groups};
use second::make::traces::walk;
use second::make::{leftovers, reduces};
use second::profile::{Profile, LARGE, PROFILES};
use second::random::{seed, Random};
use second::reach::reached;
use second::reduce::{groups_made, reduce, stages, Reduced};
use second::rides::*;
use second::rounds::rounds;
use second::trace::ride;

fn kept(original: Filter, distinct_colours: u64, rounds: u64) -> Reduced {
    Reduced {
        numbers: (0..original.n()).map(Some).collect(),
        filter: original,
        distinct_colours,
        rounds,
    }
}

#[test]
fn ride_c_stays_itself() {
    let c = read(C).expect("accepted");
    assert_eq!(reduce(&c), kept(c.clone(), 1, 0));
}

#[test]
fn ride_k_folds_two_states() {
    let reduced = reduce(&read(K).expect("accepted"));
    assert_eq!(write(&reduced.filter), K_REDUCED);
    assert_eq!(reduced.numbers, [0, 1, 1].map(Some));
    assert_eq!((reduced.distinct_colours, reduced.rounds), (2, 0));
}

#[test]
fn ride_l_folds_into_one() {
    let reduced = reduce(&ride_l());
    assert_eq!(reduced.filter, filter_of(&[0], &[(0, 0, 0)]));
    assert_eq!(reduced.numbers, [0, 0].map(Some));
    assert_eq!(reduced.rounds, 0);
}

#[test]
fn ride_m_takes_one_round() {
    assert_eq!(reduce(&ride_m()), kept(ride_m(), 2, 1));
}

#[test]
fn ride_n_meets_the_bound() {
    assert_eq!(reduce(&ride_n()), kept(ride_n(), 5, 2));
}

/// The start leads to itself alone.
#[test]
fn ride_p_becomes_one_state() {
    let reduced = Reduced {
        filter: filter_of(&[0], &[(0, 0, 0)]),
        numbers: vec![Some(0), None, None],
        distinct_colours: 1,
        rounds: 0,
    };
    assert_eq!(reduce(&ride_p()), reduced);
}

/// N from its state 1, which leads to 3 and then to 5: their colours are 1, 2 and 3, and 2, 4 and 6 no longer part anything.
#[test]
fn ride_n_from_another_start() {
    let mut filter = ride_n();
    filter.start = 1;
    let mut three_left = filter_of(&[1, 2, 3], &[(0, 0, 1), (1, 0, 2)]);
    three_left.m = 2;
    let reduced = Reduced {
        filter: three_left,
        numbers: vec![None, Some(0), None, Some(1), None, Some(2), None],
        distinct_colours: 3,
        rounds: 0,
    };
    assert_eq!(reduce(&filter), reduced);
}

/// The class of 0, 1 and 3 is split by where the edges lead: 1 to the class of 2, 0 and 3 to their own. So 1 is alone, and
/// then 0 leads to 1 and 3 to itself.
#[test]
fn classes_are_judged_as_the_round_began_and_part_later() {
    let original = parted_in_the_next_round();
    assert_eq!(
        rounds(&write(&original)),
        "0: 0 0 2 0\n\
         1 0: 0 1 2 0\n\
         2 0: 0 1 2 3\n"
    );
    assert_eq!(reduce(&original), kept(original, 2, 2));
}

/// The class of 0, 1 and 3 is split into 0, which leads to the class of 2, and 1 with 3, which led to their own class and
/// lead to each other.
#[test]
fn classes_are_judged_as_the_round_began_and_stay() {
    let reduced = reduce(&never_parted());
    let merged = filter_of(&[0, 0, 1], &[(0, 0, 2), (1, 0, 1), (2, 0, 1)]);
    assert_eq!(reduced.filter, merged);
    assert_eq!(reduced.numbers, [0, 1, 2, 1].map(Some));
    assert_eq!((reduced.distinct_colours, reduced.rounds), (2, 1));
}

#[test]
fn the_longest_chain_takes_254_rounds() {
    assert_eq!(reduce(&plain(256)), kept(plain(256), 2, 254));
}

/// Any two members conflict, so each is a group of its own; and those that come behind them join these groups.
#[test]
fn a_class_needs_as_many_groups_as_it_has_codes() {
    let seed = seed();
    let mut random = Random::new(seed);
    for profile in PROFILES {
        let most = profile.most_states() - 1;
        for groups in many_groups(profile) {
            let alone = crowd(profile, &mut random, groups, groups);
            assert_eq!(reduce(&alone), kept(alone, 2, 1), "SEED={seed}");
            let joined = crowd(profile, &mut random, groups, most);
            let made = &groups_made(&stages(&joined))[0];
            assert_eq!(made.len() as u64, groups, "SEED={seed}");
            let members: usize = made.iter().map(|group| group.len()).sum();
            assert_eq!(members as u64, most, "SEED={seed}");
        }
    }
}

#[test]
fn the_rounds_as_text() {
    // N's states 1 and 2 conflict only after 3 and 4 are parted, which is the second class to be tried.
    assert_eq!(
        rounds(&write(&ride_n())),
        "0: 0 1 1 3 3 5 6\n\
         1 3: 0 1 1 3 4 5 6\n\
         2 1: 0 1 2 3 4 5 6\n"
    );
    // Any two of M's states 1 to 3 have a label where one leads to 0 and the other does not.
    assert_eq!(rounds(&write(&ride_m())), "0: 0 1 1 1\n1 1: 0 1 2 3\n");
    assert_eq!(rounds(K), "0: 0 1 1\n");
    assert_eq!(rounds(P), "0: 0 - -\n");
    assert_eq!(rounds(D), "refused 5 0\n");
}

#[test]
fn what_holds_of_every_reduction() {
    let seed = seed();
    let mut random = Random::new(seed);
    let (mut folded, mut dropped) = (0, 0);
    let what = format!("SEED={seed}");
    for profile in [PROFILES; 100].concat() {
        let cases = [
            reduces::small_filters,
            reduces::sparse,
            reduces::copied_states,
            reduces::highest_kept,
            leftovers::anywhere,
            leftovers::before_between_and_behind,
            leftovers::leading_to_the_live,
        ]
        .map(|make| make(profile, &mut random));
        for case in cases.concat() {
            let original = profile.read(&case.a).expect("accepted");
            let reduced = reduce(&original);
            holds(profile, &original, &reduced, &mut random, &what);
            let live = reached(&original).len() as u64;
            folded += u32::from(reduced.filter.n() < live);
            dropped += u32::from(live < original.n());
        }
    }
    assert!(folded >= 100, "SEED={seed}: only {folded} were folded");
    assert!(dropped >= 100, "SEED={seed}: only {dropped} had leftovers");
}

/// No edge of the reduced filter leaves the fault, and a ride that has shown it shows nothing else. All edges of faults lead to
/// their own class, which is never split for that: so one state is left of the faults that are reached.
#[test]
fn a_fault_stays_a_fault() {
    let seed = seed();
    let mut random = Random::new(seed);
    let (mut merged, mut shown) = (0, 0);
    for _ in 0..200 {
        for case in reduces::highest_kept(LARGE, &mut random) {
            let original = read(&case.a).expect("accepted");
            let reduced = reduce(&original).filter;
            let leaves = reduced.edges.iter().any(|edge| reduced.is_way_out(edge));
            assert!(!leaves, "SEED={seed}");
            let faults = live_faults(&original);
            assert_eq!(live_faults(&reduced), faults.min(1), "SEED={seed}");
            merged += u32::from(faults > 1);
            for filter in [original, reduced] {
                let (observations, _) = walk(&filter, 40, &mut random);
                let mut colours = ride(&filter, &observations).colours.into_iter();
                let on_the_way = colours.position(|colour| colour == FAULT);
                shown += u32::from(on_the_way.is_some() && colours.len() > 0);
                assert!(colours.all(|colour| colour == FAULT), "SEED={seed}");
            }
        }
    }
    assert!(
        merged >= 100,
        "SEED={seed}: only {merged} had faults merged"
    );
    assert!(shown >= 100, "SEED={seed}: only {shown} rides went on");
}

/// How many of the states that the start leads to are faults.
fn live_faults(filter: &Filter) -> usize {
    let live = reached(filter).into_iter();
    live.filter(|&state| filter.colours[state as usize] == FAULT)
        .count()
}

fn holds(profile: Profile, original: &Filter, reduced: &Reduced, random: &mut Random, what: &str) {
    let filter = &reduced.filter;
    let live = reached(original);
    let bound = [
        reduced.rounds + reduced.distinct_colours,
        filter.n(),
        live.len() as u64,
        original.n(),
    ];
    assert!(bound.is_sorted(), "{what}: {bound:?}");
    for (state, number) in (0..).zip(&reduced.numbers) {
        assert_eq!(number.is_some(), live.contains(&state), "{what}");
    }
    assert_eq!(reached(filter), (0..filter.n()).collect(), "{what}");
    let [short, long] = [filter, original].map(|filter| profile.write(filter));
    assert_eq!(profile.read(&short), Ok(filter.clone()), "{what}");
    assert!(short.len() <= long.len(), "{what}");
    let (observations, _) = walk(original, 40, random);
    assert_eq!(
        ride(filter, &observations),
        ride(original, &observations),
        "{what}"
    );
    // States that end in one class are never parted before, and the class conflicts as its members do: so reducing once
    // more goes through the same rounds and comes to one state a class.
    let again = kept(filter.clone(), reduced.distinct_colours, reduced.rounds);
    assert_eq!(reduce(filter), again, "{what}");
}
