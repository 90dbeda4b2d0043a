//! Random filters that a file of a profile may hold.

use crate::bits::free_bits;
use crate::file::{Edge, Filter, FAULT};
use crate::profile::Profile;
use crate::random::Random;
use std::collections::BTreeMap;

/// A filter of exactly these sizes.
pub fn filter(profile: Profile, random: &mut Random, n: u64, m: u64, e: u64) -> Filter {
    let colours = any_colours(profile, random, n);
    with_colours(random, colours, m, e)
}

/// The same with these colours, a state each.
pub fn with_colours(random: &mut Random, colours: Vec<u64>, m: u64, e: u64) -> Filter {
    let n = colours.len() as u64;
    let mut edges = Vec::new();
    // Walks over all pairs in order and takes each with the chance that leaves e of them in the end.
    let mut wanted = e;
    for pair in 0..n * m {
        if random.between(1, n * m - pair) <= wanted {
            wanted -= 1;
            let source = pair / m;
            edges.push(Edge {
                source,
                label: pair % m,
                target: any_target(random, &colours, source),
            });
        }
    }
    Filter {
        start: random.between(0, n - 1),
        colours,
        m,
        edges,
    }
}

/// Any state that an edge of this one may lead to: from the fault to the fault alone.
pub fn any_target(random: &mut Random, colours: &[u64], source: u64) -> u64 {
    let is_fault = |state: u64| colours[state as usize] == FAULT;
    loop {
        let target = random.between(0, colours.len() as u64 - 1);
        if !is_fault(source) || is_fault(target) {
            return target;
        }
    }
}

/// Leads each edge out of the fault back to where it comes from.
pub fn turn_back(filter: &mut Filter) {
    for at in 0..filter.edges.len() {
        let edge = filter.edges[at];
        if filter.is_way_out(&edge) {
            filter.edges[at].target = edge.source;
        }
    }
}

/// Takes the fault from every state that leads out of it and gives it this colour, so that each edge may stay where it leads.
pub fn recolour(filter: &mut Filter, colour: u64) {
    let way_out = |filter: &Filter| {
        let mut edges = filter.edges.iter();
        edges.find(|edge| filter.is_way_out(edge)).copied()
    };
    while let Some(edge) = way_out(filter) {
        filter.colours[edge.source as usize] = colour;
    }
}

pub fn any_colours(profile: Profile, random: &mut Random, n: u64) -> Vec<u64> {
    let colour = |_| random.between(0, profile.top_colour());
    (0..n).map(colour).collect()
}

/// A filter of n states and m labels whose start, the first of `live`, leads to all of them and to no other state. Of the
/// pairs of state and label that this does not take, one in `often` has an edge, which leads anywhere from a state that is
/// not live. The last of `live` is not needed to lead to another.
pub fn led(
    profile: Profile,
    random: &mut Random,
    n: u64,
    m: u64,
    live: &[u64],
    often: u64,
) -> Filter {
    let mut targets = BTreeMap::new();
    for (i, &state) in live.iter().enumerate().skip(1) {
        // Those before it have a label left: there is one pair at least for each of them, and one less is taken.
        let mut pair = || (random.pick(&live[..i]), random.between(0, m - 1));
        let mut from = pair();
        while targets.contains_key(&from) {
            from = pair();
        }
        targets.insert(from, state);
    }
    let all: Vec<u64> = (0..n).collect();
    for source in 0..n {
        let leads_to = if live.contains(&source) { live } else { &all };
        for label in 0..m {
            if random.once_in(often) {
                let target = random.pick(leads_to);
                targets.entry((source, label)).or_insert(target);
            }
        }
    }
    let mut led = Filter {
        colours: any_colours(profile, random, n),
        m,
        start: live[0],
        edges: targets
            .into_iter()
            .map(|((source, label), target)| Edge {
                source,
                label,
                target,
            })
            .collect(),
    };
    recolour(&mut led, 0);
    led
}

/// The largest file's sizes, and its highest colour somewhere.
pub fn largest(profile: Profile, random: &mut Random) -> Filter {
    let n = profile.most_states();
    let mut colours = any_colours(profile, random, n);
    let at = random.between(0, n - 1) as usize;
    colours[at] = profile.top_colour();
    with_colours(random, colours, profile.most_labels(), profile.most_edges())
}

/// Any sizes, so most likely some ten thousand bytes, or some fifty of a pocket file.
pub fn large(profile: Profile, random: &mut Random) -> Filter {
    let n = random.between(1, profile.most_states());
    let m = random.between(1, profile.most_labels());
    let e = random.between(0, n * m);
    filter(profile, random, n, m, e)
}

/// A few states, labels and edges.
pub fn small(profile: Profile, random: &mut Random) -> Filter {
    let n = random.between(1, 6);
    let m = random.between(1, 5);
    let e = random.between(0, n * m);
    filter(profile, random, n, m, e)
}

/// Almost as many states as there can be, or as many.
pub fn many_states(profile: Profile, random: &mut Random) -> u64 {
    let most = profile.most_states();
    random.between(most - most / 4, most)
}

/// The same of labels.
pub fn many_labels(profile: Profile, random: &mut Random) -> u64 {
    let most = profile.most_labels();
    random.between(most - most / 8, most)
}

/// One of each shape, most of them small.
pub fn shapes(profile: Profile, random: &mut Random) -> Vec<Filter> {
    let (most, labels) = (profile.most_states(), profile.most_labels());
    let n = random.between(1, 8);
    let m = random.between(1, 8);
    let some_labels = random.between(1, labels);
    let some_states = random.between(1, most.min(64));
    let mut sizes = vec![
        (1, 1, 0),
        (1, 1, 1),
        (n, m, 0),
        (n, m, n * m),
        (1, some_labels, random.between(0, some_labels)),
        (some_states, 1, random.between(0, some_states)),
        (1, labels, labels),
        (2, labels, random.between(0, 2 * labels)),
        (most, 1, random.between(0, most.min(40))),
    ];
    if random.once_in(4) {
        let many = many_states(profile, random);
        sizes.push((most, 1, most));
        sizes.push((most, labels, random.between(0, 100)));
        sizes.push((most, labels, 0));
        sizes.push((many, m, random.between(0, 200.min(many * m))));
    }
    let mut filters: Vec<Filter> = (0..6).map(|_| small(profile, random)).collect();
    for (n, m, e) in sizes {
        filters.push(filter(profile, random, n, m, e));
    }
    filters
}

/// One that can take every damage: a source, label and target outside exist, there are a first, a middle and a last edge with
/// another before each of the latter two, and the file has filling bits.
pub fn damageable(profile: Profile, random: &mut Random) -> Filter {
    loop {
        let n = if random.once_in(8) {
            many_states(profile, random) - 1
        } else {
            random.between(2, 10)
        };
        let m = if random.once_in(8) {
            many_labels(profile, random) - 1
        } else {
            random.between(2, 6)
        };
        let e = random.between(4, (n * m).min(20));
        if free_bits(profile.bits(n, e) as usize) > 0 {
            return filter(profile, random, n, m, e);
        }
    }
}
