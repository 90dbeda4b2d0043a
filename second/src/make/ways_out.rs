//! Filters with edges out of a profile's highest colour, into it and within it. In a large file it is the fault, and an edge
//! that leads out of it is refused; in a pocket file it is a colour like any other, and the same filters are accepted.

use crate::file::{Edge, Filter};
use crate::make::chains;
use crate::make::damage::{Damage, Damaged, Tops};
use crate::make::filters::{damageable, small, with_colours};
use crate::profile::Profile;
use crate::random::Random;
use std::collections::BTreeSet;

/// Makes these edges lead out of the highest colour, and no others. One state at least has to be the source of none of them.
pub fn lead_out(profile: Profile, filter: &mut Filter, at: &[usize], random: &mut Random) {
    let top = profile.top_colour();
    let sources: BTreeSet<u64> = at.iter().map(|&edge| filter.edges[edge].source).collect();
    let mut others: Vec<u64> = (0..filter.n()).collect();
    others.retain(|state| !sources.contains(state));
    for &source in &sources {
        filter.colours[source as usize] = top;
    }
    for &edge in at {
        let target = random.pick(&others);
        filter.edges[edge].target = target;
        let colour = &mut filter.colours[target as usize];
        if *colour == top {
            let any = random.between(0, top - 1);
            *colour = random.pick(&[0, any, top - 1]);
        }
    }
    for (i, edge) in filter.edges.iter_mut().enumerate() {
        if !at.contains(&i) && leads_out(profile, &filter.colours, edge) {
            edge.target = edge.source;
        }
    }
}

/// Whether an edge leads from the highest colour to another.
pub fn leads_out(profile: Profile, colours: &[u64], edge: &Edge) -> bool {
    let top = profile.top_colour();
    let [from, to] = [edge.source, edge.target].map(|state| colours[state as usize]);
    from == top && to != top
}

/// Only the first, a middle or the last edge leads out, from a state that is the start, and from one that the start does not
/// lead to.
pub fn one_way_out(profile: Profile, random: &mut Random) -> Vec<Filter> {
    let mut filters = Vec::new();
    for of_a_leftover in [false, true] {
        for nth in 0..3 {
            let mut filter = damageable(profile, random);
            let at = [0, filter.edges.len() / 2, filter.edges.len() - 1][nth];
            lead_out(profile, &mut filter, &[at], random);
            let source = filter.edges[at].source;
            filter.start = source;
            if of_a_leftover {
                leave_over(&mut filter, source, random);
            }
            filters.push(filter);
        }
    }
    filters
}

/// Starts from another state, and takes away what leads to this one.
fn leave_over(filter: &mut Filter, state: u64, random: &mut Random) {
    let mut others: Vec<u64> = (0..filter.n()).collect();
    others.retain(|&other| other != state);
    filter.start = random.pick(&others);
    for edge in &mut filter.edges {
        if edge.target == state {
            edge.target = edge.source;
        }
    }
}

/// Two edges lead out, some, and all that can where one state has to be of another colour.
pub fn several_ways_out(profile: Profile, random: &mut Random) -> Vec<Filter> {
    let mut filters = Vec::new();
    for nth in 0..3 {
        let mut filter = damageable(profile, random);
        let mut at = not_of_one_state(&filter, random);
        let most = at.len() as u64;
        let count = [2, random.between(2, most), most][nth];
        while at.len() as u64 > count {
            at.remove(random.between(0, at.len() as u64 - 1) as usize);
        }
        lead_out(profile, &mut filter, &at, random);
        filters.push(filter);
    }
    filters
}

/// The edges that leave some state out of their sources, of which there are two at least: of four edges no two states can have
/// three each.
fn not_of_one_state(filter: &Filter, random: &mut Random) -> Vec<usize> {
    loop {
        let spared = random.between(0, filter.n() - 1);
        let mut at: Vec<usize> = (0..filter.edges.len()).collect();
        at.retain(|&edge| filter.edges[edge].source != spared);
        if at.len() >= 2 {
            return at;
        }
    }
}

/// One state alone has the highest colour, each of a few states in turn and one in sixteen of as many as there can be, so that
/// its colour begins at any bit of a byte, or of a longer word. One of its edges leads out, and then none.
pub fn in_each_state(profile: Profile, random: &mut Random) -> Vec<Filter> {
    let most = profile.most_states();
    let few = random.between(2, most.min(40));
    let apart = most / 16;
    let first = random.between(0, apart - 1);
    let all_of_few = (0..few).map(|state| (few, state));
    let some_of_most = (first..most).step_by(apart as usize);
    all_of_few
        .chain(some_of_most.map(|state| (most, state)))
        .flat_map(|(n, state)| in_one_state(profile, n, state, random))
        .collect()
}

fn in_one_state(profile: Profile, n: u64, state: u64, random: &mut Random) -> [Filter; 2] {
    let top = profile.top_colour();
    let mut colours: Vec<u64> = (0..n).map(|_| random.between(0, top - 1)).collect();
    colours[state as usize] = top;
    let m = random.between(1, 3);
    let e = random.between(0, (n * m).min(30));
    let mut kept = with_colours(random, colours, m, e);
    kept.edges.retain(|edge| edge.source != state);
    let at = kept.edges.partition_point(|edge| edge.source < state);
    let own = Edge {
        source: state,
        label: random.between(0, m - 1),
        target: state,
    };
    kept.edges.insert(at, own);
    let mut left = kept.clone();
    left.edges[at].target = (state + random.between(1, n - 1)) % n;
    [left, kept]
}

/// One edge leads out, and another is faulty behind it, and before it.
pub fn beside_a_faulty_edge(profile: Profile, tops: Tops, random: &mut Random) -> Vec<Damaged> {
    let mut all = Vec::new();
    for damage in Damage::ALL {
        for behind in [true, false] {
            let mut filter = damageable(profile, random);
            let (leads_out, edge) = two_apart(&filter, damage, behind, random);
            lead_out(profile, &mut filter, &[leads_out], random);
            damage.apply(&mut filter, edge, tops, random);
            all.push(Damaged { filter, edge });
        }
    }
    all
}

/// An edge that is to lead out and one that is to be damaged, behind the former or before it and not next to it, or the damage
/// could touch both. Of four edges at least.
pub fn two_apart(
    filter: &Filter,
    damage: Damage,
    behind: bool,
    random: &mut Random,
) -> (usize, usize) {
    let last = filter.edges.len() - 1;
    let mut any = |from: usize, to: usize| random.between(from as u64, to as u64) as usize;
    if behind {
        (0, any(2, last))
    } else {
        (last, any(damage.earliest(), last - 2))
    }
}

/// An edge that leads out, or would if its target were a state, and is faulty itself, the earliest that can be, a middle one and
/// the last. A damage of the order moves the edge before it there, or copies that one.
pub fn in_a_faulty_edge(profile: Profile, tops: Tops, random: &mut Random) -> Vec<Damaged> {
    let mut all = Vec::new();
    for damage in Damage::ALL {
        // Its source is none that has a colour.
        if damage == Damage::Source {
            continue;
        }
        for nth in 0..3 {
            let mut filter = damageable(profile, random);
            let edge = damage.places(&filter)[nth];
            let leads_out = edge - damage.earliest();
            lead_out(profile, &mut filter, &[leads_out], random);
            damage.apply(&mut filter, edge, tops, random);
            all.push(Damaged { filter, edge });
        }
    }
    all
}

/// Where the highest colour is entered and kept, as it has to be in a large file: among other colours, with a start of it and
/// with one of another; alone; and at the end of a chain.
pub fn kept(profile: Profile, random: &mut Random) -> Vec<Filter> {
    let top = profile.top_colour();
    let mut filters = Vec::new();
    for starts_in_it in [true, false] {
        let colours = highest_and_others(profile, random);
        let m = random.between(1, 5);
        let e = random.between(1, colours.len() as u64 * m);
        let mut filter = with_colours(random, colours, m, e);
        let mut starts: Vec<u64> = (0..filter.n()).collect();
        starts.retain(|&state| (filter.colours[state as usize] == top) == starts_in_it);
        filter.start = random.pick(&starts);
        filters.push(filter);
    }
    let n = random.between(1, 8);
    let m = random.between(1, 5);
    let e = random.between(1, n * m);
    filters.push(with_colours(random, vec![top; n as usize], m, e));
    let mut chain = chains::plain(random.between(2, 12));
    let last = chain.colours.len() - 1;
    chain.colours[last] = top;
    filters.push(chain);
    filters
}

/// Of a few states, of which one at least has the highest colour and one has not.
fn highest_and_others(profile: Profile, random: &mut Random) -> Vec<u64> {
    let top = profile.top_colour();
    let others = random.between(1, 8);
    let mut colours = vec![top; random.between(1, 4) as usize];
    for _ in 0..others {
        let any = random.between(0, top - 1);
        let colour = random.pick(&[any, top - 1]);
        let at = random.between(0, colours.len() as u64) as usize;
        colours.insert(at, colour);
    }
    colours
}

/// Two colours alone, the highest and the next. It is only the highest that no edge leaves; and one does.
pub fn next_to_the_highest(profile: Profile, random: &mut Random) -> Vec<Filter> {
    let top = profile.top_colour();
    let two_colours = |filter: &mut Filter| {
        for colour in &mut filter.colours {
            *colour = (*colour).max(top - 1);
        }
    };
    let kept = kept(profile, random).swap_remove(1);
    let left = one_way_out(profile, random).swap_remove(random.between(0, 5) as usize);
    let mut filters = vec![kept, left];
    filters.iter_mut().for_each(two_colours);
    filters
}

/// Of the highest colours, which edges leave or not as it happens.
pub fn as_it_happens(profile: Profile, random: &mut Random) -> Vec<Filter> {
    let top = profile.top_colour();
    let mut filter = small(profile, random);
    for colour in &mut filter.colours {
        *colour = random.between(top - 2, top);
    }
    vec![filter]
}

/// All of these: one edge leads out, several do, or as many as it happens.
pub fn any_number(profile: Profile, random: &mut Random) -> Vec<Filter> {
    [
        one_way_out,
        several_ways_out,
        next_to_the_highest,
        as_it_happens,
    ]
    .map(|make| make(profile, random))
    .concat()
}
