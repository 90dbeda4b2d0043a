//! Filters that take many rounds. A chain is a line of states, each with an edge to the next, of which the last alone has
//! its own colour: a round can part no more than the one state that leads out of its class, so a chain takes two rounds
//! fewer than it has states.

use crate::file::{Edge, Filter, FAULT};
use crate::make::filters::{any_colours, recolour};
use crate::profile::Profile;
use crate::random::Random;
use crate::rides::filter_of;

/// One chain in ascending order, with no edge besides.
pub fn plain(states: u64) -> Filter {
    let last = states as usize - 1;
    let mut colours = vec![0; last];
    colours.push(1);
    let edges: Vec<_> = (1..states).map(|next| (next - 1, 0, next)).collect();
    filter_of(&colours, &edges)
}

/// Where the edges of one label lead. None of these parts two states of a class that the chain does not part.
#[derive(Clone, Copy)]
enum Way {
    /// To the next state of the chain, if there is one.
    On,
    /// To the state itself, so to the class of any two.
    Back,
    /// From all states to one.
    To(u64),
}

/// Chains of these lengths, two or more each, on any of n states, one behind another, so that the start, which is the first
/// state of the first, leads to all of them. Behind the last may come a tail that becomes one state; the other states have no
/// part in this, whatever their colour. One label has the edges of the chains, the others some that take no round more or
/// less.
pub fn chains(profile: Profile, random: &mut Random, n: u64, m: u64, lengths: &[u64]) -> Filter {
    let (colours, next, start) = lines(profile, random, n, lengths);
    let chained = random.between(0, m - 1);
    // Of the other labels' edges all are there, most, half or none.
    let missing = random.pick(&[None, Some(10), Some(2), Some(1)]);
    let mut ways: Vec<Way> = (0..m).map(|_| any_way(random, n)).collect();
    ways[chained as usize] = Way::On;
    let mut edges = Vec::new();
    for source in 0..n {
        for (label, way) in (0..).zip(&ways) {
            let target = match *way {
                Way::On => next[source as usize],
                Way::Back => Some(source),
                Way::To(state) => Some(state),
            };
            if label != chained && missing.is_some_and(|times| random.once_in(times)) {
                continue;
            }
            if let Some(target) = target {
                edges.push(Edge {
                    source,
                    label,
                    target,
                });
            }
        }
    }
    let mut chains = Filter {
        colours,
        m,
        start,
        edges,
    };
    // Those that have no part in this may be of any colour.
    recolour(&mut chains, 0);
    chains
}

fn any_way(random: &mut Random, n: u64) -> Way {
    let state = random.between(0, n - 1);
    random.pick(&[Way::On, Way::Back, Way::To(state)])
}

/// The colour of each state, its next in a chain, from the end of one to the next chain and in the tail, and the first state
/// of all. A chain's last state is the only one of its colour that leads on, and the tail has a colour of its own, so that
/// neither takes a round. Neither has the fault, since all of them lead on.
fn lines(
    profile: Profile,
    random: &mut Random,
    n: u64,
    lengths: &[u64],
) -> (Vec<u64>, Vec<Option<u64>>, u64) {
    let mut palette = random.shuffled(profile.top_colour() + 1);
    palette.retain(|&colour| colour != FAULT);
    let mut colours = any_colours(profile, random, n);
    let mut next = vec![None; n as usize];
    let order = in_some_order(random, n);
    let mut begins = 0;
    for (&length, pair) in lengths.iter().zip(palette.chunks(2)) {
        let ends = begins + length as usize;
        for &state in &order[begins..ends] {
            colours[state as usize] = pair[0];
        }
        colours[order[ends - 1] as usize] = pair[1];
        begins = ends;
    }
    let tail_ends = random.between(begins as u64, n) as usize;
    for &state in &order[begins..tail_ends] {
        colours[state as usize] = palette[2 * lengths.len()];
    }
    for two in order[..tail_ends].windows(2) {
        next[two[0] as usize] = Some(two[1]);
    }
    (colours, next, order[0])
}

/// All states: ascending, descending or in disorder.
pub fn in_some_order(random: &mut Random, n: u64) -> Vec<u64> {
    match random.between(1, 4) {
        1 => (0..n).collect(),
        2 => (0..n).rev().collect(),
        _ => random.shuffled(n),
    }
}

/// The lengths of so many chains that have `states` together, two or more each.
pub fn lengths(random: &mut Random, count: u64, states: u64) -> Vec<u64> {
    let mut lengths = vec![2; count as usize];
    for _ in 2 * count..states {
        lengths[random.between(0, count - 1) as usize] += 1;
    }
    lengths
}

/// The rounds that chains of these lengths take.
pub fn rounds(lengths: &[u64]) -> u64 {
    lengths.iter().map(|length| length - 2).sum()
}
