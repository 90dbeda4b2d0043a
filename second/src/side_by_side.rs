//! Two filters side by side: does the other one show what the original shows, on every sequence that the original traces?
//! The idea is Algorithm 1 of source document 000: a search forward through the pairs of states in which the two can be at
//! one time.

use crate::file::Filter;
use std::collections::{BTreeSet, VecDeque};

/// A state of the original and one of the other.
pub type Pair = (u64, u64);

#[derive(Clone, Copy, Debug, PartialEq, Eq)]
pub enum Failure {
    /// The last of the observations leads the other to a wrong colour, or its start has one.
    Colour,
    /// The other has no edge for the last of the observations.
    NoEdge,
}

/// Observations that the original traces and the other does not, or not with the same colours.
#[derive(Clone, Debug, PartialEq, Eq)]
pub struct Parting {
    pub observations: Vec<u8>,
    pub failure: Failure,
}

/// All pairs that are reached together from the starts, or where the two part.
pub fn pairs(original: &Filter, other: &Filter) -> Result<BTreeSet<Pair>, Parting> {
    let (ways, other_ways) = (ways(original), ways(other));
    let starts = (original.start, other.start);
    let mut reached = BTreeSet::from([starts]);
    let mut waiting = VecDeque::from([(starts, Vec::new())]);
    while let Some(((one, two), observations)) = waiting.pop_front() {
        if original.colours[one as usize] != other.colours[two as usize] {
            return Err(Parting {
                observations,
                failure: Failure::Colour,
            });
        }
        for &(label, target) in &ways[one as usize] {
            let longer = || [&observations[..], &[label as u8]].concat();
            let Some(other_target) = target_at(&other_ways[two as usize], label) else {
                return Err(Parting {
                    observations: longer(),
                    failure: Failure::NoEdge,
                });
            };
            if reached.insert((target, other_target)) {
                waiting.push_back(((target, other_target), longer()));
            }
        }
    }
    Ok(reached)
}

/// For each state the label and the target of each of its edges.
fn ways(filter: &Filter) -> Vec<Vec<(u64, u64)>> {
    let mut ways = vec![Vec::new(); filter.colours.len()];
    for edge in &filter.edges {
        ways[edge.source as usize].push((edge.label, edge.target));
    }
    ways
}

fn target_at(ways: &[(u64, u64)], wanted: u64) -> Option<u64> {
    let way = ways.iter().find(|&&(label, _)| label == wanted)?;
    Some(way.1)
}
