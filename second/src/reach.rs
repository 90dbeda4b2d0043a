//! The states that the start can reach, by any number of observations, none included: document 02's second wish.

use std::collections::BTreeSet;

use crate::file::Filter;

/// Goes as deep as it can first, and looks through all edges at each state, so it needs no order among them.
pub fn reached(filter: &Filter) -> BTreeSet<u64> {
    let mut reached = BTreeSet::new();
    let mut waiting = vec![filter.start];
    while let Some(state) = waiting.pop() {
        if reached.insert(state) {
            let leaving = filter.edges.iter().filter(|edge| edge.source == state);
            waiting.extend(leaving.map(|edge| edge.target));
        }
    }
    reached
}
