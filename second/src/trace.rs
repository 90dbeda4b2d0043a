//! A ride along the edges of a filter, one observation after another.

use crate::file::{Filter, Refusal};
use crate::profile::Profile;

/// The most observations that one ride takes.
pub const MOST_OBSERVATIONS: usize = 65_535;

/// The colours shown, the start's first, and the index of the observation without an edge, where there is one.
#[derive(Clone, Debug, PartialEq, Eq)]
pub struct Ride {
    pub colours: Vec<u64>,
    pub stopped_at: Option<u64>,
}

/// Rides through a file with room for so many colours, or says why not.
pub fn trace(
    profile: Profile,
    file: &[u8],
    observations: &[u8],
    room: usize,
) -> Result<Ride, Refusal> {
    let filter = profile.read(file)?;
    if observations.len() > MOST_OBSERVATIONS || room < observations.len() + 1 {
        return Err(Refusal::new(12));
    }
    for (i, &observation) in observations.iter().enumerate() {
        if u64::from(observation) >= filter.m {
            return Err(Refusal {
                number: 13,
                place: i as u64,
            });
        }
    }
    Ok(ride(&filter, observations))
}

/// Looks through all edges at each step, so it needs no order among them.
pub fn ride(filter: &Filter, observations: &[u8]) -> Ride {
    let mut state = filter.start;
    let mut colours = vec![filter.colours[state as usize]];
    for (i, &observation) in observations.iter().enumerate() {
        let taken = filter
            .edges
            .iter()
            .find(|edge| edge.source == state && edge.label == u64::from(observation));
        let Some(edge) = taken else {
            return Ride {
                colours,
                stopped_at: Some(i as u64),
            };
        };
        state = edge.target;
        colours.push(filter.colours[state as usize]);
    }
    Ride {
        colours,
        stopped_at: None,
    }
}
