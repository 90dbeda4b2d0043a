//! What the programs print, which take large files alone.

use crate::file::{read, write, Filter, Refusal};
use crate::profile::LARGE;
use crate::reduce::{self, Reduced};
use crate::trace;

/// The most that a program reads of a filter file: one byte more than the largest has.
pub const MOST_OF_A_FILE: usize = 45_254;

/// The most that `trace` reads of its standard input: one observation more than a ride takes.
pub const MOST_OF_THE_OBSERVATIONS: usize = 65_536;

/// What `trace` prints for a file and a standard input of any length; a file that cannot be had is empty.
pub fn trace(file: &[u8], input: &[u8]) -> String {
    let file = up_to(MOST_OF_A_FILE, file);
    let observations = up_to(MOST_OF_THE_OBSERVATIONS, input);
    let ride = match trace::trace(LARGE, file, observations, observations.len() + 1) {
        Ok(ride) => ride,
        Err(refusal) => return refusal_line(refusal),
    };
    let mut text = String::new();
    for colour in &ride.colours {
        text += &format!("{colour}\n");
    }
    text += &match ride.stopped_at {
        None => String::from("traced\n"),
        Some(i) => format!("stopped {i}\n"),
    };
    text
}

/// What `reduce` prints for a standard input of any length.
pub fn reduce(input: &[u8]) -> String {
    let (original, reduced) = match reduction(input) {
        Ok(both) => both,
        Err(refusal) => return refusal_line(refusal),
    };
    let mut text = format!(
        "{} {} {} {}\n",
        original.n(),
        reduced.filter.n(),
        reduced.distinct_colours,
        reduced.rounds
    );
    for (state, number) in reduced.numbers.iter().enumerate() {
        text += &match number {
            Some(number) => format!("{state} {number}\n"),
            None => format!("{state} -\n"),
        };
    }
    text
}

/// What `shrink` writes for a standard input of any length.
pub fn shrink(input: &[u8]) -> Vec<u8> {
    match reduction(input) {
        Ok((_, reduced)) => write(&reduced.filter),
        Err(_) => Vec::new(),
    }
}

fn reduction(input: &[u8]) -> Result<(Filter, Reduced), Refusal> {
    let filter = read(up_to(MOST_OF_A_FILE, input))?;
    let reduced = reduce::reduce(&filter);
    Ok((filter, reduced))
}

fn up_to(most: usize, bytes: &[u8]) -> &[u8] {
    &bytes[..bytes.len().min(most)]
}

pub fn refusal_line(refusal: Refusal) -> String {
    format!("refused {} {}\n", refusal.number, refusal.place)
}
