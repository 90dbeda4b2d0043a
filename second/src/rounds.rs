//! The rounds of a reduction as text, to follow one with a pencil.
//!
//! A line for the beginning and one for each round: the round's number, 0 for the beginning; for a round the name of the
//! class that it took; a colon; then for each state, from 0 on, the name of its class after the round, or `-` where it is
//! dropped. Fields are parted by one space. A file that is refused has the refusal line instead.
//!
//! ```text
//! 0: 0 1 1 3 3 5 6
//! 1 3: 0 1 1 3 4 5 6
//! 2 1: 0 1 2 3 4 5 6
//! ```

use crate::file::read;
use crate::program::refusal_line;
use crate::reduce::{name, stages, Stage};

pub fn rounds(file: &[u8]) -> String {
    let filter = match read(file) {
        Ok(filter) => filter,
        Err(refusal) => return refusal_line(refusal),
    };
    let stages = stages(&filter);
    stages
        .iter()
        .enumerate()
        .map(|(round, stage)| line(round, stage, filter.n()))
        .collect()
}

fn line(round: usize, stage: &Stage, n: u64) -> String {
    let mut line = round.to_string();
    if let Some(taken) = stage.taken {
        line += &format!(" {taken}");
    }
    line.push(':');
    for state in 0..n {
        let own = stage.classes.iter().find(|class| class.contains(&state));
        line += &match own {
            Some(class) => format!(" {}", name(class)),
            None => String::from(" -"),
        };
    }
    line.push('\n');
    line
}
