//! What both programs say, once they are found to agree.

use second::case::{Case, Outcome};
use second::compare::Batch;
use second::make::Made;

pub fn outcomes(family: &'static str, cases: Vec<Case>) -> Vec<Outcome> {
    let made: Vec<Made> = cases
        .into_iter()
        .map(|case| Made { family, case })
        .collect();
    let batch = Batch::new(format!("second-{}", std::process::id()), made);
    batch
        .compare()
        .unwrap_or_else(|difference| panic!("{}", difference.report))
}

/// What was written to the front of each room C, by calls that all have to accept and that count the bytes first.
pub fn written(family: &'static str, cases: Vec<Case>) -> Vec<Vec<u8>> {
    let front = |outcome: Outcome| {
        assert_eq!(outcome.answer.number, 0);
        outcome.c[..outcome.answer.counts[0] as usize].to_vec()
    };
    outcomes(family, cases).into_iter().map(front).collect()
}
