//! Errors that look right, and how many cases tell them from what is right.

use second::case::Case;
use second::make::Family;
use second::random::Random;
use std::fmt::Debug;

/// The cases of one batch.
pub fn made(families: &[&[Family<Case>]], random: &mut Random) -> Vec<Case> {
    let mut cases = Vec::new();
    for family in families.iter().copied().flatten() {
        cases.extend(family.all(random));
    }
    // The longest show nothing that others do not.
    cases.retain(|case| case.a.len() < 20_000);
    cases
}

/// Each with what it comes to.
pub fn tried<T>(cases: Vec<Case>, told: impl Fn(&Case) -> T) -> Vec<(Case, T)> {
    cases
        .into_iter()
        .map(|case| {
            let told = told(&case);
            (case, told)
        })
        .collect()
}

/// How many cases come to something else with an error; `None` where it makes no difference.
pub fn differing<T: PartialEq>(tried: &[(Case, T)], wrong: impl Fn(&Case) -> Option<T>) -> usize {
    let differs = |(case, told): &&(Case, T)| wrong(case).is_some_and(|wrong| wrong != *told);
    tried.iter().filter(differs).count()
}

/// Fails unless so many cases tell the error from what is right.
pub fn told_apart<T: PartialEq>(
    tried: &[(Case, T)],
    error: impl Debug,
    least: usize,
    wrong: impl Fn(&Case) -> Option<T>,
) {
    let count = differing(tried, wrong);
    println!("{error:?}: {count}");
    assert!(count >= least, "{error:?}: only {count}");
}
