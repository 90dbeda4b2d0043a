//! Every file of three bytes, by force: no pocket file is shorter, and of this length only those of one state without edges
//! are accepted.

use second::call::Answer;
use second::compare::Batch;
use second::make::three_bytes::{beginning_with, file};
use second::profile::POCKET;
use std::collections::BTreeSet;

/// The number by the definition alone, with n - 1 in the top 4 bits, m - 1 in the next 3, start in 4, e in 8.
fn number(bits: u32) -> u8 {
    let n = (bits >> 20) + 1;
    let m = (bits >> 17 & 7) + 1;
    let start = bits >> 13 & 15;
    let e = bits >> 5 & 255;
    let filling = bits & 1;
    if start >= n {
        2
    } else if e > n * m {
        3
    } else if 19 + 4 * n + 11 * e > 24 {
        4
    } else if filling != 0 {
        6
    } else {
        0
    }
}

#[test]
fn the_second_program_goes_by_the_definition() {
    let mut accepted = Vec::new();
    for bits in 0..1 << 24 {
        let answer = POCKET.check(&file(bits));
        assert_eq!((answer.number, answer.place), (number(bits), 0), "{bits:x}");
        if answer.number == 0 {
            let m = u64::from(bits >> 17) + 1;
            assert_eq!(answer.counts, [1, m, 0, 0]);
            accepted.push(bits);
        } else {
            assert_eq!(answer.counts, [0; 4]);
        }
    }
    // Nothing but m - 1 and the colour is free, in bits 4 to 6 and 19 to 22 of the 24.
    let free = 0b0000_1110_0000_0000_0001_1110;
    assert_eq!(accepted.len(), 128);
    assert!(accepted.iter().all(|bits| bits & !free == 0));
}

/// The first four bits are 0, so n is 1: only these have the length that the header asks for.
#[test]
fn the_proved_program_agrees_on_all_of_one_state() {
    let mut tried = BTreeSet::new();
    let mut accepted = 0;
    for first in 0..16 {
        let name = format!("second-three-bytes-{first}");
        let batch = Batch::new(name, beginning_with(first));
        let outcomes = batch
            .compare()
            .unwrap_or_else(|difference| panic!("{}", difference.report));
        let is_accepted = |answer: &Answer| answer.number == 0;
        let answers = outcomes.iter().map(|outcome| outcome.answer);
        accepted += answers.filter(is_accepted).count();
        tried.extend(batch.cases().iter().map(|case| case.a.clone()));
    }
    assert_eq!((tried.len(), accepted), (1 << 20, 128));
}
