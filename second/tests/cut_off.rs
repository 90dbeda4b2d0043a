//! A batch that is cut off ends the outcomes of `answers` after the last whole case.

mod common;

use common::{at_once, program, run, whole, Ran};
use second::case::Case;
use second::frame::{answer_batch, write_batch};
use second::make::filters::largest;
use second::make::texts::{drawable, text_of};
use second::profile::{Profile, LARGE, POCKET};
use second::random::{seed_or, Random};
use second::rides::{A, C, C_DRAWN, K, K_COLOURS, K_EDGES, K_OBSERVATIONS, K_POCKET};
use second::{file, stored};

fn run_answers(batch: &[u8]) -> Ran {
    run(program("answers"), whole(batch.to_vec()), at_once)
}

fn agrees(batch: &[u8]) {
    let ran = run_answers(batch);
    assert!(
        ran.stdout == answer_batch(batch),
        "{} bytes of a batch: {} bytes of outcomes instead of {}",
        batch.len(),
        ran.stdout.len(),
        answer_batch(batch).len()
    );
    assert!(ran.went_well(), "{}", ran.end());
}

fn a_few() -> Vec<Case> {
    let mut cases = of_either_file(LARGE, K).to_vec();
    cases.extend([
        Case::from_dot(C_DRAWN.into(), vec![0xee; 8]),
        Case::to_dot(C.to_vec(), vec![0xee; 27]),
    ]);
    cases
}

fn a_few_of_pocket_files() -> Vec<Case> {
    let mut cases = of_either_file(POCKET, K_POCKET).to_vec();
    cases.extend([
        Case::to_large(K_POCKET.to_vec(), vec![0xee; 20]),
        Case::to_pocket(K.to_vec(), vec![0xee; 11]),
    ]);
    cases
}

fn of_either_file(profile: Profile, k: &[u8]) -> [Case; 5] {
    let k = k.to_vec();
    let (colours, edges) = (K_COLOURS.to_vec(), K_EDGES.to_vec());
    let observations = K_OBSERVATIONS.to_vec();
    [
        Case::check(profile, A.to_vec()),
        Case::unpack(profile, k.clone(), vec![0xee; 3], vec![0xee; 13]),
        Case::pack(profile, colours, edges, 2, 0, vec![0xee; 19]),
        Case::trace(profile, k.clone(), observations, vec![0xee; 4]),
        Case::reduce(profile, k, vec![0xee; 19], vec![0xee; 9]),
    ]
}

#[test]
fn nothing_at_all() {
    let ran = run_answers(&[]);
    assert!(ran.stdout.is_empty());
    assert!(ran.went_well(), "{}", ran.end());
}

#[test]
fn every_beginning_of_a_batch() {
    let batch = write_batch(&a_few());
    for length in 0..=batch.len() {
        agrees(&batch[..length]);
    }
}

/// Every case is framed in one way, so the ends of each will do.
#[test]
fn calls_of_pocket_files_cut_at_their_ends() {
    let cases = a_few_of_pocket_files();
    for count in 1..=cases.len() {
        let batch = write_batch(&cases[..count]);
        for missing in [0, 1] {
            agrees(&batch[..batch.len() - missing]);
        }
    }
}

/// Where the next case begins with a byte that stands for no call.
#[test]
fn a_call_that_is_none_ends_the_batch() {
    let before = a_few_of_pocket_files();
    let mut batch = write_batch(&[&before[..], &a_few()].concat());
    let at = write_batch(&before).len();
    for call in [0, 15, 16, 255] {
        batch[at] = call;
        assert_eq!(answer_batch(&batch), answer_batch(&batch[..at]));
        agrees(&batch);
    }
}

#[test]
fn a_batch_without_cases() {
    agrees(&write_batch(&[]));
}

#[test]
fn fewer_cases_than_announced() {
    let cases = [a_few(), a_few_of_pocket_files()].concat();
    let mut batch = write_batch(&cases);
    for count in [cases.len() as u64 + 1, 1 << 32, 1 << 63, u64::MAX] {
        batch[..8].copy_from_slice(&u64::to_be_bytes(count));
        agrees(&batch);
    }
}

#[test]
fn cut_inside_long_strings() {
    let mut random = Random::new(seed_or(1));
    let file = file::write(&largest(LARGE, &mut random));
    let mut cases = a_few();
    cases.push(Case::unpack(
        LARGE,
        file,
        vec![0xee; 256],
        vec![0xee; 49_152],
    ));
    let batch = write_batch(&cases);
    for missing in [0, 1, 49_151, 49_152, 49_153, 49_500, 80_000, 94_600] {
        agrees(&batch[..batch.len() - missing]);
    }
}

#[test]
fn cut_inside_a_long_text() {
    let mut random = Random::new(seed_or(1));
    let filter = drawable(largest(LARGE, &mut random));
    let text = text_of(&filter);
    let length = text.len();
    let mut cases = a_few();
    cases.push(Case::from_dot(text, vec![0xee; 45_253]));
    let batch = write_batch(&cases);
    for missing in [0, 1, 45_252, 45_253, 45_254, 200_000, length + 45_253] {
        agrees(&batch[..batch.len() - missing]);
    }
    cases.pop();
    cases.push(Case::to_dot(file::write(&filter), vec![0xee; length]));
    let batch = write_batch(&cases);
    for missing in [0, 1, 200_000, length, length + 1, length + 45_253] {
        agrees(&batch[..batch.len() - missing]);
    }
}

#[test]
fn the_stored_batch() {
    agrees(&write_batch(&stored::cases()));
}
