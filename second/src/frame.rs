//! The batch: cases in, outcomes out. All numbers are big-endian.
//!
//! A batch is 8 bytes with the number of cases, then each case: 1 byte for the call, 8 and 8 bytes for its two
//! numbers, 4 and 4 and 4 bytes for the lengths of its strings A, B and C, then the strings. The outcome of a case is
//! 1 byte for the number, 8 for the place, four counts of 8, then B and C as they stand after the call; their lengths
//! are those of the case.

use crate::call::Answer;
use crate::case::{Call, Case, Outcome};

/// The longest string of a case.
pub const LONGEST: usize = 400_000;

pub fn write_batch(cases: &[Case]) -> Vec<u8> {
    let mut bytes = Vec::new();
    bytes.extend((cases.len() as u64).to_be_bytes());
    for case in cases {
        bytes.push(case.call.byte());
        bytes.extend(case.first.to_be_bytes());
        bytes.extend(case.second.to_be_bytes());
        let strings = [&case.a, &case.b, &case.c];
        for string in strings {
            assert!(string.len() <= LONGEST, "a string of {}", string.len());
            bytes.extend((string.len() as u32).to_be_bytes());
        }
        for string in strings {
            bytes.extend(string);
        }
    }
    bytes
}

/// The whole cases of a batch; one that is cut off has fewer than it says.
pub fn read_batch(bytes: &[u8]) -> Vec<Case> {
    let mut left = bytes;
    let mut cases = Vec::new();
    if let Some(count) = number(&mut left, 8) {
        while (cases.len() as u64) < count {
            match read_case(&mut left) {
                Some(case) => cases.push(case),
                None => break,
            }
        }
    }
    cases
}

pub fn write_outcomes(outcomes: &[Outcome]) -> Vec<u8> {
    let mut bytes = Vec::new();
    for outcome in outcomes {
        bytes.push(outcome.answer.number);
        bytes.extend(outcome.answer.place.to_be_bytes());
        for count in outcome.answer.counts {
            bytes.extend(count.to_be_bytes());
        }
        bytes.extend(&outcome.b);
        bytes.extend(&outcome.c);
    }
    bytes
}

/// The whole outcomes of these cases, and the bytes that are left over.
pub fn read_outcomes<'a>(bytes: &'a [u8], cases: &[Case]) -> (Vec<Outcome>, &'a [u8]) {
    let mut left = bytes;
    let mut outcomes = Vec::new();
    for case in cases {
        let mut ahead = left;
        match read_outcome(&mut ahead, case) {
            Some(outcome) => outcomes.push(outcome),
            None => break,
        }
        left = ahead;
    }
    (outcomes, left)
}

/// What the second program itself says to a batch.
pub fn answer_batch(batch: &[u8]) -> Vec<u8> {
    let outcomes: Vec<Outcome> = read_batch(batch).iter().map(Case::outcome).collect();
    write_outcomes(&outcomes)
}

fn read_case(left: &mut &[u8]) -> Option<Case> {
    let byte = number(left, 1)?;
    let call = Call::ALL
        .into_iter()
        .find(|call| u64::from(call.byte()) == byte)?;
    let first = number(left, 8)?;
    let second = number(left, 8)?;
    let mut lengths = [0; 3];
    for length in &mut lengths {
        *length = number(left, 4)? as usize;
    }
    Some(Case {
        call,
        first,
        second,
        a: string(left, lengths[0])?.to_vec(),
        b: string(left, lengths[1])?.to_vec(),
        c: string(left, lengths[2])?.to_vec(),
    })
}

fn read_outcome(left: &mut &[u8], case: &Case) -> Option<Outcome> {
    let refusal = number(left, 1)? as u8;
    let place = number(left, 8)?;
    let mut counts = [0; 4];
    for count in &mut counts {
        *count = number(left, 8)?;
    }
    Some(Outcome {
        answer: Answer {
            number: refusal,
            place,
            counts,
        },
        b: string(left, case.b.len())?.to_vec(),
        c: string(left, case.c.len())?.to_vec(),
    })
}

fn string<'a>(left: &mut &'a [u8], length: usize) -> Option<&'a [u8]> {
    if left.len() < length {
        return None;
    }
    let (taken, rest) = left.split_at(length);
    *left = rest;
    Some(taken)
}

fn number(left: &mut &[u8], width: usize) -> Option<u64> {
    let mut value = 0;
    for &byte in string(left, width)? {
        value = value << 8 | u64::from(byte);
    }
    Some(value)
}
