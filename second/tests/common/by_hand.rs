//! Calls and what they have to come to, written by hand and put to both programs.

use crate::common::{at_once, program, run, whole};
use second::call::Answer;
use second::case::{Case, Outcome};
use second::frame::{read_outcomes, write_batch};

/// A call, its answer, and the bytes that it writes to the front of its rooms B and C.
pub struct Ride {
    pub case: Case,
    pub answer: Answer,
    pub b: Vec<u8>,
    pub c: Vec<u8>,
}

impl Ride {
    fn with(case: Case, answer: Answer) -> Ride {
        Ride {
            case,
            answer,
            b: Vec::new(),
            c: Vec::new(),
        }
    }

    pub fn accepted(case: Case, counts: [u64; 4]) -> Ride {
        let answer = Answer {
            number: 0,
            place: 0,
            counts,
        };
        Ride::with(case, answer)
    }

    /// Of a call that writes a file or a text to C, and counts its bytes.
    pub fn written(case: Case, bytes: &[u8]) -> Ride {
        Ride {
            c: bytes.to_vec(),
            ..Ride::accepted(case, [bytes.len() as u64, 0, 0, 0])
        }
    }

    pub fn refused(case: Case, number: u8, place: u64) -> Ride {
        let answer = Answer {
            number,
            place,
            counts: [0; 4],
        };
        Ride::with(case, answer)
    }

    /// What is not written stays as found.
    fn outcome(&self) -> Outcome {
        let mut b = self.case.b.clone();
        let mut c = self.case.c.clone();
        b[..self.b.len()].copy_from_slice(&self.b);
        c[..self.c.len()].copy_from_slice(&self.c);
        Outcome {
            answer: self.answer,
            b,
            c,
        }
    }
}

/// Both programs come to what was written by hand.
pub fn ridden(rides: &[Ride]) {
    let what = |ride: &Ride| format!("{:?} of {}", ride.case.call, ride.case.a.escape_ascii());
    for ride in rides {
        assert_eq!(
            ride.case.outcome(),
            ride.outcome(),
            "second: {}",
            what(ride)
        );
    }
    let cases: Vec<Case> = rides.iter().map(|ride| ride.case.clone()).collect();
    let ran = run(program("answers"), whole(write_batch(&cases)), at_once);
    assert!(ran.went_well(), "{}", ran.end());
    let (outcomes, left) = read_outcomes(&ran.stdout, &cases);
    for (ride, outcome) in rides.iter().zip(&outcomes) {
        assert_eq!(*outcome, ride.outcome(), "answers: {}", what(ride));
    }
    assert_eq!((outcomes.len(), left.len()), (rides.len(), 0));
}
