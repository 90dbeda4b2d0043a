//! The batch that is stored beside `answers`, and its stored outcomes.

use second::case::{Call, Case};
use second::frame::{answer_batch, read_batch, write_batch};
use second::kinds::{self, Kind};
use second::profile::PROFILES;
use second::stored;
use std::collections::BTreeSet;
use std::path::Path;

fn stored_file(name: &str) -> Vec<u8> {
    let path = Path::new(env!("CARGO_MANIFEST_DIR"))
        .join("../crates/answers")
        .join(name);
    std::fs::read(&path).unwrap_or_else(|error| {
        panic!("crates/answers/{name} cannot be read ({error}): `cases {name}` prints it")
    })
}

#[test]
fn the_stored_batch_is_what_cases_prints() {
    let batch = write_batch(&stored::cases());
    assert!(
        stored_file("stdin") == batch,
        "crates/answers/stdin is not what `cases stdin` prints"
    );
    assert!(
        stored_file("stdout") == answer_batch(&batch),
        "crates/answers/stdout is not what `cases stdout` prints"
    );
}

fn kinds_of(call: Call, cases: &[Case]) -> BTreeSet<Kind> {
    cases
        .iter()
        .filter(|case| case.call == call)
        .flat_map(|case| kinds::of(case, &case.outcome()))
        .collect()
}

#[test]
fn the_stored_batch_has_every_number_and_stays_small() {
    let cases = stored::cases();
    for call in Call::ALL {
        for number in call.numbers() {
            let hit = cases
                .iter()
                .any(|case| case.call == call && case.outcome().answer.number == number);
            assert!(hit, "no {call:?} that answers {number}");
        }
    }
    for call in PROFILES.map(Call::Reduce) {
        let seen = kinds_of(call, &cases);
        for kind in [
            Kind::NoRound,
            Kind::ManyRounds,
            Kind::Merged,
            Kind::NothingMerged,
            Kind::NothingDropped,
            Kind::DroppedBefore,
            Kind::DroppedBetween,
            Kind::DroppedBehind,
            Kind::AllButOneDropped,
        ] {
            assert!(seen.contains(&kind), "no {call:?} that is {kind:?}");
        }
    }
    for call in Call::ALL {
        let seen = kinds_of(call, &cases);
        let is_wanted = |kind: &Kind| {
            use Kind::*;
            matches!(
                kind,
                AtField(..) | OneHighColour(_) | InsteadOf(_) | WayOutOfALeftover
            )
        };
        for kind in kinds::all_of(call).into_iter().filter(is_wanted) {
            assert!(seen.contains(&kind), "no {call:?} that is {kind:?}");
        }
    }
    let batch = write_batch(&cases);
    // More than a third of it is the largest file alone. The calls of pocket files and the conversions took it from 90,000 bytes
    // to 112,000, the fault to this; the kit's interpreter runs it too, so it should not grow without need.
    assert!(batch.len() <= 118_000, "{} bytes", batch.len());
    assert_eq!(read_batch(&batch), cases);
}
