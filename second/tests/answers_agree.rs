//! The proved program and the second one say the same to cases that no one has seen before.

use second::case::{Call, Case, Outcome};
use second::compare::Batch;
use second::kinds::{self, Kind, Seen};
use second::make;
use second::profile::{Profile, LARGE, POCKET, PROFILES};
use second::random::{seed, Random};
use std::collections::BTreeMap;
use std::path::Path;
use std::thread;

const BATCHES: usize = 20;

/// What there has to be enough of.
#[derive(Clone, Copy, Debug, PartialEq, Eq, PartialOrd, Ord)]
enum Counted {
    Files(Profile),
    /// Traces through a file that is accepted.
    Rides(Profile),
    /// Filters that were reduced.
    Reduced(Profile),
    /// Those of them with states that are dropped.
    Dropping(Profile),
    /// Those of them with as many states and labels as there can be, and many rounds.
    Long(Profile),
    /// Those with as many edges as there can be too, and the highest colour, checked.
    Largest(Profile),
    /// Texts to be read, whether they are of the profile or not.
    Texts,
    /// Filters that were drawn.
    Drawn,
    /// Those of them of the largest file's sizes, and as many texts of them that were read.
    LargestDrawn,
    LargestRead,
    /// Files of either kind that became one of the other.
    ConvertedFrom(Profile),
    /// Large files of filters that no pocket file holds.
    TooLarge,
    /// Large files with an edge that leaves the fault, and those that are accepted with edges into it and within it.
    Left,
    Kept,
}

/// Each with the least number of them.
const LEAST: [(Counted, usize); 19] = [
    (Counted::Files(LARGE), 100_000),
    (Counted::Files(POCKET), 50_000),
    (Counted::Rides(LARGE), 100_000),
    (Counted::Rides(POCKET), 50_000),
    (Counted::Reduced(LARGE), 20_000),
    (Counted::Reduced(POCKET), 10_000),
    (Counted::Long(LARGE), 20),
    (Counted::Long(POCKET), 20),
    (Counted::Largest(LARGE), 20),
    (Counted::Largest(POCKET), 20),
    (Counted::Texts, 50_000),
    (Counted::Drawn, 3_000),
    (Counted::LargestDrawn, 20),
    (Counted::LargestRead, 20),
    (Counted::ConvertedFrom(LARGE), 4_000),
    (Counted::ConvertedFrom(POCKET), 10_000),
    (Counted::TooLarge, 10_000),
    (Counted::Left, 3_000),
    (Counted::Kept, 2_000),
];

/// One in so many reductions or more has states that are dropped.
const ONE_IN_DROPS: usize = 4;

/// The bytes of the largest file.
const LARGEST: u64 = 45_253;

/// How much was tried.
#[derive(Debug, Default)]
struct Tally {
    counts: BTreeMap<Counted, usize>,
    seen: Seen,
}

impl Tally {
    fn of(&self, counted: Counted) -> usize {
        self.counts.get(&counted).copied().unwrap_or_default()
    }

    fn add(&mut self, case: &Case, outcome: &Outcome) {
        let kinds = kinds::of(case, outcome);
        for counted in counted(case, outcome, &kinds) {
            *self.counts.entry(counted).or_default() += 1;
        }
        self.seen.add(case.call, kinds);
    }
}

fn counted(case: &Case, outcome: &Outcome, kinds: &[Kind]) -> Vec<Counted> {
    let number = outcome.answer.number;
    let all = match case.call {
        Call::Check(profile) => vec![
            (Counted::Files(profile), true),
            (Counted::Largest(profile), kinds.contains(&Kind::Largest)),
            (Counted::Left, number == 17),
            (
                Counted::Kept,
                kinds.contains(&Kind::IntoTheFault) && kinds.contains(&Kind::WithinTheFault),
            ),
        ],
        Call::Trace(profile) => vec![(Counted::Rides(profile), [0, 12, 13].contains(&number))],
        Call::Reduce(profile) if number == 0 => {
            let whole = kinds.contains(&Kind::NothingDropped);
            let long = kinds.contains(&Kind::ManyRounds) && is_full_size(profile, &case.a);
            vec![
                (Counted::Reduced(profile), true),
                (Counted::Dropping(profile), !whole),
                (Counted::Long(profile), long),
            ]
        }
        Call::FromDot => vec![
            (Counted::Texts, true),
            (Counted::LargestRead, outcome.answer.counts[0] == LARGEST),
        ],
        Call::ToDot if number == 0 => vec![
            (Counted::Drawn, true),
            (Counted::LargestDrawn, case.a.len() as u64 == LARGEST),
        ],
        Call::ToLarge => vec![(Counted::ConvertedFrom(POCKET), number == 0)],
        Call::ToPocket => vec![
            (Counted::ConvertedFrom(LARGE), number == 0),
            (Counted::TooLarge, number == 16),
        ],
        _ => Vec::new(),
    };
    let hold = all.into_iter().filter(|&(_, holds)| holds);
    hold.map(|(counted, _)| counted).collect()
}

fn is_full_size(profile: Profile, file: &[u8]) -> bool {
    let most = (profile.most_states(), profile.most_labels());
    let header = profile.header(file);
    header.is_some_and(|header| (header.n, header.m) == most)
}

#[test]
fn answers_agree() {
    let seed = seed();
    let mut random = Random::new(seed);
    let mut tally = Tally::default();
    // Two at a time, for most of it is waiting for one program on one processor.
    for first in (0..BATCHES).step_by(2) {
        let pair = [first, first + 1].map(|nth| {
            let name = format!("second-{seed}-{nth}");
            (nth, Batch::new(name, make::batch(&mut random)))
        });
        let compared = thread::scope(|scope| {
            let comparing = pair
                .each_ref()
                .map(|(_, batch)| scope.spawn(|| batch.compare()));
            comparing.map(|batch| batch.join().expect("a batch compared"))
        });
        for ((nth, batch), outcomes) in pair.iter().zip(compared) {
            let outcomes = outcomes.unwrap_or_else(|difference| {
                let saved = batch.save(&difference, Path::new(env!("CARGO_BIN_EXE_soak")));
                panic!("SEED={seed}, batch {nth}: {}\n{saved}", difference.report)
            });
            for (case, outcome) in batch.cases().iter().zip(&outcomes) {
                tally.add(case, outcome);
            }
        }
    }
    println!("{:?}", tally.counts);
    for (counted, least) in LEAST {
        let tried = tally.of(counted);
        assert!(tried >= least, "only {tried} of {counted:?} were tried");
    }
    for profile in PROFILES {
        let reduced = tally.of(Counted::Reduced(profile));
        let dropping = tally.of(Counted::Dropping(profile));
        assert!(
            dropping >= reduced / ONE_IN_DROPS,
            "{dropping} of {reduced} {profile:?} reductions drop states"
        );
    }
    let missing = tally.seen.missing();
    assert!(missing.is_empty(), "SEED={seed} never led to {missing:?}");
    let beyond = tally.seen.beyond();
    assert!(beyond.is_empty(), "SEED={seed} led to {beyond:?}");
}
