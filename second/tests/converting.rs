//! A filter is the same in either kind of file: converting there and back gives the file, a trace shows the same, and a
//! reduction can come before the conversion or behind it. All of it by calls on which both programs agree.

#[path = "common/agreed.rs"]
mod agreed;

use agreed::{outcomes, written};
use second::case::Case;
use second::file::Filter;
use second::make::conversions::{conversion, other};
use second::make::filters::{large, largest};
use second::make::rooms::any;
use second::make::traces::walk;
use second::make::{files, reduces, traces};
use second::profile::{Profile, POCKET, PROFILES};
use second::random::{seed, Random};
use std::collections::BTreeSet;

/// How often each family is asked, at most.
const TIMES: usize = 10;
const LEAST_FILTERS: usize = 1_000;

/// Filters of pocket files from all families that have such files, and more of any size. The largest is the last.
fn filters(random: &mut Random) -> Vec<Filter> {
    let mut made = Vec::new();
    for family in files::families(POCKET) {
        made.extend(family.at_most(TIMES, random));
    }
    let of_calls = [traces::families(POCKET), reduces::families(POCKET)];
    for family in of_calls.into_iter().flatten() {
        let cases = family.at_most(TIMES, random);
        made.extend(cases.into_iter().map(|case| case.a));
    }
    let different: BTreeSet<Vec<u8>> = made.into_iter().collect();
    let mut filters: Vec<Filter> = different
        .iter()
        .filter_map(|file| POCKET.read(file).ok())
        .collect();
    filters.extend((0..100).map(|_| large(POCKET, random)));
    filters.push(largest(POCKET, random));
    println!("{} filters", filters.len());
    assert!(filters.len() >= LEAST_FILTERS, "only {}", filters.len());
    filters
}

fn all_written(profile: Profile, filters: &[Filter]) -> Vec<Vec<u8>> {
    let write = |filter| profile.write(filter);
    filters.iter().map(write).collect()
}

/// Files of the other kind, in rooms that are just long enough.
fn converted(profile: Profile, files: &[Vec<u8>]) -> Vec<Vec<u8>> {
    let convert = |file: &Vec<u8>| {
        let header = profile.header(file).expect("a header");
        let room = other(profile).length(header.n, header.e);
        conversion(profile, file.clone(), vec![0xee; room as usize])
    };
    written("converted", files.iter().map(convert).collect())
}

#[test]
fn there_and_back_is_the_identity() {
    let filters = filters(&mut Random::new(seed()));
    for profile in PROFILES {
        let files = all_written(profile, &filters);
        let others = converted(profile, &files);
        assert!(others == all_written(other(profile), &filters));
        assert!(converted(other(profile), &others) == files);
    }
}

#[test]
fn either_file_is_traced_the_same() {
    let mut random = Random::new(seed());
    let filters = filters(&mut random);
    let rides: Vec<(&Filter, Vec<u8>, Vec<u8>)> = filters
        .iter()
        .flat_map(|filter| {
            let (along, _) = walk(filter, 20, &mut random);
            let anywhere = (0..6).map(|_| random.between(0, filter.m) as u8).collect();
            [along, anywhere].map(|observations| {
                let room = any(&mut random).found(observations.len() + 1, &mut random);
                (filter, observations, room)
            })
        })
        .collect();
    let [in_large, in_pocket] = PROFILES.map(|profile| {
        let case = |(filter, observations, room): &(&Filter, Vec<u8>, Vec<u8>)| {
            let file = profile.write(filter);
            Case::trace(profile, file, observations.clone(), room.clone())
        };
        outcomes("traced in either file", rides.iter().map(case).collect())
    });
    assert!(in_large == in_pocket);
    let numbers: BTreeSet<(u8, u64)> = in_pocket
        .iter()
        .map(|outcome| (outcome.answer.number, outcome.answer.counts[0]))
        .collect();
    // Traced and stopped, and what a trace refuses.
    assert_eq!(numbers, BTreeSet::from([(0, 0), (0, 1), (12, 0), (13, 0)]));
}

/// The reduced file, the class list, and how many states, colours and rounds.
type Reduced = (Vec<u8>, Vec<u8>, [u64; 3]);

fn reduced(profile: Profile, files: &[Vec<u8>]) -> Vec<Reduced> {
    let reduce = |file: &Vec<u8>| {
        let n = profile.header(file).expect("a header").n as usize;
        let (room, list) = (vec![0xee; file.len()], vec![0xee; 2 * n]);
        Case::reduce(profile, file.clone(), room, list)
    };
    outcomes("reduced", files.iter().map(reduce).collect())
        .into_iter()
        .map(|outcome| {
            assert_eq!(outcome.answer.number, 0);
            let [states, colours, rounds, length] = outcome.answer.counts;
            let file = outcome.b[..length as usize].to_vec();
            (file, outcome.c, [states, colours, rounds])
        })
        .collect()
}

#[test]
fn reducing_and_converting_commute() {
    let filters = filters(&mut Random::new(seed()));
    for profile in PROFILES {
        let files = all_written(profile, &filters);
        let mut first_reduced = reduced(profile, &files);
        let shorter: Vec<Vec<u8>> = first_reduced
            .iter()
            .map(|reduced| reduced.0.clone())
            .collect();
        let changed = files.iter().zip(&shorter).filter(|(one, two)| one != two);
        assert!(changed.count() >= LEAST_FILTERS / 4);
        for (reduced, file) in first_reduced.iter_mut().zip(converted(profile, &shorter)) {
            reduced.0 = file;
        }
        let first_converted = reduced(other(profile), &converted(profile, &files));
        assert!(first_reduced == first_converted);
    }
}

/// So that what is said above is said of the limits too.
#[test]
fn the_largest_is_among_them() {
    let filters = filters(&mut Random::new(seed()));
    let largest = filters.last().expect("a filter");
    assert_eq!((largest.n(), largest.m, largest.e()), (16, 8, 128));
    assert!(largest.colours.contains(&15));
}
