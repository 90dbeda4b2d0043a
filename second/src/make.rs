//! The cases of a run, made afresh by families. Each family returns all its variants at once, with random contents, so
//! that none is left to luck.

use crate::case::Case;
use crate::profile::{Profile, PROFILES};
use crate::random::Random;

/// A kind of thing that is worth trying, and how to make its variants.
pub struct Family<T> {
    pub name: &'static str,
    /// How often a batch takes it.
    pub times: usize,
    pub make: fn(&mut Random) -> Vec<T>,
}

impl<T> Family<T> {
    /// All that it adds to a batch.
    pub fn all(&self, random: &mut Random) -> Vec<T> {
        self.at_most(self.times, random)
    }

    /// The same where it is asked so many times at most.
    pub fn at_most(&self, times: usize, random: &mut Random) -> Vec<T> {
        (0..times.min(self.times))
            .flat_map(|_| (self.make)(random))
            .collect()
    }
}

/// Families that either kind of file has, each given by a function of the profile: `FAMILIES` has those of large files, and
/// `families` those of a profile. A batch takes those of pocket files less often, for the time's sake: once in so many times.
macro_rules! of_each_profile {
    ($made:ty, once in $less:literal: $($name:literal => $times:literal * $make:path,)*) => {
        pub const FAMILIES: &[$crate::make::Family<$made>] = &[$($crate::make::Family {
            name: $name,
            times: $times,
            make: |random| $make($crate::profile::LARGE, random),
        }),*];

        const OF_POCKET_FILES: &[$crate::make::Family<$made>] = &[$($crate::make::Family {
            name: concat!("pocket: ", $name),
            times: usize::div_ceil($times, $less),
            make: |random| $make($crate::profile::POCKET, random),
        }),*];

        pub fn families(
            profile: $crate::profile::Profile,
        ) -> &'static [$crate::make::Family<$made>] {
            match profile {
                $crate::profile::POCKET => OF_POCKET_FILES,
                _ => FAMILIES,
            }
        }
    };
}

pub mod chains;
pub mod contents;
pub mod conversions;
pub mod damage;
pub mod draft;
pub mod drawings;
pub mod edits;
pub mod files;
pub mod filters;
pub mod groups;
pub mod leftovers;
pub mod lists;
pub mod reduces;
pub mod rooms;
pub mod texts;
pub mod three_bytes;
pub mod traces;
pub mod unpacks;
pub mod ways_out;

/// A case and the name of the family that made it.
pub struct Made {
    pub family: &'static str,
    pub case: Case,
}

/// One batch: every family as often as it says.
pub fn batch(random: &mut Random) -> Vec<Made> {
    let mut batch = Vec::new();
    for profile in PROFILES {
        for family in files::families(profile) {
            for file in family.all(random) {
                let cases = rooms::cases_of_file(profile, random, file);
                batch.extend(of_family(family.name, cases));
            }
        }
        for family in of_calls(profile).into_iter().flatten() {
            batch.extend(of_family(family.name, family.all(random)));
        }
    }
    let not_of_one_profile = [
        texts::FAMILIES,
        contents::FAMILIES,
        drawings::FAMILIES,
        conversions::FAMILIES,
    ];
    for family in not_of_one_profile.into_iter().flatten() {
        batch.extend(of_family(family.name, family.all(random)));
    }
    batch
}

/// The families that are for one call each.
fn of_calls(profile: Profile) -> [&'static [Family<Case>]; 4] {
    [
        unpacks::families(profile),
        lists::families(profile),
        traces::families(profile),
        reduces::families(profile),
    ]
}

fn of_family(family: &'static str, cases: Vec<Case>) -> impl Iterator<Item = Made> {
    cases.into_iter().map(move |case| Made { family, case })
}
