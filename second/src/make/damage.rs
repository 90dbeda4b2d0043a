//! Edges made faulty, in filters that were in order.

use crate::file::Filter;
use crate::kinds::Field;
use crate::make::filters::damageable;
use crate::profile::Profile;
use crate::random::Random;

/// The most that an edge's fields can say.
#[derive(Clone, Copy)]
pub struct Tops {
    /// Of a source or a target.
    pub end: u64,
    pub label: u64,
}

impl Tops {
    /// A byte each.
    pub const OF_LISTS: Tops = Tops {
        end: 255,
        label: 255,
    };

    pub fn of_files(profile: Profile) -> Tops {
        Tops {
            end: profile.most_states() - 1,
            label: profile.most_labels() - 1,
        }
    }
}

#[derive(Clone, Copy, Debug, PartialEq, Eq)]
pub enum Damage {
    Source,
    Label,
    Target,
    Before,
    EqualSameTarget,
    EqualOtherTarget,
}

impl Damage {
    pub const ALL: [Damage; 6] = [
        Damage::Source,
        Damage::Label,
        Damage::Target,
        Damage::Before,
        Damage::EqualSameTarget,
        Damage::EqualOtherTarget,
    ];

    /// One that leads to this refusal, 7 to 9.
    pub fn of(number: u8, random: &mut Random) -> Damage {
        let mut kinds = Damage::ALL.to_vec();
        kinds.retain(|damage| damage.number() == number);
        random.pick(&kinds)
    }

    /// The refusal it leads to.
    pub fn number(self) -> u8 {
        match self {
            Damage::Source | Damage::Label | Damage::Target => 7,
            Damage::Before => 8,
            Damage::EqualSameTarget | Damage::EqualOtherTarget => 9,
        }
    }

    /// The first edge that can have it.
    pub fn earliest(self) -> usize {
        if self.number() == 7 {
            0
        } else {
            1
        }
    }

    /// The earliest, a middle and the last edge, of at least four.
    pub fn places(self, filter: &Filter) -> [usize; 3] {
        let e = filter.edges.len();
        [self.earliest(), e / 2, e - 1]
    }

    /// The bit that a refusal names for this damage of edge `at` of a file, where no other is told before it.
    pub fn bit(self, profile: Profile, filter: &Filter, at: usize) -> u64 {
        let field = match self {
            Damage::Label => Field::Label,
            Damage::Target => Field::Target,
            _ => Field::Source,
        };
        profile.bits(filter.n(), at as u64) + field.within(profile)
    }

    /// Makes edge `at` faulty and leaves those before it in order.
    pub fn apply(self, filter: &mut Filter, at: usize, tops: Tops, random: &mut Random) {
        let n = filter.n();
        let m = filter.m;
        let edges = &mut filter.edges;
        match self {
            Damage::Source => edges[at].source = outside(random, n, tops.end),
            Damage::Label => edges[at].label = outside(random, m, tops.label),
            Damage::Target => edges[at].target = outside(random, n, tops.end),
            Damage::Before => edges.swap(at - 1, at),
            Damage::EqualSameTarget => edges[at] = edges[at - 1],
            Damage::EqualOtherTarget => {
                let before = edges[at - 1];
                edges[at] = before;
                edges[at].target = (before.target + random.between(1, n - 1)) % n;
            }
        }
    }
}

/// Gives one edge a fault of this number, 7 to 9.
pub fn damage_one(filter: &mut Filter, number: u8, tops: Tops, random: &mut Random) {
    let damage = Damage::of(number, random);
    let at = random.pick(&damage.places(filter));
    damage.apply(filter, at, tops, random);
}

/// Each damage in the earliest, a middle and the last edge.
pub fn one_faulty_edge(profile: Profile, tops: Tops, random: &mut Random) -> Vec<Filter> {
    let mut filters = Vec::new();
    for damage in Damage::ALL {
        for nth in 0..3 {
            let mut filter = damageable(profile, random);
            let at = damage.places(&filter)[nth];
            damage.apply(&mut filter, at, tops, random);
            filters.push(filter);
        }
    }
    filters
}

/// Faults that one edge can have at once, in the order in which they are told: every pair of 7's, all three, and each
/// alone where there is 8 or 9 too.
pub const TOGETHER: &[&[Damage]] = &[
    &[Damage::Source, Damage::Label],
    &[Damage::Source, Damage::Target],
    &[Damage::Label, Damage::Target],
    &[Damage::Source, Damage::Label, Damage::Target],
    &[Damage::Source, Damage::Before],
    &[Damage::Label, Damage::Before],
    &[Damage::Target, Damage::Before],
    &[Damage::Source, Damage::EqualSameTarget],
    &[Damage::Label, Damage::EqualSameTarget],
    &[Damage::Target, Damage::EqualSameTarget],
];

/// A filter that is to be refused, and the edge that is to be named.
pub struct Damaged {
    pub filter: Filter,
    pub edge: usize,
}

/// Each of `TOGETHER` in the earliest, a middle and the last edge that can have it.
pub fn several_faults_in_an_edge(
    profile: Profile,
    tops: Tops,
    random: &mut Random,
) -> Vec<Damaged> {
    let mut all = Vec::new();
    for damages in TOGETHER {
        // The order's damage moves whole edges, so it is done first; and it is the one that the first edge cannot have.
        let last = damages[damages.len() - 1];
        for nth in 0..3 {
            let mut filter = damageable(profile, random);
            let edge = last.places(&filter)[nth];
            for damage in damages.iter().rev() {
                damage.apply(&mut filter, edge, tops, random);
            }
            all.push(Damaged { filter, edge });
        }
    }
    all
}

/// Each damage in an edge and each in a later one.
pub fn two_faulty_edges(profile: Profile, tops: Tops, random: &mut Random) -> Vec<Damaged> {
    let mut all = Vec::new();
    for earlier in Damage::ALL {
        for later in Damage::ALL {
            let mut filter = damageable(profile, random);
            // Two apart, so that neither damage touches the other's edge.
            let last = filter.edges.len() as u64 - 1;
            let at = random.between(earlier.earliest() as u64, last - 2);
            let behind = random.between(at + 2, last);
            later.apply(&mut filter, behind as usize, tops, random);
            earlier.apply(&mut filter, at as usize, tops, random);
            let edge = at as usize;
            all.push(Damaged { filter, edge });
        }
    }
    all
}

/// The least number that is not allowed, the greatest that the field holds, or one between them.
pub fn outside(random: &mut Random, limit: u64, top: u64) -> u64 {
    let between = random.between(limit, top);
    random.pick(&[limit, top, between])
}
