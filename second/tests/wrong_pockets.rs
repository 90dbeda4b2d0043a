//! Errors that look right in reading pocket files and in converting, made on purpose: the families of a batch tell each of them
//! from what document 02 says.

#[path = "common/errors.rs"]
mod errors;

use errors::{differing, made, told_apart, tried};
use second::bits::{bytes_of, free_bits, push};
use second::call::Answer;
use second::case::{Call, Case, Outcome};
use second::dot::labels_up_to;
use second::file::Filter;
use second::make::conversions::{self, other};
use second::make::rooms::cases_of_file;
use second::make::{files, lists};
use second::profile::{Profile, LARGE, POCKET, PROFILES};
use second::random::{seed, Random};
use second::reach::reached;
use second::reduce::reduce;
use std::cmp::Ordering;

/// The pocket files of one batch, put to all calls that read them.
fn of_pocket_files(random: &mut Random) -> Vec<Case> {
    let mut cases = Vec::new();
    for family in files::families(POCKET) {
        for file in family.all(random) {
            if file.len() < 20_000 {
                cases.extend(cases_of_file(POCKET, random, file));
            }
        }
    }
    cases
}

/// The width of one of its fields.
type Width = fn(&mut Profile) -> &mut usize;

/// The profiles that have one field of a pocket file wider, or narrower, by a bit.
fn off_by_one(wider: bool) -> Vec<Profile> {
    let fields: [(&str, Width); 8] = [
        ("states", |profile| &mut profile.states),
        ("labels", |profile| &mut profile.labels),
        ("start", |profile| &mut profile.start),
        ("edges", |profile| &mut profile.edges),
        ("colour", |profile| &mut profile.colour),
        ("source", |profile| &mut profile.source),
        ("label", |profile| &mut profile.label),
        ("target", |profile| &mut profile.target),
    ];
    fields
        .into_iter()
        .map(|(name, field)| {
            let mut profile = Profile { name, ..POCKET };
            let width = field(&mut profile);
            *width = if wider { *width + 1 } else { *width - 1 };
            profile
        })
        .collect()
}

/// What the call would come to if pocket files had these widths.
fn with_widths(profile: Profile, case: &Case) -> Option<Outcome> {
    let mut case = case.clone();
    case.call = match case.call {
        Call::Check(_) => Call::Check(profile),
        Call::Unpack(_) => Call::Unpack(profile),
        Call::Pack(_) => Call::Pack(profile),
        Call::Trace(_) => Call::Trace(profile),
        _ => return None,
    };
    Some(case.outcome())
}

#[test]
fn widths_that_are_off_by_one() {
    let random = &mut Random::new(seed());
    let read = tried(of_pocket_files(random), Case::outcome);
    assert_eq!(differing(&read, |case| with_widths(POCKET, case)), 0);
    for wider in [true, false] {
        for wrong in off_by_one(wider) {
            told_apart(&read, (wrong, wider), 100, |case| with_widths(wrong, case));
        }
    }
    // What is too high for a narrower field could not even be written.
    let packed = tried(made(&[lists::families(POCKET)], random), Case::outcome);
    for wrong in off_by_one(true) {
        told_apart(&packed, wrong, 100, |case| with_widths(wrong, case));
    }
}

/// The edge that a place of 7, 8 or 9 is in, and the bits of the edge before it.
fn edge_and_bit(profile: Profile, file: &[u8], place: u64) -> (u64, u64) {
    let n = profile.header(file).expect("a header").n;
    let behind_colours = place - profile.edges_at(n);
    let width = profile.edge_bits() as u64;
    (behind_colours / width, behind_colours % width)
}

/// An answer to a pocket file that is not the right one.
#[derive(Clone, Copy, Debug)]
enum Told {
    /// As in the large file.
    FiveBytesForAHeader,
    /// For 7, 8 and 9.
    IndexAsPlace,
    PlaceInTheLargeFile,
    PlaceInBytes,
    AlwaysTheSource,
    /// 3 is told from 129 edges on.
    EdgesOfTheLargestFile,
    /// The filling bits are not looked at, or only the last.
    NoFilling,
    LastFillingBitAlone,
}

impl Told {
    const ALL: [Told; 8] = [
        Told::FiveBytesForAHeader,
        Told::IndexAsPlace,
        Told::PlaceInTheLargeFile,
        Told::PlaceInBytes,
        Told::AlwaysTheSource,
        Told::EdgesOfTheLargestFile,
        Told::NoFilling,
        Told::LastFillingBitAlone,
    ];

    /// What the error makes of a file, `None` where it makes no difference.
    fn of(self, file: &[u8]) -> Option<Answer> {
        let answer = POCKET.check(file);
        let header = POCKET.header(file);
        let instead = match (self, answer.number) {
            (Told::FiveBytesForAHeader, _) if file.len() < 5 => POCKET.check(&[]),
            (Told::EdgesOfTheLargestFile, 3) if header?.e <= 128 => {
                let wanted = POCKET.length(header?.n, header?.e) as usize;
                // There are more edges than pairs of source and label, so at the latest one repeats another.
                let number = match file.len().cmp(&wanted) {
                    Ordering::Less => 4,
                    Ordering::Greater => 5,
                    Ordering::Equal => 9,
                };
                Answer { number, ..answer }
            }
            (Told::NoFilling, 6) => POCKET.check(&without_filling(file)),
            (Told::LastFillingBitAlone, 6) if file.last()? % 2 == 0 => {
                POCKET.check(&without_filling(file))
            }
            (_, 7..=9) => Answer {
                place: self.place(file, answer.place)?,
                ..answer
            },
            _ => return None,
        };
        Some(instead)
    }

    fn place(self, file: &[u8], place: u64) -> Option<u64> {
        let (edge, bit) = edge_and_bit(POCKET, file, place);
        match self {
            Told::IndexAsPlace => Some(edge),
            Told::PlaceInTheLargeFile => {
                let n = POCKET.header(file)?.n;
                let of_the_field = [(0, 0), (4, 8), (7, 14)];
                let (_, within) = of_the_field.into_iter().find(|&(own, _)| own == bit)?;
                Some(LARGE.bits(n, edge) + within)
            }
            Told::PlaceInBytes => Some(place / 8),
            Told::AlwaysTheSource => Some(place - bit),
            _ => None,
        }
    }
}

/// A file whose length is right, with zeros behind its edges.
fn without_filling(file: &[u8]) -> Vec<u8> {
    let header = POCKET.header(file).expect("a header");
    let filling = free_bits(POCKET.bits(header.n, header.e) as usize);
    let mut file = file.to_vec();
    let last = file.last_mut().expect("a byte");
    *last = *last >> filling << filling;
    file
}

#[test]
fn answers_to_pocket_files_that_are_wrong() {
    let mut cases = of_pocket_files(&mut Random::new(seed()));
    cases.retain(|case| case.call == Call::Check(POCKET));
    let tried = tried(cases, |case| case.outcome().answer);
    for error in Told::ALL {
        told_apart(&tried, error, 20, |case| error.of(&case.a));
    }
}

/// Pack with the limits of the large file: what is above the pocket file's is cut down to its fields, or refused later.
#[test]
fn the_large_file_s_limits_in_pack() {
    let cases = made(&[lists::families(POCKET)], &mut Random::new(seed()));
    let tried = tried(cases, |case| case.outcome().answer.number);
    told_apart(&tried, "limits", 100, |case| {
        let mut room = vec![0; 60_000];
        let Case { first, second, .. } = *case;
        let number = LARGE
            .pack(&case.a, &case.b, first, second, &mut room)
            .number;
        // The room is not what is in question.
        (number != 0 || case.outcome().answer.number != 10).then_some(number)
    });
}

#[derive(Clone, Copy, Debug, PartialEq, Eq)]
enum Converted {
    /// No error.
    Nothing,
    /// A limit that is one too low.
    SixteenStatesAre16,
    EightLabelsAre16,
    ColourFifteenIs16,
    /// A limit that is not tested: what is too high is cut down to its field.
    StatesCut,
    LabelsCut,
    ColoursCut,
    FirstColourCut,
    LastColourCut,
    ColoursOfLeftoversCut,
    /// As a drawing has it.
    LabelsInUseAlone,
    StartIsZero,
    LeftoversDropped,
    /// The order of 16 among the others.
    RoomFirst,
    BeforeTheEdges,
    BeforeTheFilling,
    /// The room has to be as long as the file that is read.
    RoomForTheOriginal,
    RoomForOneMore,
    ZerosBehind,
    WrittenInSpiteOfARefusal,
    StateAsPlaceOf16,
    IndexAsPlace,
    AlwaysTheSource,
}

impl Converted {
    const ALL: [Converted; 22] = [
        Converted::SixteenStatesAre16,
        Converted::EightLabelsAre16,
        Converted::ColourFifteenIs16,
        Converted::StatesCut,
        Converted::LabelsCut,
        Converted::ColoursCut,
        Converted::FirstColourCut,
        Converted::LastColourCut,
        Converted::ColoursOfLeftoversCut,
        Converted::LabelsInUseAlone,
        Converted::StartIsZero,
        Converted::LeftoversDropped,
        Converted::RoomFirst,
        Converted::BeforeTheEdges,
        Converted::BeforeTheFilling,
        Converted::RoomForTheOriginal,
        Converted::RoomForOneMore,
        Converted::ZerosBehind,
        Converted::WrittenInSpiteOfARefusal,
        Converted::StateAsPlaceOf16,
        Converted::IndexAsPlace,
        Converted::AlwaysTheSource,
    ];

    /// Those that a pocket file can show too.
    fn shows_both_ways(self) -> bool {
        use Converted::*;
        [
            LabelsInUseAlone,
            StartIsZero,
            LeftoversDropped,
            RoomForOneMore,
            ZerosBehind,
            IndexAsPlace,
            AlwaysTheSource,
        ]
        .contains(&self)
    }

    /// The number, the place and the room as it stands afterwards.
    fn told(self, from: Profile, case: &Case) -> Converting {
        let filter = match from.read(&case.a) {
            Ok(filter) => filter,
            Err(refusal) => {
                return self.refused_file(from, case, refusal.number, refusal.place);
            }
        };
        self.of_filter(from, filter, case)
    }

    fn refused_file(self, from: Profile, case: &Case, number: u8, place: u64) -> Converting {
        let header = from.header(&case.a);
        let too_many = header.is_some_and(|header| {
            header.n > other(from).most_states() || header.m > other(from).most_labels()
        });
        let named = || edge_and_bit(from, &case.a, place);
        match (self, number) {
            (Converted::BeforeTheEdges, 7..=9) if too_many => refused(16, 0, case),
            (Converted::BeforeTheFilling, 6) if too_many => refused(16, 0, case),
            (Converted::IndexAsPlace, 7..=9) => refused(number, named().0, case),
            (Converted::AlwaysTheSource, 7..=9) => refused(number, place - named().1, case),
            _ => refused(number, place, case),
        }
    }

    fn of_filter(self, from: Profile, mut filter: Filter, case: &Case) -> Converting {
        let to = other(from);
        match self {
            Converted::LabelsInUseAlone => filter.m = labels_up_to(&filter.edges),
            Converted::StartIsZero => filter.start = 0,
            Converted::LeftoversDropped if reached(&filter).len() < filter.colours.len() => {
                filter = reduce(&filter).filter;
            }
            _ => {}
        }
        let reason = self.too_large(to, &filter);
        let file = cut_to_fit(to, &filter);
        let wanted = match self {
            Converted::RoomForTheOriginal => case.a.len(),
            Converted::RoomForOneMore => file.len() + 1,
            _ => file.len(),
        };
        let place_of_16 = match (self, reason) {
            (Converted::StateAsPlaceOf16, Some(place)) => place,
            _ => 0,
        };
        let mut tests = [
            (reason.is_some(), (16, place_of_16)),
            (case.c.len() < wanted, (10, 0)),
        ];
        if self == Converted::RoomFirst {
            tests.swap(0, 1);
        }
        let (mut told, mut room) = ((0, 0), case.c.clone());
        if let Some((_, refusal)) = tests.into_iter().find(|(holds, _)| *holds) {
            if self != Converted::WrittenInSpiteOfARefusal || case.c.len() < file.len() {
                return refused(refusal.0, refusal.1, case);
            }
            told = refusal;
        }
        if self == Converted::ZerosBehind {
            room.fill(0);
        }
        // Where the original's length is asked for, the room may be shorter than what is written, which goes as far as it can.
        for (byte, own) in room.iter_mut().zip(&file) {
            *byte = *own;
        }
        (told.0, told.1, room)
    }

    /// Whether it is too large, and the first state with a colour that is too high, or 0.
    fn too_large(self, to: Profile, filter: &Filter) -> Option<u64> {
        let lower = |error| u64::from(self == error);
        let states = to.most_states() - lower(Converted::SixteenStatesAre16);
        let labels = to.most_labels() - lower(Converted::EightLabelsAre16);
        let colour = to.top_colour() - lower(Converted::ColourFifteenIs16);
        let live = reached(filter);
        let is_tested = |state: u64| match self {
            Converted::ColoursCut => false,
            Converted::FirstColourCut => state != 0,
            Converted::LastColourCut => state != filter.n() - 1,
            Converted::ColoursOfLeftoversCut => live.contains(&state),
            _ => true,
        };
        let high = (0..)
            .zip(&filter.colours)
            .find(|&(state, &own)| own > colour && is_tested(state))
            .map(|(state, _)| state);
        let too_many = filter.n() > states && self != Converted::StatesCut
            || filter.m > labels && self != Converted::LabelsCut;
        high.or(too_many.then_some(0))
    }
}

/// Number, place, and the room.
type Converting = (u8, u64, Vec<u8>);

fn refused(number: u8, place: u64, case: &Case) -> Converting {
    (number, place, case.c.clone())
}

/// A file of the filter in which each number has as many bits as its field.
fn cut_to_fit(profile: Profile, filter: &Filter) -> Vec<u8> {
    let mut row = Vec::new();
    let mut put = |value: u64, width: usize| push(&mut row, value % (1 << width), width);
    put(filter.n() - 1, profile.states);
    put(filter.m - 1, profile.labels);
    put(filter.start, profile.start);
    put(filter.e(), profile.edges);
    for &colour in &filter.colours {
        put(colour, profile.colour);
    }
    for edge in &filter.edges {
        put(edge.source, profile.source);
        put(edge.label, profile.label);
        put(edge.target, profile.target);
    }
    bytes_of(&row)
}

fn converting(case: &Case) -> Converting {
    let Outcome { answer, c, .. } = case.outcome();
    (answer.number, answer.place, c)
}

#[test]
fn filters_that_are_converted_wrongly() {
    let random = &mut Random::new(seed());
    let mut cases = made(&[conversions::FAMILIES], random);
    for profile in PROFILES {
        for family in files::families(profile) {
            for file in family.at_most(10, random) {
                if file.len() < 20_000 {
                    cases.push(conversions::of_file(profile, random, file));
                }
            }
        }
    }
    let (pocket, large): (Vec<Case>, Vec<Case>) = cases
        .into_iter()
        .partition(|case| case.call == Call::ToLarge);
    for (profile, cases) in [(LARGE, large), (POCKET, pocket)] {
        let tried = tried(cases, converting);
        let wrong = |error: Converted, case: &Case| Some(error.told(profile, case));
        assert_eq!(differing(&tried, |case| wrong(Converted::Nothing, case)), 0);
        for error in Converted::ALL {
            if profile == LARGE || error.shows_both_ways() {
                told_apart(&tried, (profile, error), 5, |case| wrong(error, case));
            }
        }
    }
}
