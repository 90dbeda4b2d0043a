//! The families of files, for every call that takes one.

use crate::bits::{bytes_of, free_bits};
use crate::file::{Filter, Header};
use crate::make::damage::{
    one_faulty_edge, several_faults_in_an_edge, two_faulty_edges, Damage, Damaged, Tops,
};
use crate::make::draft::{faults, Draft};
use crate::make::filters::{damageable, filter, large, largest, shapes, small};
use crate::make::ways_out;
use crate::profile::Profile;
use crate::random::Random;

of_each_profile! { Vec<u8>, once in 2:
    "accepted files" => 50 * accepted,
    "accepted files with one bit turned" => 50 * one_bit_turned,
    "every bit of a file turned" => 2 * every_bit_turned,
    "each length and content of the filling" => 10 * fillings,
    "files cut or extended" => 50 * cut_or_extended,
    "one fault of each number" => 20 * one_fault,
    "two faults in one file" => 20 * two_faults,
    "one faulty edge" => 30 * faulty_edge,
    "several faults in one edge" => 8 * faults_in_one_edge,
    "two faulty edges" => 10 * faulty_edges,
    "one edge out of the highest colour" => 10 * one_way_out,
    "several edges out of the highest colour" => 10 * several_ways_out,
    "the highest colour in each state" => 2 * in_each_state,
    "an edge out of the highest colour beside a faulty one" => 4 * way_out_beside_a_faulty_edge,
    "a faulty edge out of the highest colour" => 2 * faulty_way_out,
    "the highest colour kept" => 10 * highest_kept,
    "the highest colour and the next" => 10 * next_to_the_highest,
    "the highest colours as it happens" => 40 * as_it_happens,
    "noise" => 6 * noise,
    "noise behind a header that fits" => 100 * noise_behind_header,
    "headers alone" => 40 * headers_alone,
    "the largest file and its neighbours" => 1 * largest_and_neighbours,
    "large files" => 1 * large_files,
}

fn all_written(profile: Profile, filters: &[Filter]) -> Vec<Vec<u8>> {
    let write = |filter| profile.write(filter);
    filters.iter().map(write).collect()
}

pub fn accepted(profile: Profile, random: &mut Random) -> Vec<Vec<u8>> {
    all_written(profile, &shapes(profile, random))
}

pub fn turn_bit(file: &mut [u8], bit: usize) {
    file[bit / 8] ^= 128 >> (bit % 8);
}

pub fn one_bit_turned(profile: Profile, random: &mut Random) -> Vec<Vec<u8>> {
    let mut files = accepted(profile, random);
    for file in &mut files {
        let bit = random.between(0, 8 * file.len() as u64 - 1) as usize;
        turn_bit(file, bit);
    }
    files
}

/// Of one small file, which may have the highest colour.
pub fn every_bit_turned(profile: Profile, random: &mut Random) -> Vec<Vec<u8>> {
    let mut filters = ways_out::kept(profile, random);
    filters.truncate(1);
    filters.push(small(profile, random));
    let file = profile.write(&filters[random.between(0, 1) as usize]);
    let turned = |bit| {
        let mut turned = file.clone();
        turn_bit(&mut turned, bit);
        turned
    };
    (0..8 * file.len()).map(turned).collect()
}

/// Each number of filling bits that there can be, with 0, with each single bit, with all bits and with some. 37 + 6n + 22e is
/// odd, so a large file has 1, 3, 5 or 7; a pocket file has any number, none included.
pub fn fillings(profile: Profile, random: &mut Random) -> Vec<Vec<u8>> {
    let mut files = Vec::new();
    for free in 0..8 {
        let sizes: Vec<(u64, u64)> = (1..=6)
            .flat_map(|n| (0..=4).map(move |e| (n, e)))
            .filter(|&(n, e)| free_bits(profile.bits(n, e) as usize) == free)
            .collect();
        if sizes.is_empty() {
            continue;
        }
        let (n, e) = random.pick(&sizes);
        let mut draft = Draft::of(profile, filter(profile, random, n, 5, e));
        let all = (1 << free) - 1;
        let mut contents = vec![0, all, random.between(all.min(1), all)];
        contents.extend((0..free).map(|bit| 1 << bit));
        for content in contents {
            draft.filling = content;
            files.push(draft.bytes());
        }
    }
    files
}

pub fn cut_or_extended(profile: Profile, random: &mut Random) -> Vec<Vec<u8>> {
    let mut files = accepted(profile, random);
    for file in &mut files {
        let have = file.len();
        match random.between(0, 5) {
            0 => file.truncate(have - 1),
            1 => file.truncate(random.between(0, have as u64 - 1) as usize),
            2 => file.push(0),
            3 => file.push(random.between(1, 255) as u8),
            4 => file.extend(vec![0; random.between(1, 40) as usize]),
            _ => {
                let more = random.between(1, 40) as usize;
                file.extend(random.bytes(more));
            }
        }
    }
    files
}

/// With the faults of these numbers, in the order in which `Draft::spoil` wants them.
fn spoilt(profile: Profile, numbers: &[u8], random: &mut Random) -> Vec<u8> {
    let mut draft = Draft::of(profile, damageable(profile, random));
    for &number in numbers {
        draft.spoil(number, random);
    }
    draft.bytes()
}

pub fn one_fault(profile: Profile, random: &mut Random) -> Vec<Vec<u8>> {
    faults(profile)
        .into_iter()
        .map(|number| spoilt(profile, &[number], random))
        .collect()
}

/// Pairs of faults that one file can have, in the order in which `Draft::spoil` wants them. Those of 17 with 7, 8 and 9 are
/// families of their own.
pub const PAIRS: &[(u8, u8)] = &[
    (2, 1),
    (2, 3),
    (2, 7),
    (2, 8),
    (2, 9),
    (2, 17),
    (2, 6),
    (2, 5),
    (2, 4),
    (3, 7),
    (3, 8),
    (3, 9),
    (3, 17),
    (3, 6),
    (3, 5),
    (3, 4),
    (7, 6),
    (8, 6),
    (9, 6),
    (17, 6),
    (7, 5),
    (8, 5),
    (9, 5),
    (17, 5),
    (7, 4),
    (8, 4),
    (9, 4),
    (17, 4),
    (6, 5),
];

/// One file for each of `PAIRS`.
pub fn two_faults(profile: Profile, random: &mut Random) -> Vec<Vec<u8>> {
    PAIRS
        .iter()
        .map(|&(first, second)| spoilt(profile, &[first, second], random))
        .collect()
}

pub fn faulty_edge(profile: Profile, random: &mut Random) -> Vec<Vec<u8>> {
    let filters = one_faulty_edge(profile, Tops::of_files(profile), random);
    all_written(profile, &filters)
}

pub fn faults_in_one_edge(profile: Profile, random: &mut Random) -> Vec<Vec<u8>> {
    let all = several_faults_in_an_edge(profile, Tops::of_files(profile), random);
    damaged_written(profile, &all)
}

pub fn faulty_edges(profile: Profile, random: &mut Random) -> Vec<Vec<u8>> {
    let all = two_faulty_edges(profile, Tops::of_files(profile), random);
    damaged_written(profile, &all)
}

pub fn one_way_out(profile: Profile, random: &mut Random) -> Vec<Vec<u8>> {
    all_written(profile, &ways_out::one_way_out(profile, random))
}

pub fn several_ways_out(profile: Profile, random: &mut Random) -> Vec<Vec<u8>> {
    all_written(profile, &ways_out::several_ways_out(profile, random))
}

pub fn in_each_state(profile: Profile, random: &mut Random) -> Vec<Vec<u8>> {
    all_written(profile, &ways_out::in_each_state(profile, random))
}

pub fn way_out_beside_a_faulty_edge(profile: Profile, random: &mut Random) -> Vec<Vec<u8>> {
    let all = ways_out::beside_a_faulty_edge(profile, Tops::of_files(profile), random);
    damaged_written(profile, &all)
}

pub fn faulty_way_out(profile: Profile, random: &mut Random) -> Vec<Vec<u8>> {
    let all = ways_out::in_a_faulty_edge(profile, Tops::of_files(profile), random);
    damaged_written(profile, &all)
}

pub fn highest_kept(profile: Profile, random: &mut Random) -> Vec<Vec<u8>> {
    all_written(profile, &ways_out::kept(profile, random))
}

pub fn next_to_the_highest(profile: Profile, random: &mut Random) -> Vec<Vec<u8>> {
    all_written(profile, &ways_out::next_to_the_highest(profile, random))
}

pub fn as_it_happens(profile: Profile, random: &mut Random) -> Vec<Vec<u8>> {
    all_written(profile, &ways_out::as_it_happens(profile, random))
}

fn damaged_written(profile: Profile, all: &[Damaged]) -> Vec<Vec<u8>> {
    let write = |damaged: &Damaged| profile.write(&damaged.filter);
    all.iter().map(write).collect()
}

/// Every length up to 64, and some longer.
pub fn noise(_: Profile, random: &mut Random) -> Vec<Vec<u8>> {
    let mut files: Vec<Vec<u8>> = (0..=64).map(|length| random.bytes(length)).collect();
    for _ in 0..4 {
        let length = random.between(65, 600) as usize;
        files.push(random.bytes(length));
    }
    files
}

/// The bits that follow a header in its last byte, which belong to the first colour, become any.
fn fill_header_up(profile: Profile, header: &mut [u8], random: &mut Random) {
    let others = free_bits(profile.header_bits());
    let last = profile.header_bytes() - 1;
    header[last] |= random.between(0, (1 << others) - 1) as u8;
}

/// The right length, so that only filling and edges are left to be wrong.
pub fn noise_behind_header(profile: Profile, random: &mut Random) -> Vec<Vec<u8>> {
    let (most, labels) = (profile.most_states(), profile.most_labels());
    let (n, m) = if random.once_in(2) {
        (most, labels)
    } else {
        (random.between(1, most.min(30)), random.between(1, labels))
    };
    let e = random.between(0, (n * m).min(6));
    let start = random.between(0, n - 1);
    let mut file = header(profile, n, m, start, e);
    let more = profile.length(n, e) as usize - file.len();
    fill_header_up(profile, &mut file, random);
    file.extend(random.bytes(more));
    vec![file]
}

/// With no byte behind them, or up to three.
pub fn headers_alone(profile: Profile, random: &mut Random) -> Vec<Vec<u8>> {
    let (most, labels) = (profile.most_states(), profile.most_labels());
    let full = profile.most_edges();
    let top = profile.top_count();
    let n = random.between(1, most);
    let m = random.between(1, labels);
    let inside = random.between(0, n - 1);
    let any = random.between(0, most - 1);
    let mut files = vec![
        header(profile, n, m, inside, 0),
        header(profile, n, m, inside, random.between(0, n * m)),
        header(profile, n, m, inside, n * m),
        header(profile, n, m, inside, n * m + 1),
        header(profile, n, m, inside, top),
        header(profile, n, m, n.min(most - 1), 0),
        header(profile, n, m, any, random.between(0, top)),
        header(profile, 1, 1, 0, random.between(0, 3)),
        header(profile, most, labels, any, full),
        header(profile, most, labels, any, full + 1),
    ];
    for file in &mut files {
        fill_header_up(profile, file, random);
        let more = random.between(0, 3) as usize;
        file.extend(random.bytes(more));
    }
    files
}

fn header(profile: Profile, n: u64, m: u64, start: u64, e: u64) -> Vec<u8> {
    let mut row = Vec::new();
    profile.push_header(&mut row, Header { n, m, start, e });
    bytes_of(&row)
}

pub fn largest_and_neighbours(profile: Profile, random: &mut Random) -> Vec<Vec<u8>> {
    let exact = profile.write(&largest(profile, random));
    let mut longer = exact.clone();
    longer.push(random.between(0, 255) as u8);
    let mut shorter = exact.clone();
    shorter.pop();
    vec![exact, longer, shorter]
}

/// Accepted ones, one with a bit turned, and faults far behind the beginning, of which one is a way out of the highest colour.
pub fn large_files(profile: Profile, random: &mut Random) -> Vec<Vec<u8>> {
    let any = [(); 3].map(|()| large(profile, random));
    let mut files = all_written(profile, &any);
    let behind_the_header = profile.header_bits() as u64;
    let turned = &mut files[2];
    let bit = random.between(behind_the_header, 8 * turned.len() as u64 - 1) as usize;
    turn_bit(turned, bit);
    let tops = Tops::of_files(profile);
    let mut damaged = Vec::new();
    for damage in [
        Damage::Before,
        Damage::EqualSameTarget,
        Damage::EqualOtherTarget,
    ] {
        let mut filter = largest(profile, random);
        let at = random.pick(&[filter.edges.len() / 2, filter.edges.len() - 1]);
        damage.apply(&mut filter, at, tops, random);
        damaged.push(filter);
    }
    let mut way_out = largest(profile, random);
    let last = way_out.edges.len() - 1;
    let at = random.pick(&[last / 2, last]);
    ways_out::lead_out(profile, &mut way_out, &[at], random);
    damaged.push(way_out);
    // One state and one label less than there can be, or every number that the fields can say would be inside.
    let damage = random.pick(&[Damage::Source, Damage::Label, Damage::Target]);
    let (n, m) = (profile.most_states() - 1, profile.most_labels() - 1);
    let mut filter = filter(profile, random, n, m, n * m);
    let at = random.pick(&damage.places(&filter));
    damage.apply(&mut filter, at, tops, random);
    damaged.push(filter);
    files.extend(all_written(profile, &damaged));
    let mut draft = Draft::of(profile, small(profile, random));
    draft.extra = random.bytes(60_000);
    files.push(draft.bytes());
    files
}
