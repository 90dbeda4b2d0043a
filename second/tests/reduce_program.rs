//! The proved programs `reduce` and `shrink` and their twins, run as processes, print what the second program says.

mod common;
#[path = "common/outputs.rs"]
mod outputs;

use common::{at_once, program, run, whole};
use outputs::{in_pieces, run_on, some, wrote, Folder};
use second::case::{Call, Case};
use second::file::write;
use second::kinds::{self, Kind};
use second::make::chains::plain;
use second::make::filters::largest;
use second::make::{files, reduces};
use second::profile::LARGE;
use second::program::{reduce, shrink, MOST_OF_A_FILE};
use second::random::{seed, Random};
use second::rides::*;
use std::collections::BTreeSet;
use std::process::Command;
use std::thread;
use std::time::Duration;

const LEAST_FILES: usize = 500;

/// A program that reads a file from standard input, and what it should write for it.
struct Program {
    name: &'static str,
    command: fn() -> Command,
    own: fn(&[u8]) -> Vec<u8>,
}

const REDUCE: Program = Program {
    name: "reduce",
    command: || program("reduce"),
    own: |file| reduce(file).into_bytes(),
};
const SHRINK: Program = Program {
    name: "shrink",
    command: || program("shrink"),
    own: shrink,
};
const PROGRAMS: [Program; 4] = [
    REDUCE,
    SHRINK,
    Program {
        name: "the twin of reduce",
        command: || Command::new(env!("CARGO_BIN_EXE_reduce")),
        ..REDUCE
    },
    Program {
        name: "the twin of shrink",
        command: || Command::new(env!("CARGO_BIN_EXE_shrink")),
        ..SHRINK
    },
];

impl Program {
    fn agrees(&self, ran: &common::Ran, what: &str, file: &[u8]) {
        wrote(ran, self.name, what, &(self.own)(file), &[("filter", file)]);
    }

    /// Runs it on a file that is there at once.
    fn run(&self, file: &[u8]) -> common::Ran {
        run((self.command)(), whole(file.to_vec()), at_once)
    }
}

/// Fails unless each `reduce` writes the text and each `shrink` the bytes.
fn all_write(what: &str, file: &[u8], text: &[u8], bytes: &[u8]) {
    for (program, expected) in PROGRAMS.iter().zip([text, bytes].repeat(2)) {
        let ran = program.run(file);
        wrote(&ran, program.name, what, expected, &[("filter", file)]);
    }
}

fn agree_on(what: &str, file: &[u8]) {
    all_write(what, file, &(REDUCE.own)(file), &(SHRINK.own)(file));
}

/// What document 01 prints, or says of its rides, and document 02 of P and of a fault.
#[test]
fn the_document_s_files() {
    let [l, m, n] = [ride_l(), ride_m(), ride_n()].map(|ride| write(&ride));
    let l_reduced = write(&filter_of(&[0], &[(0, 0, 0)]));
    for (file, text, bytes) in [
        (K, "3 2 2 0\n0 0\n1 1\n2 1\n", K_REDUCED),
        (K_REDUCED, "2 2 2 0\n0 0\n1 1\n", K_REDUCED),
        (&l, "2 1 1 0\n0 0\n1 0\n", &l_reduced),
        (&m, "4 4 2 1\n0 0\n1 1\n2 2\n3 3\n", &m),
        (&n, "7 7 5 2\n0 0\n1 1\n2 2\n3 3\n4 4\n5 5\n6 6\n", &n),
        (P, "3 1 1 0\n0 0\n1 -\n2 -\n", P_REDUCED),
        (P_REDUCED, "1 1 1 0\n0 0\n", P_REDUCED),
        (C, "1 1 1 0\n0 0\n", C),
        (A, "refused 1 0\n", &[]),
        (B, "refused 4 0\n", &[]),
        (D, "refused 5 0\n", &[]),
        (E, "refused 2 0\n", &[]),
        (F, "refused 3 0\n", &[]),
        (G, "refused 4 0\n", &[]),
        (H, "refused 6 0\n", &[]),
        (K_KEPT, "3 3 3 0\n0 0\n1 1\n2 2\n", K_KEPT),
        (K_LEFT, "refused 17 99\n", &[]),
    ] {
        all_write("a ride", file, text.as_bytes(), bytes);
    }
}

/// Files of every family, and their families' names.
fn files_of_all_families(
    random: &mut Random,
    of_a_file_family: usize,
    of_a_reduce_family: usize,
) -> Vec<(&'static str, Vec<u8>)> {
    let mut all = Vec::new();
    for family in files::FAMILIES {
        for file in some(random, of_a_file_family, family.make) {
            all.push((family.name, file));
        }
    }
    for family in reduces::FAMILIES {
        for case in some(random, of_a_reduce_family, family.make) {
            all.push((family.name, case.a));
        }
    }
    all
}

/// Every refusal that a file can have, at every place, and every kind of reduction among them.
#[test]
fn files_agree() {
    let seed = seed();
    let mut random = Random::new(seed);
    // Twice the whole family of one faulty edge.
    let files = files_of_all_families(&mut random, 36, 8);
    println!("{} files", files.len());
    assert!(files.len() >= LEAST_FILES, "only {} files", files.len());
    let compared = |first: usize, part: &[(&str, Vec<u8>)]| {
        for (nth, (family, file)) in (first..).zip(part) {
            agree_on(&format!("SEED={seed}, file {nth}, family: {family}"), file);
        }
    };
    // By halves, for most of it is waiting for one program on one processor.
    let half = files.len() / 2;
    thread::scope(|scope| {
        scope.spawn(|| compared(0, &files[..half]));
        compared(half, &files[half..]);
    });
    let seen: BTreeSet<Kind> = files
        .into_iter()
        .flat_map(|(_, file)| kinds_of(file))
        .collect();
    let of_the_rooms = [
        Kind::Number(10),
        Kind::Number(11),
        Kind::BothShort,
        Kind::InsteadOf(10),
        Kind::InsteadOf(11),
    ];
    let missing: Vec<Kind> = kinds::all_of(Call::Reduce(LARGE))
        .into_iter()
        // The programs' rooms are always enough.
        .filter(|kind| !of_the_rooms.contains(kind) && !seen.contains(kind))
        .collect();
    assert!(missing.is_empty(), "SEED={seed} never led to {missing:?}");
}

fn kinds_of(mut file: Vec<u8>) -> Vec<Kind> {
    file.truncate(MOST_OF_A_FILE);
    let answer_room = vec![0; file.len()];
    let entries = LARGE.header(&file).map_or(0, |header| header.n);
    let case = Case::reduce(LARGE, file, answer_room, vec![0; 2 * entries as usize]);
    kinds::of(&case, &case.outcome())
}

/// What the proved `shrink` writes, once it has been found right.
fn shrunk(what: &str, file: &[u8]) -> Vec<u8> {
    let ran = SHRINK.run(file);
    SHRINK.agrees(&ran, what, file);
    ran.stdout
}

/// What `shrink` wrote is a file that it takes and leaves as it is.
#[test]
fn shrunk_again() {
    let seed = seed();
    let mut random = Random::new(seed);
    let mut changed = 0;
    for (family, file) in files_of_all_families(&mut random, 4, 4) {
        let what = format!("SEED={seed}, family: {family}");
        let once = shrunk(&what, &file);
        if once.is_empty() {
            continue;
        }
        let twice = shrunk(&format!("{what}, shrunk again"), &once);
        assert!(twice == once, "{what}: not the same when shrunk again");
        changed += u32::from(once != file);
    }
    assert!(changed > 0, "SEED={seed}: no file was changed");
}

#[test]
fn lengths_of_the_file() {
    let mut random = Random::new(seed());
    let full = write(&largest(LARGE, &mut random));
    assert_eq!(full.len(), 45_253);
    for length in [45_252, 45_253, 45_254, 45_255, 60_000, 200_000] {
        for ends_with in [0, 255] {
            let mut file = full.clone();
            file.resize(length, ends_with);
            agree_on(&format!("the largest file as {length} bytes"), &file);
        }
        // 2 and 3 come before 5; noise has anything.
        for begins_with in [C, E, F, &random.bytes(50)] {
            let mut file = begins_with.to_vec();
            file.resize(length, 0);
            let what = format!("{:?} as {length} bytes", &begins_with[..5]);
            agree_on(&what, &file);
        }
    }
}

/// No more is taken from a standard input than what counts.
#[test]
fn standard_input_is_left_where_the_file_ends() {
    let folder = Folder::new("reduce-input-position");
    for length in [0, 4, 18, 19, 45_253, 45_254, 45_255, 100_000] {
        let mut file = K.to_vec();
        file.resize(length, 0);
        let input = folder.file("input.filter", &file);
        for tried in PROGRAMS {
            let (ran, taken) = run_on((tried.command)(), &input);
            tried.agrees(&ran, &format!("{length} bytes"), &file);
            assert_eq!(taken, length.min(MOST_OF_A_FILE) as u64, "{}", tried.name);
        }
    }
}

#[test]
fn standard_input_in_small_pieces() {
    let mut random = Random::new(seed());
    let mut longer_than_the_largest = write(&largest(LARGE, &mut random));
    longer_than_the_largest.push(0);
    let cut = &K[..17];
    for (file, size) in [
        (K, 1),
        (K, 5),
        (cut, 1),
        (H, 1),
        (P, 1),
        (&write(&ride_n()), 1),
        (&write(&plain(256)), 7),
        (&longer_than_the_largest[..45_253], 4_099),
        (&longer_than_the_largest, 3_001),
    ] {
        for tried in PROGRAMS {
            let feed = in_pieces(file.to_vec(), size, Duration::from_millis(2));
            let ran = run((tried.command)(), feed, at_once);
            tried.agrees(&ran, &format!("pieces of {size}"), file);
        }
    }
}
