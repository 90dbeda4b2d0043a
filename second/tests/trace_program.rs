//! The proved program `trace` and its twin, run as processes, print what the second program says.

mod common;
#[path = "common/outputs.rs"]
mod outputs;

use common::{at_once, program, run, whole, Ran};
use outputs::{in_pieces, run_on, some, wrote, Folder};
use second::case::{Call, Case};
use second::file::{read, write};
use second::kinds::{self, Kind};
use second::make::filters::{filter, largest};
use second::make::{files, traces};
use second::profile::LARGE;
use second::program::{trace, MOST_OF_A_FILE, MOST_OF_THE_OBSERVATIONS};
use second::random::{seed, Random};
use second::rides::*;
use std::collections::BTreeSet;
use std::ffi::{OsStr, OsString};
use std::fs;
use std::io::{self, Read};
use std::os::unix::ffi::{OsStrExt, OsStringExt};
use std::os::unix::fs::{symlink, PermissionsExt};
use std::process::{ChildStdout, Command};
use std::thread::sleep;
use std::time::Duration;

const LEAST_PAIRS: usize = 500;

/// The proved program with these arguments, and its twin.
fn both_with<S: AsRef<OsStr>>(arguments: &[S]) -> [Command; 2] {
    let mut both = [program("trace"), Command::new(env!("CARGO_BIN_EXE_trace"))];
    for command in &mut both {
        command.args(arguments);
    }
    both
}

/// Fails unless the output is that of this file and these observations, to the last byte.
fn agrees(ran: &Ran, what: &str, file: &[u8], observations: &[u8]) {
    let own = trace(file, observations);
    let given = [("filter", file), ("observations", observations)];
    wrote(ran, "trace", what, own.as_bytes(), &given);
}

/// Runs both with these arguments, which lead to that file, and observations that are there at once.
fn both_agree<S: AsRef<OsStr>>(arguments: &[S], what: &str, file: &[u8], observations: &[u8]) {
    for command in both_with(arguments) {
        let ran = run(command, whole(observations.to_vec()), at_once);
        agrees(&ran, what, file, observations);
    }
}

/// Runs both on one pair.
fn pair(folder: &Folder, what: &str, file: &[u8], observations: &[u8]) {
    let path = folder.file("pair.filter", file);
    both_agree(&[path], what, file, observations);
}

#[test]
fn the_document_s_pairs() {
    let folder = Folder::new("trace-document");
    for (file, observations, text) in [
        (K, K_OBSERVATIONS, "0\n1\nstopped 1\n"),
        (K_REDUCED, K_OBSERVATIONS, "0\n1\n0\ntraced\n"),
        (K, R_OBSERVATIONS, "refused 13 1\n"),
        (K, &[], "0\ntraced\n"),
        (A, &[], "refused 1 0\n"),
        (B, &[], "refused 4 0\n"),
        (C, &[], "0\ntraced\n"),
        (C, &[0], "0\nstopped 0\n"),
        (D, &[], "refused 5 0\n"),
        (E, &[], "refused 2 0\n"),
        (F, &[], "refused 3 0\n"),
        (G, &[], "refused 4 0\n"),
        (H, &[], "refused 6 0\n"),
        (K_KEPT, &[0, 0, 0], "0\n63\n63\n63\ntraced\n"),
        (K_LEFT, &[0, 0], "refused 17 99\n"),
        (K_LEFT, R_OBSERVATIONS, "refused 17 99\n"),
        (K_LEFT, &[0; 65_536], "refused 17 99\n"),
    ] {
        let path = folder.file("ride.filter", file);
        for command in both_with(&[path]) {
            let ran = run(command, whole(observations.to_vec()), at_once);
            assert_eq!(String::from_utf8_lossy(&ran.stdout), text);
            assert!(ran.went_well(), "{}", ran.end());
        }
    }
}

/// Files and observations of every family, each kind of answer among them.
#[test]
fn pairs_agree() {
    /// All of the family of one faulty edge, so that each field is at fault in the first, a middle and the last one.
    const OF_EACH_FILE_FAMILY: usize = 18;
    const OF_EACH_TRACE_FAMILY: usize = 34;
    let seed = seed();
    let mut random = Random::new(seed);
    let mut pairs: Vec<(&str, Vec<u8>, Vec<u8>)> = Vec::new();
    for family in files::FAMILIES {
        for file in some(&mut random, OF_EACH_FILE_FAMILY, family.make) {
            let case = traces::of_file(&mut random, file);
            pairs.push((family.name, case.a, case.b));
        }
    }
    for family in traces::FAMILIES {
        for case in some(&mut random, OF_EACH_TRACE_FAMILY, family.make) {
            pairs.push((family.name, case.a, case.b));
        }
    }
    println!("{} pairs", pairs.len());
    assert!(pairs.len() >= LEAST_PAIRS, "only {} pairs", pairs.len());
    let folder = Folder::new("trace-pairs");
    let mut seen = BTreeSet::new();
    for (nth, (family, file, observations)) in pairs.into_iter().enumerate() {
        let what = format!("SEED={seed}, pair {nth}, family: {family}");
        pair(&folder, &what, &file, &observations);
        seen.extend(kinds_of(file, observations));
    }
    // The program's room is always enough, and where there are too many observations the file is not refused.
    let of_the_room = [Kind::ShortRoom, Kind::InsteadOf(12)];
    let missing: Vec<Kind> = kinds::all_of(Call::Trace(LARGE))
        .into_iter()
        .filter(|kind| !of_the_room.contains(kind) && !seen.contains(kind))
        .collect();
    assert!(missing.is_empty(), "SEED={seed} never led to {missing:?}");
}

fn kinds_of(mut file: Vec<u8>, mut observations: Vec<u8>) -> Vec<Kind> {
    file.truncate(MOST_OF_A_FILE);
    observations.truncate(MOST_OF_THE_OBSERVATIONS);
    let room = vec![0; observations.len() + 1];
    let case = Case::trace(LARGE, file, observations, room);
    kinds::of(&case, &case.outcome())
}

#[test]
fn no_argument() {
    for observations in [vec![], vec![0], vec![255], vec![0; 65_536]] {
        let none: [&OsStr; 0] = [];
        both_agree(&none, "no argument", &[], &observations);
    }
}

/// A name that cannot be opened, or not be read once it is open, stands for an empty file.
#[test]
fn names_that_lead_to_no_file() {
    let folder = Folder::new("trace-no-file");
    let k = folder.file("k.filter", K);
    let knot = folder.path.join("knot");
    symlink(&knot, &knot).expect("a link to itself");
    let nowhere = folder.path.join("nowhere");
    symlink(folder.path.join("missing"), &nowhere).expect("a link to nothing");
    let mut name_of_bytes = folder.path.clone().into_os_string().into_vec();
    name_of_bytes.extend(b"/\xff\xfe\x01");
    for name in [
        OsString::new(),
        OsString::from(" "),
        folder.path.join("missing").into_os_string(),
        folder.path.join("missing/missing").into_os_string(),
        folder.path.clone().into_os_string(),
        folder.path.join("").into_os_string(),
        OsString::from("/"),
        OsString::from("."),
        // A file is no folder.
        k.join("").into_os_string(),
        k.join("k.filter").into_os_string(),
        // Longer than a name or a path may be.
        folder.path.join("a".repeat(300)).into_os_string(),
        folder.path.join("a/".repeat(5_000)).into_os_string(),
        OsString::from("a".repeat(100_000)),
        knot.into_os_string(),
        nowhere.into_os_string(),
        OsString::from_vec(name_of_bytes),
        OsString::from("/dev/null"),
    ] {
        for observations in [&[][..], &[0, 1]] {
            both_agree(&[&name], &format!("the name {name:?}"), &[], observations);
        }
    }
}

/// Whatever the name is made of; but the proved program opens no name that is not UTF-8.
#[test]
fn names_that_lead_to_a_file() {
    let folder = Folder::new("trace-file");
    let names = [
        OsStr::new("k"),
        OsStr::new("name with spaces "),
        OsStr::new("name\nof two lines"),
        OsStr::new("-"),
        OsStr::new("--"),
        OsStr::new("--help"),
        OsStr::new("*"),
        OsStr::new("$HOME"),
        OsStr::from_bytes(b"bytes \xff\xfe\x80\x01"),
        OsStr::new("Küste"),
    ];
    for (nth, name) in names.into_iter().enumerate() {
        folder.file(name, K);
        let link = folder.path.join(format!("link-{nth}"));
        symlink(name, &link).expect("a link");
        let own = folder.path.file_name().expect("the folder's name");
        let roundabout = folder.path.join("./..").join(own).join(name);
        for argument in [name, roundabout.as_os_str(), link.as_os_str()] {
            let [proved, twin] = both_with(&[argument]);
            // The paths of the proved program's library are text, so a name that is none stands there for an empty file.
            let opened = argument.to_str().map_or(&[][..], |_| K);
            for (mut command, file) in [(proved, opened), (twin, K)] {
                command.current_dir(&folder.path);
                let ran = run(command, whole(vec![0, 0, 1, 1, 1, 0]), at_once);
                let what = format!("the name {argument:?}");
                agrees(&ran, &what, file, &[0, 0, 1, 1, 1, 0]);
            }
        }
    }
    let long = folder.file("a".repeat(255), K_REDUCED);
    both_agree(&[long], "the longest name", K_REDUCED, &[0, 1]);
}

/// One that the own user may not read, which stops everyone but the superuser.
#[test]
fn a_file_without_permission() {
    let folder = Folder::new("trace-permission");
    let path = folder.file("k.filter", K);
    fs::set_permissions(&path, fs::Permissions::from_mode(0o000)).expect("its mode can be set");
    let file = fs::read(&path).unwrap_or_default();
    both_agree(&[path], "a file of mode 0", &file, &[0, 1]);
}

#[test]
fn further_arguments_are_ignored() {
    let folder = Folder::new("trace-arguments");
    let k = folder.file("k.filter", K).into_os_string();
    let reduced = folder.file("reduced.filter", K_REDUCED).into_os_string();
    let missing = folder.path.join("missing").into_os_string();
    let empty = OsString::new();
    let mut many = vec![k.clone()];
    many.extend(vec![reduced.clone(); 1_000]);
    for (arguments, file) in [
        (vec![k.clone(), reduced.clone()], K),
        (vec![reduced.clone(), k.clone()], K_REDUCED),
        (vec![k.clone(), missing.clone()], K),
        (vec![k.clone(), empty.clone()], K),
        (vec![k.clone(), OsString::from("--help")], K),
        (vec![missing, k.clone()], A),
        (vec![empty, k.clone()], A),
        (vec![folder.path.clone().into_os_string(), k], A),
        (many, K),
    ] {
        both_agree(&arguments, &format!("{arguments:?}"), file, &[0, 1]);
    }
}

#[test]
fn lengths_of_the_file() {
    let folder = Folder::new("trace-file-lengths");
    let mut random = Random::new(seed());
    let full = write(&largest(LARGE, &mut random));
    assert_eq!(full.len(), 45_253);
    let observations: Vec<u8> = (0..200).map(|_| random.between(0, 63) as u8).collect();
    for length in [45_252, 45_253, 45_254, 45_255, 60_000, 200_000] {
        for ends_with in [0, 255] {
            let mut file = full.clone();
            file.resize(length, ends_with);
            let what = format!("the largest file as {length} bytes");
            pair(&folder, &what, &file, &observations);
        }
        // 2 and 3 come before 5; noise has anything.
        for begins_with in [C, E, F, &random.bytes(50)] {
            let mut file = begins_with.to_vec();
            file.resize(length, 0);
            let what = format!("{:?} as {length} bytes", &begins_with[..5]);
            pair(&folder, &what, &file, &[0]);
        }
    }
}

#[test]
fn lengths_of_standard_input() {
    let folder = Folder::new("trace-input-lengths");
    for length in [
        0, 1, 2, 65_534, 65_535, 65_536, 65_537, 70_000, 131_072, 1_000_000,
    ] {
        // Back and forth through K's states 0 and 1; then with a label outside at the end and at the beginning; then
        // with a stop.
        let full = vec![0; length];
        let mut lists = vec![full.clone()];
        for (at, label) in [(0, 2), (length.saturating_sub(1), 2), (length / 2, 1)] {
            let mut list = full.clone();
            if length > 0 {
                list[at] = label;
            }
            lists.push(list);
        }
        for list in lists {
            pair(&folder, &format!("{length} observations"), K, &list);
        }
    }
}

/// No more is taken from a standard input than what counts.
#[test]
fn standard_input_is_left_where_the_observations_end() {
    let folder = Folder::new("trace-input-position");
    let path = folder.file("k.filter", K);
    for length in [0, 100, 65_535, 65_536, 65_537, 70_000, 200_000] {
        let observations = vec![0; length];
        let input = folder.file("observations", &observations);
        for command in both_with(&[&path]) {
            let (ran, taken) = run_on(command, &input);
            agrees(&ran, &format!("{length} bytes"), K, &observations);
            assert_eq!(taken, length.min(MOST_OF_THE_OBSERVATIONS) as u64);
        }
    }
}

#[test]
fn standard_input_in_small_pieces() {
    let folder = Folder::new("trace-pieces");
    let mut random = Random::new(seed());
    let pause = Duration::from_millis(2);
    for (size, count) in [(1, 40), (2, 41), (3, 100), (7, 100)] {
        for case in [
            traces::full_rides(LARGE, &mut random).swap_remove(60),
            traces::stopped_rides(LARGE, &mut random).swap_remove(8),
            traces::labels_outside(LARGE, &mut random).swap_remove(20),
        ] {
            let path = folder.file("pieces.filter", &case.a);
            let mut observations = case.b.clone();
            observations.truncate(count);
            for command in both_with(&[path]) {
                let feed = in_pieces(observations.clone(), size, pause);
                let ran = run(command, feed, at_once);
                let what = format!("pieces of {size}");
                agrees(&ran, &what, &case.a, &observations);
            }
        }
    }
    for (length, size) in [(65_535, 4_099), (65_536, 5_000), (70_000, 8_191)] {
        let path = folder.file("pieces.filter", K);
        let observations = vec![0; length];
        for command in both_with(&[path]) {
            let feed = in_pieces(observations.clone(), size, pause);
            let ran = run(command, feed, at_once);
            let what = format!("{length} observations in pieces of {size}");
            agrees(&ran, &what, K, &observations);
        }
    }
}

/// A standard output that is first left alone until the pipe is full, and then read in pieces.
fn slowly(mut from: ChildStdout) -> io::Result<Vec<u8>> {
    sleep(Duration::from_millis(300));
    let mut bytes = Vec::new();
    let mut piece = [0; 3_001];
    loop {
        let count = from.read(&mut piece)?;
        if count == 0 {
            return Ok(bytes);
        }
        bytes.extend(&piece[..count]);
        sleep(Duration::from_millis(2));
    }
}

#[test]
fn a_slow_reader_of_a_long_ride() {
    let folder = Folder::new("trace-slow");
    let mut random = Random::new(seed());
    // Every pair has an edge, so the ride goes on to the end.
    let filter = filter(LARGE, &mut random, 9, 5, 45);
    let file = write(&filter);
    let path = folder.file("slow.filter", &file);
    let observations: Vec<u8> = (0..65_535).map(|_| random.between(0, 4) as u8).collect();
    for length in [65_535, 30_000] {
        let list = observations[..length].to_vec();
        for command in both_with(&[&path]) {
            let ran = run(command, whole(list.clone()), slowly);
            agrees(&ran, "a slow reader", &file, &list);
        }
    }
}

#[test]
fn the_longest_ride_through_the_largest_file() {
    let folder = Folder::new("trace-longest");
    let mut random = Random::new(seed());
    let file = write(&largest(LARGE, &mut random));
    assert!(read(&file).is_ok());
    let observations: Vec<u8> = (0..65_535).map(|_| random.between(0, 63) as u8).collect();
    pair(&folder, "the longest ride", &file, &observations);
}
