//! A long comparison ends well where the two programs agree, and otherwise says what differs and how to see it again.

use second::case::{Call, Case, Outcome};
use second::compare::{Batch, Difference};
use second::frame::{read_batch, write_outcomes};
use second::make::Made;
use second::proved::Ran;
use second::random::{seed, seed_or};
use second::stored;
use std::fs;
use std::os::unix::process::ExitStatusExt;
use std::path::{Path, PathBuf};
use std::process::{Command, ExitStatus, Output};

fn batch(name: &str) -> Batch {
    let made = stored::cases().into_iter().map(|case| Made {
        family: "stored",
        case,
    });
    Batch::new(format!("{name}-{}", std::process::id()), made.collect())
}

/// What `answers` says where it has these outcomes.
fn said(outcomes: &[Outcome]) -> Ran {
    Ran {
        status: ExitStatus::from_raw(0),
        stdout: write_outcomes(outcomes),
        stderr: Vec::new(),
    }
}

fn judged(batch: &Batch, ran: &Ran) -> Difference {
    let judged = batch.judge(&batch.outcomes(), ran);
    judged.expect_err("a difference")
}

#[test]
fn equal_outcomes_are_no_difference() {
    let batch = batch("equal");
    let own = batch.outcomes();
    assert!(batch.judge(&own, &said(&own)).is_ok());
}

/// The first case of each call, wrong in its answer or in the last byte that was lent to it.
#[test]
fn a_wrong_outcome_is_found_and_its_case_saved() {
    let batch = batch("wrong");
    let soak = Path::new("soak");
    for call in Call::ALL {
        let of_the_call = |case: &Case| case.call == call && case.outcome().answer.number == 0;
        let i = batch.cases().iter().position(of_the_call).expect("a case");
        let mut theirs = batch.outcomes();
        match theirs[i].c.last_mut() {
            Some(byte) => *byte ^= 1,
            None => theirs[i].answer.counts[3] ^= 1,
        }
        let difference = judged(&batch, &said(&theirs));
        assert_eq!(difference.case, Some(i), "{call:?}");
        let saved = saved(&batch.save(&difference, soak));
        let batches: Vec<Vec<Case>> = saved.iter().map(|path| cases(path)).collect();
        assert_eq!(batches, [&batch.cases()[i..=i], batch.cases()]);
    }
}

#[test]
fn a_wrong_end_is_found() {
    let batch = batch("end");
    let well = said(&batch.outcomes());
    let last = batch.cases().len() - 1;

    let mut cut = well.clone();
    cut.stdout.pop();
    assert_eq!(judged(&batch, &cut).case, Some(last));

    let mut more = well.clone();
    more.stdout.push(0);
    let mut failed = well.clone();
    failed.status = ExitStatus::from_raw(1 << 8);
    let mut spoke = well.clone();
    spoke.stderr.push(b'!');
    for ran in [more, failed, spoke] {
        assert_eq!(judged(&batch, &ran).case, None);
    }
}

/// The files that a text says were saved.
fn saved(text: &str) -> Vec<PathBuf> {
    let lines = text.lines().filter_map(|line| line.split_once(" again '"));
    let paths = lines.map(|(_, path)| PathBuf::from(path.trim_end_matches('\'')));
    paths.collect()
}

/// Reads a saved batch and removes it.
fn cases(path: &Path) -> Vec<Case> {
    let bytes = fs::read(path).expect("a saved batch");
    fs::remove_file(path).expect("it can be removed");
    read_batch(&bytes)
}

fn soak(arguments: &[&str]) -> Command {
    let mut command = Command::new(env!("CARGO_BIN_EXE_soak"));
    command.args(arguments);
    command
}

fn ended(mut command: Command) -> (Option<i32>, String) {
    let Output { status, stdout, .. } = command.output().expect("soak can be started");
    (status.code(), String::from_utf8(stdout).expect("a text"))
}

/// One first byte of files of three bytes, of 256, and one random batch.
#[test]
fn the_proved_program_agrees() {
    let seed = seed_or(7);
    let mut command = soak(&["0", "1"]);
    command.env("SEED", seed.to_string());
    let (status, text) = ended(command);
    assert_eq!(status, Some(0), "{text}");
    assert!(text.starts_with(&format!("SEED={seed}\n")), "{text}");
    let of_three_bytes = " 1 batches, 65536 cases: files of three bytes, 1 of 256 first bytes\n";
    assert!(text.contains(of_three_bytes), "{text}");
    let last = text.lines().last().unwrap_or_default();
    assert!(last.contains(" 2 batches, "), "{text}");
    assert!(last.ends_with(" cases: no difference"), "{text}");
}

/// `shrink` finds no filter in a batch and writes nothing.
#[test]
fn another_program_differs_and_differs_again() {
    let other = Path::new(env!("CARGO_MANIFEST_DIR")).join("../target/bin/shrink");
    let mut command = soak(&["0", "0"]);
    command.env("SEED", seed().to_string());
    command.env("ANSWERS", other);
    let (status, text) = ended(command);
    assert_eq!(status, Some(1), "{text}");
    let again: Vec<&str> = text
        .lines()
        .filter_map(|line| line.split_once(": ANSWERS"))
        .map(|(_, command)| command)
        .collect();
    assert_eq!(again.len(), 2, "{text}");
    for command in again {
        let mut shell = Command::new("sh");
        shell.args(["-c", &format!("ANSWERS{command}")]);
        let (status, said) = ended(shell);
        assert_eq!(status, Some(1), "{said}");
        assert!(said.starts_with("answers differs: case 0, "), "{said}");
    }
    for path in saved(&text) {
        // The proved program itself agrees on what was saved.
        let (status, said) = ended(soak(&["again", &path.to_string_lossy()]));
        assert_eq!(status, Some(0), "{said}");
        assert!(!cases(&path).is_empty());
    }
}

#[test]
fn what_cannot_be_compared_is_no_agreement() {
    for arguments in [
        &["ten"][..],
        &["1", "ten"],
        &["1", "257"],
        &["1", "2", "3"],
        &["again"],
        &["again", "missing.batch"],
    ] {
        assert_eq!(ended(soak(arguments)).0, Some(2), "{arguments:?}");
    }
    let mut command = soak(&["0", "0"]);
    command.env("ANSWERS", "missing");
    assert_eq!(ended(command).0, Some(2));
}
