//! `soak [SECONDS [BEGINNINGS]]` puts every file of three bytes to the proved `answers` and to the second program, to be checked
//! as a pocket file, and then random batches for so long (600 where no number is given) and at least one batch, and compares
//! the outcomes to the last byte. The files go by their first byte; where a second number is given, it is how many of the 256
//! first bytes are taken. At the first difference it says what differs, saves it and prints the command that compares it again,
//! which is `soak again BATCH`.
//!
//! The environment variable SEED makes a run again, batch by batch; ANSWERS names another program to compare with than
//! target/bin/answers. The status is 0 where everything agreed, 1 after a difference, and 2 where there was nothing to
//! compare.

use second::compare::Batch;
use second::frame::read_batch;
use second::make::three_bytes::beginning_with;
use second::make::{self, Made};
use second::proved::program;
use second::random::{unprinted_seed, Random};
use std::fmt;
use std::process::ExitCode;
use std::time::{Duration, Instant};

const TEN_MINUTES: Duration = Duration::from_secs(600);
/// As many first bytes as there are.
const ALL: u16 = 256;
/// Between two lines of progress.
const PAUSE: Duration = Duration::from_secs(10);

fn main() -> ExitCode {
    let arguments: Vec<String> = std::env::args().skip(1).collect();
    let arguments: Vec<&str> = arguments.iter().map(String::as_str).collect();
    if let Err(error) = program("answers") {
        return nothing_compared(&error);
    }
    if let ["again", path] = arguments[..] {
        return again(path);
    }
    match asked_for(&arguments) {
        Some((time, beginnings)) => soak(time, beginnings),
        None => nothing_compared("usage: soak [SECONDS [BEGINNINGS]] | soak again BATCH"),
    }
}

fn asked_for(arguments: &[&str]) -> Option<(Duration, u16)> {
    let seconds = |text: &str| Some(Duration::from_secs(text.parse().ok()?));
    let beginnings = |text: &str| text.parse().ok().filter(|&count| count <= ALL);
    match *arguments {
        [] => Some((TEN_MINUTES, ALL)),
        [time] => Some((seconds(time)?, ALL)),
        [time, count] => Some((seconds(time)?, beginnings(count)?)),
        _ => None,
    }
}

fn nothing_compared(why: &str) -> ExitCode {
    eprintln!("soak: {why}");
    ExitCode::from(2)
}

/// What has agreed so far.
struct Agreed {
    since: Instant,
    batches: u64,
    cases: usize,
    said: Instant,
}

impl fmt::Display for Agreed {
    fn fmt(&self, f: &mut fmt::Formatter) -> fmt::Result {
        let seconds = self.since.elapsed().as_secs();
        let Agreed { batches, cases, .. } = self;
        write!(f, "{seconds} s, {batches} batches, {cases} cases")
    }
}

impl Agreed {
    /// Compares one more batch, and says whether it agrees.
    fn with(&mut self, batch: Batch) -> bool {
        if let Err(difference) = batch.compare() {
            let soak = std::env::current_exe().unwrap_or_default();
            println!("{self}: all agreed, but not the next batch");
            println!("{}", difference.report);
            print!("{}", batch.save(&difference, &soak));
            return false;
        }
        self.batches += 1;
        self.cases += batch.cases().len();
        if self.said.elapsed() >= PAUSE {
            println!("{self}");
            self.said = Instant::now();
        }
        true
    }
}

fn soak(time: Duration, beginnings: u16) -> ExitCode {
    let seed = unprinted_seed();
    println!("SEED={seed}");
    let mut agreed = Agreed {
        since: Instant::now(),
        batches: 0,
        cases: 0,
        said: Instant::now(),
    };
    for first in (0..=u8::MAX).take(beginnings.into()) {
        let name = format!("second-{seed}-beginning-{first}");
        if !agreed.with(Batch::new(name, beginning_with(first))) {
            return ExitCode::FAILURE;
        }
    }
    println!("{agreed}: files of three bytes, {beginnings} of {ALL} first bytes");
    let mut random = Random::new(seed);
    let since = Instant::now();
    for nth in 0.. {
        let name = format!("second-{seed}-{nth}");
        if !agreed.with(Batch::new(name, make::batch(&mut random))) {
            return ExitCode::FAILURE;
        }
        if since.elapsed() >= time {
            break;
        }
    }
    println!("{agreed}: no difference");
    ExitCode::SUCCESS
}

/// Compares a batch that was saved.
fn again(path: &str) -> ExitCode {
    let bytes = match std::fs::read(path) {
        Ok(bytes) => bytes,
        Err(error) => return nothing_compared(&format!("{path}: {error}")),
    };
    let made = |case| Made {
        family: "of a saved batch",
        case,
    };
    let made: Vec<Made> = read_batch(&bytes).into_iter().map(made).collect();
    if made.is_empty() {
        return nothing_compared(&format!("{path} has no case"));
    }
    let batch = Batch::new(String::from(path), made);
    match batch.compare() {
        Ok(outcomes) => {
            println!("{} cases agree", outcomes.len());
            ExitCode::SUCCESS
        }
        Err(difference) => {
            println!("{}", difference.report);
            ExitCode::FAILURE
        }
    }
}
