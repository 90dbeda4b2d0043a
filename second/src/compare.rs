//! A batch put to the proved `answers` and to the second program, and the outcomes compared to the last byte.

use crate::case::{Case, Outcome};
use crate::frame::{read_outcomes, write_batch};
use crate::make::Made;
use crate::proved::{at_once, named_instead, program, run, whole, Ran};
use std::env;
use std::fmt::Write;
use std::io;
use std::path::{Path, PathBuf};
use std::thread;

pub struct Batch {
    name: String,
    families: Vec<&'static str>,
    cases: Vec<Case>,
}

#[derive(Debug)]
pub struct Difference {
    /// The case where the outcomes part, unless it is the end alone that is wrong.
    pub case: Option<usize>,
    pub report: String,
}

impl Difference {
    fn of_the_end(report: String) -> Difference {
        Difference { case: None, report }
    }
}

impl Batch {
    /// `name` is for the files in which the batch is saved, if need be.
    pub fn new(name: String, made: Vec<Made>) -> Batch {
        let (families, cases) = made
            .into_iter()
            .map(|made| (made.family, made.case))
            .unzip();
        Batch {
            name,
            families,
            cases,
        }
    }

    pub fn cases(&self) -> &[Case] {
        &self.cases
    }

    /// What the second program says.
    pub fn outcomes(&self) -> Vec<Outcome> {
        self.cases.iter().map(Case::outcome).collect()
    }

    /// The outcome of each case, where both programs have the same.
    pub fn compare(&self) -> Result<Vec<Outcome>, Difference> {
        let stdin = write_batch(&self.cases);
        // Both at the same time, since most machines have two processors.
        let (own, ran) = thread::scope(|scope| {
            let own = scope.spawn(|| self.outcomes());
            let ran = program("answers").and_then(|answers| run(answers, whole(stdin), at_once));
            (own.join().expect("the second program's outcomes"), ran)
        });
        self.judge(&own, &ran.map_err(Difference::of_the_end)?)?;
        Ok(own)
    }

    /// Compares the second program's outcomes with what `answers` has said.
    pub fn judge(&self, own: &[Outcome], ran: &Ran) -> Result<(), Difference> {
        let (theirs, left) = read_outcomes(&ran.stdout, &self.cases);
        for (i, own) in own.iter().enumerate() {
            if theirs.get(i) != Some(own) {
                return Err(self.at_case(i, own, theirs.get(i), ran));
            }
        }
        if !left.is_empty() {
            let more = left.len();
            let report = format!("answers wrote {more} bytes more than asked");
            return Err(Difference::of_the_end(report));
        }
        if !ran.went_well() {
            return Err(Difference::of_the_end(format!("answers: {}", ran.end())));
        }
        Ok(())
    }

    fn at_case(&self, i: usize, own: &Outcome, other: Option<&Outcome>, ran: &Ran) -> Difference {
        let theirs = match other {
            Some(other) => told(other) + &first_bytes(own, other),
            // It may have stumbled over a later case, before it wrote what it had.
            None => format!("nothing more, and its end was: {}", ran.end()),
        };
        Difference {
            case: Some(i),
            report: format!(
                "answers differs: case {i}, family: {}\n{}\nsecond: {}\nanswers: {theirs}",
                self.families[i],
                described(&self.cases[i]),
                told(own),
            ),
        }
    }

    /// Saves the case that differs and the whole batch, and says how `soak`, which is that program, compares each again.
    pub fn save(&self, difference: &Difference, soak: &Path) -> String {
        let mut text = String::new();
        if let Some(i) = difference.case {
            let name = format!("{}-{i}", self.name);
            let alone = saved(&name, std::slice::from_ref(&self.cases[i]));
            let _ = writeln!(text, "the case alone: {}", again(alone, soak));
        }
        let all = saved(&self.name, &self.cases);
        let _ = writeln!(text, "the whole batch: {}", again(all, soak));
        text
    }
}

fn saved(name: &str, cases: &[Case]) -> io::Result<PathBuf> {
    let path = env::temp_dir().join(format!("{name}.batch"));
    std::fs::write(&path, write_batch(cases))?;
    Ok(path)
}

/// The command that compares a saved batch again.
fn again(saved: io::Result<PathBuf>, soak: &Path) -> String {
    let path = match saved {
        Ok(path) => path,
        Err(error) => return format!("not saved ({error})"),
    };
    let mut command = String::new();
    if let Some(answers) = named_instead("answers") {
        let _ = write!(command, "ANSWERS='{}' ", answers.display());
    }
    let _ = write!(command, "'{}' again '{}'", soak.display(), path.display());
    command
}

fn described(case: &Case) -> String {
    let mut text = format!("{:?}, {}, {}", case.call, case.first, case.second);
    for (name, string) in [("A", &case.a), ("B", &case.b), ("C", &case.c)] {
        let _ = write!(text, "\n{name} ({} bytes): {}", string.len(), hex(string));
    }
    text
}

fn told(outcome: &Outcome) -> String {
    let answer = outcome.answer;
    format!(
        "number {}, place {}, counts {:?}\n  B: {}\n  C: {}",
        answer.number,
        answer.place,
        answer.counts,
        hex(&outcome.b),
        hex(&outcome.c)
    )
}

/// Where the rooms first part, which may be far behind what is shown of them.
fn first_bytes(own: &Outcome, other: &Outcome) -> String {
    let mut text = String::new();
    for (name, own, other) in [("B", &own.b, &other.b), ("C", &own.c, &other.c)] {
        if let Some(i) = (0..own.len()).find(|&i| own[i] != other[i]) {
            let _ = write!(
                text,
                "\n{name} differs first at byte {i}: {:02x} of second, {:02x} of answers",
                own[i], other[i]
            );
        }
    }
    text
}

fn hex(bytes: &[u8]) -> String {
    const SHOWN: usize = 200;
    let mut text = String::new();
    for byte in bytes.iter().take(SHOWN) {
        let _ = write!(text, "{byte:02x} ");
    }
    if bytes.len() > SHOWN {
        text.push_str("...");
    }
    text
}
