//! The manual pages in man/ say what the programs do: each example prints what stands below it, and the refusals are those
//! that can come. The examples of the command pierhollow are run where it is built, by tests/tool/run.

use second::make::{files, traces};
use second::program;
use second::random::{seed, Random};
use std::collections::BTreeSet;
use std::env;
use std::fs;
use std::path::{Path, PathBuf};
use std::process::Command;

const PAGES: [&str; 3] = ["reduce", "shrink", "trace"];

const SECTIONS: [&str; 7] = [
    "NAME",
    "SYNOPSIS",
    "DESCRIPTION",
    "EXIT STATUS",
    "REFUSALS",
    "EXAMPLES",
    "SEE ALSO",
];

fn top() -> PathBuf {
    Path::new(env!("CARGO_MANIFEST_DIR")).join("..")
}

fn page(name: &str) -> String {
    let path = top().join(format!("man/{name}.1"));
    fs::read_to_string(path).unwrap_or_else(|error| panic!("man/{name}.1: {error}"))
}

/// The lines of a section, without its title.
fn section<'a>(page: &'a str, title: &str) -> Vec<&'a str> {
    let begins = format!(".SH {title}");
    page.lines()
        .skip_while(|line| *line != begins)
        .skip(1)
        .take_while(|line| !line.starts_with(".SH "))
        .collect()
}

fn titles(page: &str) -> Vec<&str> {
    page.lines()
        .filter_map(|line| line.strip_prefix(".SH "))
        .collect()
}

#[test]
fn the_sections_are_all_there() {
    for name in PAGES {
        assert_eq!(titles(&page(name)), SECTIONS, "{name}");
    }
    // The command alone has options, behind its description.
    let (before, behind) = SECTIONS.split_at(3);
    let of_the_command = [before, &["OPTIONS"], behind].concat();
    assert_eq!(titles(&page("pierhollow")), of_the_command);
}

/// A line as it is shown, of the escapes that the pages use.
fn shown(line: &str) -> String {
    let line = line
        .replace(r"\-", "-")
        .replace(r"\(aq", "'")
        .replace(r"\e", "\u{0}");
    assert!(!line.contains('\\'), "an escape that is not known: {line}");
    line.replace('\u{0}', r"\")
}

/// The commands of a page and what is shown below each.
fn examples(page: &str) -> Vec<(String, String)> {
    let mut examples: Vec<(String, String)> = Vec::new();
    let mut inside = false;
    for line in section(page, "EXAMPLES") {
        match line {
            ".nf" => inside = true,
            ".fi" => inside = false,
            _ if !inside => {}
            _ => match line.strip_prefix("$ ") {
                Some(command) => examples.push((shown(command), String::new())),
                None => {
                    let (_, output) = examples.last_mut().expect("a command above");
                    *output += &format!("{}\n", shown(line));
                }
            },
        }
    }
    examples
}

/// Runs a command at the top of the project, where the programs are the twins.
fn output(command: &str) -> String {
    let twins = Path::new(env!("CARGO_BIN_EXE_reduce")).parent();
    let mut path = twins.expect("their folder").as_os_str().to_os_string();
    path.push(":");
    path.push(env::var_os("PATH").unwrap_or_default());
    // Of a pipe every program's status counts.
    let output = Command::new("bash")
        .args(["-o", "pipefail", "-c", command])
        .current_dir(top())
        .env("PATH", path)
        .output()
        .expect("bash can be started");
    assert!(output.status.success(), "{command}: {}", output.status);
    assert!(output.stderr.is_empty(), "{command} writes an error");
    String::from_utf8(output.stdout).expect("a text")
}

#[test]
fn the_examples_print_what_the_pages_show() {
    for name in PAGES {
        let examples = examples(&page(name));
        assert!(examples.len() >= 2, "{name}: {examples:?}");
        for (command, expected) in examples {
            assert!(command.contains(name), "{name}: {command}");
            assert_eq!(output(&command), expected, "{name}: {command}");
        }
    }
}

/// The numbers that a page lists.
fn listed(name: &str) -> BTreeSet<u8> {
    let page = page(name);
    let mut numbers = BTreeSet::new();
    for two in section(&page, "REFUSALS").windows(2) {
        if two[0] == ".TP" {
            let number = two[1].strip_prefix(".B ").expect("a number in bold");
            assert!(numbers.insert(number.parse().expect("a number")), "{name}");
        }
    }
    numbers
}

/// The number that a program has printed, where it refused.
fn refused(text: &str) -> Option<u8> {
    let number = text.strip_prefix("refused ")?.split(' ').next()?;
    Some(number.parse().expect("a number"))
}

fn files_of_all_families(random: &mut Random) -> Vec<Vec<u8>> {
    let families = files::FAMILIES.iter();
    families.flat_map(|family| (family.make)(random)).collect()
}

#[test]
fn the_refusals_of_a_file_are_listed() {
    let files = files_of_all_families(&mut Random::new(seed()));
    let of_reduce = files
        .iter()
        .filter_map(|file| refused(&program::reduce(file)));
    assert_eq!(listed("reduce"), of_reduce.collect());
    let of_shrink = files
        .iter()
        .filter(|file| program::shrink(file).is_empty())
        .filter_map(|file| refused(&program::reduce(file)));
    assert_eq!(listed("shrink"), of_shrink.collect());
}

#[test]
fn the_refusals_of_a_trace_are_listed() {
    let random = &mut Random::new(seed());
    let mut cases = Vec::new();
    for file in files_of_all_families(random) {
        cases.push(traces::of_file(random, file));
    }
    for family in traces::FAMILIES {
        cases.extend((family.make)(random));
    }
    let numbers = cases
        .iter()
        .filter_map(|case| refused(&program::trace(&case.a, &case.b)));
    assert_eq!(listed("trace"), numbers.collect());
}

/// A command gives what the program of its name gives; what a drawing and a pocket file add comes from none of them.
#[test]
fn the_refusals_of_the_command_are_listed() {
    let mut numbers: BTreeSet<u8> = PAGES.into_iter().flat_map(listed).collect();
    numbers.extend([14, 15, 16]);
    assert_eq!(listed("pierhollow"), numbers);
}
