//! What the documents name is there: theorems, definitions and functions in the files beside them, and every must-fail edit.

use std::collections::BTreeSet;
use std::fs;
use std::path::{Path, PathBuf};

fn root() -> PathBuf {
    Path::new(env!("CARGO_MANIFEST_DIR")).join("..")
}

fn text(path: &str) -> String {
    fs::read_to_string(root().join(path)).unwrap_or_else(|error| panic!("{path}: {error}"))
}

/// The parts of a text that stand between backquotes, each with what stands behind it.
fn quoted(text: &str) -> Vec<(&str, &str)> {
    let mut found = Vec::new();
    for line in text.lines() {
        let mut rest = line;
        while let Some((_, opened)) = rest.split_once('`') {
            let Some((inside, behind)) = opened.split_once('`') else {
                break;
            };
            found.push((inside, behind));
            rest = behind;
        }
    }
    found
}

/// The pairs of a document: `` `name` in `file` ``.
fn named_places(document: &str) -> Vec<(String, String)> {
    let mut places = Vec::new();
    for (name, behind) in quoted(document) {
        if let Some(file) = behind.strip_prefix(" in `") {
            if let Some((file, _)) = file.split_once('`') {
                if file.contains('/') && file.contains('.') {
                    places.push((name.to_string(), file.to_string()));
                }
            }
        }
    }
    places
}

/// Whether a file declares a name: a line begins with it, behind the words that may stand before one. Of a method's name the
/// type before it is left away.
fn declares(source: &str, name: &str) -> bool {
    let name = name.rsplit("::").next().unwrap_or(name);
    const BEFORE: [&str; 8] = [
        "pub",
        "unfoldable",
        "abbrev",
        "record",
        "data",
        "fn",
        "struct",
        "enum",
    ];
    source.lines().any(|line| {
        let mut words = line.split(|c: char| c.is_whitespace() || c == '(' || c == '{' || c == '<');
        words.find(|word| !word.is_empty() && !BEFORE.contains(word)) == Some(name)
    })
}

#[test]
fn every_name_beside_a_file_is_declared_there() {
    for document in [
        "docs/PROOF.md",
        "docs/CONTRACTS.md",
        "docs/RIDE-N.md",
        "docs/DECISIONS.md",
    ] {
        let places = named_places(&text(document));
        assert!(
            places.len() >= 5,
            "{document} names only {} places",
            places.len()
        );
        for (name, file) in places {
            assert!(
                declares(&text(&file), &name),
                "{document}: {file} does not declare {name}"
            );
        }
    }
}

/// Each must-fail edit, as `crate/edit`.
fn edits() -> BTreeSet<String> {
    let mut edits = BTreeSet::new();
    for entry in fs::read_dir(root().join("crates")).expect("the crates") {
        let folder = entry.expect("a crate").path();
        let Ok(files) = fs::read_dir(folder.join("must-fail")) else {
            continue;
        };
        let of = folder.file_name().unwrap().to_string_lossy().into_owned();
        for file in files {
            let file = file.expect("an edit").path();
            let edit = file.file_stem().unwrap().to_string_lossy().into_owned();
            edits.insert(format!("{of}/{edit}"));
        }
    }
    edits
}

#[test]
fn the_contracts_list_every_edit_of_a_call_and_no_other() {
    let contracts = text("docs/CONTRACTS.md");
    let listed: BTreeSet<String> = quoted(&contracts)
        .into_iter()
        .map(|(inside, _)| inside.to_string())
        .filter(|inside| inside.contains('/') && !inside.contains('.') && !inside.contains(' '))
        .filter(|inside| {
            root()
                .join("crates")
                .join(inside.split('/').next().unwrap())
                .is_dir()
        })
        .collect();
    assert_eq!(listed, edits());
}
