//! Graphviz reads the drawings as what they are meant to say. It lays nothing out here; where it is not installed, that is said.

use second::dot;
use second::file::{read, Edge, Filter};
use second::make::filters::{large, largest, shapes};
use second::profile::LARGE;
use second::random::{seed, Random};
use std::fs;
use std::io::{self, ErrorKind, Write};
use std::path::Path;
use std::process::{Command, Stdio};
use std::thread;

/// A program for Graphviz's `gvpr`: a line for each node with its label, and one for each edge with its ends and its label.
const TELL: &str = r#"
    N { printf("%s %s\n", $.name, $.label); }
    E { printf("%s %s %s\n", $.tail.name, $.head.name, $.label); }
"#;

fn installed() -> bool {
    match Command::new("gvpr").arg("-V").output() {
        Ok(said) => said.status.success(),
        Err(error) if error.kind() == ErrorKind::NotFound => false,
        Err(error) => panic!("gvpr cannot be started: {error}"),
    }
}

/// What Graphviz finds in a drawing, sorted, since it has an order of its own.
fn told(drawing: &[u8]) -> Vec<Vec<u64>> {
    let mut gvpr = Command::new("gvpr")
        .arg(TELL)
        .stdin(Stdio::piped())
        .stdout(Stdio::piped())
        .stderr(Stdio::piped())
        .spawn()
        .expect("gvpr can be started");
    let mut to = gvpr.stdin.take().expect("its standard input");
    let drawing = drawing.to_vec();
    let feed = thread::spawn(move || to.write_all(&drawing));
    let said = gvpr.wait_with_output().expect("gvpr ends");
    feed.join()
        .expect("the writer ends")
        .expect("gvpr reads all of the drawing");
    let complaints = String::from_utf8_lossy(&said.stderr);
    assert!(
        said.status.success() && complaints.is_empty(),
        "{complaints}"
    );
    let text = String::from_utf8(said.stdout).expect("text");
    let number = |word: &str| {
        word.parse()
            .unwrap_or_else(|_| panic!("{word:?} is no number"))
    };
    let numbers = |line: &str| line.split(' ').map(number).collect();
    sorted(text.lines().map(numbers).collect())
}

fn sorted(mut lines: Vec<Vec<u64>>) -> Vec<Vec<u64>> {
    lines.sort();
    lines
}

/// The same of the filter itself: state and colour, or source, target and label.
fn meant(filter: &Filter) -> Vec<Vec<u64>> {
    let states = (0..).zip(&filter.colours);
    let states = states.map(|(state, &colour)| vec![state, colour]);
    let edge = |edge: &Edge| vec![edge.source, edge.target, edge.label];
    sorted(states.chain(filter.edges.iter().map(edge)).collect())
}

fn reads_as(drawing: &[u8], filter: &Filter, what: &str) {
    let (told, meant) = (told(drawing), meant(filter));
    assert!(
        told == meant,
        "Graphviz reads {what} otherwise:\n{told:?}\n{meant:?}"
    );
}

/// The drawings under examples/, each with its filter.
fn examples() -> Vec<(String, Vec<u8>, Filter)> {
    let folder = Path::new(env!("CARGO_MANIFEST_DIR")).join("../examples");
    let mut examples = Vec::new();
    for entry in fs::read_dir(folder).expect("the folder can be read") {
        let path = entry.expect("an entry").path();
        if path.extension().is_some_and(|end| end == "dot") {
            let file = fs::read(path.with_extension("filter")).expect("the filter beside it");
            let filter = read(&file).expect("a filter file");
            let drawing = fs::read(&path).expect("its bytes");
            examples.push((path.display().to_string(), drawing, filter));
        }
    }
    assert!(!examples.is_empty(), "no drawing at all");
    examples
}

#[test]
fn graphviz_reads_what_the_drawings_say() {
    if !installed() {
        // Written past what a test that passes has printed, and on a line of its own, for the gate to find.
        let line = b"\nskipped: drawings read by Graphviz (Debian's graphviz would read them)\n";
        let _ = io::stderr().write_all(line);
        return;
    }
    for (name, drawing, filter) in examples() {
        reads_as(&drawing, &filter, &name);
    }
    let mut random = Random::new(seed());
    let mut filters = shapes(LARGE, &mut random);
    filters.extend((0..5).map(|_| large(LARGE, &mut random)));
    filters.push(largest(LARGE, &mut random));
    for filter in &filters {
        let drawing = dot::write(&filter.colours, &filter.edges);
        reads_as(drawing.as_bytes(), filter, &format!("{filter:?}"));
    }
}

/// The comparison is not empty: a drawing of another filter is told apart.
#[test]
fn another_drawing_is_read_otherwise() {
    if !installed() {
        return;
    }
    let (_, drawing, mut filter) = examples().swap_remove(0);
    filter.edges[0].label += 1;
    assert_ne!(told(&drawing), meant(&filter));
}
