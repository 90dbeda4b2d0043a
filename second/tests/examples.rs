//! The filters in examples/: made again by their script, reduced and drawn by both programs, and as their table says.

mod common;
// It also has what programs are fed with in other ways, which is of no use here.
#[allow(dead_code)]
#[path = "common/outputs.rs"]
mod outputs;

use common::{at_once, program, run, whole};
use outputs::{wrote, Folder};
use second::call::{check, from_dot};
use second::case::{Case, Outcome};
use second::compare::Batch;
use second::dot::can_be_drawn;
use second::file::{read, write, Filter};
use second::make::Made;
use second::profile::POCKET;
use second::program::shrink;
use second::reduce::reduce;
use second::rides::*;
use std::collections::{BTreeMap, BTreeSet};
use std::fs;
use std::path::{Path, PathBuf};
use std::process::Command;

fn examples() -> PathBuf {
    Path::new(env!("CARGO_MANIFEST_DIR")).join("../examples")
}

/// The bytes of every file of a folder that has this ending, by the name before it.
fn files(folder: &Path, ending: &str) -> BTreeMap<String, Vec<u8>> {
    let mut files = BTreeMap::new();
    for entry in fs::read_dir(folder).expect("the folder can be read") {
        let path = entry.expect("an entry").path();
        if path.extension().is_some_and(|end| end == ending) {
            let name = path.file_stem().expect("a name").to_string_lossy();
            files.insert(name.into_owned(), fs::read(&path).expect("its bytes"));
        }
    }
    files
}

/// An example and what stands beside it, both as they are on disk.
struct Example {
    name: String,
    original: Vec<u8>,
    reduced: Vec<u8>,
}

impl Example {
    fn named(name: &str) -> Example {
        let bytes = |file: String| {
            let path = examples().join(&file);
            fs::read(path).unwrap_or_else(|error| panic!("examples/{file}: {error}"))
        };
        Example {
            name: name.to_string(),
            original: bytes(format!("{name}.filter")),
            reduced: bytes(format!("{name}.reduced.filter")),
        }
    }

    /// Of every filter file, a reduced one without its original included.
    fn all() -> Vec<Example> {
        let files = files(&examples(), "filter");
        let stem = |name: &String| name.strip_suffix(".reduced").unwrap_or(name).to_string();
        let names: BTreeSet<String> = files.keys().map(stem).collect();
        assert!(!names.is_empty(), "no example at all");
        names.iter().map(|name| Example::named(name)).collect()
    }

    fn filters(&self) -> (Filter, Filter) {
        let filter = |bytes| match read(bytes) {
            Ok(filter) => filter,
            Err(refusal) => panic!("{}: {refusal:?}", self.name),
        };
        (filter(&self.original), filter(&self.reduced))
    }
}

#[test]
fn the_reduced_files_are_what_the_second_program_says() {
    for example in Example::all() {
        // Of a file that is refused nothing would be written, which an empty file beside it would equal.
        example.filters();
        let own = shrink(&example.original);
        assert!(own == example.reduced, "{}.reduced.filter", example.name);
    }
}

#[test]
fn the_reduced_files_are_what_the_proved_program_writes() {
    for example in Example::all() {
        let ran = run(program("shrink"), whole(example.original.clone()), at_once);
        let given: [(&str, &[u8]); 1] = [("filter", &example.original)];
        wrote(&ran, "shrink", &example.name, &example.reduced, &given);
    }
}

#[test]
fn the_script_makes_the_same_files_again() {
    let folder = Folder::new("examples-made-again");
    let shrink = format!("'{}' shrink", env!("CARGO_BIN_EXE_cases"));
    let status = Command::new("python3")
        .arg(examples().join("make.py"))
        .arg("--into")
        .arg(&folder.path)
        .args(["--shrink", &shrink])
        .status()
        .expect("python3 can be started");
    assert!(status.success(), "make.py: {status}");
    for ending in ["filter", "pocket", "dot"] {
        let made = files(&folder.path, ending);
        let here = files(&examples(), ending);
        assert!(made.keys().eq(here.keys()), "{ending}: {:?}", made.keys());
        for (name, bytes) in made {
            let same = bytes == here[&name];
            assert!(same, "{name}.{ending} is made with other bytes");
        }
    }
}

fn filter_of(name: &str, file: &[u8]) -> Filter {
    read(file).unwrap_or_else(|refusal| panic!("{name}.filter: {refusal:?}"))
}

/// The names of the filters that are so.
fn those(are_so: impl Fn(&Filter) -> bool) -> Vec<String> {
    let filters = files(&examples(), "filter").into_iter();
    let so = filters.filter(|(name, file)| are_so(&filter_of(name, file)));
    so.map(|(name, _)| name).collect()
}

fn names(ending: &str) -> Vec<String> {
    files(&examples(), ending).into_keys().collect()
}

#[test]
fn every_filter_that_can_be_drawn_is_drawn() {
    assert_eq!(names("dot"), those(can_be_drawn));
}

#[test]
fn every_filter_that_fits_has_a_pocket_file() {
    let fits = |filter: &Filter| {
        filter.n() <= 16 && filter.m <= 8 && filter.colours.iter().all(|&c| c <= 15)
    };
    assert_eq!(names("pocket"), those(fits));
}

/// Accepted, with these bytes at the front of the room and the rest as found.
fn holds(outcome: &Outcome, written: &[u8]) -> bool {
    let (front, behind) = outcome.c.split_at(written.len());
    let counts = [written.len() as u64, 0, 0, 0];
    (outcome.answer.number, outcome.answer.counts) == (0, counts)
        && front == written
        && behind.iter().all(|&byte| byte == FOUND)
}

const FOUND: u8 = 0xee;

/// What stands beside the filter files under this ending is what one call makes of them, and the other makes them of it.
fn turned_both_ways(
    ending: &str,
    there: fn(Vec<u8>, Vec<u8>) -> Case,
    back: fn(Vec<u8>, Vec<u8>) -> Case,
) {
    let (filters, others) = (files(&examples(), "filter"), files(&examples(), ending));
    let room = |written: &Vec<u8>| vec![FOUND; written.len() + 3];
    let mut made = Vec::new();
    for (name, other) in &others {
        let file = &filters[name];
        for case in [
            there(file.clone(), room(other)),
            back(other.clone(), room(file)),
        ] {
            let family = "what stands beside the examples";
            made.push(Made { family, case });
        }
    }
    let batch = Batch::new(format!("second-examples-{ending}"), made);
    let outcomes = batch
        .compare()
        .unwrap_or_else(|difference| panic!("{}", difference.report));
    for ((name, other), of_both) in others.iter().zip(outcomes.chunks(2)) {
        assert!(
            holds(&of_both[0], other),
            "{name}.{ending} is not what is written"
        );
        assert!(
            holds(&of_both[1], &filters[name]),
            "{name}.{ending} is not read as it is"
        );
    }
}

#[test]
fn the_drawings_are_written_and_read_by_both_programs() {
    turned_both_ways("dot", Case::to_dot, Case::from_dot);
}

#[test]
fn the_pocket_files_are_written_and_read_by_both_programs() {
    assert_eq!(files(&examples(), "pocket")["k"], K_POCKET);
    turned_both_ways("pocket", Case::to_pocket, Case::to_large);
}

#[test]
fn the_pocket_files_are_reduced_to_those_beside_them() {
    let pockets = files(&examples(), "pocket");
    let mut reduced = 0;
    for (name, file) in &pockets {
        let Some(beside) = pockets.get(&format!("{name}.reduced")) else {
            continue;
        };
        let filter = POCKET.read(file).expect("an accepted file");
        let own = POCKET.write(&reduce(&filter).filter);
        assert!(own == *beside, "{name}.reduced.pocket");
        reduced += 1;
    }
    assert!(reduced > 0, "no pocket file with its reduced one");
}

/// As `xxd -g 1` shows a file, without the letters.
fn in_a_hex_viewer(file: &[u8]) -> String {
    let mut shown = String::new();
    for (nth, line) in file.chunks(16).enumerate() {
        let bytes: Vec<String> = line.iter().map(|byte| format!("{byte:02x}")).collect();
        shown += &format!("    {:08x}: {}\n", 16 * nth, bytes.join(" "));
    }
    shown
}

/// docs/FORMAT.md looks for two edges at fault in a hex viewer: one bit of K is changed, or one state is a fault, which is then
/// changed again; and check names the places.
#[test]
fn the_document_on_the_file_finds_the_faults() {
    let document = fs::read_to_string(examples().join("../docs/FORMAT.md")).expect("the document");
    let told = |parts: &[&str]| {
        for part in parts {
            assert!(document.contains(part), "{part} is not told");
        }
    };
    let but = |file: &[u8], at: usize, byte: u8| {
        let mut file = file.to_vec();
        file[at] = byte;
        let answer = check(&file);
        (answer.number, answer.place, file)
    };
    let (number, place, faulty) = but(K, 13, 0x21);
    assert_eq!((number, place), (7, 107));
    told(&[
        &in_a_hex_viewer(&faulty),
        "refused with 7 at 107",
        "107 = 13 · 8 + 3",
        "`21 00`",
        "    refused 7 107: bit 107 is byte 13, bit 3, the label of edge 2 (all from 0, bits from the left): it is no label of the filter\n",
    ]);
    let answer = check(K_LEFT);
    assert_eq!((answer.number, answer.place), (17, 99));
    told(&[
        &in_a_hex_viewer(K_LEFT),
        "refused with 17 at 99",
        "99 = 12 · 8 + 3",
        "    byte 12    byte 13    byte 14    byte 15\n    010·00000  001·00000  0·0000000  0·0000001\n",
        "    byte 4     byte 5     byte 6\n    00100·000  000·11111  1·000001·0\n",
        "    refused 17 99: bit 99 is byte 12, bit 3, the source of edge 2 (all from 0, bits from the left): the edge leaves a fault: it leads from a state of colour 63 to a state of another colour\n",
    ]);
    for (at, byte, number, place) in [(15, 0x81, 0, 0), (6, 0x02, 0, 0), (16, 0x04, 7, 129)] {
        let answer = but(K_LEFT, at, byte);
        assert_eq!((answer.0, answer.1), (number, place));
        told(&[&format!("- With `{byte:02x}` in byte {at}, ")]);
    }
    told(&["refused with 7 at 129"]);
}

/// docs/DRAWING.md has K's drawing whole, and places that it works out by hand.
#[test]
fn the_document_on_drawings_says_what_comes() {
    let document = fs::read_to_string(examples().join("../docs/DRAWING.md")).expect("the document");
    let drawings = files(&examples(), "dot");
    let k = String::from_utf8(drawings["k"].clone()).expect("text");
    let block: String = k.lines().map(|line| format!("    {line}\n")).collect();
    assert!(document.contains(&block));
    for (text, number, place) in [
        ("digraph {\n1 [label=0];\n}\n".to_string(), 15, 12),
        (k.replace("0 -> 1 ", "0 -> 01 "), 15, 55),
        ("digraph {\n0 [lab".to_string(), 15, 16),
        (k[..k.len() - 1].to_string(), 15, 122),
        (format!("{k}\n"), 15, 123),
        (k.replace("0 -> 2 ", "0 -> 3 "), 7, 1),
        (k.replace("0 -> 2 ", "0 -> 999 "), 7, 1),
        (k.replace("2 [label=1];\n1", "2 [label=0];\n1"), 9, 1),
        (k.replace("0 [label=0];", "0 [label=63];"), 17, 0),
        ("digraph {\n}\n".to_string(), 14, 0),
    ] {
        let answer = from_dot(text.as_bytes(), &mut [0; 18]);
        assert_eq!((answer.number, answer.place), (number, place), "{text}");
        let told = format!("{number} at {place}");
        let is_told = number == 14 || document.contains(&told);
        assert!(is_told, "{told} is not told");
    }
    let mut faults = k;
    for (line, fault) in [
        ("0 [label=0];", "0 [label=63];"),
        ("1 [label=1];", "1 [label=63];"),
        ("2 [label=1];", "2 [label=63];"),
    ] {
        faults = faults.replace(line, fault);
    }
    assert_eq!(from_dot(faults.as_bytes(), &mut [0; 18]).number, 0);
}

/// A picture has a filter of so many states or fewer.
const MOST_IN_A_PICTURE: u64 = 60;

/// What stands between the tags of this name, tag by tag.
fn inside<'a>(text: &'a str, tag: &str) -> Vec<&'a str> {
    let (opens, closes) = (format!("<{tag}"), format!("</{tag}>"));
    let behind = text.split(&opens).skip(1);
    behind
        .filter_map(|rest| rest.split_once('>')?.1.split(&closes).next())
        .collect()
}

/// The lines of a drawing, sorted, as a picture of it shows them.
fn shown(picture: &str) -> Vec<String> {
    let mut lines = Vec::new();
    for group in picture.split("<g id=").skip(2) {
        let title = inside(group, "title").concat();
        match (title.split_once("&#45;&gt;"), &inside(group, "text")[..]) {
            (Some((source, target)), [label]) => {
                lines.push(format!("{source} -> {target} [label={label}];"));
            }
            (None, [state, colour]) if *state == title => {
                let colour = colour.trim_matches(['[', ']']);
                lines.push(format!("{state} [label={colour}];"));
            }
            _ => panic!("{group}"),
        }
    }
    lines.sort();
    lines
}

#[test]
fn the_pictures_show_the_drawings() {
    let (filters, drawings) = (files(&examples(), "filter"), files(&examples(), "dot"));
    let few = |name: &&String| filter_of(name, &filters[*name]).n() <= MOST_IN_A_PICTURE;
    let pictures = files(&examples(), "svg");
    assert!(pictures.keys().eq(drawings.keys().filter(few)));
    for (name, picture) in &pictures {
        let picture = String::from_utf8_lossy(picture);
        let drawing = String::from_utf8_lossy(&drawings[name]);
        let mut lines: Vec<&str> = drawing.lines().filter(|line| line.ends_with(';')).collect();
        lines.sort();
        assert_eq!(shown(&picture), lines, "{name}.svg");
    }
}

/// The columns of the table that are numbers, in its order.
const NUMBERS: [&str; 6] = [
    "States",
    "Labels",
    "Colours",
    "Edges",
    "Reduced states",
    "Rounds",
];

fn numbers_of(example: &Example) -> [u64; 6] {
    let (original, reduced) = example.filters();
    let reduction = reduce(&original);
    [
        original.n(),
        original.m,
        reduction.distinct_colours,
        original.e(),
        reduced.n(),
        reduction.rounds,
    ]
}

fn cells(row: &str) -> Vec<&str> {
    row.trim_matches('|').split('|').map(str::trim).collect()
}

/// The numbers of each row by the file that it is about.
fn table(text: &str) -> BTreeMap<String, [u64; 6]> {
    let mut rows = text.lines().filter(|line| line.starts_with('|'));
    let headings = cells(rows.next().expect("a table"));
    let column = |heading| {
        let at = headings.iter().position(|&other| other == heading);
        at.unwrap_or_else(|| panic!("no column {heading}"))
    };
    let (file, numbers) = (column("File"), NUMBERS.map(column));
    let mut table = BTreeMap::new();
    // Behind the line that parts the headings from the rest.
    for row in rows.skip(1) {
        let cells = cells(row);
        let number = |at: usize| cells[at].parse().unwrap_or_else(|_| panic!("{row}"));
        let name = cells[file].trim_matches('`').to_string();
        let twice = table.insert(name, numbers.map(number));
        assert!(twice.is_none(), "twice in the table: {row}");
    }
    table
}

#[test]
fn the_table_has_each_example_and_its_numbers() {
    let text = fs::read_to_string(examples().join("README.md")).expect("the table");
    let row = |example: &Example| (format!("{}.filter", example.name), numbers_of(example));
    let own: BTreeMap<_, _> = Example::all().iter().map(row).collect();
    assert_eq!(table(&text), own, "{NUMBERS:?}");
}

/// Whether `other` shows the colours of `filter` on every ride that `filter` traces: document 000's algorithm 1, a search
/// through the pairs of states that the two can be in at once.
fn shows_the_same(filter: &Filter, other: &Filter) -> bool {
    let mut met = BTreeSet::from([(filter.start, other.start)]);
    let mut waiting = vec![(filter.start, other.start)];
    while let Some((own, its)) = waiting.pop() {
        if filter.colours[own as usize] != other.colours[its as usize] {
            return false;
        }
        for edge in filter.edges.iter().filter(|edge| edge.source == own) {
            let at = (its, edge.label);
            let Some(follows) = other.edges.iter().find(|e| (e.source, e.label) == at) else {
                return false;
            };
            let pair = (edge.target, follows.target);
            if met.insert(pair) {
                waiting.push(pair);
            }
        }
    }
    true
}

#[test]
fn the_reduced_filters_show_the_same_colours() {
    for example in Example::all() {
        let (original, reduced) = example.filters();
        assert!(shows_the_same(&original, &reduced), "{}", example.name);
    }
}

/// The search says no where an edge is missing, as K traces less than its reduced filter, and where a colour differs.
#[test]
fn the_search_tells_filters_apart() {
    let (k, reduced) = Example::named("k").filters();
    assert!(!shows_the_same(&reduced, &k));
    let (three_colours, _) = Example::named("one-agent-5").filters();
    let (two_colours, _) = Example::named("one-agent-5-yes").filters();
    assert!(!shows_the_same(&three_colours, &two_colours));
}

#[test]
fn the_document_s_rides() {
    for (name, ride) in [
        ("k", K.to_vec()),
        ("n", write(&ride_n())),
        ("p", P.to_vec()),
        ("figure-1", write(&ride_m())),
    ] {
        assert!(Example::named(name).original == ride, "{name}.filter");
    }
}

#[test]
fn sets_of_possible_states_come_to_figure_1() {
    let figure_1 = Example::named("figure-1").original;
    assert!(Example::named("two-agents-3").reduced == figure_1);
}

/// Document 000 names beams a and d of five: whoever has just crossed the first cannot cross the fourth next.
#[test]
fn no_ride_has_the_first_beam_and_then_the_fourth() {
    let (filter, _) = Example::named("one-agent-5").filters();
    let behind_a: BTreeSet<u64> = (filter.edges.iter())
        .filter(|edge| edge.label == 0)
        .map(|edge| edge.target)
        .collect();
    assert!(!behind_a.is_empty());
    let d_from = |state| {
        filter
            .edges
            .iter()
            .any(|e| (e.source, e.label) == (state, 3))
    };
    assert!(!behind_a.into_iter().any(d_from));
}

#[test]
fn five_states_would_do_where_seven_are_left() {
    let (no, unknown) = (0, 2);
    let unknown_as_no = |mut filter: Filter| {
        for colour in &mut filter.colours {
            if *colour == unknown {
                *colour = no;
            }
        }
        filter
    };
    let (three_colours, five_states) = Example::named("one-agent-5").filters();
    let (two_colours, seven_states) = Example::named("one-agent-5-yes").filters();
    assert_eq!(unknown_as_no(three_colours), two_colours);
    assert!(shows_the_same(
        &two_colours,
        &unknown_as_no(five_states.clone())
    ));
    assert_eq!((five_states.n(), seven_states.n()), (5, 7));
}
