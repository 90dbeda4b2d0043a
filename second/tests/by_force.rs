//! The reader says where a text leaves the profile as the definition does, tried by force.

use second::case::{Call, Case};
use second::dot::by_force::{is_text, may_follow, place};
use second::dot::{read, write};
use second::file::Edge;
use second::make::{contents, texts};
use second::random::{seed, Random};
use std::collections::BTreeSet;

/// Small texts that differ in what stands where: with states and without, numbers of one to three digits.
fn small_texts() -> Vec<String> {
    let edge = |source, label, target| Edge {
        source,
        label,
        target,
    };
    vec![
        write(&[], &[]),
        write(&[7], &[]),
        write(&[0, 63, 999], &[]),
        write(&[], &[edge(0, 10, 256)]),
        write(&[5], &[edge(0, 0, 0), edge(30, 1, 999)]),
        write(&[0, 0], &[edge(1, 9, 10)]),
    ]
}

/// The bytes behind which the reader does not give up at once.
fn taken(beginning: &[u8]) -> Vec<u8> {
    let goes_on = |&byte: &u8| {
        let longer = [beginning, &[byte]].concat();
        match read(&longer) {
            Ok(_) => true,
            Err(place) => {
                assert!(place >= beginning.len(), "{}", longer.escape_ascii());
                place == longer.len()
            }
        }
    };
    (0..=255).filter(goes_on).collect()
}

#[test]
fn behind_every_beginning_the_reader_takes_what_may_follow() {
    let mut beginnings = BTreeSet::new();
    for text in small_texts().iter().map(String::as_bytes) {
        assert!(is_text(text) && read(text).is_ok());
        beginnings.extend((0..=text.len()).map(|length| text[..length].to_vec()));
    }
    assert!(beginnings.len() >= 150, "only {}", beginnings.len());
    for beginning in beginnings {
        assert_eq!(
            taken(&beginning),
            may_follow(&beginning),
            "{}",
            beginning.escape_ascii()
        );
    }
}

/// Nothing follows the closing brace's line, and behind the last state that three digits can name no other comes.
#[test]
fn what_may_follow_at_the_ends() {
    let digits = b"0123456789";
    assert_eq!(may_follow(b""), b"d");
    assert_eq!(may_follow(b"digraph {\n"), [&digits[..], b"}"].concat());
    assert_eq!(may_follow(b"digraph {\n}\n"), b"");
    assert_eq!(may_follow(b"digraph {\n0 "), b"-[");
    assert_eq!(may_follow(b"digraph {\n1 "), b"-");
    let text = write(&[0; 10], &[]);
    let ten = text.strip_suffix("}\n").expect("a brace");
    for (number, follows) in [
        ("0", " "),
        ("1", " 0123456789"),
        ("1 ", "-"),
        ("10", " 0123456789"),
        ("10 ", "-["),
        ("11 ", "-"),
        ("100", " "),
        ("100 ", "-"),
    ] {
        let beginning = [ten, number].concat().into_bytes();
        assert_eq!(taken(&beginning), follows.as_bytes(), "{number:?}");
        assert_eq!(may_follow(&beginning), follows.as_bytes(), "{number:?}");
    }
    let text = write(&[0; 1000], &[]);
    let beginning = text.strip_suffix("}\n").expect("a brace");
    for (line, follows) in [
        ("", [&digits[..], b"}"].concat()),
        ("100", b" ".to_vec()),
        ("100 ", b"-".to_vec()),
    ] {
        let beginning = [beginning, line].concat().into_bytes();
        assert_eq!(taken(&beginning), follows);
        for byte in *b"0 -[" {
            let longer = [&beginning[..], &[byte]].concat();
            let reached = longer.len() - usize::from(!follows.contains(&byte));
            assert_eq!(place(&longer), Some(reached), "{line:?}, {byte}");
        }
    }
}

fn agree(text: &[u8]) {
    assert_eq!(read(text).err(), place(text), "{}", text.escape_ascii());
}

/// Families of small texts, the slow search permitting.
#[test]
fn texts_leave_the_profile_where_the_definition_says() {
    let seed = seed();
    let mut random = Random::new(seed);
    let mut tried = 0;
    for make in [
        texts::every_byte_edited,
        texts::every_beginning,
        texts::something_behind,
        texts::numbers_otherwise,
        texts::habits,
        texts::states_in_disorder,
        contents::two_faults,
        texts::noise,
    ] {
        let of_texts = |case: &Case| case.call == Call::FromDot && case.a.len() <= 250;
        let cases: Vec<Case> = make(&mut random).into_iter().filter(of_texts).collect();
        // So many of a family, evenly.
        let step = cases.len().div_ceil(150);
        for case in cases.iter().step_by(step) {
            agree(&case.a);
            tried += 1;
        }
    }
    for _ in 0..150 {
        for case in texts::lines_in_any_order(&mut random) {
            agree(&case.a);
            tried += 1;
        }
    }
    assert!(tried >= 600, "SEED={seed}: only {tried} were tried");
}

/// What the generator writes is of the profile by force too, and what is of the profile is written so.
#[test]
fn what_is_written_is_of_the_profile() {
    let mut random = Random::new(seed());
    for case in texts::accepted(&mut random) {
        assert!(is_text(&case.a), "{}", case.a.escape_ascii());
        let drawing = read(&case.a).expect("a text of the profile");
        let again = write(&drawing.colours, &drawing.edges);
        assert_eq!(again.as_bytes(), case.a);
    }
}
