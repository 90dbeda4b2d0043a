//! What is drawn is read back: where both sides accept, reading what was written gives the filter.

#[path = "common/agreed.rs"]
mod agreed;

use agreed::written;
use second::case::Case;
use second::dot::{can_be_drawn, read, write};
use second::file;
use second::frame::LONGEST;
use second::make::filters::{large, largest, shapes};
use second::make::texts::{accepted, drawable};
use second::profile::LARGE;
use second::random::{seed, Random};

#[test]
fn filters_come_back() {
    let mut random = Random::new(seed());
    let mut filters = vec![largest(LARGE, &mut random), large(LARGE, &mut random)];
    for _ in 0..60 {
        filters.extend(shapes(LARGE, &mut random));
    }
    let mut files = Vec::new();
    let mut draw = Vec::new();
    for filter in filters.into_iter().map(drawable) {
        assert!(can_be_drawn(&filter));
        let text = write(&filter.colours, &filter.edges);
        let drawing = read(text.as_bytes()).expect("a text of the profile");
        assert_eq!(
            (drawing.colours, drawing.edges),
            (filter.colours.clone(), filter.edges.clone())
        );
        let file = file::write(&filter);
        // No line has more than 23 bytes.
        let lines = filter.n() + filter.e() + 2;
        let room = LONGEST.min(23 * lines as usize);
        draw.push(Case::to_dot(file.clone(), random.bytes(room)));
        files.push(file);
    }
    let texts = written("drawn", draw);
    let mut read = Vec::new();
    for (text, file) in texts.into_iter().zip(&files) {
        read.push(Case::from_dot(text, random.bytes(file.len())));
    }
    assert!(written("read back", read) == files);
}

/// The profile has one text for a filter.
#[test]
fn texts_come_back() {
    let mut random = Random::new(seed());
    let mut texts = Vec::new();
    let mut read = Vec::new();
    for case in (0..10).flat_map(|_| accepted(&mut random)) {
        if case.outcome().answer.number == 0 {
            texts.push(case.a.clone());
            read.push(case);
        }
    }
    let files = written("read", read);
    let mut draw = Vec::new();
    for (file, text) in files.into_iter().zip(&texts) {
        draw.push(Case::to_dot(file, random.bytes(text.len())));
    }
    assert!(written("drawn again", draw) == texts);
}
