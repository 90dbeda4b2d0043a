//! The place of a text outside the profile, found by force from what document 02 says of it, and without the reader: any
//! beginning counts that some end makes a text of the profile. It is slow, so the texts have to be small.

/// One of its ends, from some byte on, completes whatever can be completed: it has every kind of line, and behind any byte
/// of a line of the profile the line may go on as it does here.
const SAMPLE: &[u8] = b"digraph {\n0 [label=0];\n0 -> 0 [label=0];\n}\n";

/// The length of the longest beginning that some text of the profile also has; none where the text is of the profile.
pub fn place(text: &[u8]) -> Option<usize> {
    if is_text(text) {
        return None;
    }
    let mut lengths = (0..=text.len()).rev();
    lengths.find(|&length| is_beginning(&text[..length]))
}

/// Every byte behind which the beginning still is one.
pub fn may_follow(beginning: &[u8]) -> Vec<u8> {
    let mut longer = beginning.to_vec();
    longer.push(0);
    (0..=255)
        .filter(|&byte| {
            longer[beginning.len()] = byte;
            is_beginning(&longer)
        })
        .collect()
}

pub fn is_beginning(beginning: &[u8]) -> bool {
    (0..=SAMPLE.len()).any(|from| is_text(&[beginning, &SAMPLE[from..]].concat()))
}

/// Takes the numbers out of each line and writes them as a text: only one of the profile comes back as it was.
pub fn is_text(text: &[u8]) -> bool {
    let mut count = 0;
    let mut states = String::from("digraph {\n");
    let mut edges = String::new();
    for line in text.split(|&byte| byte == b'\n') {
        let Some(numbers) = numbers(line) else {
            return false;
        };
        match numbers[..] {
            [_, colour] => {
                states += &format!("{count} [label={colour}];\n");
                count += 1;
            }
            [source, target, label] => {
                edges += &format!("{source} -> {target} [label={label}];\n");
            }
            _ => {}
        }
    }
    // With more states the last would have four digits.
    count <= 1000 && [&states, &edges, "}\n"].concat().as_bytes() == text
}

/// The numbers between whatever else is there, unless one is too large.
fn numbers(line: &[u8]) -> Option<Vec<u64>> {
    let mut numbers = Vec::new();
    for digits in line.split(|byte| !byte.is_ascii_digit()) {
        if digits.len() > 3 {
            return None;
        }
        if !digits.is_empty() {
            let digit = |&byte: &u8| u64::from(byte - b'0');
            numbers.push(
                digits
                    .iter()
                    .map(digit)
                    .fold(0, |sum, digit| 10 * sum + digit),
            );
        }
    }
    Some(numbers)
}
