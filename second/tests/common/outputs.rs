//! What the tests of single programs share: inputs of several kinds, and outputs compared to the last byte.

use crate::common::Ran;
use second::random::Random;
use std::env;
use std::ffi::OsStr;
use std::fs::{self, File};
use std::io::{Seek, Write};
use std::path::{Path, PathBuf};
use std::process::{ChildStdin, Command};
use std::sync::atomic::{AtomicUsize, Ordering};
use std::thread::sleep;
use std::time::Duration;

/// A folder for the files of one test, which goes when the test has passed.
pub struct Folder {
    pub path: PathBuf,
}

impl Folder {
    pub fn new(test: &str) -> Folder {
        let name = format!("{test}-{}", std::process::id());
        let path = Path::new(env!("CARGO_TARGET_TMPDIR")).join(name);
        fs::create_dir_all(&path).expect("a folder for the files");
        Folder { path }
    }

    pub fn file(&self, name: impl AsRef<OsStr>, bytes: &[u8]) -> PathBuf {
        let path = self.path.join(name.as_ref());
        fs::write(&path, bytes).expect("a file that can be written");
        path
    }
}

impl Drop for Folder {
    fn drop(&mut self) {
        if !std::thread::panicking() {
            let _ = fs::remove_dir_all(&self.path);
        }
    }
}

/// Fails unless the program went well and wrote these bytes. What it was given is saved under the names beside it.
pub fn wrote(ran: &Ran, program: &str, what: &str, own: &[u8], given: &[(&str, &[u8])]) {
    if ran.stdout == own && ran.went_well() {
        return;
    }
    let at = own
        .iter()
        .zip(&ran.stdout)
        .take_while(|(own, other)| own == other)
        .count();
    let saved: Vec<String> = given
        .iter()
        .map(|(kind, bytes)| save(kind, bytes))
        .collect();
    panic!(
        "{program} differs: {what}\n{}\nthe outputs part at byte {at}\n\
         second, {} bytes: {}\n{program}, {} bytes: {}\nits end was: {}",
        saved.join(", "),
        own.len(),
        around(own, at),
        ran.stdout.len(),
        around(&ran.stdout, at),
        ran.end()
    );
}

/// Saves what a program was given, for its twin, and says where.
fn save(kind: &str, bytes: &[u8]) -> String {
    static SAVED: AtomicUsize = AtomicUsize::new(0);
    let nth = SAVED.fetch_add(1, Ordering::Relaxed);
    let name = format!("second-{}-{nth}.{kind}", std::process::id());
    let path = env::temp_dir().join(name);
    match fs::write(&path, bytes) {
        Ok(()) => format!("{kind} ({} bytes) saved as {}", bytes.len(), path.display()),
        Err(error) => format!("{kind} not saved ({error})"),
    }
}

fn around(bytes: &[u8], at: usize) -> String {
    let from = at.saturating_sub(30);
    let to = bytes.len().min(at + 60);
    format!("...\"{}\"...", bytes[from..to].escape_ascii())
}

/// So many of what a family makes, evenly from all its variants.
pub fn some<T>(random: &mut Random, count: usize, make: fn(&mut Random) -> Vec<T>) -> Vec<T> {
    let mut made = Vec::new();
    while made.len() < count {
        made.extend(make(random));
    }
    let all = made.len();
    made.into_iter()
        .enumerate()
        .filter(|(i, _)| (i + 1) * count / all > i * count / all)
        .map(|(_, one)| one)
        .collect()
}

/// A standard input that comes in pieces, with some time between them.
pub fn in_pieces(stdin: Vec<u8>, size: usize, pause: Duration) -> impl FnOnce(ChildStdin) {
    move |mut to| {
        for piece in stdin.chunks(size) {
            if to.write_all(piece).is_err() {
                break;
            }
            sleep(pause);
        }
    }
}

/// Runs the program with a file as its standard input, and says how far it has read.
pub fn run_on(mut command: Command, input: &Path) -> (Ran, u64) {
    let mut input = File::open(input).expect("the input can be opened");
    let shared = input.try_clone().expect("a second handle");
    let output = command
        .stdin(shared)
        .output()
        .expect("the program can be started");
    let ran = Ran {
        status: output.status,
        stdout: output.stdout,
        stderr: output.stderr,
    };
    let taken = input.stream_position().expect("a position");
    (ran, taken)
}
