//! Runs a proved program, or fails.

pub use second::proved::{at_once, whole, Ran};

use second::proved;
use std::io;
use std::process::{ChildStdin, ChildStdout, Command};

pub fn program(name: &str) -> Command {
    proved::program(name).unwrap_or_else(|error| panic!("{error}"))
}

pub fn run(
    command: Command,
    feed: impl FnOnce(ChildStdin) + Send + 'static,
    drain: impl FnOnce(ChildStdout) -> io::Result<Vec<u8>> + Send + 'static,
) -> Ran {
    proved::run(command, feed, drain).unwrap_or_else(|error| panic!("{error}"))
}
