//! The independent second program.
//!
//! It does what documents 01 and 02 say, written from them alone and as plainly as possible, so that it can be compared
//! byte for byte with the proved programs. It shares no line with the crates of those programs.
//!
//! - [`bits`], [`profile`], [`file`]: the two kinds of filter file, read and written;
//! - [`dot`], [`dot::by_force`]: filters drawn as texts, and by force where a text leaves their profile;
//! - [`trace`]: a ride through a filter;
//! - [`reach`], [`reduce`], [`rounds`]: the states that its start reaches, its reduction, and that round by round as text;
//! - [`side_by_side`]: whether one filter does another's work, by a search over both;
//! - [`call`]: the library's calls;
//! - [`program`], [`streams`]: what the programs print, and how they read and write;
//! - [`case`], [`frame`]: one call with all that is lent to it, and how many of them travel as a batch of bytes;
//! - [`kinds`]: the kinds of outcome that a run has to hit;
//! - [`random`], [`make`]: the cases that are made afresh in each run, by families;
//! - [`proved`], [`compare`]: a proved program run, and a batch compared;
//! - [`rides`], [`stored`]: the document's rides, and the batch that is stored beside `answers`.
//!
//! `cargo build --release --offline` builds `reduce`, `shrink` and `trace` under target/release, twins of the proved
//! programs in target/bin above: a station runs both and compares what they print.
//!
//! `cargo test --release --offline` compares them, once answers, trace, reduce and shrink are built in target/bin. Each
//! random test prints its seed, and the environment variable SEED, one for all of them, makes a run again. `soak` compares
//! for as long as one likes, and `soak again BATCH` compares what a failing run has saved. `cases answer < BATCH` prints the
//! second program's outcomes of a batch, and `cases rounds < FILE` the rounds of a reduction.

pub mod bits;
pub mod call;
pub mod case;
pub mod compare;
pub mod dot;
pub mod file;
pub mod frame;
pub mod kinds;
pub mod make;
pub mod profile;
pub mod program;
pub mod proved;
pub mod random;
pub mod reach;
pub mod reduce;
pub mod rides;
pub mod rounds;
pub mod side_by_side;
pub mod stored;
pub mod streams;
pub mod trace;
