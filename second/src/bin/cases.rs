//! `cases stdin` prints the batch that is stored beside `answers`, `cases stdout` its outcomes, and `cases answer` the
//! outcomes of the batch on standard input, as a saved one. `cases trace FILE` prints what `trace` prints for that file
//! and the observations on standard input; `cases reduce` and `cases shrink` print what these programs print for the file
//! on standard input, and `cases rounds` its rounds, as the module `rounds` has them.

use second::frame::{answer_batch, write_batch};
use second::{program, rounds, stored};
use std::io::{self, Read, Write};
use std::process::ExitCode;

fn main() -> ExitCode {
    let what = std::env::args().nth(1).unwrap_or_default();
    let bytes = match what.as_str() {
        "stdin" => Ok(write_batch(&stored::cases())),
        "stdout" => Ok(answer_batch(&write_batch(&stored::cases()))),
        "answer" => input().map(|batch| answer_batch(&batch)),
        "trace" => {
            let name = std::env::args_os().nth(2).unwrap_or_default();
            let file = std::fs::read(name).unwrap_or_default();
            input().map(|observations| program::trace(&file, &observations).into_bytes())
        }
        "reduce" => input().map(|file| program::reduce(&file).into_bytes()),
        "shrink" => input().map(|file| program::shrink(&file)),
        "rounds" => input().map(|file| rounds::rounds(&file).into_bytes()),
        _ => {
            eprintln!(
                "usage: cases stdin > BATCH | cases stdout > OUTCOMES | cases answer < BATCH\n\
                 \x20      | cases trace FILE < OBSERVATIONS\n\
                 \x20      | cases reduce < FILE | cases shrink < FILE | cases rounds < FILE"
            );
            return ExitCode::from(2);
        }
    };
    match bytes.and_then(|bytes| io::stdout().lock().write_all(&bytes)) {
        Ok(()) => ExitCode::SUCCESS,
        Err(error) => {
            eprintln!("cases: {error}");
            ExitCode::FAILURE
        }
    }
}

fn input() -> io::Result<Vec<u8>> {
    let mut bytes = Vec::new();
    io::stdin().lock().read_to_end(&mut bytes)?;
    Ok(bytes)
}
