//! What a program reads and writes. Its status is 0 and it says nothing on standard error, so what cannot be had counts as
//! ended, and what cannot be written is lost without a word: both as in the proved programs.

use std::ffi::OsStr;
use std::fs::File;
use std::io::{self, Read, Write};
use std::os::fd::AsFd;

/// At most so many bytes of standard input. What follows is left for the next reader, so there is no buffer between.
pub fn standard_input(most: usize) -> Vec<u8> {
    match io::stdin().as_fd().try_clone_to_owned() {
        Ok(input) => beginning(File::from(input), most),
        Err(_) => Vec::new(),
    }
}

/// At most so many bytes of the file of that name.
pub fn named_file(name: &OsStr, most: usize) -> Vec<u8> {
    match File::open(name) {
        Ok(file) => beginning(file, most),
        Err(_) => Vec::new(),
    }
}

pub fn print(bytes: &[u8]) {
    let mut out = io::stdout().lock();
    let _ = out.write_all(bytes).and_then(|()| out.flush());
}

fn beginning(from: File, most: usize) -> Vec<u8> {
    let mut bytes = Vec::new();
    // After an error the bytes that came before it are there.
    let _ = from.take(most as u64).read_to_end(&mut bytes);
    bytes
}
