//! All files of three bytes, which is as short as a pocket file can be, to be checked one by one.

use crate::case::Case;
use crate::make::Made;
use crate::profile::POCKET;

/// The file with these bits.
pub fn file(bits: u32) -> [u8; 3] {
    let [_, file @ ..] = bits.to_be_bytes();
    file
}

/// All that have this first byte.
pub fn beginning_with(first: u8) -> Vec<Made> {
    let first = u32::from(first) << 16;
    let made = |rest| Made {
        family: "all files of three bytes",
        case: Case::check(POCKET, file(first | rest).to_vec()),
    };
    (0..1 << 16).map(made).collect()
}
