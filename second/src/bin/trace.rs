//! The twin of the proved `trace`: the same argument and input, the same output, and status 0 whatever it is given.

use second::program::{trace, MOST_OF_A_FILE, MOST_OF_THE_OBSERVATIONS};
use second::streams::{named_file, print, standard_input};
use std::env::args_os;

fn main() {
    let name = args_os().nth(1).unwrap_or_default();
    let file = named_file(&name, MOST_OF_A_FILE);
    let observations = standard_input(MOST_OF_THE_OBSERVATIONS);
    print(trace(&file, &observations).as_bytes());
}
