//! The twin of the proved `reduce`: the same input, the same output, and status 0 whatever it is given.

use second::program::{reduce, MOST_OF_A_FILE};
use second::streams::{print, standard_input};

fn main() {
    let file = standard_input(MOST_OF_A_FILE);
    print(reduce(&file).as_bytes());
}
