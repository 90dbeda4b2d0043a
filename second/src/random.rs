//! Random numbers of which a whole run follows from one seed.

use std::env;
use std::io::{self, Write};
use std::thread;
use std::time::{SystemTime, UNIX_EPOCH};

/// From the environment variable SEED, to make a run again, or from the clock.
pub fn unprinted_seed() -> u64 {
    set().unwrap_or_else(|| {
        SystemTime::now()
            .duration_since(UNIX_EPOCH)
            .expect("a clock after 1970")
            .as_nanos() as u64
    })
}

fn set() -> Option<u64> {
    let text = env::var_os("SEED")?.into_string().ok();
    let number = text.and_then(|text| text.trim().parse().ok());
    Some(number.expect("SEED is not a number"))
}

/// The same for a test, and printed.
pub fn seed() -> u64 {
    printed(unprinted_seed())
}

/// For a test that has its own where SEED is not set.
pub fn seed_or(own: u64) -> u64 {
    printed(set().unwrap_or(own))
}

/// A test that fails shows what it printed. One that passes does not, so the seed is written past that as well.
fn printed(seed: u64) -> u64 {
    println!("SEED={seed}");
    let test = thread::current();
    let line = format!("SEED={seed} in {}\n", test.name().unwrap_or("a test"));
    let _ = io::stderr().write_all(line.as_bytes());
    seed
}

/// SplitMix64.
pub struct Random {
    state: u64,
}

impl Random {
    pub fn new(seed: u64) -> Random {
        Random { state: seed }
    }

    pub fn number(&mut self) -> u64 {
        self.state = self.state.wrapping_add(0x9e37_79b9_7f4a_7c15);
        let mut z = self.state;
        z = (z ^ (z >> 30)).wrapping_mul(0xbf58_476d_1ce4_e5b9);
        z = (z ^ (z >> 27)).wrapping_mul(0x94d0_49bb_1331_11eb);
        z ^ (z >> 31)
    }

    /// Both ends may come.
    pub fn between(&mut self, least: u64, most: u64) -> u64 {
        least + self.number() % (most - least + 1)
    }

    /// True once in `times`.
    pub fn once_in(&mut self, times: u64) -> bool {
        self.between(1, times) == 1
    }

    pub fn pick<T: Copy>(&mut self, from: &[T]) -> T {
        from[self.between(0, from.len() as u64 - 1) as usize]
    }

    /// The numbers below `count`, each once.
    pub fn shuffled(&mut self, count: u64) -> Vec<u64> {
        let mut numbers: Vec<u64> = (0..count).collect();
        for at in 1..numbers.len() {
            numbers.swap(at, self.between(0, at as u64) as usize);
        }
        numbers
    }

    pub fn bytes(&mut self, count: usize) -> Vec<u8> {
        (0..count).map(|_| self.number() as u8).collect()
    }
}
