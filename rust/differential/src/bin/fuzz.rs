//! Rounds of drawn cases until so many seconds have passed: `fuzz SECONDS SEED`.
//!
//! Prints how often each answer came. At a difference it prints the case and stops; `fuzz 0 SEED` with the printed seed makes
//! that round again.

use std::process::ExitCode;
use std::time::{Duration, Instant};

use differential::chance::Chance;
use differential::rounds::Rounds;

/// The argument at this place, a number.
fn argument(place: usize) -> Option<u64> {
    std::env::args().nth(place)?.parse().ok()
}

fn main() -> ExitCode {
    let (Some(seconds), Some(seed)) = (argument(1), argument(2)) else {
        eprintln!("usage: fuzz SECONDS SEED");
        return ExitCode::from(2);
    };
    let start = Instant::now();
    let length = Duration::from_secs(seconds);
    let mut rounds = Rounds::from_seed(seed);
    let mut made: u64 = 0;
    while made == 0 || start.elapsed() < length {
        let this = seed.wrapping_add(made);
        rounds.chance = Chance::from_seed(this);
        if let Err(difference) = rounds.any() {
            println!("difference in the round with seed {this}\n{difference}");
            return ExitCode::FAILURE;
        }
        made += 1;
    }
    println!(
        "{made} rounds from seed {seed}, no difference\n{}",
        rounds.tally
    );
    ExitCode::SUCCESS
}
