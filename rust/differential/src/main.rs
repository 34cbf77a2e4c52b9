//! `differential [SEED] [SECONDS]`: cases from a seed, for a time; a difference is printed and ends it.

use std::process::ExitCode;
use std::time::{Duration, Instant, SystemTime};
use std::{env, thread};

/// The argument at a place as a number, or another if there is none.
fn number(place: usize, otherwise: u64) -> u64 {
    env::args().nth(place).map_or(otherwise, |word| {
        word.parse()
            .unwrap_or_else(|_| panic!("`{word}` is no number"))
    })
}

fn main() -> ExitCode {
    let now = SystemTime::UNIX_EPOCH.elapsed().unwrap_or_default();
    let seed = number(1, now.as_secs());
    let time = Duration::from_secs(number(2, 60));
    let tours = thread::available_parallelism().map_or(1, |count| count.get() as u64);
    let seeds: Vec<u64> = (0..tours).map(|tour| seed.wrapping_add(tour)).collect();
    println!("seeds {seeds:?}, {} seconds", time.as_secs());
    let start = Instant::now();
    match differential::run_beside(&seeds, |_| start.elapsed() < time) {
        Ok(counts) => {
            let rate = counts.cases as f64 / start.elapsed().as_secs_f64();
            print!("{counts}");
            println!("{rate:.0} cases a second, no difference");
            ExitCode::SUCCESS
        }
        Err(difference) => {
            println!("{difference}");
            ExitCode::FAILURE
        }
    }
}
