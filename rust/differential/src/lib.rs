//! Random and damaged cases through the proved archive and through an independent implementation.
//!
//! A message is made up, and filters are aimed at it, so that every refusal and both truths of every test come up often; what came up is counted.

mod aim;
mod compare;
mod counts;
mod message;
mod operand;
mod program;
mod random;
mod record;
mod spelling;
mod test;
mod text;
mod token;
mod tour;

use std::thread;

use compare::{unhex, Both};
use random::Random;

pub use compare::Difference;
pub use counts::Counts;
pub use tour::run;

/// The cases of several seeds, each in a thread of its own.
pub fn run_beside(
    seeds: &[u64],
    more: impl Fn(u64) -> bool + Sync,
) -> Result<Counts, Box<Difference>> {
    let more = &more;
    thread::scope(|scope| {
        let tours: Vec<_> = seeds
            .iter()
            .map(|seed| scope.spawn(move || run(*seed, more)))
            .collect();
        let mut counts = Counts::default();
        for tour in tours {
            counts.merge(tour.join().expect("a tour ends")?);
        }
        Ok(counts)
    })
}

fn alone<T>(case: impl FnOnce(&mut Both) -> Result<T, Box<Difference>>) {
    let mut both = Both::new(&mut Random::new(1));
    if let Err(difference) = case(&mut both) {
        panic!("{difference}");
    }
}

/// A found case of compiling: the text in hex and the room for the program.
pub fn same_compiled(text: &str, room: usize) {
    alone(|both| both.compile(&unhex(text), room));
}

/// A found case of judging: program and record in hex, the room for lines, the tally before.
pub fn same_judged(program: &str, record: &str, room: usize, tally: Option<[u32; 4]>) {
    alone(|both| both.judge(&unhex(program), &unhex(record), room, tally));
}

/// A found case of walking: the run in hex and the place.
pub fn same_step(run: &str, at: usize) {
    alone(|both| both.step(&unhex(run), at).map(|_| ()));
}
