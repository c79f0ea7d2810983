//! Contestants for the same number, timed in rounds.

use crate::clock;
use crate::grids::Random;

/// In which order contestants run: one drawn anew for every round, so that none always follows the same other. What ran before a contestant can
/// make it a tenth faster or slower.
pub struct Order {
    random: Random,
    contestants: usize,
}

impl Order {
    pub fn of(contestants: usize) -> Self {
        Order { random: Random(contestants as u64), contestants }
    }

    /// The next round's.
    pub fn drawn(&mut self) -> Vec<usize> {
        let mut order: Vec<usize> = (0..self.contestants).collect();
        order.sort_by_cached_key(|_| self.random.word());
        order
    }
}

/// A run that comes to a number.
pub type Contestant<'a> = Box<dyn Fn() -> u64 + 'a>;

/// What each contestant took in each round, in ns. In every round each runs once; all must come to the same number.
pub fn race(rounds: usize, contestants: &[Contestant]) -> Vec<Vec<f64>> {
    let mut order = Order::of(contestants.len());
    let mut times = vec![Vec::with_capacity(rounds); contestants.len()];
    let mut expected = None;
    for _ in 0..rounds {
        for k in order.drawn() {
            let from = clock::now();
            let sum = contestants[k]();
            times[k].push(clock::since(from));
            assert_eq!(*expected.get_or_insert(sum), sum, "contestant {k}: other answers");
        }
    }
    times
}

/// The middle one in size.
pub fn median(times: &[f64]) -> f64 {
    let mut sorted = times.to_vec();
    sorted.sort_by(f64::total_cmp);
    sorted[sorted.len() / 2]
}
