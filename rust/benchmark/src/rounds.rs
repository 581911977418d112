//! Rounds of several sides.

use sample::Random;
use std::time::Instant;

/// Rounds of each side; the median is taken. A round is one run over all inputs: short, so that few are broken by other processes.
const ROUNDS: usize = 1001;
/// Rounds that aren't counted.
const WARMING: usize = 100;
/// Of the orders.
const SEED: u64 = 1;

/// Nanoseconds of one run of each side. Each round has the sides in an order of its own, since one that runs after its like finds the inputs
/// at hand and the branches foreseen.
pub fn measure<const SIDES: usize>(mut sides: [Box<dyn FnMut() + '_>; SIDES]) -> [f64; SIDES] {
    let mut times: [Vec<f64>; SIDES] = std::array::from_fn(|_| Vec::new());
    let mut order: [usize; SIDES] = std::array::from_fn(|side| side);
    let mut random = Random::new(SEED);
    for _ in 0..WARMING + ROUNDS {
        shuffle(&mut random, &mut order);
        for side in order {
            times[side].push(round(&mut sides[side]));
        }
    }
    times.map(|times| median(times[WARMING..].to_vec()))
}

fn shuffle(random: &mut Random, order: &mut [usize]) {
    for last in (1..order.len()).rev() {
        order.swap(last, random.below(last as u64 + 1) as usize);
    }
}

fn round(side: &mut dyn FnMut()) -> f64 {
    let start = Instant::now();
    side();
    start.elapsed().as_nanos() as f64
}

fn median(mut times: Vec<f64>) -> f64 {
    times.sort_by(f64::total_cmp);
    times[times.len() / 2]
}
