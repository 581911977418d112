//! Compares the proved calls with the plain reading over random joints, bolt tables, limit tables and byte streams.
//! Usage: differential [SEED [JOINTS]]. The exit status is 1 at the first difference, whose input is printed in full, and where some
//! refusal, check or verdict was never reached.

mod cases;
mod compare;
mod tally;

use compare::{
    compare_allocate, compare_built_in, compare_file, compare_load, compare_raised, compare_short,
    compare_stream, compare_work, random_kind, Difference,
};
use reference::BUILT_IN;
use sample::{any_joint, any_joint_with_own_table, limit_table, stream, Random};
use std::process::ExitCode;
use tally::Tally;

const SEED: u64 = 20_000_605;
const JOINTS: u64 = 1_000_000;

fn main() -> ExitCode {
    let mut arguments = std::env::args()
        .skip(1)
        .map(|word| word.parse::<u64>().expect("a whole number"));
    let seed = arguments.next().unwrap_or(SEED);
    let joints = arguments.next().unwrap_or(JOINTS);
    println!("seed {seed}");
    let mut tally = Tally::default();
    if let Err(difference) = run(seed, joints, &mut tally) {
        println!("DIFFERENCE\n{difference}");
        return ExitCode::FAILURE;
    }
    print!("{tally}");
    let missed = tally.missed();
    if joints >= JOINTS && !missed.is_empty() {
        println!("never reached: {missed:?}");
        return ExitCode::FAILURE;
    }
    println!("no difference");
    ExitCode::SUCCESS
}

fn run(seed: u64, joints: u64, tally: &mut Tally) -> Result<(), Difference> {
    let mut random = Random::new(seed);
    for _ in 0..joints {
        let joint = any_joint(&mut random, &BUILT_IN);
        compare_work(&BUILT_IN, &joint, &mut random, tally)?;
        compare_file(&joint, &mut random, tally)?;
    }
    for _ in 0..joints {
        let (table, joint) = any_joint_with_own_table(&mut random);
        compare_work(&table, &joint, &mut random, tally)?;
        compare_load(&mut random, tally)?;
    }
    for _ in 0..joints {
        let table = limit_table(&mut random);
        compare_allocate(&table, &mut random, tally)?;
        compare_raised(&table, &mut random, tally)?;
    }
    for _ in 0..joints / 4 {
        let kind = random_kind(&mut random);
        let bytes = stream(&mut random, kind);
        // now and then as a kind that is drawn again
        let told = if random.one_in(16) {
            random_kind(&mut random)
        } else {
            kind
        };
        if told != kind {
            tally.count("read: files of the other kind");
        }
        compare_stream(&bytes, told, &mut random, tally)?;
    }
    for _ in 0..joints / 100 {
        compare_built_in(&mut random, tally)?;
        compare_short(&mut random, tally)?;
    }
    Ok(())
}
