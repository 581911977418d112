//! Random limit tables for Allocate, raises of one of their limits, and levers.

use crate::random::Random;
use reference::{place, Raise, GREATEST_LIMIT, ROWS};

/// A count of rows and the limits handed with it.
#[derive(Debug)]
pub struct LimitTable {
    pub count: usize,
    pub limits: Vec<u64>,
}

pub fn limit_table(random: &mut Random) -> LimitTable {
    let count = count(random);
    let needed = count.min(9) * (count.min(9) + 1) / 2;
    let length = match random.below(16) {
        0 => random.below(needed as u64 + 1) as usize,
        1 => needed.saturating_sub(1),
        2 | 3 => needed + random.below(10) as usize,
        _ => needed,
    };
    let kind = random.below(8);
    let limits = (0..length).map(|_| limit(random, kind)).collect();
    LimitTable { count, limits }
}

fn count(random: &mut Random) -> usize {
    match random.below(64) {
        0 | 1 => 0,
        2 => 9,
        3 => random.pick(&[
            10,
            16,
            255,
            256,
            usize::MAX,
            usize::MAX / 2 + 1,
            1 << 32,
            (1 << 32) + 1,
            (1 << 33) + 8,
        ]),
        _ => random.between(1, 8) as usize,
    }
}

fn limit(random: &mut Random, kind: u64) -> u64 {
    match kind {
        0 => random.below(4),
        1 => random.below(1000),
        2 => GREATEST_LIMIT - random.below(3),
        3 if random.one_in(40) => GREATEST_LIMIT + 1 + random.below(3),
        3 => random.below(GREATEST_LIMIT + 1),
        4 if random.one_in(60) => random.next() | 1 << 63,
        4 => random.pick(&[0, 1, GREATEST_LIMIT, GREATEST_LIMIT - 1, GREATEST_LIMIT / 2]),
        _ => random.below(3_000_000),
    }
}

/// A raise of one group's limit, mostly to one that is still taken; none where there are no rows, and so no groups, where the count is
/// none of rows, and where the limits are too few.
pub fn any_raise(random: &mut Random, table: &LimitTable) -> Option<Raise> {
    let count = table.count;
    if !(1..=ROWS).contains(&count) || table.limits.len() < count * (count + 1) / 2 {
        return None;
    }
    let first = random.below(count as u64) as usize;
    let last = first + random.below((count - first) as u64) as usize;
    let limit = table.limits[place(count, first, last)];
    let room = GREATEST_LIMIT.saturating_sub(limit);
    let newtons = match random.below(8) {
        0 => room,
        1 => room + 1,
        2 => random.below(room + 1),
        3 => random.below(4),
        4 => u64::from(random.of_any_size()),
        _ => random.below(300_000),
    };
    Some(Raise {
        first,
        last,
        newtons: newtons.min(u64::MAX - limit),
    })
}

/// Levers that fall from row to row and are 1 or more.
pub fn falling_levers(random: &mut Random, count: usize) -> Vec<u64> {
    let steps = random.pick(&[1, 500, 1 << 32]);
    let mut levers: Vec<u64> = (0..count)
        .scan(0, |lever, _| {
            *lever += 1 + random.below(steps);
            Some(*lever)
        })
        .collect();
    levers.reverse();
    levers
}
