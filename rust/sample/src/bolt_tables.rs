//! Random bolt tables: ones that loading takes, ones at and past the edge of each of its refusals, and wild ones.

use crate::random::Random;
use reference::{greatest_area, BoltTable, BUILT_IN, SIZES, TABLE_WORDS};

/// About as often one that loading takes as one that it refuses.
pub fn any_bolt_table(random: &mut Random) -> BoltTable {
    let count = random.between(1, SIZES as u32);
    let mut table = good_bolt_table(random, count);
    match random.below(16) {
        0 => BUILT_IN,
        1 => wild_table(random),
        2..=8 => {
            for _ in 0..=random.below(3) {
                mar(random, &mut table);
            }
            table
        }
        _ => table,
    }
}

/// One of so many sizes that loading takes, mostly with something past the count.
pub fn good_bolt_table(random: &mut Random, count: u32) -> BoltTable {
    let mut table = BoltTable {
        count,
        diameters: rising_diameters(random, count),
        areas: [0; SIZES],
    };
    for place in 0..count as usize {
        table.areas[place] = area(random, table.diameters[place]);
    }
    fill_spare_places(random, &mut table);
    table
}

/// So many of 6 to 64, each as likely as the others; the rest is 0.
fn rising_diameters(random: &mut Random, count: u32) -> [u32; SIZES] {
    let mut diameters = [0; SIZES];
    let mut listed = 0;
    for diameter in 6..=64 {
        let wanted = u64::from(count) - listed as u64;
        if random.below(65 - u64::from(diameter)) < wanted {
            diameters[listed] = diameter;
            listed += 1;
        }
    }
    diameters
}

/// Mostly about that of a threaded bolt; often the least or the greatest.
fn area(random: &mut Random, diameter: u32) -> u32 {
    let greatest = greatest_area(diameter);
    match random.below(8) {
        0 => 1,
        1 => greatest,
        2 => random.between(1, greatest),
        _ => random.between(greatest * 2 / 3, greatest * 9 / 10),
    }
}

/// Nothing, the first size again, sizes that go on rising, or anything.
fn fill_spare_places(random: &mut Random, table: &mut BoltTable) {
    let count = table.count as usize;
    let kind = random.below(5);
    for place in count..SIZES {
        let (diameter, area) = match kind {
            0 => (0, 0),
            1 => (table.diameters[0], table.areas[0]),
            2 => (table.diameters[place - 1] + 1, table.areas[place - 1]),
            3 => (random.between(6, 64), random.between(1, 40000)),
            _ => (random.of_any_size(), random.of_any_size()),
        };
        table.diameters[place] = diameter;
        table.areas[place] = area;
    }
}

/// The count or a number of a counted size at an edge of loading's refusals, or past it.
pub fn mar(random: &mut Random, table: &mut BoltTable) {
    let place = random.below(u64::from(table.count.clamp(1, SIZES as u32))) as usize;
    let before = table.diameters[place.saturating_sub(1)];
    let diameter = &mut table.diameters[place];
    let area = &mut table.areas[place];
    match random.below(7) {
        0 => table.count = random.pick(&[0, 13, 14, 255, 256, 268, 1 << 16, 1 << 31, u32::MAX]),
        1 => *diameter = random.pick(&[0, 5, 6, 64, 65, 66, 256 + 20, 1 << 31, u32::MAX]),
        2 => *area = random.pick(&[0, 1, 40000, 40001, 65536 + 100, 1 << 31, u32::MAX]),
        3 => *diameter = before,
        4 => *diameter = random.between(6, before.min(64)),
        _ => *area = greatest_area((*diameter).min(64)) + random.between(0, 2),
    }
}

/// Numbers of any size.
fn wild_table(random: &mut Random) -> BoltTable {
    let words: [u32; TABLE_WORDS] = std::array::from_fn(|_| random.of_any_size());
    let table = BoltTable::from_words(&words);
    let small = random.between(0, 13);
    let count = random.pick(&[table.count, small]);
    BoltTable { count, ..table }
}

#[cfg(test)]
mod tests {
    use super::*;
    use reference::LoadRefusal;

    #[test]
    fn good_tables_are_taken() {
        let mut random = Random::new(5);
        for turn in 0..6_000 {
            let count = turn % 12 + 1;
            let table = good_bolt_table(&mut random, count);
            assert_eq!((table.check(), table.count), (Ok(()), count), "{table:?}");
        }
    }

    #[test]
    fn tables_are_taken_and_refused() {
        let mut random = Random::new(6);
        let mut counts = [0; 4];
        for _ in 0..6_000 {
            counts[match any_bolt_table(&mut random).check() {
                Ok(()) => 0,
                Err(LoadRefusal::OutOfRange) => 1,
                Err(LoadRefusal::NotRising) => 2,
                Err(LoadRefusal::AreaTooGreat) => 3,
            }] += 1;
        }
        assert!(counts.iter().all(|&count| count > 300), "{counts:?}");
    }
}
