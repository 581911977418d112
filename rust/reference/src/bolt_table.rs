//! Bolt tables: the sizes that field 4 may name. One that is handed over is checked, and stands in for the five sizes built in.

use std::ops::RangeInclusive;

/// Most sizes of a table.
pub const SIZES: usize = 12;
/// A table as words: its count, its diameters and its areas.
pub const TABLE_WORDS: usize = 1 + 2 * SIZES;

const COUNTS: RangeInclusive<u32> = 1..=SIZES as u32;
const DIAMETERS: RangeInclusive<u32> = 6..=64;
const AREAS: RangeInclusive<u32> = 1..=40000;

/// Only the first `count` places are looked at; the others may hold anything.
#[derive(Clone, Copy, Debug, PartialEq, Eq)]
pub struct BoltTable {
    pub count: u32,
    /// in millimetres
    pub diameters: [u32; SIZES],
    /// in tenths of a square millimetre
    pub areas: [u32; SIZES],
}

/// The five sizes built in.
pub const BUILT_IN: BoltTable = BoltTable {
    count: 5,
    diameters: [12, 16, 20, 24, 30, 0, 0, 0, 0, 0, 0, 0],
    areas: [843, 1570, 2450, 3530, 5610, 0, 0, 0, 0, 0, 0, 0],
};

/// Why a table isn't taken.
#[derive(Clone, Copy, Debug, PartialEq, Eq)]
pub enum LoadRefusal {
    /// the count, a diameter or an area
    OutOfRange = 16,
    NotRising = 17,
    AreaTooGreat = 18,
}

/// Puts the table in force; one that isn't taken leaves the one before.
pub fn load(table: &BoltTable, in_force: &mut BoltTable) -> Result<(), LoadRefusal> {
    table.check()?;
    *in_force = *table;
    Ok(())
}

impl BoltTable {
    pub fn from_words(words: &[u32; TABLE_WORDS]) -> BoltTable {
        BoltTable {
            count: words[0],
            diameters: std::array::from_fn(|place| words[1 + place]),
            areas: std::array::from_fn(|place| words[1 + SIZES + place]),
        }
    }

    pub fn to_words(&self) -> [u32; TABLE_WORDS] {
        let mut words = [0; TABLE_WORDS];
        words[0] = self.count;
        words[1..=SIZES].copy_from_slice(&self.diameters);
        words[1 + SIZES..].copy_from_slice(&self.areas);
        words
    }

    /// The area of the size with this diameter. A table that loading would refuse has no sizes; by which refusal makes no difference, so
    /// that all are tried at each size.
    pub fn area_of(&self, diameter: u32) -> Option<u32> {
        if !COUNTS.contains(&self.count) {
            return None;
        }
        let (diameters, areas) = self.sizes();
        let mut found = None;
        let mut before = 0;
        for (&listed, &area) in diameters.iter().zip(areas) {
            let rises = before < listed && DIAMETERS.contains(&listed);
            // the greatest area of a diameter in range isn't above 40000
            if !rises || area < 1 || area > greatest_area(listed) {
                return None;
            }
            if listed == diameter {
                found = Some(area);
            }
            before = listed;
        }
        found
    }

    /// What loading answers: each refusal is tried over all sizes before the next.
    pub fn check(&self) -> Result<(), LoadRefusal> {
        if !COUNTS.contains(&self.count) {
            return Err(LoadRefusal::OutOfRange);
        }
        let (diameters, areas) = self.sizes();
        let in_range = diameters
            .iter()
            .all(|diameter| DIAMETERS.contains(diameter))
            && areas.iter().all(|area| AREAS.contains(area));
        if !in_range {
            return Err(LoadRefusal::OutOfRange);
        }
        if !diameters.windows(2).all(|pair| pair[0] < pair[1]) {
            return Err(LoadRefusal::NotRising);
        }
        let mut sizes = diameters.iter().zip(areas);
        if sizes.any(|(&diameter, &area)| area > greatest_area(diameter)) {
            return Err(LoadRefusal::AreaTooGreat);
        }
        Ok(())
    }

    /// Diameters and areas of the counted sizes; the count is one that fits.
    fn sizes(&self) -> (&[u32], &[u32]) {
        let count = self.count as usize;
        (&self.diameters[..count], &self.areas[..count])
    }
}

/// That of the whole shank, of a diameter in range.
pub fn greatest_area(diameter: u32) -> u32 {
    785 * diameter * diameter / 100
}

#[cfg(test)]
mod tests {
    use super::*;

    /// A table of these sizes, with numbers past them that no table may have.
    fn table(sizes: &[(u32, u32)]) -> BoltTable {
        let mut table = BoltTable {
            count: sizes.len() as u32,
            diameters: [u32::MAX; SIZES],
            areas: [u32::MAX; SIZES],
        };
        for (place, &(diameter, area)) in sizes.iter().enumerate() {
            table.diameters[place] = diameter;
            table.areas[place] = area;
        }
        table
    }

    /// The refusal's number, or 0. The table in force goes by it.
    fn loaded(table: &BoltTable) -> u32 {
        let mut in_force = BUILT_IN;
        match load(table, &mut in_force) {
            Ok(()) => {
                assert_eq!(in_force, *table);
                0
            }
            Err(refusal) => {
                assert_eq!(in_force, BUILT_IN);
                refusal as u32
            }
        }
    }

    fn loaded_sizes(sizes: &[(u32, u32)]) -> u32 {
        loaded(&table(sizes))
    }

    /// `count` sizes from 6 millimetres up.
    fn many(count: u32) -> Vec<(u32, u32)> {
        (0..count).map(|place| (6 + place, 100 + place)).collect()
    }

    #[test]
    fn load_16_the_count() {
        for count in 1..=12 {
            assert_eq!(loaded_sizes(&many(count)), 0);
        }
        for count in [0, 13, 14, 255, 256, 257, 1 << 31, u32::MAX] {
            let miscounted = BoltTable {
                count,
                ..table(&many(12))
            };
            assert_eq!(loaded(&miscounted), 16);
            assert_eq!(miscounted.area_of(6), None);
        }
    }

    #[test]
    fn load_16_a_number_out_of_range() {
        for place in 0..12 {
            let with = |change: fn(&mut (u32, u32))| {
                let mut sizes = many(12);
                change(&mut sizes[place]);
                loaded_sizes(&sizes)
            };
            assert_eq!(with(|size| size.0 = 5), 16);
            assert_eq!(with(|size| size.0 = 65), 16);
            assert_eq!(with(|size| size.0 = 0), 16);
            assert_eq!(with(|size| size.0 = u32::MAX), 16);
            assert_eq!(with(|size| size.1 = 0), 16);
            assert_eq!(with(|size| size.1 = 1), 0);
            assert_eq!(with(|size| size.1 = 40001), 16);
            assert_eq!(with(|size| size.1 = 40000), 18);
            assert_eq!(with(|size| size.1 = u32::MAX), 16);
        }
        assert_eq!(loaded_sizes(&[(6, 1), (64, 1)]), 0);
    }

    #[test]
    fn load_17_diameters_that_do_not_rise() {
        assert_eq!(loaded_sizes(&[(20, 2450), (21, 2450)]), 0);
        assert_eq!(loaded_sizes(&[(20, 2450), (20, 2450)]), 17);
        assert_eq!(loaded_sizes(&[(21, 2450), (20, 2450)]), 17);
        for place in 1..12 {
            let mut sizes = many(12);
            sizes[place].0 = sizes[place - 1].0;
            assert_eq!(loaded_sizes(&sizes), 17);
        }
        // every neighbour but one pair rises
        assert_eq!(
            loaded_sizes(&[(30, 100), (40, 100), (35, 100), (36, 100)]),
            17
        );
    }

    #[test]
    fn load_18_an_area_above_its_shank() {
        for diameter in 6..=64 {
            let greatest = 785 * diameter * diameter / 100;
            assert_eq!(loaded_sizes(&[(diameter, greatest)]), 0);
            assert_eq!(loaded_sizes(&[(diameter, greatest + 1)]), 18);
        }
        // 282.6 and 32153.6
        assert_eq!(loaded_sizes(&[(6, 282), (64, 32153)]), 0);
        assert_eq!(loaded_sizes(&[(6, 283), (64, 32153)]), 18);
        assert_eq!(loaded_sizes(&[(6, 282), (64, 32154)]), 18);
    }

    /// Whichever size it is of.
    #[test]
    fn each_refusal_before_the_next() {
        let too_great = (10, 786);
        assert_eq!(loaded_sizes(&[too_great, (20, 1), (20, 1)]), 17);
        assert_eq!(loaded_sizes(&[too_great, (20, 1), (21, 0)]), 16);
        assert_eq!(loaded_sizes(&[too_great, (20, 1), (65, 1)]), 16);
        assert_eq!(loaded_sizes(&[(20, 1), (20, 1), (30, 40001)]), 16);
        assert_eq!(loaded_sizes(&[(20, 1), (20, 40000), (30, 5)]), 17);
        assert_eq!(loaded_sizes(&[too_great, (20, 1), (21, 1)]), 18);
    }

    #[test]
    fn nothing_past_the_count_is_looked_at() {
        let mut sizes = table(&[(12, 843), (16, 1570)]);
        for (diameter, area) in [(0, 0), (16, 1570), (12, 843), (64, 40000), (u32::MAX, 1)] {
            sizes.diameters[2..].fill(diameter);
            sizes.areas[2..].fill(area);
            assert_eq!(loaded(&sizes), 0);
            assert_eq!(sizes.area_of(16), Some(1570));
            assert_eq!(sizes.area_of(64), None);
            assert_eq!(sizes.area_of(0), None);
        }
    }

    #[test]
    fn areas_by_diameter() {
        let own = table(&[(20, 2450), (22, 3030), (24, 3530)]);
        let areas = [19, 20, 21, 22, 23, 24, 25].map(|diameter| own.area_of(diameter));
        let (none, some) = (None, Some);
        assert_eq!(
            areas,
            [none, some(2450), none, some(3030), none, some(3530), none]
        );
        for (diameter, area) in [(12, 843), (16, 1570), (20, 2450), (24, 3530), (30, 5610)] {
            assert_eq!(BUILT_IN.area_of(diameter), Some(area));
        }
    }

    /// Each refusal takes all sizes, those that are in order too.
    #[test]
    fn a_refused_table_has_no_sizes() {
        for (sizes, refusal) in [
            ([(20, 2450), (22, 3030), (24, 0)], 16),
            ([(20, 2450), (22, 3030), (22, 3030)], 17),
            ([(20, 2450), (22, 3030), (24, 4522)], 18),
        ] {
            let refused = table(&sizes);
            assert_eq!(loaded(&refused), refusal);
            for diameter in [20, 22, 24] {
                assert_eq!(refused.area_of(diameter), None);
            }
        }
    }

    /// By all refusals at each size as by each refusal over all sizes.
    #[test]
    fn sizes_of_every_pair() {
        let numbers = [
            0,
            1,
            5,
            6,
            7,
            8,
            64,
            65,
            282,
            283,
            384,
            385,
            40000,
            40001,
            u32::MAX,
        ];
        let pairs = |first| numbers.map(|second| (first, second));
        let sizes: Vec<(u32, u32)> = numbers.iter().flat_map(|&first| pairs(first)).collect();
        for &first in &sizes {
            for &second in &sizes {
                let pair = table(&[first, second]);
                let has_sizes = pair.check().is_ok();
                assert_eq!(pair.area_of(first.0), has_sizes.then_some(first.1));
                assert_eq!(pair.area_of(second.0), has_sizes.then_some(second.1));
            }
        }
    }

    #[test]
    fn words_and_back() {
        let words: [u32; TABLE_WORDS] = std::array::from_fn(|place| 1000 + place as u32);
        let table = BoltTable::from_words(&words);
        assert_eq!(
            (table.count, table.diameters[0], table.areas[0]),
            (1000, 1001, 1013)
        );
        assert_eq!((table.diameters[11], table.areas[11]), (1012, 1024));
        assert_eq!(table.to_words(), words);
    }
}
