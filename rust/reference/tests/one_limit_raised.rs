//! One group limit raised: the rule over every small table, that it is no looser than it must be, and what it doesn't say.

use reference::{allocate, broken_rule, moment, raised, Raise};

/// Every list of `length` numbers from 0 to `most`.
fn every_list(length: usize, most: u64) -> impl Iterator<Item = Vec<u64>> {
    let base = most + 1;
    (0..base.pow(length as u32)).map(move |number| {
        (0..length as u32)
            .map(|place| number / base.pow(place) % base)
            .collect()
    })
}

/// Every raise by 1 to `most` newtons of one group of `count` rows.
fn every_raise(count: usize, most: u64) -> impl Iterator<Item = Raise> {
    (0..count).flat_map(move |first| {
        (first..count).flat_map(move |last| {
            (1..=most).map(move |newtons| Raise {
                first,
                last,
                newtons,
            })
        })
    })
}

fn forces(count: usize, limits: &[u64]) -> Vec<u64> {
    allocate(count, limits).unwrap()[..count].to_vec()
}

/// Each table of at most four rows with limits of 0 to 2, before and after each raise by 1 or 2.
fn every_case(mut see: impl FnMut(usize, &Raise, &[u64], &[u64])) {
    for count in 1..=4 {
        for limits in every_list(count * (count + 1) / 2, 2) {
            let before = forces(count, &limits);
            for raise in every_raise(count, 2) {
                let after = forces(count, &raised(&raise, count, &limits));
                see(count, &raise, &before, &after);
            }
        }
    }
}

/// Levers that fall by as little as they may, and by much, down to 1.
const LEVERS: [[u64; 4]; 2] = [[4, 3, 2, 1], [1000, 100, 10, 1]];

#[test]
fn every_small_table_keeps_the_rule() {
    let mut cases = 0;
    every_case(|count, raise, before, after| {
        cases += 1;
        for levers in &LEVERS {
            let broken = broken_rule(raise, &levers[4 - count..], before, after);
            assert_eq!(broken, None, "{raise:?} {before:?} {after:?}");
        }
    });
    assert_eq!(cases, 3 * 2 + 27 * 6 + 729 * 12 + 59049 * 20);
}

/// For each group some table has the whole raise on the group's first row: no smaller bound would do.
#[test]
fn each_bound_is_reached() {
    let mut reached = Vec::new();
    every_case(|count, raise, before, after| {
        let levers = &LEVERS[0][4 - count..];
        let rise = moment(levers, after) - moment(levers, before);
        let most = u128::from(raise.newtons * levers[raise.first]);
        if rise == most && !reached.contains(&(count, *raise)) {
            reached.push((count, *raise));
        }
    });
    assert_eq!(reached.len(), 2 + 6 + 12 + 20);
}

/// Sums and moment fall nowhere; a single row's force may.
#[test]
fn a_row_may_lose_what_one_above_it_gains() {
    let limits = [371, 687, 974, 375, 679, 375];
    let raise = Raise {
        first: 0,
        last: 0,
        newtons: 4,
    };
    let after = raised(&raise, 3, &limits);
    assert_eq!(after, [375, 687, 974, 375, 679, 375]);
    assert_eq!(forces(3, &after), [375, 312, 287]);
    assert_eq!(moment(&[565, 465, 375], &forces(3, &after)), 464_580);
}

/// What doesn't keep the rule is told.
#[test]
fn a_broken_rule_is_told() {
    let raise = Raise {
        first: 1,
        last: 1,
        newtons: 10,
    };
    let levers = [3, 2, 1];
    let told = |after: [u64; 3]| broken_rule(&raise, &levers, &[50, 50, 50], &after);
    assert_eq!(told([50, 60, 40]), None);
    assert_eq!(told([50, 60, 50]), None);
    assert_eq!(told([50, 40, 50]), Some("the moment falls"));
    assert_eq!(
        told([50, 61, 50]),
        Some("the moment rises by more than the limit at the first row's lever")
    );
    assert_eq!(
        told([51, 50, 50]),
        Some("a sum that ends above the group's first row moves")
    );
    assert_eq!(told([50, 49, 52]), Some("a sum falls"));
    assert_eq!(
        told([50, 55, 56]),
        Some("a sum rises by more than the limit")
    );
}
