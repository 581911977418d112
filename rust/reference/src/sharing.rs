//! Sharing the force among the rows.

use crate::joint::ROWS;

/// Groups of eight rows.
pub const GROUPS: usize = ROWS * (ROWS + 1) / 2;

/// No limit above this is taken.
pub const GREATEST_LIMIT: u64 = 4_000_000_000;

#[derive(Clone, Copy, Debug, PartialEq, Eq)]
pub enum AllocateRefusal {
    RowCount = 3,
    FewLimits = 7,
    LimitTooGreat = 8,
}

/// The forces of `count` rows; `limits` are those of groups 1–1, 1–2, .. 1–n, 2–2 and so on. No rows ask for no limits, and any that are
/// handed over are further ones, which aren't looked at.
pub fn allocate(count: usize, limits: &[u64]) -> Result<[u64; ROWS], AllocateRefusal> {
    if count > ROWS {
        return Err(AllocateRefusal::RowCount);
    }
    let limits = limits
        .get(..count * (count + 1) / 2)
        .ok_or(AllocateRefusal::FewLimits)?;
    if !none_too_great(limits) {
        return Err(AllocateRefusal::LimitTooGreat);
    }
    Ok(share(count, limits))
}

/// A bitwise or is at least each number in it, and never stops early; one by one they are asked only where it is too great.
fn none_too_great(limits: &[u64]) -> bool {
    let bits = limits.iter().fold(0, |bits, limit| bits | limit);
    bits <= GREATEST_LIMIT || limits.iter().all(|&limit| limit <= GREATEST_LIMIT)
}

/// As `allocate`, for limits that are known to be enough and small enough. Each count has code of its own, whose loops are unrolled.
pub fn share(count: usize, limits: &[u64]) -> [u64; ROWS] {
    let shared = |rows| share_with(rows, limits, |_, sum, _, _| sum);
    match count {
        0 => shared(0),
        1 => shared(1),
        2 => shared(2),
        3 => shared(3),
        4 => shared(4),
        5 => shared(5),
        6 => shared(6),
        7 => shared(7),
        _ => shared(8),
    }
}

/// As `share`, but by the triangle: each row below the reference row gets no more than its added limit. Not inlined, so that the code for
/// joints without a triangle stays together.
#[inline(never)]
pub fn share_in_triangle(
    count: usize,
    limits: &[u64],
    reference: usize,
    levers: &[u32; ROWS],
) -> [u64; ROWS] {
    share_with(count, limits, |row, sum, above, forces| {
        if row > reference {
            sum.min(above + added_limit(forces[reference], levers[row], levers[reference]))
        } else {
            sum
        }
    })
}

/// The reference row's force by lever ÷ reference lever.
fn added_limit(reference_force: u64, lever: u32, reference_lever: u32) -> u64 {
    reference_force * u64::from(lever) / u64::from(reference_lever)
}

/// The sum down to a row is the least over groups that end at it, and no more than what `bounded` leaves of it, which goes by the row, that
/// sum, the sum above the row and the forces above it. Each limit is lowered once, and counted once into the sums of the rows it reaches.
#[inline(always)]
fn share_with(
    count: usize,
    limits: &[u64],
    bounded: impl Fn(usize, u64, u64, &[u64; ROWS]) -> u64,
) -> [u64; ROWS] {
    let mut forces = [0; ROWS];
    let mut sums = [u64::MAX; ROWS];
    let mut above = 0;
    let mut rest = limits;
    for first in 0..count {
        let (begin_here, others) = rest.split_at(count - first);
        let mut lowered = u64::MAX;
        for (sum, &limit) in sums[first..count].iter_mut().zip(begin_here).rev() {
            lowered = lowered.min(limit);
            *sum = (*sum).min(above + lowered);
        }
        let sum = bounded(first, sums[first], above, &forces);
        forces[first] = sum - above;
        above = sum;
        rest = others;
    }
    forces
}

#[cfg(test)]
mod tests {
    use super::*;
    use crate::raising::place;

    /// Document 01's words, one by one.
    fn as_written(count: usize, limits: &[u64]) -> [u64; ROWS] {
        let lowered = |first: usize, last: usize| {
            (last..count)
                .map(|end| limits[place(count, first, end)])
                .min()
                .unwrap()
        };
        let mut forces = [0; ROWS];
        for row in 0..count {
            let left = |first: usize| lowered(first, row) - forces[first..row].iter().sum::<u64>();
            forces[row] = (0..=row).map(left).min().unwrap();
        }
        forces
    }

    /// Request g's words: the reference row's force, a further limit on each row below it alone, and all rows shared again.
    fn triangle_as_written(
        count: usize,
        limits: &[u64],
        reference: usize,
        levers: &[u32; ROWS],
    ) -> [u64; ROWS] {
        let shared = as_written(count, limits);
        let mut further = limits.to_vec();
        for row in reference + 1..count {
            let own = &mut further[place(count, row, row)];
            *own = (*own)
                .min(shared[reference] * u64::from(levers[row]) / u64::from(levers[reference]));
        }
        let forces = as_written(count, &further);
        assert_eq!(forces[..=reference], shared[..=reference]);
        forces
    }

    /// Numbers that look random.
    fn numbers() -> impl FnMut() -> u64 {
        let mut state = 1_u64;
        move || {
            state = state
                .wrapping_mul(6_364_136_223_846_793_005)
                .wrapping_add(1);
            state >> 33
        }
    }

    fn table(next: &mut impl FnMut() -> u64, most: u64) -> (usize, Vec<u64>) {
        let count = next() as usize % 8 + 1;
        let groups = count * (count + 1) / 2;
        (count, (0..groups).map(|_| next() % (most + 1)).collect())
    }

    const MOSTS: [u64; 4] = [3, 100, 10_000, 4_000_000_000];

    #[test]
    fn too_great_by_itself_alone() {
        let greatest = GREATEST_LIMIT;
        // each has bits that the other lacks
        assert!(none_too_great(&[greatest, 294_967_295, 0]));
        assert!(none_too_great(&[1 << 31, (1 << 31) - 1]));
        assert!(none_too_great(&[]));
        assert!(!none_too_great(&[0, greatest + 1, 0]));
        assert!(!none_too_great(&[u64::MAX, 1]));
    }

    #[test]
    fn shared_as_document_01_says() {
        let mut next = numbers();
        for turn in 0..20_000 {
            let (count, limits) = table(&mut next, MOSTS[turn % 4]);
            assert_eq!(
                share(count, &limits),
                as_written(count, &limits),
                "{limits:?}"
            );
        }
    }

    #[test]
    fn shared_in_the_triangle_as_request_g_says() {
        let mut next = numbers();
        let mut more = 0;
        for turn in 0..40_000 {
            let (count, limits) = table(&mut next, MOSTS[turn % 4]);
            let reference = (next() as usize % 2).min(count - 1);
            let mut levers = [0; ROWS];
            let mut lever = 1;
            for place in levers[..count].iter_mut().rev() {
                *place = lever;
                lever += next() as u32 % 2000 + 1;
            }
            let forces = share_in_triangle(count, &limits, reference, &levers);
            let written = triangle_as_written(count, &limits, reference, &levers);
            assert_eq!(forces, written, "{limits:?} {levers:?}");
            let plain = share(count, &limits);
            more += usize::from(
                forces
                    .iter()
                    .zip(plain)
                    .any(|(&force, plain)| force > plain),
            );
        }
        // rows below a limited one often get more than without the triangle
        assert!(more > 1000, "{more}");
    }

    #[test]
    fn no_row_below_the_reference() {
        let levers = [500, 400, 0, 0, 0, 0, 0, 0];
        for (count, reference) in [(1, 0), (2, 1), (1, 1)] {
            let limits = [70, 60, 50];
            let forces = share_in_triangle(count, &limits, reference, &levers);
            assert_eq!(forces, share(count, &limits));
        }
    }
}
