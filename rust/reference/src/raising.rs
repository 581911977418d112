//! How far one limit moves the figure: what two lists of forces, before and after one group limit is raised, must keep.

/// The limit of the group of rows `first` to `last` goes up by so many newtons.
#[derive(Clone, Copy, Debug, PartialEq, Eq)]
pub struct Raise {
    pub first: usize,
    pub last: usize,
    pub newtons: u64,
}

/// The place of the group's limit among those of `count` rows: groups that begin further up stand before it.
pub fn place(count: usize, first: usize, last: usize) -> usize {
    (0..first).map(|row| count - row).sum::<usize>() + last - first
}

/// The limits of `count` rows with the group's limit raised.
pub fn raised(raise: &Raise, count: usize, limits: &[u64]) -> Vec<u64> {
    let mut after = limits.to_vec();
    after[place(count, raise.first, raise.last)] += raise.newtons;
    after
}

/// The sum of force times lever, wide enough for any forces and levers.
pub fn moment(levers: &[u64], forces: &[u64]) -> u128 {
    levers
        .iter()
        .zip(forces)
        .map(|(&lever, &force)| u128::from(lever) * u128::from(force))
        .sum()
}

fn sums(forces: &[u64]) -> impl Iterator<Item = u64> + '_ {
    forces.iter().scan(0, |sum, force| {
        *sum += force;
        Some(*sum)
    })
}

/// What of the rule the forces don't keep. The levers fall from row to row and are 1 or more, one for each row.
pub fn broken_rule(
    raise: &Raise,
    levers: &[u64],
    before: &[u64],
    after: &[u64],
) -> Option<&'static str> {
    let most = u128::from(raise.newtons) * u128::from(levers[raise.first]);
    let (low, high) = (moment(levers, before), moment(levers, after));
    if high < low {
        return Some("the moment falls");
    }
    if high - low > most {
        return Some("the moment rises by more than the limit at the first row's lever");
    }
    for (row, (low, high)) in sums(before).zip(sums(after)).enumerate() {
        if row < raise.first && low != high {
            return Some("a sum that ends above the group's first row moves");
        }
        if high < low {
            return Some("a sum falls");
        }
        if high - low > raise.newtons {
            return Some("a sum rises by more than the limit");
        }
    }
    None
}
