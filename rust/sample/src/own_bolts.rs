//! Random joints with a bolt table of their own.

use crate::bolt_tables::{any_bolt_table, good_bolt_table, mar};
use crate::joints::any_joint;
use crate::random::Random;
use reference::{BoltTable, Joint, SIZES};

/// Mostly with a size of the table; now and then with none of them, with one past the count, or with a table that loading would refuse.
pub fn any_joint_with_own_table(random: &mut Random) -> (BoltTable, Joint) {
    let count = random.between(1, SIZES as u32);
    let mut table = good_bolt_table(random, count);
    let mut joint = any_joint(random, &table);
    match random.below(48) {
        0 => joint.bolts.diameter = random.between(0, 70),
        1 | 2 => leave_past_the_count(random, &mut table, &joint),
        3..=6 => mar(random, &mut table),
        7 => table = any_bolt_table(random),
        _ => {}
    }
    (table, joint)
}

/// Counts fewer sizes, so that the joint's isn't among them; its place isn't the first.
fn leave_past_the_count(random: &mut Random, table: &mut BoltTable, joint: &Joint) {
    let diameter = joint.bolts.diameter;
    let listed = &table.diameters[..table.count as usize];
    if let Some(place @ 1..) = listed.iter().position(|&listed| listed == diameter) {
        table.count = random.between(1, place as u32);
    }
}

#[cfg(test)]
mod tests {
    use super::*;
    use reference::{work, Trouble};

    #[test]
    fn most_joints_with_own_tables_are_worked() {
        let mut random = Random::new(7);
        let (mut worked, mut unlisted) = ([0; 2], 0);
        for _ in 0..6_000 {
            let (table, joint) = any_joint_with_own_table(&mut random);
            match work(&table, &joint) {
                Ok(_) => worked[usize::from(joint.is_two_faced())] += 1,
                Err(refusal) => unlisted += u32::from(refusal.trouble == Trouble::Field(4)),
            }
        }
        let [one_face, two_faces] = worked;
        assert!(
            one_face > 1_500 && two_faces > 500 && unlisted > 500,
            "{worked:?} {unlisted}"
        );
    }
}
