//! Random joints with a beam on both faces of the column, and second faces that no call may look at.

use crate::joints::{
    any_rows, face, gauge, goes_by_triangle, near, place_rows, scatter, sensible_joint,
    thicken_flange, thicken_plate, trouble,
};
use crate::random::Random;
use reference::{panel_shear, work, BoltTable, Face, Joint, FIELDS, SECOND_FACE};

/// A joint in range whose distances mostly leave room, with so many rows on its faces and bolts of the table, which is one that loading
/// takes.
pub fn sensible_two_faced_joint(random: &mut Random, table: &BoltTable, rows: [u32; 2]) -> Joint {
    let mut joint = sensible_joint(random, table, rows[0]);
    joint.face.rows += SECOND_FACE;
    let mut other = face(random, rows[1]);
    thin_plate(random, &joint, &mut other);
    other.layout.gauge = gauge(random, &joint.column, &other);
    place_rows(random, joint.bolts.diameter, &mut other);
    joint.other = other;
    joint
}

/// Where the column flange may be too thick for the bolts, the plate mostly isn't.
fn thin_plate(random: &mut Random, joint: &Joint, other: &mut Face) {
    let thinnest = joint.bolts.diameter * 7;
    if joint.column.flange > thinnest && !random.one_in(12) {
        other.plate.thickness = random.between(60, thinnest.max(60));
    }
}

/// A sensible joint with two faces that Work does not refuse, the rows of neither by the triangle.
pub fn worked_two_faced_joint(random: &mut Random, table: &BoltTable, rows: [u32; 2]) -> Joint {
    loop {
        let joint = sensible_two_faced_joint(random, table, rows);
        let mut faces = [joint.face, joint.other].into_iter();
        if work(table, &joint).is_ok() && !faces.any(|face| goes_by_triangle(&joint, &face)) {
            return joint;
        }
    }
}

/// The column flange about at the edge of being too thick for the bolts or past it, and the plate of either face, or of both.
fn thicken(random: &mut Random, joint: &mut Joint) {
    thicken_flange(random, joint);
    let which = random.below(3);
    if which != 0 {
        thicken_plate(random, &joint.bolts, &mut joint.face);
    }
    if which != 1 {
        thicken_plate(random, &joint.bolts, &mut joint.other);
    }
}

/// A sensible joint with two faces, or one of them in trouble, or both, or with the panel about as strong as it must be, or with
/// anything in all its fields.
pub fn any_two_faced_joint(random: &mut Random, table: &BoltTable) -> Joint {
    let rows = [any_rows(random), any_rows(random)];
    let mut joint = sensible_two_faced_joint(random, table, rows);
    if random.one_in(3) {
        thicken(random, &mut joint);
    }
    match random.below(24) {
        0..=2 => trouble_first(random, table, &mut joint),
        3..=6 => trouble_second(random, table, &mut joint),
        7 => trouble_both(random, table, &mut joint),
        8 => compress(random, table, &mut joint),
        9..=12 => strain_panel(random, table, &mut joint),
        13 => wild_fields(random, &mut joint),
        _ => {}
    }
    joint
}

fn trouble_first(random: &mut Random, table: &BoltTable, joint: &mut Joint) {
    let mut alone = Joint {
        face: joint.first_of_two(),
        ..*joint
    };
    trouble(random, table, &mut alone);
    alone.face.rows = alone.face.rows.wrapping_add(SECOND_FACE);
    *joint = alone;
}

/// Or of what the faces share.
fn trouble_second(random: &mut Random, table: &BoltTable, joint: &mut Joint) {
    let mut alone = Joint {
        face: joint.other,
        ..*joint
    };
    trouble(random, table, &mut alone);
    joint.column = alone.column;
    joint.bolts = alone.bolts;
    joint.other = alone.face;
}

/// Each from the sensible joint.
fn trouble_both(random: &mut Random, table: &BoltTable, joint: &mut Joint) {
    let mut second = *joint;
    trouble_second(random, table, &mut second);
    trouble_first(random, table, joint);
    joint.other = second.other;
}

/// N of one face about at its governing force, which panel shear is no part of.
fn compress(random: &mut Random, table: &BoltTable, joint: &mut Joint) {
    let Some(faces) = pulled(table, joint) else {
        return;
    };
    let at_second = random.one_in(2);
    let [first, second] = faces.map(|face| near(random, face.governing_force));
    if at_second {
        joint.other.loads.axial = second;
    } else {
        joint.face.loads.axial = first;
    }
}

/// What a face comes to where no cap is in use.
#[derive(Clone, Copy)]
struct Pulled {
    sum: i64,
    governing_force: u64,
    /// the greatest N with which the cap still leaves that sum
    most: i64,
}

/// Both faces pulled as far as they can be; none where the joint is refused even so.
fn pulled(table: &BoltTable, joint: &Joint) -> Option<[Pulled; 2]> {
    let mut pulled = *joint;
    pulled.face.loads.axial = -10_000_000;
    pulled.other.loads.axial = -10_000_000;
    let result = work(table, &pulled).ok()?;
    Some([result.face, result.other?.face].map(|face| Pulled {
        sum: face.sum as i64,
        governing_force: face.governing_force,
        most: face.governing_force as i64 - face.sum as i64,
    }))
}

/// Totals that differ by about what panel shear takes, with N as each face's cap allows it.
fn strain_panel(random: &mut Random, table: &BoltTable, joint: &mut Joint) {
    joint.column.depth = random.pick(&[1000, 1000, joint.column.depth]);
    let Some(mut faces) = pulled(table, joint) else {
        return;
    };
    let turned = random.one_in(2);
    if turned {
        faces.reverse();
    }
    let [greater, lesser] = faces;
    let difference = panel_shear(&joint.column) as i64 + random.below(3) as i64 - 1;
    let lowered = i64::from(random.between(0, 600_000));
    let total = (greater.sum + greater.most).min(lesser.sum + lesser.most + difference) - lowered;
    let mut axial = [total - greater.sum, total - difference - lesser.sum];
    if turned {
        axial.reverse();
    }
    let [first, second] = axial.map(|axial| axial.max(-10_000_000) as i32);
    joint.face.loads.axial = first;
    joint.other.loads.axial = second;
}

/// Some fields of both faces anything at all.
fn wild_fields(random: &mut Random, joint: &mut Joint) {
    let mut fields = joint.to_fields();
    scatter(random, &mut fields);
    *joint = Joint::from_fields(&fields);
    if random.one_in(2) {
        joint.face.rows = SECOND_FACE + any_rows(random);
        joint.other.rows = random.between(0, 9);
    }
}

/// A second face for a joint with one: the first again, one in trouble, or no face at all.
pub fn unread_face(random: &mut Random, first: &Face) -> Face {
    let mut fields = Joint {
        other: *first,
        ..Joint::default()
    }
    .to_fields();
    match random.below(4) {
        0 => {}
        1 => scatter(random, &mut fields),
        2 => fields = std::array::from_fn(|_| random.next() as u32),
        _ => fields = [u32::MAX; FIELDS],
    }
    Joint::from_fields(&fields).other
}

#[cfg(test)]
mod tests {
    use super::*;
    use reference::BUILT_IN;

    /// How often the totals differ by panel shear, and by one newton more.
    #[test]
    fn the_panel_is_strained_to_its_edge() {
        let mut random = Random::new(3);
        let (mut at_edge, mut past_edge) = (0, 0);
        for _ in 0..2_000 {
            let mut joint = sensible_two_faced_joint(&mut random, &BUILT_IN, [2, 3]);
            strain_panel(&mut random, &BUILT_IN, &mut joint);
            let Ok(result) = work(&BUILT_IN, &joint) else {
                continue;
            };
            let other = result.other.unwrap();
            let first = result.face.sum as i64 + i64::from(joint.face.loads.axial);
            let second = other.face.sum as i64 + i64::from(joint.other.loads.axial);
            let panel = panel_shear(&joint.column);
            if first.abs_diff(second) == panel {
                at_edge += 1;
                assert!(other.panel_passes);
            } else if first.abs_diff(second) == panel + 1 {
                past_edge += 1;
                assert!(!other.panel_passes);
            }
        }
        assert!(at_edge > 100 && past_edge > 100, "{at_edge} {past_edge}");
    }

    #[test]
    fn most_joints_with_two_faces_are_worked() {
        let mut random = Random::new(4);
        let mut is_worked =
            || work(&BUILT_IN, &any_two_faced_joint(&mut random, &BUILT_IN)).is_ok();
        let count = (0..2_000).filter(|_| is_worked()).count();
        assert!(count > 500, "{count}");
    }

    /// On the first face alone, on the second alone, on both.
    #[test]
    fn faces_with_no_rows_are_worked() {
        let mut random = Random::new(9);
        let mut counts = [0; 3];
        for _ in 0..6_000 {
            let joint = any_two_faced_joint(&mut random, &BUILT_IN);
            if !joint.is_two_faced() || work(&BUILT_IN, &joint).is_err() {
                continue;
            }
            match (joint.face.rows, joint.other.rows) {
                (SECOND_FACE, 0) => counts[2] += 1,
                (SECOND_FACE, _) => counts[0] += 1,
                (_, 0) => counts[1] += 1,
                _ => {}
            }
        }
        assert!(counts.iter().all(|&count| count > 20), "{counts:?}");
    }
}
