//! Random joints with one face.

use crate::random::Random;
use crate::two_faces::{any_two_faced_joint, unread_face};
use reference::{
    is_too_thick, minimum_pitch, work, Beam, BoltTable, Bolts, Column, Face, Joint, Layout, Loads,
    Plate, Welds, ONE_FACED_FIELDS, ROWS,
};

/// The ends of fields 8 to 20, 22 to 26 and 30, which are plain ranges.
const RANGES: [(usize, u32, u32); 19] = [
    (8, 1000, 15000),
    (9, 500, 6000),
    (10, 40, 500),
    (11, 30, 400),
    (12, 0, 400),
    (13, 500, 14000),
    (14, 1000, 15000),
    (15, 500, 6000),
    (16, 40, 500),
    (17, 30, 400),
    (18, 500, 6000),
    (19, 60, 500),
    (20, 300, 3000),
    (22, 400, 800),
    (23, 30, 250),
    (24, 30, 250),
    (25, 0, 15000),
    (26, 0, 8),
    (30, 1, 15000),
];

/// A joint in range whose distances mostly leave room, with `rows` rows and bolts of the table, which is one that loading takes.
pub fn sensible_joint(random: &mut Random, table: &BoltTable, rows: u32) -> Joint {
    let mut joint = Joint {
        column: column(random),
        bolts: Bolts {
            class: random.pick(&[46, 88, 88, 109, 109]),
            diameter: random.pick(listed_diameters(table)),
        },
        face: face(random, rows),
        other: Face::default(),
    };
    thin_one_part(random, &mut joint);
    joint.face.layout.gauge = gauge(random, &joint.column, &joint.face);
    place_rows(random, joint.bolts.diameter, &mut joint.face);
    joint
}

fn listed_diameters(table: &BoltTable) -> &[u32] {
    &table.diameters[..table.count as usize]
}

fn grade(random: &mut Random) -> u32 {
    random.pick(&[275, 355])
}

fn column(random: &mut Random) -> Column {
    let clear = clear(random);
    Column {
        grade: grade(random),
        depth: random.between(1000, 9000),
        width: random.between(1200, 6000),
        flange: random.between(40, 500),
        web: random.between(30, 250),
        radius: random.between(0, 250),
        clear,
        end_distance: end_distance(random, clear),
    }
}

/// Often a multiple of 10, of which 0.7 is whole.
fn clear(random: &mut Random) -> u32 {
    let clear = random.between(500, 9000);
    if random.one_in(4) {
        clear - clear % 10
    } else {
        clear
    }
}

/// Anywhere, or far from the column end, or below 0.7dc, or about there.
fn end_distance(random: &mut Random, clear: u32) -> u32 {
    let edge = 7 * clear / 10;
    match random.below(8) {
        0 => random.between(1, 15000),
        1 => random.between(edge, 15000),
        2 | 3 => 15000,
        4 | 5 => random.between(1, edge),
        _ => edge - 2 + random.between(0, 4),
    }
}

/// A face whose gauge and levers are still 0; with no rows it is flush.
pub fn face(random: &mut Random, rows: u32) -> Face {
    let extended = random.between(0, 1).min(rows);
    Face {
        rows,
        extended,
        beam: Beam {
            grade: grade(random),
            depth: random.between(1000, 15000),
            width: random.between(500, 4500),
            flange: random.between(40, 500),
            web: random.between(30, 300),
        },
        plate: Plate {
            grade: grade(random),
            width: random.between(1200, 6000),
            thickness: random.between(60, 500),
        },
        layout: layout(random, extended),
        welds: welds(random),
        shear_rows: random.between(0, 8),
        loads: loads(random),
        levers: [0; 8],
    }
}

/// Without its gauge.
fn layout(random: &mut Random, extended: u32) -> Layout {
    Layout {
        gauge: 0,
        edge: if extended == 1 {
            random.between(150, 2000)
        } else {
            0
        },
        alpha: random.between(400, 800),
    }
}

fn welds(random: &mut Random) -> Welds {
    Welds {
        flange: random.between(30, 250),
        web: random.between(30, 250),
        length: random.between(0, 15000),
    }
}

fn loads(random: &mut Random) -> Loads {
    Loads {
        axial: axial(random),
        shear: load(random, 2_000_000),
        moment: load(random, 1_500_000),
    }
}

/// A sensible joint that Work does not refuse, its rows not by the triangle.
pub fn worked_joint(random: &mut Random, table: &BoltTable, rows: u32) -> Joint {
    loop {
        let joint = sensible_joint(random, table, rows);
        if work(table, &joint).is_ok() && !goes_by_triangle(&joint, &joint.face) {
            return joint;
        }
    }
}

/// A sensible joint that Work does not refuse, its rows by the triangle.
pub fn worked_joint_in_triangle(random: &mut Random, table: &BoltTable, rows: u32) -> Joint {
    loop {
        let mut joint = sensible_joint(random, table, rows);
        thicken_flange(random, &mut joint);
        thicken_plate(random, &joint.bolts, &mut joint.face);
        if work(table, &joint).is_ok() && goes_by_triangle(&joint, &joint.face) {
            return joint;
        }
    }
}

/// Column flange and the face's plate are both too thick for the bolts.
pub fn goes_by_triangle(joint: &Joint, face: &Face) -> bool {
    let Joint { column, bolts, .. } = joint;
    is_too_thick(bolts, column.grade, column.flange)
        && is_too_thick(bolts, face.plate.grade, face.plate.thickness)
}

/// With one face or two, and mostly with bolts of the table, which is one that loading takes.
pub fn any_joint(random: &mut Random, table: &BoltTable) -> Joint {
    if random.one_in(3) {
        any_two_faced_joint(random, table)
    } else {
        any_one_faced_joint(random, table)
    }
}

/// As often none as any other count.
pub fn any_rows(random: &mut Random) -> u32 {
    random.between(0, ROWS as u32)
}

/// A sensible joint, or one in trouble, or with anything in all its fields; now and then with something in the fields of a second face.
fn any_one_faced_joint(random: &mut Random, table: &BoltTable) -> Joint {
    let rows = any_rows(random);
    let mut joint = sensible_joint(random, table, rows);
    if random.one_in(3) {
        thicken_flange(random, &mut joint);
        thicken_plate(random, &joint.bolts, &mut joint.face);
    }
    match random.below(24) {
        0..=6 => trouble(random, table, &mut joint),
        7 => compress(random, table, &mut joint),
        8 => wild_fields(random, &mut joint),
        _ => {}
    }
    if random.one_in(8) {
        joint.other = unread_face(random, &joint.face);
    }
    joint
}

/// A field at or past an end of its range, rows out of order, too close or out of place, or bolts too tight. With no rows often something
/// that only a row has.
pub fn trouble(random: &mut Random, table: &BoltTable, joint: &mut Joint) {
    match random.below(7) {
        0..=3 if joint.face.rows == 0 && random.one_in(2) => add_of_a_row(random, &mut joint.face),
        0 | 1 => shift_field(random, table, joint, false),
        2 => shift_field(random, table, joint, true),
        3 => swap_levers(random, &mut joint.face),
        4 => close_up(random, joint.bolts.diameter, &mut joint.face),
        5 => move_row(random, &mut joint.face),
        _ => tighten(random, joint),
    }
}

/// A lever, or a plate that reaches over the beam flange, or both.
fn add_of_a_row(random: &mut Random, face: &mut Face) {
    let which = random.below(3);
    if which != 0 {
        let row = random.below(ROWS as u64) as usize;
        face.levers[row] = random.between(1, 20001);
    }
    if which != 1 {
        face.extended = 1;
        face.layout.edge = random.pick(&[0, 150, 500]);
    }
}

/// Column flange or plate is mostly thin enough for the bolts; for small ones no plate is.
fn thin_one_part(random: &mut Random, joint: &mut Joint) {
    if random.one_in(12) {
        return;
    }
    let thinnest = joint.bolts.diameter * 7;
    if random.one_in(2) || thinnest < 60 {
        joint.column.flange = random.between(40, thinnest);
    } else {
        joint.face.plate.thickness = random.between(60, thinnest);
    }
}

/// Mostly one that leaves m and e room on both sides.
pub fn gauge(random: &mut Random, column: &Column, face: &Face) -> u32 {
    let by_column = column.web + (8 * column.radius + 500).div_ceil(5);
    let by_plate = face.beam.web + (8 * face.welds.web + 500).div_ceil(5);
    let least = by_column.max(by_plate).max(300);
    let most = (column.width.min(face.plate.width) - 200).min(3000);
    random.between(least, most).min(3000)
}

fn axial(random: &mut Random) -> i32 {
    let size = match random.below(8) {
        0..=3 => 0,
        4 | 5 => random.between(0, 300_000),
        6 => random.between(0, 2_000_000),
        _ => random.between(0, 10_000_000),
    };
    if random.one_in(2) {
        -(size as i32)
    } else {
        size as i32
    }
}

fn load(random: &mut Random, most: u32) -> u32 {
    match random.below(8) {
        0 => 0,
        1 => random.between(0, 10_000_000),
        2 | 3 => random.between(0, most / 10),
        _ => random.between(0, most),
    }
}

/// Levers that fall, mostly by 25δ or more, the first above the flange if extended, the others below it.
pub fn place_rows(random: &mut Random, diameter: u32, face: &mut Face) {
    let rows = face.row_count();
    let places = rows as u32 + 1 - face.extended;
    deepen(random, minimum_pitch(diameter) * places, &mut face.beam);
    let highest = (2 * face.beam.depth - 3 * face.beam.flange - 1) / 2;
    let pitch = minimum_pitch(diameter).min(highest / places);
    let lowest = (highest - highest / 4).max(pitch * (places - 1));
    let mut lever = random.between(lowest, highest);
    let mut levers = Vec::new();
    if face.is_extended() {
        let apart = lever + minimum_pitch(diameter);
        levers.push(extension_lever(random, face, apart));
    }
    while levers.len() < rows {
        levers.push(lever);
        let left = (rows - levers.len()) as u32;
        let spare = lever.saturating_sub(left * pitch) / (left + 2);
        let more = random.pick(&[0, 1, spare, spare]);
        lever = lever.saturating_sub(pitch + random.between(0, more));
    }
    face.levers[..rows].copy_from_slice(&levers);
}

/// Mostly makes a beam deeper that has no room for rows over this span.
fn deepen(random: &mut Random, span: u32, beam: &mut Beam) {
    let least = (span + 2 * beam.flange).min(15000);
    if beam.depth < least && !random.one_in(16) {
        beam.depth = random.between(least, 15000);
    }
}

/// A lever that leaves mx 500 or more, and mostly is `apart` or more.
fn extension_lever(random: &mut Random, face: &Face, apart: u32) -> u32 {
    let clear = (500 + 8 * face.welds.flange).div_ceil(5);
    let least = (2 * face.beam.depth - face.beam.flange + clear).div_ceil(2);
    let least = if random.one_in(16) {
        least
    } else {
        least.max(apart)
    };
    let spread = random.pick(&[0, 2500, 2500]);
    random.between(least, least + spread).min(20000)
}

/// One field at an end of its range, or one past it, or anywhere.
fn shift_field(random: &mut Random, table: &BoltTable, joint: &mut Joint, anywhere: bool) {
    let mut fields = joint.to_fields();
    let place = random.below(ONE_FACED_FIELDS as u64) as usize;
    let (low, high) = ends(table, &joint.face, place + 1);
    fields[place] = match random.below(if anywhere { 8 } else { 5 }) {
        0 => low,
        1 => high,
        2 | 3 => high.wrapping_add(1),
        4 => low.wrapping_sub(1),
        5 => random.next() as u32,
        6 => random.between(0, 500),
        _ => random.pick(&[0, 1, i32::MAX as u32, i32::MIN as u32, u32::MAX]),
    };
    *joint = Joint::from_fields(&fields);
}

/// The least and greatest value of a field, by its number.
fn ends(table: &BoltTable, face: &Face, number: usize) -> (u32, u32) {
    let diameters = listed_diameters(table);
    if let Some(&(_, low, high)) = RANGES.iter().find(|range| range.0 == number) {
        return (low, high);
    }
    match number {
        1 => (0, ROWS as u32),
        2 => (0, face.rows.min(1)),
        3 => (46, 109),
        4 => (diameters[0], diameters[diameters.len() - 1]),
        5..=7 => (275, 355),
        21 if face.is_extended() => (150, 2000),
        21 => (0, 0),
        27 => (-10_000_000_i32 as u32, 10_000_000),
        28 | 29 => (0, 10_000_000),
        _ if number - 30 <= face.row_count() => (1, 20000),
        _ => (0, 0),
    }
}

/// A lever equal to, or above, the one before it.
fn swap_levers(random: &mut Random, face: &mut Face) {
    if face.rows < 2 {
        return;
    }
    let row = random.between(1, face.rows - 1) as usize;
    let above = face.levers[row - 1];
    face.levers[row] = above + random.between(0, 1);
}

/// A row 25δ below the one above it, or one step less; under an extension row it may then stand out of place.
fn close_up(random: &mut Random, diameter: u32, face: &mut Face) {
    if face.rows < 2 {
        return;
    }
    let row = random.between(1, face.rows - 1) as usize;
    let pitch = minimum_pitch(diameter) - random.between(0, 1);
    face.levers[row] = face.levers[row - 1].saturating_sub(pitch).max(1);
}

/// Row 1, or the one under the flange, at the flange's edge or one past it.
fn move_row(random: &mut Random, face: &mut Face) {
    let beam = &face.beam;
    let top = (2 * beam.depth - beam.flange) / 2;
    let foot = (2 * beam.depth - 3 * beam.flange) / 2;
    if face.is_extended() && (face.rows == 1 || random.one_in(2)) {
        face.levers[0] = top + random.between(0, 2);
    } else {
        face.levers[face.extended as usize] = foot + random.between(0, 2) - 1;
    }
}

/// A distance at its least, or a little to either side.
fn tighten(random: &mut Random, joint: &mut Joint) {
    let Joint { column, face, .. } = joint;
    let near = random.between(0, 4);
    let gauge = |web: u32, corner: u32| (web + (8 * corner + 500) / 5 + near).clamp(302, 3000) - 2;
    let width = |gauge: u32| (gauge + 198 + near).clamp(500, 6000);
    match random.below(5) {
        0 => face.layout.gauge = gauge(column.web, column.radius),
        1 => face.layout.gauge = gauge(face.beam.web, face.welds.web),
        2 => column.width = width(face.layout.gauge),
        3 => face.plate.width = width(face.layout.gauge),
        _ => {
            face.extended = 1;
            face.layout.edge = face.layout.edge.max(150);
            let clear = (500 + 8 * face.welds.flange) / 5;
            let least = (2 * face.beam.depth - face.beam.flange + clear) / 2;
            face.levers[0] = least + near - 2;
        }
    }
}

/// A column flange that is mostly too thick for the bolts, often by no more than it must be, and now and then just isn't.
pub fn thicken_flange(random: &mut Random, joint: &mut Joint) {
    let column = &mut joint.column;
    column.flange = thick(random, &joint.bolts, column.grade, 40);
}

/// The same of a plate.
pub fn thicken_plate(random: &mut Random, bolts: &Bolts, face: &mut Face) {
    let plate = &mut face.plate;
    plate.thickness = thick(random, bolts, plate.grade, 60);
}

/// From the first thickness of `least` to 500 that is too thick, or one step less.
fn thick(random: &mut Random, bolts: &Bolts, grade: u32, least: u32) -> u32 {
    let edge = (least..=500)
        .find(|&thickness| is_too_thick(bolts, grade, thickness))
        .unwrap_or(500);
    match random.below(6) {
        0 => edge.max(least + 1) - 1,
        1 | 2 => edge,
        _ => random.between(edge, 500),
    }
}

/// N about at the governing force.
fn compress(random: &mut Random, table: &BoltTable, joint: &mut Joint) {
    joint.face.loads.axial = -10_000_000;
    if let Ok(result) = work(table, joint) {
        joint.face.loads.axial = near(random, result.face.governing_force);
    }
}

/// An axial force about as great as a governing force.
pub fn near(random: &mut Random, governing_force: u64) -> i32 {
    let near = governing_force as i64 + i64::from(random.between(0, 4)) - 2;
    near.min(10_000_000) as i32
}

/// Some fields anything at all.
fn wild_fields(random: &mut Random, joint: &mut Joint) {
    let mut fields = joint.to_fields();
    scatter(random, &mut fields[..ONE_FACED_FIELDS]);
    if random.one_in(2) {
        fields[0] = any_rows(random);
    }
    *joint = Joint::from_fields(&fields);
}

/// One field in four becomes a number of any size.
pub fn scatter(random: &mut Random, fields: &mut [u32]) {
    for field in fields {
        if random.one_in(4) {
            *field = random.of_any_size();
        }
    }
}

#[cfg(test)]
mod tests {
    use super::*;
    use reference::{Trouble, BUILT_IN};
    use std::cmp::Ordering;

    /// Fields before the levers.
    const HEAD: usize = ONE_FACED_FIELDS - ROWS;

    /// A good share of the worked joints of each row count, flush and extended.
    #[test]
    fn many_joints_go_by_the_triangle() {
        let mut random = Random::new(8);
        let mut counts = [[0; 8]; 2];
        let mut one_thick = 0;
        for _ in 0..12_000 {
            let joint = any_one_faced_joint(&mut random, &BUILT_IN);
            let Joint {
                column,
                bolts,
                face,
                ..
            } = &joint;
            if work(&BUILT_IN, &joint).is_err() {
                continue;
            }
            if face.rows == 0 {
                continue;
            }
            if goes_by_triangle(&joint, face) {
                counts[face.extended as usize][face.row_count() - 1] += 1;
            } else if is_too_thick(bolts, column.grade, column.flange) {
                one_thick += 1;
            }
        }
        assert!(
            counts.as_flattened().iter().all(|&count| count > 50),
            "{counts:?}"
        );
        assert!(one_thick > 500, "{one_thick}");
    }

    /// Worked, and refused by what is left to refuse: 10 by field 2 and by each lever, 13 and 15.
    #[test]
    fn joints_with_no_rows() {
        let mut random = Random::new(11);
        let (mut worked, mut tight, mut compressed) = (0, 0, 0);
        let mut fields = [0; ONE_FACED_FIELDS];
        for _ in 0..40_000 {
            let joint = any_one_faced_joint(&mut random, &BUILT_IN);
            if joint.face.rows != 0 {
                continue;
            }
            match work(&BUILT_IN, &joint).map_err(|refusal| refusal.trouble) {
                Ok(_) => worked += 1,
                Err(Trouble::Field(field)) => fields[field as usize - 1] += 1,
                Err(Trouble::TooTight) => tight += 1,
                Err(Trouble::Compression) => compressed += 1,
                Err(trouble) => panic!("{trouble:?}"),
            }
        }
        assert!(
            worked > 2_000 && tight > 50 && compressed > 200,
            "{worked} {tight} {compressed}"
        );
        assert!(fields[1] > 100, "{fields:?}");
        assert!(fields[HEAD..].iter().all(|&count| count > 10), "{fields:?}");
    }

    /// Mostly by 25δ or more, often by no more than that, and now and then by less.
    #[test]
    fn rows_stand_apart() {
        let mut random = Random::new(5);
        let (mut too_close, mut at_edge) = (0, 0);
        for _ in 0..2_000 {
            let rows = random.between(2, 8);
            let joint = sensible_joint(&mut random, &BUILT_IN, rows);
            let levers = &joint.face.levers[..rows as usize];
            let pitches = levers.windows(2).map(|pair| pair[0] - pair[1]);
            match pitches
                .min()
                .cmp(&Some(minimum_pitch(joint.bolts.diameter)))
            {
                Ordering::Less => too_close += 1,
                Ordering::Equal => at_edge += 1,
                Ordering::Greater => {}
            }
        }
        assert!(at_edge > 500, "{at_edge}");
        assert!((20..400).contains(&too_close), "{too_close}");
    }
}
