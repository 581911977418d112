//! Refusal 10: each field's range, of one face with what both share.

use crate::joint::{Bolts, Column, Face, COUNTS, HEAD};
use std::ops::RangeInclusive;

const FORCE: i32 = 10_000_000;
const LOAD: RangeInclusive<u32> = 0..=10_000_000;
const DEPTH: RangeInclusive<u32> = 1000..=15000;
const WIDTH: RangeInclusive<u32> = 500..=6000;
const FLANGE: RangeInclusive<u32> = 40..=500;
const WEB: RangeInclusive<u32> = 30..=400;
const LEG: RangeInclusive<u32> = 30..=250;
const LEVER: RangeInclusive<u32> = 1..=20000;

/// The number, from 1, of the first field that is out of its range. Of a second face that is never a shared one: those were in range with
/// the first. `area` is that of the bolts' size, none where the bolt table has no such size.
pub fn first_outside(
    column: &Column,
    bolts: &Bolts,
    area: Option<u32>,
    face: &Face,
) -> Option<u32> {
    let head = fields_hold(column, bolts, area, face);
    if let Some(place) = head.iter().position(|&holds| !holds) {
        return Some(place as u32 + 1);
    }
    let (used, spare) = face.levers.split_at(face.row_count());
    let used_hold = used.iter().map(|lever| LEVER.contains(lever));
    let spare_hold = spare.iter().map(|&lever| lever == 0);
    used_hold
        .chain(spare_hold)
        .position(|holds| !holds)
        .map(|row| (HEAD + row) as u32 + 1)
}

/// Whether each field before the levers is in its range.
fn fields_hold(column: &Column, bolts: &Bolts, area: Option<u32>, face: &Face) -> [bool; HEAD] {
    let within = |range: RangeInclusive<u32>, value: u32| range.contains(&value);
    [
        within(COUNTS, face.rows),
        within(extensions(face), face.extended),
        matches!(bolts.class, 46 | 88 | 109),
        area.is_some(),
        is_grade(column.grade),
        is_grade(face.beam.grade),
        is_grade(face.plate.grade),
        within(DEPTH, column.depth),
        within(WIDTH, column.width),
        within(FLANGE, column.flange),
        within(WEB, column.web),
        within(0..=400, column.radius),
        within(500..=14000, column.clear),
        within(DEPTH, face.beam.depth),
        within(WIDTH, face.beam.width),
        within(FLANGE, face.beam.flange),
        within(WEB, face.beam.web),
        within(500..=6000, face.plate.width),
        within(60..=500, face.plate.thickness),
        within(300..=3000, face.layout.gauge),
        within(edges(face), face.layout.edge),
        within(400..=800, face.layout.alpha),
        within(LEG, face.welds.flange),
        within(LEG, face.welds.web),
        within(0..=15000, face.welds.length),
        within(0..=8, face.shear_rows),
        (-FORCE..=FORCE).contains(&face.loads.axial),
        within(LOAD, face.loads.shear),
        within(LOAD, face.loads.moment),
        within(1..=15000, column.end_distance),
    ]
}

fn is_grade(grade: u32) -> bool {
    matches!(grade, 275 | 355)
}

/// A face with no rows has none above the beam flange.
fn extensions(face: &Face) -> RangeInclusive<u32> {
    if face.rows == 0 {
        0..=0
    } else {
        0..=1
    }
}

/// A flush plate has no edge distance.
fn edges(face: &Face) -> RangeInclusive<u32> {
    if face.is_extended() {
        150..=2000
    } else {
        0..=0
    }
}
