//! Work: one joint worked whole.

use crate::bolt_table::BoltTable;
use crate::compression::{governing, panel_passes, panel_shear, Faces};
use crate::joint::{Bolts, Column, Face, Joint, ROWS};
use crate::outcome::{FaceResult, JointResult, OtherResult, Trouble, WorkRefusal};
use crate::range::first_outside;
use crate::sharing::{share, share_in_triangle, GROUPS};
use crate::strength::{both_too_thick, BoltStrengths, SteelStrengths};
use crate::tension::{group_limits, Distances};
use crate::verdict::verdicts;

/// The joint worked by a bolt table, which is looked at once for both faces.
pub fn work(table: &BoltTable, joint: &Joint) -> Result<JointResult, WorkRefusal> {
    let Joint {
        column,
        bolts,
        face,
        ..
    } = joint;
    let area = table.area_of(bolts.diameter);
    if joint.is_two_faced() {
        return work_two_faces(joint, area);
    }
    match work_face(column, bolts, area, face, Faces::One) {
        Ok(face) => Ok(JointResult { face, other: None }),
        Err(trouble) => Err(WorkRefusal { trouble, face: 0 }),
    }
}

/// All of the first face's troubles are told before the second's.
fn work_two_faces(joint: &Joint, area: Option<u32>) -> Result<JointResult, WorkRefusal> {
    let column = &joint.column;
    let worked = |face: &Face, number: u32| {
        work_face(column, &joint.bolts, area, face, Faces::Two).map_err(|trouble| WorkRefusal {
            trouble,
            face: number,
        })
    };
    let first = worked(&joint.first_of_two(), 1)?;
    let second = worked(&joint.other, 2)?;
    let totals = [
        governing_total(&first, &joint.face),
        governing_total(&second, &joint.other),
    ];
    Ok(JointResult {
        face: first,
        other: Some(OtherResult {
            face: second,
            panel_passes: panel_passes(panel_shear(column), totals),
        }),
    })
}

/// Below 0 where the beam pulls by more than its rows take.
fn governing_total(result: &FaceResult, face: &Face) -> i64 {
    result.sum as i64 + i64::from(face.loads.axial)
}

/// `area` is that of the bolts' size; none is refusal 10, field 4.
fn work_face(
    column: &Column,
    bolts: &Bolts,
    area: Option<u32>,
    face: &Face,
    faces: Faces,
) -> Result<FaceResult, Trouble> {
    if let Some(field) = first_outside(column, bolts, area, face) {
        return Err(Trouble::Field(field));
    }
    let area = area.expect("field 4 is in range");
    if !levers_fall(face) {
        return Err(Trouble::LeverOrder);
    }
    if !rows_apart(face, bolts) {
        return Err(Trouble::RowsTooClose);
    }
    if !rows_in_place(face) {
        return Err(Trouble::RowPlace);
    }
    let distances = Distances::of(column, face).ok_or(Trouble::TooTight)?;
    let bolt = BoltStrengths::of(bolts, area);
    let steel = SteelStrengths::of(column, face);
    let (check, governing_force) = governing(column, face, &steel, faces);
    let cap = u64::try_from(governing_force as i64 - i64::from(face.loads.axial))
        .map_err(|_| Trouble::Compression)?;

    let limits = capped_limits(column, &bolt, face, &steel, &distances, cap);
    let forces = row_forces(column, &bolt, face, &steel, &limits);
    let moment = moment_of(&forces, &face.levers);
    Ok(FaceResult {
        forces,
        sum: forces.iter().sum(),
        newton_metres: moment / 10000,
        cap,
        check,
        governing_force,
        verdicts: verdicts(column, &bolt, face, &steel, &forces, moment),
    })
}

/// Where column flange and plate are both too thick, the rows below the first one under the beam flange go by the triangle. Inlined, as
/// the limits below, so that no table is copied.
#[inline(always)]
fn row_forces(
    column: &Column,
    bolt: &BoltStrengths,
    face: &Face,
    steel: &SteelStrengths,
    limits: &[u64; GROUPS],
) -> [u64; ROWS] {
    let rows = face.row_count();
    if both_too_thick(column, &face.plate, steel, bolt) {
        share_in_triangle(rows, limits, face.row_under_flange(), &face.levers)
    } else {
        share(rows, limits)
    }
}

/// The cap is one more limit on all rows together, where there are rows.
#[inline(always)]
fn capped_limits(
    column: &Column,
    bolt: &BoltStrengths,
    face: &Face,
    steel: &SteelStrengths,
    distances: &Distances,
    cap: u64,
) -> [u64; GROUPS] {
    let mut limits = group_limits(column, bolt, face, steel, distances);
    if let Some(all_rows) = face.row_count().checked_sub(1) {
        limits[all_rows] = limits[all_rows].min(cap);
    }
    limits
}

/// What the rows of a face that isn't refused, with this cap, would get without added limits: for telling what the triangle did.
pub fn forces_without_triangle(
    table: &BoltTable,
    column: &Column,
    bolts: &Bolts,
    face: &Face,
    cap: u64,
) -> [u64; ROWS] {
    let area = table
        .area_of(bolts.diameter)
        .expect("a size that is worked");
    let bolt = BoltStrengths::of(bolts, area);
    let steel = SteelStrengths::of(column, face);
    let distances = Distances::of(column, face).expect("room that is worked");
    let limits = capped_limits(column, &bolt, face, &steel, &distances, cap);
    share(face.row_count(), &limits)
}

/// Refusal 11: each row's lever is below that of the row above it.
fn levers_fall(face: &Face) -> bool {
    let levers = &face.levers[..face.row_count()];
    levers.windows(2).all(|pair| pair[1] < pair[0])
}

/// Refusal 19: of levers that fall, neighbours differ by 25δ or more.
fn rows_apart(face: &Face, bolts: &Bolts) -> bool {
    let levers = &face.levers[..face.row_count()];
    let least = minimum_pitch(bolts.diameter);
    levers.windows(2).all(|pair| pair[0] - pair[1] >= least)
}

/// 25δ, in tenths of a millimetre, for δ in millimetres.
pub fn minimum_pitch(diameter: u32) -> u32 {
    25 * diameter
}

/// Refusal 12: an extended row 1 stands above the beam flange, every other row below it.
fn rows_in_place(face: &Face) -> bool {
    let extension = usize::from(face.is_extended());
    let (above, below) = face.levers[..face.row_count()].split_at(extension);
    let flange_top = 2 * face.beam.depth - face.beam.flange;
    let flange_foot = 2 * face.beam.depth - 3 * face.beam.flange;
    above.iter().all(|&lever| 2 * lever > flange_top)
        && below.iter().all(|&lever| 2 * lever < flange_foot)
}

/// Z, in newtons times tenths of a millimetre.
fn moment_of(forces: &[u64; ROWS], levers: &[u32; ROWS]) -> u64 {
    forces
        .iter()
        .zip(levers)
        .map(|(force, &lever)| force * u64::from(lever))
        .sum()
}
