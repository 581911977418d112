//! Bending, bolts, flange weld and web weld.

use crate::joint::{Column, Face, ROWS};
use crate::outcome::Verdicts;
use crate::strength::{steel_bearing, weld_strength, BoltStrengths, SteelStrengths};

/// `moment` is Z, in newtons times tenths of a millimetre.
pub fn verdicts(
    column: &Column,
    bolt: &BoltStrengths,
    face: &Face,
    steel: &SteelStrengths,
    forces: &[u64; ROWS],
    moment: u64,
) -> Verdicts {
    let strength = weld_strength(&face.beam, &face.plate);
    let web_weld = weld(face.welds.web, face.welds.length, strength);
    Verdicts {
        bending: bending_passes(face, moment),
        bolts: bolts_pass(column, bolt, face, forces),
        flange_weld: flange_weld_passes(face, steel, strength, forces),
        web_weld: web_weld >= u64::from(face.loads.shear),
    }
}

fn bending_passes(face: &Face, moment: u64) -> bool {
    let arm = i64::from(face.beam.depth) - i64::from(face.beam.flange);
    let asked = 20000 * i64::from(face.loads.moment) - i64::from(face.loads.axial) * arm;
    2 * moment as i64 >= asked
}

fn bolts_pass(column: &Column, bolt: &BoltStrengths, face: &Face, forces: &[u64; ROWS]) -> bool {
    let bearing = |thickness: u32, grade: u32| {
        bolt.diameter * u64::from(thickness) * steel_bearing(grade).min(bolt.bearing) / 5
    };
    let on_plate = bearing(face.plate.thickness, face.plate.grade);
    let on_column = bearing(column.flange, column.grade);
    let shear = bolt.pair_shear;
    let full = shear.min(on_plate).min(on_column);
    let with_tension = (2 * shear / 5).min(on_plate).min(on_column);
    let rows = face.row_count();
    let pulled = forces[..rows].iter().filter(|&&force| force > 0).count();
    let others = rows - pulled + face.shear_rows as usize;
    pulled as u64 * with_tension + others as u64 * full >= u64::from(face.loads.shear)
}

/// `strength` is the weld's.
fn flange_weld_passes(
    face: &Face,
    steel: &SteelStrengths,
    strength: u64,
    forces: &[u64; ROWS],
) -> bool {
    let beam = &face.beam;
    let leg = face.welds.flange;
    if 14 * leg >= 10 * beam.flange {
        return true;
    }
    let flange = steel.beam * u64::from(beam.flange) * u64::from(beam.width) / 100;
    let counted = if face.is_extended() { 3 } else { 2 };
    // forces past the last row are 0
    let top_rows: u64 = forces[..counted].iter().sum();
    weld(leg, beam.width, strength) >= flange.min(top_rows)
}

/// Newtons of two fillets with this leg and length.
fn weld(leg: u32, length: u32, strength: u64) -> u64 {
    14 * u64::from(leg) * u64::from(length) * strength / 1000
}
