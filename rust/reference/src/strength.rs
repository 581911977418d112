//! Strengths in newtons per square millimetre.

use crate::joint::{Beam, Bolts, Column, Face, Plate};

/// Yield strengths of the steel parts.
#[derive(Clone, Copy, Debug)]
pub struct SteelStrengths {
    pub column: u64,
    pub beam: u64,
    pub plate: u64,
}

impl SteelStrengths {
    pub fn of(column: &Column, face: &Face) -> SteelStrengths {
        let Face { beam, plate, .. } = face;
        SteelStrengths {
            column: column_strength(column),
            beam: steel(beam.grade, beam.flange),
            plate: steel(plate.grade, plate.thickness),
        }
    }
}

/// What a joint's bolts give; looked up once.
#[derive(Clone, Copy, Debug)]
pub struct BoltStrengths {
    /// in millimetres
    pub diameter: u64,
    /// W, newtons: the tension of a row's two bolts
    pub pair_tension: u64,
    /// S, newtons: the shear of a row's two bolts
    pub pair_shear: u64,
    pub bearing: u64,
    pub ultimate: u64,
}

impl BoltStrengths {
    /// `area` is that of one bolt, in tenths of a square millimetre.
    pub fn of(bolts: &Bolts, area: u32) -> BoltStrengths {
        let area = u64::from(area);
        let (tension, shear, bearing, ultimate) = bolt_class(bolts.class);
        BoltStrengths {
            diameter: u64::from(bolts.diameter),
            pair_tension: 2 * area * tension / 10,
            pair_shear: 2 * area * shear / 10,
            bearing,
            ultimate,
        }
    }
}

/// In the rules for its web too.
pub fn column_strength(column: &Column) -> u64 {
    steel(column.grade, column.flange)
}

/// BS 5950-1:2000 Table 9; thickness in tenths of a millimetre, 500 at most.
fn steel(grade: u32, thickness: u32) -> u64 {
    let less = match thickness {
        0..=160 => 0,
        161..=400 => 10,
        _ => 20,
    };
    u64::from(grade) - less
}

/// What the steel of a part bears.
pub fn steel_bearing(grade: u32) -> u64 {
    if grade == 275 {
        460
    } else {
        550
    }
}

/// Of the weld between beam and plate.
pub fn weld_strength(beam: &Beam, plate: &Plate) -> u64 {
    if beam.grade == 275 || plate.grade == 275 {
        220
    } else {
        250
    }
}

/// Tension, shear, bearing, ultimate.
fn bolt_class(class: u32) -> (u64, u64, u64, u64) {
    match class {
        46 => (240, 160, 460, 400),
        88 => (560, 375, 1000, 800),
        _ => (700, 400, 1300, 1000),
    }
}

/// Whether column flange and plate are both too thick to yield before the bolts break, so that the rows go by the triangle.
pub fn both_too_thick(
    column: &Column,
    plate: &Plate,
    steel: &SteelStrengths,
    bolt: &BoltStrengths,
) -> bool {
    let breaks = |thickness: u32, strength: u64| {
        bolts_break_first(bolt.diameter, bolt.ultimate, thickness, strength)
    };
    breaks(column.flange, steel.column) && breaks(plate.thickness, steel.plate)
}

fn bolts_break_first(diameter: u64, ultimate: u64, thickness: u32, strength: u64) -> bool {
    361 * square(thickness) * strength > 10000 * diameter * diameter * ultimate
}

/// Whether a column flange or a plate of this grade is too thick for the bolts.
pub fn is_too_thick(bolts: &Bolts, grade: u32, thickness: u32) -> bool {
    let (_, _, _, ultimate) = bolt_class(bolts.class);
    let strength = steel(grade, thickness);
    bolts_break_first(u64::from(bolts.diameter), ultimate, thickness, strength)
}

pub fn square(length: u32) -> u64 {
    u64::from(length) * u64::from(length)
}

#[cfg(test)]
mod tests {
    use super::*;

    #[test]
    fn thickness_of_checked_joint_g() {
        let bolts = Bolts {
            class: 88,
            diameter: 24,
        };
        let bolt = BoltStrengths::of(&bolts, 3530);
        let plate = Plate {
            grade: 275,
            thickness: 500,
            ..Plate::default()
        };
        let face = Face {
            plate,
            ..Face::default()
        };
        let too_thick = |flange| {
            let column = Column {
                grade: 275,
                flange,
                ..Column::default()
            };
            let steel = SteelStrengths::of(&column, &face);
            both_too_thick(&column, &plate, &steel, &bolt)
        };
        assert!(!too_thick(219));
        assert!(too_thick(220));
    }

    /// Of a flange and a plate of one grade and thickness both are too thick where one is.
    #[test]
    fn one_part_and_both() {
        for (class, diameter) in [(46, 12), (88, 20), (88, 24), (109, 24), (109, 30)] {
            let bolts = Bolts { class, diameter };
            let bolt = BoltStrengths::of(&bolts, 3530);
            for (grade, thickness) in [275, 355]
                .into_iter()
                .flat_map(|grade| (40..=500).map(move |thickness| (grade, thickness)))
            {
                let plate = Plate {
                    grade,
                    thickness,
                    ..Plate::default()
                };
                let column = Column {
                    grade,
                    flange: thickness,
                    ..Column::default()
                };
                let face = Face {
                    plate,
                    ..Face::default()
                };
                let steel = SteelStrengths::of(&column, &face);
                assert_eq!(
                    is_too_thick(&bolts, grade, thickness),
                    both_too_thick(&column, &plate, &steel, &bolt)
                );
            }
        }
    }

    #[test]
    fn steel_steps_by_thickness() {
        let strengths = [160, 161, 400, 401, 500].map(|thickness| steel(275, thickness));
        assert_eq!(strengths, [275, 265, 265, 255, 255]);
        assert_eq!(steel(355, 160), 355);
        assert_eq!(steel(355, 161), 345);
        assert_eq!(steel(355, 401), 335);
    }
}
