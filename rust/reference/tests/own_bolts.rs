//! Joints worked by a bolt table of another maker, on one face and on two.

use reference::{
    load, work, BoltTable, FaceResult, Joint, JointResult, LoadRefusal, WorkRefusal, BUILT_IN,
    SECOND_FACE, SIZES,
};

/// The sizes, and nothing past them.
fn table(sizes: &[(u32, u32)]) -> BoltTable {
    let mut table = BoltTable {
        count: sizes.len() as u32,
        diameters: [0; SIZES],
        areas: [0; SIZES],
    };
    for (place, &(diameter, area)) in sizes.iter().enumerate() {
        table.diameters[place] = diameter;
        table.areas[place] = area;
    }
    table
}

/// With M22 of 303 mm².
fn own_table() -> BoltTable {
    table(&[(18, 1920), (20, 2450), (22, 3030), (27, 4590)])
}

/// The checked joint I with bolts of this diameter.
fn joint(diameter: u32) -> Joint {
    let mut fields = [0; 38];
    fields[..31].copy_from_slice(&[
        1, 0, 88, diameter, 275, 275, 275, 5283, 2087, 132, 96, 127, 4765, 3071, 1657, 118, 67,
        2000, 200, 900, 0, 600, 80, 60, 2000, 1, 0, 57000, 50000, 15000, 2400,
    ]);
    Joint::one_faced(&fields)
}

/// The same on both faces.
fn two_faced(diameter: u32) -> Joint {
    let alone = joint(diameter);
    let mut joint = Joint {
        other: alone.face,
        ..alone
    };
    joint.face.rows += SECOND_FACE;
    joint
}

fn alone(worked: Result<JointResult, WorkRefusal>) -> FaceResult {
    let result = worked.unwrap();
    assert_eq!(result.other, None);
    result.face
}

/// Number, field and face.
fn refusal(table: &BoltTable, joint: &Joint) -> (u32, u32, u32) {
    let refusal = work(table, joint).unwrap_err();
    (refusal.number(), refusal.field(), refusal.face)
}

/// W is 2 × 3030 × 560 ÷ 10 = 339360; the column flange, in mode 2, takes (18874 × 132² × 275 + 200 × 3755 × 339360) ÷ 1351800.
#[test]
fn joint_i_with_m22() {
    let result = alone(work(&own_table(), &joint(22)));
    assert_eq!(result.forces, [255_434, 0, 0, 0, 0, 0, 0, 0]);
    assert_eq!((result.newton_metres, result.cap), (61304, 407_706));
    assert_eq!(refusal(&BUILT_IN, &joint(22)), (10, 4, 0));
}

/// Each face as it is alone: web buckling governs both.
#[test]
fn both_faces_with_m22() {
    let result = work(&own_table(), &two_faced(22)).unwrap();
    let other = result.other.unwrap();
    assert_eq!(result.face, alone(work(&own_table(), &joint(22))));
    assert_eq!(result.face, other.face);
    assert!(other.panel_passes);
}

#[test]
fn the_built_in_sizes_as_an_own_table() {
    let mut handed = table(&[(12, 843), (16, 1570), (20, 2450), (24, 3530), (30, 5610)]);
    assert_eq!(handed, BUILT_IN);
    // past the count
    handed.diameters[5..].fill(20);
    handed.areas[5..].fill(u32::MAX);
    for diameter in [0, 11, 12, 16, 20, 22, 24, 30, 31, u32::MAX] {
        for joint in [joint(diameter), two_faced(diameter)] {
            assert_eq!(work(&handed, &joint), work(&BUILT_IN, &joint));
        }
    }
}

/// The same diameter goes by the area of the table that is handed over.
#[test]
fn an_area_of_its_own() {
    let of_area = |area| alone(work(&table(&[(20, area)]), &joint(20))).forces[0];
    assert_eq!(of_area(2450), 219_345);
    assert!(of_area(2449) < 219_345);
    // W of an area of 1 is 112
    assert_eq!(of_area(1), 112);
}

#[test]
fn every_place_is_found() {
    let sizes: Vec<(u32, u32)> = (0..12).map(|place| (12 + place, 800 + place)).collect();
    for count in 1..=12 {
        let listed = table(&sizes[..count]);
        for (place, &(diameter, area)) in sizes.iter().enumerate() {
            let joint = joint(diameter);
            if place < count {
                let single = table(&[(diameter, area)]);
                assert_eq!(work(&listed, &joint), work(&single, &joint));
            } else {
                assert_eq!(refusal(&listed, &joint), (10, 4, 0));
            }
        }
    }
}

/// S is 2 × 3030 × 375 ÷ 10 = 227250: two fifths of it in row 1, all of it in the shear row.
#[test]
fn bolts_verdict_by_the_own_size() {
    let passes = |shear| {
        let mut joint = joint(22);
        joint.face.loads.shear = shear;
        alone(work(&own_table(), &joint)).verdicts.bolts
    };
    assert!(passes(318_150));
    assert!(!passes(318_151));
}

/// A second row, and whether it gets no more than row 1 has by the levers.
fn in_triangle(table: &BoltTable, joint: &Joint) -> bool {
    let mut joint = *joint;
    joint.face.rows = 2;
    joint.face.levers[1] = 800;
    joint.face.loads.axial = -10_000_000;
    let forces = alone(work(table, &joint)).forces;
    forces[1] == forces[0] / 3
}

/// 361 × t² × 265 against 10000 × 22² × 800.
#[test]
fn too_thick_by_the_own_size() {
    let both = |flange, thickness| {
        let mut joint = joint(22);
        joint.column.flange = flange;
        joint.face.plate.thickness = thickness;
        in_triangle(&own_table(), &joint)
    };
    assert!(!both(201, 500));
    assert!(!both(500, 201));
    assert!(both(202, 202));
}

#[test]
fn the_least_and_the_greatest_bolts() {
    let ends = table(&[(6, 1), (64, 32153)]);
    let mut joint = joint(6);
    joint.bolts.class = 109;
    joint.column.flange = 60;
    assert_eq!(alone(work(&ends, &joint)).forces[0], 140);
    assert!(!in_triangle(&ends, &joint));
    joint.column.flange = 61;
    assert_eq!(alone(work(&ends, &joint)).forces[0], 140);
    assert!(in_triangle(&ends, &joint));
    // nothing is too thick for M64 of class 109, whose S is 2572240
    joint.bolts.diameter = 64;
    joint.column.flange = 500;
    joint.face.plate.thickness = 500;
    assert!(!in_triangle(&ends, &joint));
    joint.face.loads.shear = 3_601_136;
    assert!(alone(work(&ends, &joint)).verdicts.bolts);
    joint.face.loads.shear = 3_601_137;
    assert!(!alone(work(&ends, &joint)).verdicts.bolts);
}

#[test]
fn field_4_is_told_in_its_place() {
    let unlisted = |change: fn(&mut Joint)| {
        let mut joint = joint(24);
        change(&mut joint);
        refusal(&own_table(), &joint)
    };
    assert_eq!(unlisted(|_| ()), (10, 4, 0));
    assert_eq!(unlisted(|joint| joint.bolts.class = 0), (10, 3, 0));
    assert_eq!(unlisted(|joint| joint.face.extended = 2), (10, 2, 0));
    assert_eq!(unlisted(|joint| joint.face.rows = 9), (10, 1, 0));
    assert_eq!(unlisted(|joint| joint.column.grade = 0), (10, 4, 0));
    assert_eq!(unlisted(|joint| joint.face.levers = [0; 8]), (10, 4, 0));
    assert_eq!(
        unlisted(|joint| joint.face.loads.axial = 407_707),
        (10, 4, 0)
    );
}

/// Of two faces it is the first's, even where the second's own fields before it are out of range.
#[test]
fn field_4_of_two_faces() {
    let mut joint = two_faced(24);
    joint.other.rows = 9;
    assert_eq!(refusal(&own_table(), &joint), (10, 4, 1));
    joint.face.extended = 2;
    assert_eq!(refusal(&own_table(), &joint), (10, 2, 1));
    joint.face.extended = 0;
    joint.bolts.diameter = 22;
    assert_eq!(refusal(&own_table(), &joint), (10, 1, 2));
}

/// M22 stands in each of them, with its area.
#[test]
fn a_table_that_loading_would_refuse() {
    let no_count = BoltTable {
        count: 0,
        ..own_table()
    };
    let miscounted = BoltTable {
        count: 13,
        ..own_table()
    };
    for refused in [
        no_count,
        miscounted,
        table(&[(22, 3030), (65, 3530)]),
        table(&[(22, 3030), (24, 0)]),
        table(&[(22, 3030), (22, 3030)]),
        table(&[(24, 3530), (22, 3030)]),
        table(&[(20, 3141), (22, 3030)]),
    ] {
        assert!(refused.check().is_err());
        assert_eq!(refusal(&refused, &joint(22)), (10, 4, 0));
        assert_eq!(refusal(&refused, &two_faced(22)), (10, 4, 1));
        let mut other = joint(22);
        other.bolts.class = 0;
        assert_eq!(refusal(&refused, &other), (10, 3, 0));
    }
}

/// One table after the other.
#[test]
fn what_stays_in_force() {
    let mut in_force = BUILT_IN;
    assert_eq!(load(&own_table(), &mut in_force), Ok(()));
    assert!(work(&in_force, &joint(22)).is_ok());
    let equal = table(&[(16, 1570), (16, 1570)]);
    assert_eq!(load(&equal, &mut in_force), Err(LoadRefusal::NotRising));
    assert_eq!(in_force, own_table());
    assert_eq!(load(&table(&[(16, 1570)]), &mut in_force), Ok(()));
    assert_eq!(refusal(&in_force, &joint(22)), (10, 4, 0));
    assert!(work(&in_force, &joint(16)).is_ok());
}
