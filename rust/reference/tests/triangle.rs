//! Column flange and plate both too thick for the bolts: the rows below the first one under the beam flange go by the triangle.

use reference::{work, FaceResult, Joint, BUILT_IN};

/// The checked joint I with these levers, strong webs and its cap out of the way; flange and plate are 18.3 mm, of which 361 × t² × 265 is
/// just above 10000 × 20² × 800.
fn joint(levers: &[u32]) -> Joint {
    let mut fields = [0; 38];
    fields[..30].copy_from_slice(&[
        1, 0, 88, 20, 275, 275, 275, 5283, 2087, 183, 400, 0, 4765, 3071, 1657, 118, 200, 2000,
        183, 900, 0, 600, 80, 60, 2000, 1, 0, 57000, 50000, 15000,
    ]);
    let mut joint = Joint::one_faced(&fields);
    joint.face.rows = levers.len() as u32;
    joint.face.levers[..levers.len()].copy_from_slice(levers);
    joint.face.loads.axial = -10_000_000;
    joint
}

/// Row 1 stands above the flange.
fn extended(levers: &[u32]) -> Joint {
    let mut joint = joint(levers);
    joint.face.extended = 1;
    joint.face.layout.edge = 500;
    joint
}

fn worked(joint: &Joint) -> FaceResult {
    work(&BUILT_IN, joint).unwrap().face
}

fn forces(joint: &Joint) -> [u64; 8] {
    worked(joint).forces
}

#[test]
fn both_at_the_edge() {
    for (flange, thickness, limited) in [
        (183, 183, true),
        (182, 183, false),
        (183, 182, false),
        (182, 182, false),
        (500, 182, false),
        (182, 500, false),
        (500, 500, true),
    ] {
        let mut joint = joint(&[2400, 1000]);
        joint.column.flange = flange;
        joint.face.plate.thickness = thickness;
        let [first, second, ..] = forces(&joint);
        assert_eq!(second == first * 1000 / 2400, limited);
        assert!(second >= first * 1000 / 2400);
    }
}

#[test]
fn each_row_below_the_reference_by_its_own_lever() {
    let [first, second, third, ..] = forces(&joint(&[2801, 1900, 1000]));
    assert_eq!(second, first * 1900 / 2801);
    assert_eq!(third, first * 1000 / 2801);
    assert_ne!(first * 1900 % 2801, 0);
    assert_ne!(first * 1000 % 2801, 0);
    let [extension, first, second, third, ..] = forces(&extended(&[3500, 2801, 1900, 1000]));
    assert_eq!(second, first * 1900 / 2801);
    assert_eq!(third, first * 1000 / 2801);
    assert!(extension > 0 && extension < first);
}

#[test]
fn no_row_below_the_reference() {
    let mut bolts_break = joint(&[2400]);
    bolts_break.column.flange = 500;
    bolts_break.face.plate.thickness = 500;
    assert_eq!(forces(&bolts_break)[0], 274_400);
    // the extension row's lever limits nothing
    let [extension, first, ..] = forces(&extended(&[3500, 1000]));
    assert!(first > extension * 1000 / 3500);
}

/// The beam web limits rows 2 and 3 together. Trimmed afterwards, row 3 would keep what it has without the triangle.
#[test]
fn a_row_may_get_more_than_without_the_triangle() {
    let by_plate = |thickness| {
        let mut joint = joint(&[2800, 2000, 1500]);
        joint.column.flange = 500;
        joint.column.web = 200;
        joint.face.beam.web = 100;
        joint.face.layout.gauge = 500;
        joint.face.welds.web = 150;
        joint.face.plate.thickness = thickness;
        forces(&joint)
    };
    let (without, within) = (by_plate(182), by_plate(183));
    assert!(within[1] < without[1]);
    assert!(within[2] > without[2]);
    assert_eq!(within[2], within[0] * 1500 / 2800);
}

#[test]
fn the_cap_in_use() {
    let mut joint = joint(&[2400, 1900, 1400]);
    let free = worked(&joint);
    let governing = free.governing_force as i64;
    let capped = |joint: &mut Joint, cap: u64| {
        joint.face.loads.axial = (governing - cap as i64) as i32;
        forces(joint)
    };
    let [first, second, ..] = free.forces;
    assert_eq!(capped(&mut joint, first + 5)[..3], [first, 5, 0]);
    assert_eq!(
        capped(&mut joint, first + second + 5)[..3],
        [first, second, 5]
    );
    // the added limit goes by what the reference row got
    assert_eq!(capped(&mut joint, first - 1)[..3], [first - 1, 0, 0]);
    assert_eq!(capped(&mut joint, 0), [0; 8]);
}

#[test]
fn a_reference_row_without_force() {
    let mut joint = extended(&[3500, 2400, 1900]);
    let free = worked(&joint);
    let [extension, ..] = free.forces;
    joint.face.loads.axial = (free.governing_force as i64 - extension as i64) as i32;
    assert_eq!(forces(&joint), [extension, 0, 0, 0, 0, 0, 0, 0]);
}

#[test]
fn too_much_compression_is_refused_as_ever() {
    let mut joint = joint(&[2400, 1900]);
    let governing = worked(&joint).governing_force as i32;
    joint.face.loads.axial = governing;
    assert_eq!(worked(&joint).sum, 0);
    joint.face.loads.axial = governing + 1;
    assert_eq!(work(&BUILT_IN, &joint).unwrap_err().number(), 15);
}
