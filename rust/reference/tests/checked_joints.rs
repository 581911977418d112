//! The checked joints A to C, H and I of document 01; D to G stand beside the functions they check.

use reference::{
    allocate, read, sheet, work, write, Check, FileKind, Joint, ReadRefusal, Trouble, WorkRefusal,
    BUILT_IN, LONGEST_FILE,
};

fn forces(limits: &[u64], rows: usize) -> Vec<u64> {
    allocate(rows, limits).unwrap()[..rows].to_vec()
}

/// The fields of document 01's joint I, with spare levers.
fn joint_i() -> Joint {
    let mut fields = [0; 38];
    fields[..31].copy_from_slice(&[
        1, 0, 88, 20, 275, 275, 275, 5283, 2087, 132, 96, 127, 4765, 3071, 1657, 118, 67, 2000,
        200, 900, 0, 600, 80, 60, 2000, 1, 0, 57000, 50000, 15000, 2400,
    ]);
    Joint::one_faced(&fields)
}

fn file_of(joint: &Joint) -> Vec<u8> {
    let mut buffer = [0; LONGEST_FILE];
    let length = write(joint, &mut buffer).unwrap();
    buffer[..length].to_vec()
}

#[test]
fn joint_a() {
    let shared = forces(&[371, 687, 974, 375, 679, 375], 3);
    assert_eq!(shared, [371, 316, 287]);
    let moment: u64 = shared
        .iter()
        .zip([565, 465, 375])
        .map(|(force, lever)| force * lever)
        .sum();
    assert_eq!(moment, 464_180);
}

#[test]
fn joint_b() {
    assert_eq!(forces(&[371, 687, 600, 375, 679, 375], 3), [371, 229, 0]);
}

#[test]
fn joint_c() {
    assert_eq!(forces(&[300, 200, 300], 2), [200, 0]);
}

/// Distributions printed in P207, in kilonewtons; 9999 stands for no limit given.
#[test]
fn printed_distributions() {
    assert_eq!(forces(&[371, 687, 853, 375, 679, 375], 3), [371, 316, 166]);
    assert_eq!(forces(&[297, 557, 809, 297, 554, 297], 3), [297, 260, 252]);
    assert_eq!(
        forces(&[226, 9999, 9999, 761, 274, 9999, 9999, 190, 9999, 105], 4),
        [226, 274, 190, 71]
    );
    let portal = [
        317, 9999, 9999, 9999, 1128, 317, 9999, 9999, 9999, 295, 9999, 9999, 275, 9999, 56,
    ];
    assert_eq!(forces(&portal, 5), [317, 317, 295, 199, 0]);
}

#[test]
fn joint_h() {
    let file = file_of(&joint_i());
    // field 2 takes the bytes after the row count
    let with_field_2 = |bytes: &[u8]| [&file[..1], bytes, &file[2..]].concat();
    let (joint, rest) = read(&with_field_2(&[0xac, 0x02]), FileKind::New)
        .map(|(joint, rest)| (joint, rest.len()))
        .unwrap();
    assert_eq!((joint.face.extended, rest), (300, 0));
    assert_eq!(
        read(&with_field_2(&[0xac, 0x82, 0x00]), FileKind::New),
        Err(ReadRefusal::NumberForm)
    );
}

#[test]
fn joint_i_is_worked() {
    let result = work(&BUILT_IN, &joint_i()).unwrap().face;
    assert_eq!(result.forces, [219_345, 0, 0, 0, 0, 0, 0, 0]);
    assert_eq!(
        (result.sum, result.newton_metres, result.cap),
        (219_345, 52642, 407_706)
    );
    assert_eq!(
        (result.check, result.governing_force),
        (Check::Buckling, 407_706)
    );
}

#[test]
fn joint_i_is_printed() {
    let mut out = Vec::new();
    sheet(&file_of(&joint_i()), &mut out);
    assert_eq!(out, b"1 1 219345 219345 52642 407706 K P P P P\n");
}

#[test]
fn joint_i_at_its_governing_force() {
    let mut joint = joint_i();
    joint.face.loads.axial = 407_706;
    let result = work(&BUILT_IN, &joint).unwrap().face;
    assert_eq!(
        (result.forces[0], result.cap, result.governing_force),
        (0, 0, 407_706)
    );
    joint.face.loads.axial = 407_707;
    assert_eq!(
        work(&BUILT_IN, &joint),
        Err(WorkRefusal {
            trouble: Trouble::Compression,
            face: 0
        })
    );
}

/// Joint I has the web of joint F; it is governed by web buckling at any distance from the column end.
#[test]
fn joint_i_near_the_column_end() {
    let governing = |end_distance| {
        let mut joint = joint_i();
        joint.column.end_distance = end_distance;
        let result = work(&BUILT_IN, &joint).unwrap().face;
        assert_eq!(result.check, Check::Buckling);
        result.governing_force
    };
    for (end_distance, force) in [
        (15000, 407_706),
        (3336, 407_706),
        (3335, 407_675),
        (1, 203_914),
    ] {
        assert_eq!(governing(end_distance), force);
    }
}
