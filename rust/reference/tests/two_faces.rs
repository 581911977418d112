//! Joints with a beam on both faces: the panel, the cap without it, and each refusal of either face.

mod common;

use common::{assert_read_back, file_of, file_of_kind, lines, refusal, KINDS};
use reference::{
    read, work, write, Check, Face, FaceResult, FileKind, Joint, ReadRefusal, WriteRefusal,
    BUILT_IN, LONGEST_FILE, SECOND_FACE,
};

/// The checked joint I on both faces.
fn joint() -> Joint {
    let mut fields = [0; 38];
    fields[..31].copy_from_slice(&[
        1, 0, 88, 20, 275, 275, 275, 5283, 2087, 132, 96, 127, 4765, 3071, 1657, 118, 67, 2000,
        200, 900, 0, 600, 80, 60, 2000, 1, 0, 57000, 50000, 15000, 2400,
    ]);
    let alone = Joint::one_faced(&fields);
    let mut joint = Joint {
        other: alone.face,
        ..alone
    };
    joint.face.rows += SECOND_FACE;
    joint
}

fn with(change: impl FnOnce(&mut Joint)) -> Joint {
    let mut joint = joint();
    change(&mut joint);
    joint
}

/// A thin and shallow column web: panel shear is 3 × 275 × 30 × 1000 ÷ 500 = 49500.
fn weak_panel(change: impl FnOnce(&mut Joint)) -> Joint {
    with(|joint| {
        joint.column.web = 30;
        joint.column.depth = 1000;
        joint.column.clear = 500;
        change(joint);
    })
}

fn results(joint: &Joint) -> ([FaceResult; 2], bool) {
    let result = work(&BUILT_IN, joint).unwrap();
    let other = result.other.unwrap();
    ([result.face, other.face], other.panel_passes)
}

#[test]
fn panel_shear_is_not_in_the_cap() {
    let two = weak_panel(|_| ());
    let one = weak_panel(|joint| joint.face.rows -= SECOND_FACE);
    let alone = work(&BUILT_IN, &one).unwrap().face;
    assert_eq!((alone.check, alone.governing_force), (Check::Panel, 49500));
    for face in results(&two).0 {
        assert_eq!(face.check, Check::Buckling);
        assert!(face.governing_force > 49500);
    }
}

/// Refusal 15 goes by the checks that are in the cap.
#[test]
fn compressed_beyond_panel_shear() {
    let governing = results(&weak_panel(|_| ())).0[0].governing_force as i32;
    let both = |first: i32, second: i32| {
        weak_panel(|joint| {
            joint.face.loads.axial = first;
            joint.other.loads.axial = second;
        })
    };
    let (faces, passes) = results(&both(governing, governing));
    assert_eq!([faces[0].cap, faces[1].cap], [0, 0]);
    assert!(passes);
    assert_eq!(refusal(&both(governing + 1, 0)), (15, 0, 1));
    assert_eq!(refusal(&both(0, governing + 1)), (15, 0, 2));
    assert_eq!(refusal(&both(governing + 1, governing + 1)), (15, 0, 1));
}

/// With the whole cap in use a total is the governing force; below it, the rows' sum plus N.
#[test]
fn the_panel_at_its_edge() {
    let sum = results(&with(|joint| joint.column.depth = 1000)).0[0].sum as i32;
    // 3 × 275 × 96 × 1000 ÷ 500
    let panel = 158_400;
    let both = |first: i32, second: i32| {
        with(|joint| {
            joint.column.depth = 1000;
            joint.face.loads.axial = first;
            joint.other.loads.axial = second;
        })
    };
    for (low, high) in [(-panel, 0), (-sum - 100_000, -sum - 100_000 + panel)] {
        assert!(results(&both(low, high)).1);
        assert!(results(&both(high, low)).1);
        assert!(!results(&both(low - 1, high)).1);
        assert!(!results(&both(high, low - 1)).1);
    }
}

/// The column flange is too thick for the bolts; the plate of one face, then of the other.
#[test]
fn the_triangle_goes_by_the_plate_of_each_face() {
    let both = |first: u32, second: u32| {
        let (faces, _) = results(&with(|joint| {
            joint.column.flange = 183;
            joint.other = Face {
                rows: 2,
                levers: [2400, 800, 0, 0, 0, 0, 0, 0],
                ..joint.other
            };
            joint.other.loads.axial = -10_000_000;
            joint.other.plate.thickness = second;
            joint.face = Face {
                rows: SECOND_FACE + 2,
                ..joint.other
            };
            joint.face.plate.thickness = first;
        }));
        faces.map(|face| face.forces[1] == face.forces[0] * 800 / 2400)
    };
    assert_eq!(both(182, 182), [false, false]);
    assert_eq!(both(183, 182), [true, false]);
    assert_eq!(both(182, 183), [false, true]);
    assert_eq!(both(183, 183), [true, true]);
}

#[test]
fn the_first_face_in_trouble_is_told_first() {
    let mut joint = with(|joint| {
        joint.face.loads.axial = 10_000_000;
        joint.other.layout.alpha = 0;
    });
    assert_eq!(refusal(&joint), (15, 0, 1));
    joint.face.loads.axial = 0;
    assert_eq!(refusal(&joint), (10, 22, 2));
    joint.other.layout.alpha = 600;
    joint.other.rows = 2;
    joint.other.levers[1] = 2400;
    assert_eq!(refusal(&joint), (11, 0, 2));
    joint.other.levers = [2894, 2395, 0, 0, 0, 0, 0, 0];
    assert_eq!(refusal(&joint), (19, 0, 2));
    joint.other.levers[1] = 2394;
    assert_eq!(refusal(&joint), (12, 0, 2));
    joint.other.levers[0] = 2893;
    joint.other.levers[1] = 2393;
    joint.other.layout.gauge = 399;
    assert_eq!(refusal(&joint), (13, 0, 2));
    joint.other.layout.gauge = 900;
    joint.other.loads.axial = 10_000_000;
    assert_eq!(refusal(&joint), (15, 0, 2));
    joint.face.loads.axial = 10_000_000;
    assert_eq!(refusal(&joint), (15, 0, 1));
}

#[test]
fn a_shared_field_is_the_first_faces() {
    let shared: [(u32, fn(&mut Joint)); 4] = [
        (3, |joint| joint.bolts.class = 0),
        (8, |joint| joint.column.depth = 0),
        (13, |joint| joint.column.clear = 0),
        (30, |joint| joint.column.end_distance = 0),
    ];
    for (number, change) in shared {
        assert_eq!(refusal(&with(change)), (10, number, 1));
    }
}

#[test]
fn row_counts_in_work() {
    for rows in [9, 15, 25, 32, u32::MAX] {
        assert_eq!(refusal(&with(|joint| joint.face.rows = rows)), (10, 1, 0));
    }
    for rows in [9, 16, 17, 24, u32::MAX] {
        assert_eq!(refusal(&with(|joint| joint.other.rows = rows)), (10, 1, 2));
    }
    // rows without levers, told by the lever's number
    assert_eq!(refusal(&with(|joint| joint.face.rows = 24)), (10, 32, 1));
    assert_eq!(refusal(&with(|joint| joint.other.rows = 8)), (10, 32, 2));
}

#[test]
fn no_second_face_is_looked_at_in_a_joint_with_one() {
    let junk = with(|joint| {
        joint.face.rows = 1;
        joint.other = Joint::from_fields(&[u32::MAX; 66]).other;
    });
    let clean = with(|joint| {
        joint.face.rows = 1;
        joint.other = Default::default();
    });
    assert_eq!(work(&BUILT_IN, &junk), work(&BUILT_IN, &clean));
    assert!(work(&BUILT_IN, &junk).unwrap().other.is_none());
    assert_eq!(file_of(&junk), file_of(&clean));
}

#[test]
fn files_of_both_kinds_are_read_back() {
    assert_read_back(&joint());
}

/// The longest two-faced file, and the shortest with a row on each face.
#[test]
fn lengths_of_files() {
    let most = with(|joint| {
        *joint = Joint::from_fields(&[u32::MAX; 66]);
        joint.face.rows = 24;
        joint.other.rows = 8;
        // stored as 4294967295
        joint.face.loads.axial = i32::MIN;
        joint.other.loads.axial = i32::MIN;
    });
    let file = file_of(&most);
    assert_eq!((file.len(), LONGEST_FILE), (322, 322));
    assert_eq!(read(&file, FileKind::New), Ok((most, &[][..])));
    let mut fields = [0; 66];
    (fields[0], fields[38]) = (17, 1);
    let least = Joint::from_fields(&fields);
    assert_eq!(file_of(&least).len(), 52);
    assert_eq!(read(&file_of(&least), FileKind::New), Ok((least, &[][..])));
}

/// The second count is judged before the next number is looked at.
#[test]
fn read_3_of_the_second_face() {
    for kind in KINDS {
        let file = file_of_kind(&joint(), kind);
        let first = &file[..if kind == FileKind::Old { 49 } else { 51 }];
        for count in [9, 15, 16, 17, 24, 127] {
            let cut = [first, &[count]].concat();
            assert_eq!(read(&cut, kind), Err(ReadRefusal::RowCount));
            let damaged = [first, &[count, 0x80, 0]].concat();
            assert_eq!(read(&damaged, kind), Err(ReadRefusal::RowCount));
        }
        let damaged = [first, &[1, 0x80, 0]].concat();
        assert_eq!(read(&damaged, kind), Err(ReadRefusal::NumberForm));
    }
}

#[test]
fn write_tries_each_number_on_both_faces() {
    let refused = |joint: Joint, length: usize| {
        let mut buffer = vec![7; length];
        let refusal = write(&joint, &mut buffer).unwrap_err();
        assert_eq!(buffer, vec![7; length]);
        refusal
    };
    let count = |rows| with(|joint| joint.other.rows = rows);
    for rows in [9, 16, 17, 24] {
        assert_eq!(refused(count(rows), 400), WriteRefusal::RowCount);
    }
    let spare_and_count = with(|joint| {
        joint.face.levers[1] = 1;
        joint.other.rows = 9;
    });
    assert_eq!(refused(spare_and_count, 0), WriteRefusal::RowCount);
    let spare = with(|joint| joint.other.levers[1] = 1);
    assert_eq!(refused(spare, 0), WriteRefusal::SpareLever);
    assert_eq!(refused(spare, 400), WriteRefusal::SpareLever);
    let length = file_of(&joint()).len();
    assert_eq!(refused(joint(), length - 1), WriteRefusal::ShortBuffer);
    let mut buffer = vec![7; length + 1];
    assert_eq!(write(&joint(), &mut buffer), Ok(length));
    assert_eq!(buffer[length], 7);
}

#[test]
fn sheet_has_a_line_for_each_face() {
    let worked = "1 219345 219345 52642 407706 K P P P P";
    let unlike = with(|joint| joint.other.loads.axial = -10_000_000);
    let tight = with(|joint| joint.other.layout.gauge = 399);
    let uneven = with(|joint| joint.face.layout.alpha = 0);
    let cut = &file_of(&joint())[..60];
    let input = [
        &file_of(&joint())[..],
        &file_of(&unlike),
        &file_of(&tight),
        &file_of(&uneven),
        cut,
    ];
    let pulled = "1 219345 219345 52642 10407706 K F P P P";
    assert_eq!(
        lines(&input.concat()),
        format!(
            "1 {worked} P\n1 {worked} P\n2 {worked} F\n2 {pulled} F\n3 R 13 2\n4 R 10 22 1\n5 R 1\n"
        )
    );
}
