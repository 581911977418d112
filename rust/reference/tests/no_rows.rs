//! Faces with no rows, as of a pinned stub: on the only face of a joint, on either of two and on both.

mod common;

use common::{assert_read_back, file_of, file_of_kind, lines, refusal, KINDS};
use reference::{
    allocate, read, work, write, AllocateRefusal, Check, Face, FaceResult, FileKind, Joint,
    ReadRefusal, Verdicts, WriteRefusal, BUILT_IN, SECOND_FACE,
};

const WORKED: &str = "0 0 0 407706 K F P P P";

/// The checked joint I, its row taken away.
fn joint() -> Joint {
    let mut fields = [0; 38];
    fields[..30].copy_from_slice(&[
        0, 0, 88, 20, 275, 275, 275, 5283, 2087, 132, 96, 127, 4765, 3071, 1657, 118, 67, 2000,
        200, 900, 0, 600, 80, 60, 2000, 1, 0, 57000, 50000, 15000,
    ]);
    Joint::one_faced(&fields)
}

fn with(change: impl FnOnce(&mut Joint)) -> Joint {
    let mut joint = joint();
    change(&mut joint);
    joint
}

/// The joint's face with the one row of joint I.
fn with_row(face: Face) -> Face {
    Face {
        rows: 1,
        levers: [2400, 0, 0, 0, 0, 0, 0, 0],
        ..face
    }
}

/// Two faces, of which these have a row.
fn two_faced(first_has_row: bool, second_has_row: bool) -> Joint {
    let face = |has_row: bool| {
        if has_row {
            with_row(joint().face)
        } else {
            joint().face
        }
    };
    let mut joint = Joint {
        face: face(first_has_row),
        other: face(second_has_row),
        ..joint()
    };
    joint.face.rows += SECOND_FACE;
    joint
}

fn result(joint: &Joint) -> FaceResult {
    let worked = work(&BUILT_IN, joint).unwrap();
    assert_eq!(worked.other, None);
    worked.face
}

/// The field that refusal 10 tells; 0 where another is told, or none.
fn field_of(joint: &Joint) -> u32 {
    match work(&BUILT_IN, joint) {
        Err(refusal) => refusal.field(),
        Ok(_) => 0,
    }
}

/// Each joint with a face or two of no rows.
fn joints() -> [Joint; 4] {
    [
        joint(),
        two_faced(false, true),
        two_faced(true, false),
        two_faced(false, false),
    ]
}

// ---- Work

#[test]
fn joint_i_with_no_rows() {
    let expected = FaceResult {
        forces: [0; 8],
        sum: 0,
        newton_metres: 0,
        cap: 407_706,
        check: Check::Buckling,
        governing_force: 407_706,
        verdicts: Verdicts {
            bending: false,
            bolts: true,
            flange_weld: true,
            web_weld: true,
        },
    };
    assert_eq!(result(&joint()), expected);
    assert_eq!(lines(&file_of(&joint())), format!("1 {WORKED}\n"));
}

#[test]
fn each_check_may_govern() {
    let cases: [(fn(&mut Joint), Check, u64); 4] = [
        (
            |joint| joint.face.beam.width = 500,
            Check::Flange,
            7 * 275 * 118 * 500 / 500,
        ),
        (|joint| joint.column.clear = 500, Check::Bearing, 520_872),
        (|_| (), Check::Buckling, 407_706),
        (
            |joint| joint.column.depth = 1000,
            Check::Panel,
            3 * 275 * 96 * 1000 / 500,
        ),
    ];
    for (change, check, force) in cases {
        let result = result(&with(change));
        assert_eq!((result.check, result.governing_force), (check, force));
        assert_eq!((result.cap, result.forces, result.sum), (force, [0; 8], 0));
    }
}

/// 0 is at least 20000M − N(Db − Tb), where Db − Tb is 2953.
#[test]
fn bending_with_no_moment_of_its_own() {
    let passes = |axial: i32, moment: u32| {
        let joint = with(|joint| {
            joint.face.loads.axial = axial;
            joint.face.loads.moment = moment;
        });
        result(&joint).verdicts.bending
    };
    assert!(passes(0, 0));
    assert!(!passes(0, 1));
    assert!(!passes(-1, 0));
    assert!(passes(1, 0));
    // 20000 newtons at that arm are 20000 × 2953
    assert!(passes(20000, 2953));
    assert!(!passes(19999, 2953));
    assert!(!passes(20000, 2954));
}

/// Of M20 8.8 two carry 2 × 2450 × 375 ÷ 10 = 183750 in shear.
#[test]
fn bolts_are_the_shear_rows_alone() {
    let passes = |shear_rows: u32, shear: u32| {
        let joint = with(|joint| {
            joint.face.shear_rows = shear_rows;
            joint.face.loads.shear = shear;
        });
        result(&joint).verdicts.bolts
    };
    assert!(passes(0, 0));
    assert!(!passes(0, 1));
    for rows in 1..=8 {
        assert!(passes(rows, rows * 183_750));
        assert!(!passes(rows, rows * 183_750 + 1));
    }
}

/// With this leg it would fail with a row's force.
#[test]
fn the_flange_weld_has_no_force_to_carry() {
    let joint = with(|joint| {
        joint.face.welds.flange = 30;
        joint.face.beam.width = 500;
        joint.column.radius = 400;
        joint.column.flange = 500;
        joint.face.layout.gauge = 1000;
    });
    assert!(result(&joint).verdicts.flange_weld);
    let mut pulled = Joint {
        face: with_row(joint.face),
        ..joint
    };
    pulled.face.loads.axial = -10_000_000;
    assert!(!result(&pulled).verdicts.flange_weld);
}

#[test]
fn the_web_weld_as_ever() {
    // 14 × 60 × 200 × 220 ÷ 1000
    let passes = |shear: u32| {
        let joint = with(|joint| {
            joint.face.welds.length = 200;
            joint.face.loads.shear = shear;
        });
        result(&joint).verdicts.web_weld
    };
    assert!(passes(36_960));
    assert!(!passes(36_961));
}

/// Flange and plate too thick for the bolts: there is no row to limit.
#[test]
fn the_triangle_adds_nothing() {
    let thick = with(|joint| {
        joint.column.flange = 500;
        joint.face.plate.thickness = 500;
    });
    let result = result(&thick);
    assert_eq!((result.forces, result.sum), ([0; 8], 0));
    assert!(result.cap > 0);
}

#[test]
fn bolts_of_another_size() {
    assert_eq!(
        refusal(&with(|joint| joint.bolts.diameter = 22)),
        (10, 4, 0)
    );
    let mut table = BUILT_IN;
    table.diameters[0] = 22;
    table.count = 1;
    let m22 = with(|joint| {
        joint.bolts.diameter = 22;
        joint.face.loads.shear = 63_225;
    });
    let bolts = |joint: &Joint| work(&table, joint).unwrap().face.verdicts.bolts;
    // 2 × 843 × 375 ÷ 10
    assert!(bolts(&m22));
    let mut one_more = m22;
    one_more.face.loads.shear += 1;
    assert!(!bolts(&one_more));
}

// ---- Work, refused

#[test]
fn work_10_no_row_above_the_flange() {
    let extended = |edge: u32| {
        with(|joint| {
            joint.face.extended = 1;
            joint.face.layout.edge = edge;
        })
    };
    for edge in [0, 150, 500] {
        assert_eq!(refusal(&extended(edge)), (10, 2, 0));
    }
    assert_eq!(field_of(&with(|joint| joint.face.extended = 2)), 2);
    assert_eq!(field_of(&with(|joint| joint.face.layout.edge = 150)), 21);
    // told in field order
    let mut joint = extended(500);
    joint.bolts.class = 0;
    joint.face.levers[0] = 2400;
    assert_eq!(field_of(&joint), 2);
    joint.face.rows = 9;
    assert_eq!(field_of(&joint), 1);
    // with a row field 2 is in range
    joint.face.rows = 1;
    assert_eq!(field_of(&joint), 3);
}

#[test]
fn work_10_every_lever_is_spare() {
    for row in 0..8 {
        for lever in [1, 2400, u32::MAX] {
            let joint = with(|joint| joint.face.levers[row] = lever);
            assert_eq!(refusal(&joint), (10, 31 + row as u32, 0));
        }
    }
    assert_eq!(
        field_of(&with(|joint| joint.face.levers = [0, 0, 0, 7, 0, 7, 0, 0])),
        34
    );
}

/// 11, 19 and 12 have nothing to ask.
#[test]
fn work_refuses_by_13_and_then_15() {
    let mut joint = with(|joint| {
        joint.face.layout.gauge = 399;
        joint.face.loads.axial = 407_707;
        joint.face.layout.alpha = 0;
    });
    assert_eq!(refusal(&joint), (10, 22, 0));
    joint.face.layout.alpha = 600;
    assert_eq!(refusal(&joint), (13, 0, 0));
    joint.face.layout.gauge = 400;
    assert_eq!(refusal(&joint), (15, 0, 0));
    joint.face.loads.axial = 407_706;
    assert_eq!(result(&joint).cap, 0);
}

#[test]
fn work_13_at_its_edges() {
    // e = 5(B − 900); m is at its edge above
    for change in [
        (|joint, width| joint.column.width = width) as fn(&mut Joint, u32),
        |joint, width| joint.face.plate.width = width,
    ] {
        assert!(work(&BUILT_IN, &with(|joint| change(joint, 1100))).is_ok());
        assert_eq!(refusal(&with(|joint| change(joint, 1099))), (13, 0, 0));
    }
}

// ---- Two faces

#[test]
fn on_the_first_the_second_or_both() {
    for (first_has_row, second_has_row) in [(false, true), (true, false), (false, false)] {
        let worked = work(&BUILT_IN, &two_faced(first_has_row, second_has_row)).unwrap();
        let other = worked.other.unwrap();
        let alone = |has_row: bool| if has_row { 219_345 } else { 0 };
        assert_eq!(
            [worked.face.sum, other.face.sum],
            [alone(first_has_row), alone(second_has_row)]
        );
        assert_eq!([worked.face.cap, other.face.cap], [407_706, 407_706]);
        assert!(other.panel_passes);
    }
}

/// What a face with no rows brings to the panel is its N. 3 × 275 × 96 × 1000 ÷ 500 = 158400.
#[test]
fn the_panel_at_its_edge() {
    let passes = |first: i32, second: i32| {
        let mut joint = two_faced(false, false);
        joint.column.depth = 1000;
        joint.face.loads.axial = first;
        joint.other.loads.axial = second;
        work(&BUILT_IN, &joint).unwrap().other.unwrap().panel_passes
    };
    for (low, high) in [(0, 158_400), (-158_400, 0), (-58_400, 100_000)] {
        assert!(passes(low, high) && passes(high, low));
        assert!(!passes(low - 1, high) && !passes(high, low - 1));
    }
}

#[test]
fn refusals_of_either_face() {
    let mut joint = two_faced(false, false);
    assert!(work(&BUILT_IN, &joint).is_ok());
    joint.other.levers[7] = 1;
    assert_eq!(refusal(&joint), (10, 38, 2));
    joint.other.extended = 1;
    assert_eq!(refusal(&joint), (10, 2, 2));
    joint.face.layout.gauge = 399;
    assert_eq!(refusal(&joint), (13, 0, 1));
    joint.face.levers[0] = 2400;
    assert_eq!(refusal(&joint), (10, 31, 1));
    joint.face.extended = 1;
    assert_eq!(refusal(&joint), (10, 2, 1));
}

/// 16 tells of a second face, 0 of none, and neither 15 nor 25 of any.
#[test]
fn row_counts_about_those_of_no_rows() {
    let first = |rows: u32| {
        let mut joint = two_faced(false, false);
        joint.face.rows = rows;
        joint
    };
    assert!(work(&BUILT_IN, &first(16)).unwrap().other.is_some());
    assert!(work(&BUILT_IN, &first(0)).unwrap().other.is_none());
    for rows in [9, 15, 25] {
        assert_eq!(refusal(&first(rows)), (10, 1, 0));
    }
    assert_eq!(refusal(&first(24)), (10, 31, 1));
    assert_eq!(refusal(&first(8)), (10, 31, 0));
    let second = |rows: u32| {
        let mut joint = two_faced(false, false);
        joint.other.rows = rows;
        joint
    };
    for rows in [9, 16, 24] {
        assert_eq!(refusal(&second(rows)), (10, 1, 2));
    }
    assert_eq!(refusal(&second(8)), (10, 31, 2));
}

// ---- Files

#[test]
fn files_of_both_kinds_are_read_back() {
    for joint in joints() {
        assert_read_back(&joint);
    }
}

#[test]
fn the_shortest_files() {
    let mut fields = [0; 66];
    for (rows, length) in [(0, 30), (SECOND_FACE, 50)] {
        fields[0] = rows;
        let joint = Joint::from_fields(&fields);
        assert_eq!(
            file_of(&joint),
            [&[rows as u8][..], &vec![0; length - 1]].concat()
        );
        assert_eq!(read(&file_of(&joint), FileKind::New), Ok((joint, &[][..])));
    }
}

#[test]
fn read_3_about_the_counts_of_no_rows() {
    for kind in KINDS {
        for count in [0, 8, 16, 24] {
            assert_eq!(read(&[count], kind), Err(ReadRefusal::BytesEnd));
        }
        for count in [9, 15, 25] {
            assert_eq!(read(&[count], kind), Err(ReadRefusal::RowCount));
        }
        let file = file_of_kind(&two_faced(false, false), kind);
        let first = &file[..if kind == FileKind::Old { 47 } else { 49 }];
        for count in [0, 8] {
            let cut = [first, &[count]].concat();
            assert_eq!(read(&cut, kind), Err(ReadRefusal::BytesEnd));
        }
        for count in [9, 16, 17] {
            let cut = [first, &[count]].concat();
            assert_eq!(read(&cut, kind), Err(ReadRefusal::RowCount));
        }
    }
}

#[test]
fn write_refuses_in_order_and_leaves_the_buffer() {
    let refused = |joint: &Joint, length: usize| {
        let mut buffer = vec![7; length];
        let refusal = write(joint, &mut buffer).unwrap_err();
        assert_eq!(buffer, vec![7; length]);
        refusal
    };
    for joint in joints() {
        let length = file_of(&joint).len();
        assert_eq!(refused(&joint, length - 1), WriteRefusal::ShortBuffer);
        let mut buffer = vec![7; length + 1];
        assert_eq!(write(&joint, &mut buffer), Ok(length));
        assert_eq!(buffer[length], 7);
    }
    for row in 0..8 {
        let spare = with(|joint| joint.face.levers[row] = 1);
        assert_eq!(refused(&spare, 400), WriteRefusal::SpareLever);
        let mut spare_of_second = two_faced(false, false);
        spare_of_second.other.levers[row] = 1;
        assert_eq!(refused(&spare_of_second, 0), WriteRefusal::SpareLever);
        spare_of_second.face.rows = 25;
        assert_eq!(refused(&spare_of_second, 0), WriteRefusal::RowCount);
    }
}

// ---- Allocate

#[test]
fn allocate_with_no_rows() {
    let too_large = [u64::MAX, 4_000_000_001, 1];
    for limits in [&[][..], &[5], &too_large, &[0; 45]] {
        assert_eq!(allocate(0, limits), Ok([0; 8]));
    }
    assert_eq!(allocate(16, &[]), Err(AllocateRefusal::RowCount));
}

// ---- Sheet

#[test]
fn sheet_lines_of_no_rows() {
    let row = "1 219345 219345 52642 407706 K P P P P";
    let [alone, first, second, both] = joints().map(|joint| file_of(&joint));
    let extended = file_of(&with(|joint| joint.face.extended = 1));
    let input = [&alone[..], &first, &second, &both, &extended, &[9], &alone];
    assert_eq!(
        lines(&input.concat()),
        format!(
            "1 {WORKED}\n2 {WORKED} P\n2 {row} P\n3 {row} P\n3 {WORKED} P\n4 {WORKED} P\n4 {WORKED} P\n5 R 10 2\n6 R 3\n"
        )
    );
}

/// Zeros are files of no rows, 30 bytes each.
#[test]
fn sheet_of_zeros() {
    assert_eq!(lines(&[0; 60]), "1 R 10 3\n2 R 10 3\n");
    assert_eq!(lines(&[0; 61]), "1 R 10 3\n2 R 10 3\n3 R 1\n");
}
