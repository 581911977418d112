//! Every refusal, at both ends of its condition, in joints with one face.

use reference::{
    allocate, read, rest, sheet, write, AllocateRefusal, Face, FaceResult, FileKind, Joint,
    ReadRefusal, Trouble, WriteRefusal, BUILT_IN, LONGEST_FILE,
};

const KINDS: [FileKind; 2] = [FileKind::Old, FileKind::New];

const JOINT_I: [u32; 31] = [
    1, 0, 88, 20, 275, 275, 275, 5283, 2087, 132, 96, 127, 4765, 3071, 1657, 118, 67, 2000, 200,
    900, 0, 600, 80, 60, 2000, 1, 0, 57000, 50000, 15000, 2400,
];

fn fields() -> [u32; 38] {
    let mut fields = [0; 38];
    fields[..31].copy_from_slice(&JOINT_I);
    fields
}

/// The joint worked; of a joint with one face neither answer tells of two.
fn work(joint: &Joint) -> Result<FaceResult, Trouble> {
    match reference::work(&BUILT_IN, joint) {
        Ok(result) => {
            assert_eq!(result.other, None);
            Ok(result.face)
        }
        Err(refusal) => {
            assert_eq!(refusal.face, 0);
            Err(refusal.trouble)
        }
    }
}

fn joint() -> Joint {
    Joint::one_faced(&fields())
}

fn with(change: impl FnOnce(&mut Joint)) -> Joint {
    let mut joint = joint();
    change(&mut joint);
    joint
}

fn levers(first: u32, second: u32) -> [u32; 8] {
    [first, second, 0, 0, 0, 0, 0, 0]
}

/// Joint I with a row more, at this lever.
fn second_row(lever: u32) -> Joint {
    with(|joint| {
        joint.face.rows = 2;
        joint.face.levers = levers(2400, lever);
    })
}

/// Joint I with a row above the flange.
fn extended(change: impl FnOnce(&mut Face)) -> Joint {
    with(|joint| {
        let face = &mut joint.face;
        face.rows = 2;
        face.extended = 1;
        face.layout.edge = 500;
        face.levers = levers(3500, 2400);
        change(face);
    })
}

fn with_field(number: usize, value: u32) -> Joint {
    let mut fields = fields();
    fields[number - 1] = value;
    Joint::one_faced(&fields)
}

fn file_of(joint: &Joint) -> Vec<u8> {
    let mut buffer = [0; LONGEST_FILE];
    let length = write(joint, &mut buffer).unwrap();
    buffer[..length].to_vec()
}

fn lines(input: &[u8]) -> String {
    let mut out = Vec::new();
    sheet(input, &mut out);
    String::from_utf8(out).unwrap()
}

/// The file of the kind; joint I's new one has its z of two bytes before the last two.
fn file_of_kind(kind: FileKind) -> Vec<u8> {
    let mut file = file_of(&joint());
    if kind == FileKind::Old {
        let lever = file.len() - 2;
        file.drain(lever - 2..lever);
    }
    file
}

#[test]
fn read_1_the_bytes_end() {
    for kind in KINDS {
        assert_eq!(read(&[], kind), Err(ReadRefusal::BytesEnd));
        assert_eq!(read(&[0x88], kind), Err(ReadRefusal::BytesEnd));
        assert_eq!(read(&[0x80; 4], kind), Err(ReadRefusal::BytesEnd));
        let file = file_of_kind(kind);
        for cut in 0..file.len() {
            assert_eq!(read(&file[..cut], kind), Err(ReadRefusal::BytesEnd));
        }
    }
}

#[test]
fn read_2_the_form() {
    for kind in KINDS {
        for bytes in [
            &[0x88, 0x00][..],
            &[0x80; 5],
            &[0x80, 0x80, 0x80, 0x80, 0x00],
            &[0xff, 0xff, 0xff, 0xff, 0x10],
        ] {
            assert_eq!(read(bytes, kind), Err(ReadRefusal::NumberForm));
        }
        let file = file_of_kind(kind);
        let greatest = [&file[..1], &[0xff, 0xff, 0xff, 0xff, 0x0f], &file[2..]].concat();
        assert_eq!(read(&greatest, kind).unwrap().0.face.extended, u32::MAX);
    }
}

#[test]
fn read_3_the_row_count() {
    for kind in KINDS {
        for bytes in [
            &[9][..],
            &[15],
            &[25],
            &[0x7f],
            &[0xac, 0x02],
            &[0xff, 0xff, 0xff, 0xff, 0x0f],
        ] {
            assert_eq!(read(bytes, kind), Err(ReadRefusal::RowCount));
        }
    }
}

#[test]
fn both_kinds_give_joint_i() {
    for (kind, length) in KINDS.into_iter().zip([49, 51]) {
        let file = file_of_kind(kind);
        assert_eq!(file.len(), length);
        assert_eq!(read(&file, kind), Ok((joint(), &[][..])));
    }
    // z is taken for the lever, and the lever is left
    let file = file_of_kind(FileKind::New);
    let (misread, rest) = read(&file, FileKind::Old).unwrap();
    assert_eq!(misread.face.levers[0], 15000);
    assert_eq!(rest, [0xe0, 0x12]);
    assert_eq!(
        read(&file_of_kind(FileKind::Old), FileKind::New),
        Err(ReadRefusal::BytesEnd)
    );
}

/// Read looks at no range, and the old kind at no z.
#[test]
fn any_distance_to_the_column_end_is_read() {
    for end_distance in [0, 1, 15000, 15001, u32::MAX] {
        let joint = with_field(30, end_distance);
        let file = file_of(&joint);
        assert_eq!(read(&file, FileKind::New).unwrap().0, joint);
    }
}

#[test]
fn rest_is_what_follows() {
    for kind in KINDS {
        let file = file_of_kind(kind);
        let two = [&file[..], &[1, 2, 3]].concat();
        assert_eq!(rest(&two, kind), [1, 2, 3]);
        assert!(rest(&file, kind).is_empty());
        assert!(rest(&file[1..], kind).is_empty());
    }
}

#[test]
fn write_refuses_in_order_and_leaves_the_buffer() {
    let refused = |joint: Joint, length: usize| {
        let mut buffer = vec![7; length];
        let refusal = write(&joint, &mut buffer).unwrap_err();
        assert_eq!(buffer, vec![7; length]);
        refusal
    };
    assert_eq!(refused(with_field(1, 9), 200), WriteRefusal::RowCount);
    for count in [9, 15, 25, u32::MAX] {
        assert_eq!(refused(with_field(1, count), 0), WriteRefusal::RowCount);
    }
    assert_eq!(refused(with_field(38, 1), 0), WriteRefusal::SpareLever);
    let length = file_of(&joint()).len();
    assert_eq!(refused(joint(), length - 1), WriteRefusal::ShortBuffer);
    let mut buffer = vec![7; length + 2];
    assert_eq!(write(&joint(), &mut buffer), Ok(length));
    assert_eq!(buffer[length..], [7, 7]);
    assert_eq!(read(&buffer, FileKind::New).unwrap().0, joint());
}

#[test]
fn allocate_refuses_in_order() {
    for count in [9, 16, 17, usize::MAX] {
        assert_eq!(allocate(count, &[0; 45]), Err(AllocateRefusal::RowCount));
    }
    assert_eq!(allocate(9, &[]), Err(AllocateRefusal::RowCount));
    assert_eq!(allocate(2, &[u64::MAX, 0]), Err(AllocateRefusal::FewLimits));
    assert_eq!(
        allocate(2, &[0, 0, 4_000_000_001]),
        Err(AllocateRefusal::LimitTooGreat)
    );
    assert_eq!(
        allocate(1, &[4_000_000_000, u64::MAX]),
        Ok([4_000_000_000, 0, 0, 0, 0, 0, 0, 0])
    );
}

/// The field that refusal 10 tells; 0 where another is told, or none.
fn field_of(joint: &Joint) -> u32 {
    match work(joint) {
        Err(Trouble::Field(field)) => field,
        _ => 0,
    }
}

/// Each field at both ends of its range, and one past each.
#[test]
fn work_10_ranges() {
    let ends: [(usize, u32, u32); 23] = [
        (8, 1000, 15000),
        (9, 500, 6000),
        (10, 40, 500),
        (11, 30, 400),
        (12, 0, 400),
        (13, 500, 14000),
        (14, 1000, 15000),
        (15, 500, 6000),
        (16, 40, 500),
        (17, 30, 400),
        (18, 500, 6000),
        (19, 60, 500),
        (20, 300, 3000),
        (21, 0, 0),
        (22, 400, 800),
        (23, 30, 250),
        (24, 30, 250),
        (25, 0, 15000),
        (26, 0, 8),
        (28, 0, 10_000_000),
        (29, 0, 10_000_000),
        (30, 1, 15000),
        (31, 1, 20000),
    ];
    for (number, low, high) in ends {
        for value in [low, high] {
            assert_eq!(field_of(&with_field(number, value)), 0, "field {number}");
        }
        for value in [low.wrapping_sub(1), high + 1] {
            assert_eq!(field_of(&with_field(number, value)), number as u32);
        }
    }
}

#[test]
fn work_10_other_fields() {
    for (number, value) in [
        (1, 9),
        (1, 15),
        (1, 25),
        (1, 33),
        (1, u32::MAX),
        (2, 2),
        (3, 47),
        (4, 22),
        (5, 0),
        (6, 276),
        (7, 354),
    ] {
        assert_eq!(field_of(&with_field(number, value)), number as u32);
    }
    for (axial, field) in [
        (10_000_000, 0),
        (10_000_001, 27),
        (-10_000_000, 0),
        (-10_000_001, 27),
        (i32::MIN, 27),
    ] {
        assert_eq!(field_of(&with_field(27, axial as u32)), field);
    }
    for number in 32..=38 {
        assert_eq!(field_of(&with_field(number, 1)), number as u32);
    }
    for (edge, field) in [(149, 21), (150, 0), (2000, 0), (2001, 21), (0, 21)] {
        assert_eq!(field_of(&extended(|face| face.layout.edge = edge)), field);
    }
    let refusal = reference::work(&BUILT_IN, &with_field(3, 47)).unwrap_err();
    assert_eq!((refusal.number(), refusal.field()), (10, 3));
}

/// Field 30 is told after field 29 and before the levers.
#[test]
fn work_10_the_column_end_in_its_place() {
    let mut fields = fields();
    (fields[28], fields[29], fields[30]) = (10_000_001, 0, 0);
    assert_eq!(field_of(&Joint::one_faced(&fields)), 29);
    fields[28] = 0;
    assert_eq!(field_of(&Joint::one_faced(&fields)), 30);
    fields[29] = 15000;
    assert_eq!(field_of(&Joint::one_faced(&fields)), 31);
}

#[test]
fn work_11_lever_order() {
    assert_eq!(work(&second_row(2399)), Err(Trouble::RowsTooClose));
    assert_eq!(work(&second_row(2400)), Err(Trouble::LeverOrder));
    assert_eq!(work(&second_row(2401)), Err(Trouble::LeverOrder));
}

#[test]
fn work_19_rows_too_close() {
    // M20: 25δ = 500
    assert!(work(&second_row(1900)).is_ok());
    assert_eq!(work(&second_row(1901)), Err(Trouble::RowsTooClose));
    // an extension row and the one below it
    let extension = |lever| extended(|face| face.levers = levers(lever, 2893));
    assert!(work(&extension(3393)).is_ok());
    assert_eq!(work(&extension(3392)), Err(Trouble::RowsTooClose));
    // the last pair of eight
    let eighth = |lever| {
        with(|joint| {
            joint.bolts.diameter = 12;
            joint.face.plate.thickness = 100;
            joint.face.rows = 8;
            joint.face.levers = [2800, 2500, 2200, 1900, 1600, 1300, 1000, lever];
        })
    };
    assert!(work(&eighth(700)).is_ok());
    assert_eq!(work(&eighth(701)), Err(Trouble::RowsTooClose));
}

#[test]
fn work_12_row_place() {
    // 2Db − 3Tb = 5788, 2Db − Tb = 6024
    assert!(work(&with_field(31, 2893)).is_ok());
    assert_eq!(work(&with_field(31, 2894)), Err(Trouble::RowPlace));
    let worked = |first, second| work(&extended(|face| face.levers = levers(first, second)));
    assert!(worked(3500, 2893).is_ok());
    assert_eq!(worked(3012, 2400), Err(Trouble::RowPlace));
    assert_eq!(worked(3013, 2400), Err(Trouble::TooTight));
    assert_eq!(worked(3500, 2894), Err(Trouble::RowPlace));
}

#[test]
fn work_13_too_tight() {
    // column m = 5(900 − tc) − 8×127, plate m = 5(900 − tb) − 480, e = 5(B − 900), mx = 10h − 30760
    let tight = |joint: Joint| work(&joint) == Err(Trouble::TooTight);
    let column_m = |gauge| with(|joint| joint.face.layout.gauge = gauge);
    assert!(!tight(column_m(400)));
    assert!(tight(column_m(399)));
    let plate_m = |gauge| {
        with(|joint| {
            joint.face.layout.gauge = gauge;
            joint.face.beam.web = 400;
            joint.column.radius = 0;
        })
    };
    assert!(!tight(plate_m(596)));
    assert!(tight(plate_m(595)));
    let column_e = |width| with(|joint| joint.column.width = width);
    assert!(!tight(column_e(1100)));
    assert!(tight(column_e(1099)));
    let plate_e = |width| with(|joint| joint.face.plate.width = width);
    assert!(!tight(plate_e(1100)));
    assert!(tight(plate_e(1099)));
    let mx = |lever| extended(|face| face.levers[0] = lever);
    assert!(tight(mx(3125)));
    assert!(!tight(mx(3126)));
}

/// Every trouble at once, put right one after the other.
#[test]
fn work_refuses_in_order() {
    let mut joint = with(|joint| {
        joint.face.rows = 2;
        joint.face.layout.gauge = 300;
        joint.face.layout.alpha = 0;
        joint.face.loads.axial = 10_000_000;
        joint.face.levers = levers(9000, 9000);
    });
    assert_eq!(work(&joint), Err(Trouble::Field(22)));
    joint.face.layout.alpha = 600;
    assert_eq!(work(&joint), Err(Trouble::LeverOrder));
    joint.face.levers = levers(9000, 8999);
    assert_eq!(work(&joint), Err(Trouble::RowsTooClose));
    joint.face.levers = levers(9000, 2400);
    assert_eq!(work(&joint), Err(Trouble::RowPlace));
    joint.face.levers = levers(2500, 1000);
    assert_eq!(work(&joint), Err(Trouble::TooTight));
    joint.face.layout.gauge = 900;
    assert_eq!(work(&joint), Err(Trouble::Compression));
    joint.face.loads.axial = 0;
    assert!(work(&joint).is_ok());
}

#[test]
fn sheet_goes_on_and_ends() {
    let good = file_of(&joint());
    let out_of_range = file_of(&with_field(22, 0));
    let compressed = file_of(&with_field(27, 407_707));
    let worked = "1 219345 219345 52642 407706 K P P P P";
    assert_eq!(
        lines(&[&good[..], &out_of_range, &compressed, &good, &[9], &good].concat()),
        format!("1 {worked}\n2 R 10 22\n3 R 15\n4 {worked}\n5 R 3\n")
    );
    assert_eq!(
        lines(&[&good[..], &good[..5]].concat()),
        format!("1 {worked}\n2 R 1\n")
    );
}

#[test]
fn sheet_of_no_input_and_too_much() {
    assert_eq!(lines(&[]), "");
    assert_eq!(lines(&[9; 65536]), "1 R 3\n");
    assert_eq!(lines(&[9; 65537]), "R 4\n");
}
