//! Which cases an input and its answer are, for the tally.

use crate::tally::Tally;
use reference::{
    forces_without_triangle, greatest_area, is_too_thick, minimum_pitch, moment, panel_shear,
    AllocateRefusal, BoltTable, Check, Column, Face, FaceResult, FileKind, Joint, JointResult,
    LoadRefusal, OtherResult, Plate, Raise, ReadRefusal, Trouble, Verdicts, WorkRefusal,
    WriteRefusal, GREATEST_LIMIT, LONGEST_INPUT, ROWS, SECOND_FACE, SIZES,
};
use sample::{goes_by_triangle, LimitTable};

// ---- Work

pub fn count_worked(
    table: &BoltTable,
    joint: &Joint,
    worked: &Result<JointResult, WorkRefusal>,
    tally: &mut Tally,
) {
    let result = match worked {
        Ok(result) => result,
        Err(refusal) => return count_refusal(joint, refusal, tally),
    };
    count_faces_with_no_rows(joint, &WORKED_WITH_NO_ROWS, tally);
    let Some(other) = &result.other else {
        tally.count("work: worked");
        if joint.other != Face::default() {
            tally.count("work: worked, with something in the second face");
        }
        tally.count_rows(0, joint.face.rows);
        count_triangle(table, joint, &joint.face, &result.face, tally);
        return count_face(joint, &joint.face, &result.face, tally);
    };
    tally.count("work, two faces: worked");
    let first = joint.first_of_two();
    tally.count_rows(1, first.rows);
    tally.count_rows(2, joint.other.rows);
    count_face(joint, &first, &result.face, tally);
    count_face(joint, &joint.other, &other.face, tally);
    count_triangle(table, joint, &first, &result.face, tally);
    count_triangle(table, joint, &joint.other, &other.face, tally);
    count_triangles_of_two(joint, tally);
    count_panel(joint, &result.face, other, tally);
}

/// What a joint with no rows is counted as: on its only face, on the first of two alone, on the second alone, on both.
type NoRows = [&'static str; 4];

const WORKED_WITH_NO_ROWS: NoRows = [
    "work, no rows: worked",
    "work, two faces: no rows on the first",
    "work, two faces: no rows on the second",
    "work, two faces: no rows on both",
];

/// Of a joint whose row counts are in range.
fn count_faces_with_no_rows(joint: &Joint, cases: &NoRows, tally: &mut Tally) {
    let case = match (joint.face.rows, joint.other.rows) {
        (0, _) => 0,
        (SECOND_FACE, 0) => 3,
        (SECOND_FACE, _) => 1,
        (_, 0) if joint.is_two_faced() => 2,
        _ => return,
    };
    tally.count(cases[case]);
}

fn count_refusal(joint: &Joint, refusal: &WorkRefusal, tally: &mut Tally) {
    if refused_face(joint, refusal).rows == 0 {
        count_refusal_with_no_rows(refusal.trouble, tally);
    }
    match refusal.trouble {
        Trouble::Field(field) => tally.count_field(refusal.face, field),
        Trouble::RowsTooClose => {
            count_too_close(joint.bolts.diameter, &refused_face(joint, refusal), tally)
        }
        Trouble::Compression if goes_by_triangle(joint, &refused_face(joint, refusal)) => {
            tally.count("work: refusal 15 in the triangle");
        }
        _ => {}
    }
    tally.count(match refusal.face {
        0 => refusal_case(refusal.trouble),
        1 => refusal_case_of_first(refusal.trouble),
        _ => refusal_case_of_second(refusal.trouble),
    });
}

fn count_refusal_with_no_rows(trouble: Trouble, tally: &mut Tally) {
    tally.count(match trouble {
        Trouble::Field(2) => "work, no rows: refusal 10 by field 2",
        Trouble::Field(31..) => "work, no rows: refusal 10 by a lever",
        Trouble::TooTight => "work, no rows: refusal 13",
        Trouble::Compression => "work, no rows: refusal 15",
        _ => "work, no rows: refusal 10 by another field",
    });
}

/// As it is worked, without the mark of a second.
fn refused_face(joint: &Joint, refusal: &WorkRefusal) -> Face {
    match refusal.face {
        0 => joint.face,
        1 => joint.first_of_two(),
        _ => joint.other,
    }
}

/// How far each row is below the one above it; the levers fall.
fn pitches(face: &Face) -> Vec<u32> {
    let levers = &face.levers[..face.row_count()];
    levers.windows(2).map(|pair| pair[0] - pair[1]).collect()
}

fn count_too_close(diameter: u32, face: &Face, tally: &mut Tally) {
    let least = minimum_pitch(diameter);
    let pitches = pitches(face);
    if pitches.iter().min() == Some(&(least - 1)) {
        tally.count("work: rows one step closer than 25δ");
    }
    if face.is_extended() && pitches[1..].iter().all(|&pitch| pitch >= least) {
        tally.count("work: only the extension row too close");
    }
    let under_flange = &face.levers[face.extended as usize..face.row_count()];
    let is_out_of_place = |lever: &u32| 2 * lever + 3 * face.beam.flange >= 2 * face.beam.depth;
    if under_flange.iter().any(is_out_of_place) {
        tally.count("work: 19 before 12");
    }
}

/// Rows as close as they may stand.
fn count_apart(diameter: u32, face: &Face, tally: &mut Tally) {
    let least = minimum_pitch(diameter);
    let pitches = pitches(face);
    if pitches.contains(&least) {
        tally.count("work: rows 25δ apart");
    }
    if face.is_extended() && pitches.first() == Some(&least) {
        tally.count("work: extension row 25δ from the next");
    }
}

fn refusal_case(trouble: Trouble) -> &'static str {
    match trouble {
        Trouble::Field(_) => "work: refusal 10",
        Trouble::LeverOrder => "work: refusal 11",
        Trouble::RowsTooClose => "work: refusal 19",
        Trouble::RowPlace => "work: refusal 12",
        Trouble::TooTight => "work: refusal 13",
        Trouble::Compression => "work: refusal 15",
    }
}

fn refusal_case_of_first(trouble: Trouble) -> &'static str {
    match trouble {
        Trouble::Field(_) => "work, two faces: refusal 10 of the first",
        Trouble::LeverOrder => "work, two faces: refusal 11 of the first",
        Trouble::RowsTooClose => "work, two faces: refusal 19 of the first",
        Trouble::RowPlace => "work, two faces: refusal 12 of the first",
        Trouble::TooTight => "work, two faces: refusal 13 of the first",
        Trouble::Compression => "work, two faces: refusal 15 of the first",
    }
}

fn refusal_case_of_second(trouble: Trouble) -> &'static str {
    match trouble {
        Trouble::Field(_) => "work, two faces: refusal 10 of the second",
        Trouble::LeverOrder => "work, two faces: refusal 11 of the second",
        Trouble::RowsTooClose => "work, two faces: refusal 19 of the second",
        Trouble::RowPlace => "work, two faces: refusal 12 of the second",
        Trouble::TooTight => "work, two faces: refusal 13 of the second",
        Trouble::Compression => "work, two faces: refusal 15 of the second",
    }
}

fn count_face(joint: &Joint, face: &Face, result: &FaceResult, tally: &mut Tally) {
    tally.count(if face.is_extended() {
        "work: extended"
    } else {
        "work: flush"
    });
    count_result(result, &OF_ANY_FACE, tally);
    if face.rows == 0 {
        count_face_with_no_rows(joint, face, result, tally);
    }
    if result.sum == result.cap {
        tally.count("work: limited by the cap");
    }
    count_apart(joint.bolts.diameter, face, tally);
    count_column_end(&joint.column, result.check, tally);
}

fn count_face_with_no_rows(joint: &Joint, face: &Face, result: &FaceResult, tally: &mut Tally) {
    count_result(result, &OF_NO_ROWS, tally);
    if 14 * face.welds.flange < 10 * face.beam.flange {
        tally.count("work, no rows: the flange weld's leg alone isn't enough");
    }
    if goes_by_triangle(joint, face) {
        tally.count("work, no rows: flange and plate both too thick");
    }
    if result.cap == 0 {
        tally.count("work, no rows: N is the governing force");
    }
}

/// What a result is counted as: by the check that governs, and by each verdict, passing first.
struct ResultCases {
    checks: [&'static str; 4],
    verdicts: [[&'static str; 2]; 4],
}

const OF_ANY_FACE: ResultCases = ResultCases {
    checks: [
        "work: governed by F",
        "work: governed by B",
        "work: governed by K",
        "work: governed by S",
    ],
    verdicts: [
        ["work: bending passes", "work: bending fails"],
        ["work: bolts pass", "work: bolts fail"],
        ["work: flange weld passes", "work: flange weld fails"],
        ["work: web weld passes", "work: web weld fails"],
    ],
};

const OF_NO_ROWS: ResultCases = ResultCases {
    checks: [
        "work, no rows: governed by F",
        "work, no rows: governed by B",
        "work, no rows: governed by K",
        "work, no rows: governed by S",
    ],
    verdicts: [
        [
            "work, no rows: bending passes",
            "work, no rows: bending fails",
        ],
        ["work, no rows: bolts pass", "work, no rows: bolts fail"],
        [
            "work, no rows: flange weld passes",
            "work, no rows: flange weld fails",
        ],
        [
            "work, no rows: web weld passes",
            "work, no rows: web weld fails",
        ],
    ],
};

fn count_result(result: &FaceResult, cases: &ResultCases, tally: &mut Tally) {
    tally.count(cases.checks[result.check as usize]);
    let Verdicts {
        bending,
        bolts,
        flange_weld,
        web_weld,
    } = result.verdicts;
    for (passes, [passing, failing]) in [bending, bolts, flange_weld, web_weld]
        .into_iter()
        .zip(cases.verdicts)
    {
        tally.count(if passes { passing } else { failing });
    }
}

/// What the triangle did to a face's rows, or that only one part is too thick.
fn count_triangle(
    table: &BoltTable,
    joint: &Joint,
    face: &Face,
    result: &FaceResult,
    tally: &mut Tally,
) {
    if !goes_by_triangle(joint, face) {
        return count_one_thick(joint, face, tally);
    }
    tally.count(if face.is_extended() {
        "work: triangle, extended"
    } else {
        "work: triangle, flush"
    });
    let reference = face.row_under_flange();
    if face.row_count() <= reference + 1 {
        tally.count("work: triangle, no row below the reference");
    } else if result.forces[reference] == 0 {
        tally.count("work: triangle, the reference row has no force");
    }
    if result.sum == result.cap {
        tally.count("work: triangle, limited by the cap");
    }
    let Joint { column, bolts, .. } = joint;
    let without = forces_without_triangle(table, column, bolts, face, result.cap);
    let mut rows = result.forces.iter().zip(without);
    if rows.clone().any(|(&force, without)| force < without) {
        tally.count("work: triangle, an added limit sets a row");
    }
    if rows.any(|(&force, without)| force > without) {
        tally.count("work: triangle, a row gets more than without it");
    }
}

fn count_one_thick(joint: &Joint, face: &Face, tally: &mut Tally) {
    let Joint { column, bolts, .. } = joint;
    let Plate {
        grade, thickness, ..
    } = face.plate;
    let flange = |step: u32| is_too_thick(bolts, column.grade, column.flange + step);
    let plate = |step: u32| is_too_thick(bolts, grade, thickness + step);
    match (flange(0), plate(0)) {
        (true, _) => tally.count("work: the column flange alone too thick"),
        (_, true) => tally.count("work: the plate alone too thick"),
        _ => {}
    }
    if flange(1) && plate(1) {
        tally.count("work: one step of thickness short of the triangle");
    }
}

fn count_triangles_of_two(joint: &Joint, tally: &mut Tally) {
    match [joint.face, joint.other].map(|face| goes_by_triangle(joint, &face)) {
        [true, false] => tally.count("work, two faces: the first in the triangle"),
        [false, true] => tally.count("work, two faces: the second in the triangle"),
        [true, true] => tally.count("work, two faces: both in the triangle"),
        [false, false] => {}
    }
}

/// Where the column end stands to 0.7dc.
fn count_column_end(column: &Column, check: Check, tally: &mut Tally) {
    let end = 10 * column.end_distance;
    let edge = 7 * column.clear;
    if end < edge {
        tally.count("work: buckling reduced near the column end");
        if check == Check::Buckling {
            tally.count("work: governed by reduced buckling");
        }
        if edge - end <= 10 {
            tally.count("work: column end one step nearer than 0.7dc");
        }
    } else if end == edge {
        tally.count("work: column end at 0.7dc");
    } else if end - edge <= 10 {
        tally.count("work: column end one step past 0.7dc");
    }
}

/// How the two totals stand to panel shear.
fn count_panel(joint: &Joint, first: &FaceResult, other: &OtherResult, tally: &mut Tally) {
    let panel = panel_shear(&joint.column);
    let totals = [
        first.sum as i64 + i64::from(joint.face.loads.axial),
        other.face.sum as i64 + i64::from(joint.other.loads.axial),
    ];
    tally.count(if other.panel_passes {
        "work, two faces: panel passes"
    } else {
        "work, two faces: panel fails"
    });
    let difference = totals[0].abs_diff(totals[1]);
    if difference == panel || difference == panel + 1 {
        tally.count(match (difference == panel, totals[0] > totals[1]) {
            (true, true) => "work, two faces: the first total greater by panel shear",
            (true, false) => "work, two faces: the second total greater by panel shear",
            (false, true) => "work, two faces: the first total greater by one newton more",
            (false, false) => "work, two faces: the second total greater by one newton more",
        });
        if totals.iter().any(|&total| total < 0) {
            tally.count("work, two faces: panel at its edge with a total below 0");
        }
    }
    if panel < first.governing_force.min(other.face.governing_force) {
        tally.count("work, two faces: panel shear below both governing forces");
    }
}

/// Which table the joint was worked by, other than the one built in.
pub fn count_own_table(
    table: &BoltTable,
    joint: &Joint,
    worked: &Result<JointResult, WorkRefusal>,
    tally: &mut Tally,
) {
    let faces = [joint.face, joint.other];
    let faces = &faces[..if joint.is_two_faced() { 2 } else { 1 }];
    if worked.is_ok() && faces.iter().any(|face| goes_by_triangle(joint, face)) {
        tally.count("work, own table: a face in the triangle");
    }
    match worked {
        Ok(result) if result.other.is_some() => tally.count("work, own table, two faces: worked"),
        Ok(_) => tally.count("work, own table: worked"),
        Err(refusal) if refusal.trouble == Trouble::Field(4) => {
            count_unlisted(table, joint.bolts.diameter, tally);
        }
        Err(refusal) if refusal.trouble == Trouble::RowsTooClose => {
            tally.count("work, own table: refusal 19");
        }
        Err(_) => {}
    }
}

/// Why the table has no such size.
fn count_unlisted(table: &BoltTable, diameter: u32, tally: &mut Tally) {
    let (listed, spare) = table.diameters.split_at(SIZES.min(table.count as usize));
    tally.count(match (table.check(), listed.contains(&diameter)) {
        (Ok(()), _) if spare.contains(&diameter) => "work, own table: field 4 is past the count",
        (Ok(()), _) => "work, own table: field 4 is none of its sizes",
        (Err(_), false) => "work, own table: a refused one without field 4",
        (Err(LoadRefusal::OutOfRange), true) => "work, own table: one refused by 16 has field 4",
        (Err(LoadRefusal::NotRising), true) => "work, own table: one refused by 17 has field 4",
        (Err(LoadRefusal::AreaTooGreat), true) => "work, own table: one refused by 18 has field 4",
    });
}

// ---- Load

pub fn count_loaded(table: &BoltTable, loaded: &Result<(), LoadRefusal>, tally: &mut Tally) {
    let count = table.count as usize;
    match loaded {
        Ok(()) => {
            tally.count("load: taken");
            let spare = [&table.diameters[count..], &table.areas[count..]].concat();
            if spare.iter().any(|&number| number != 0) {
                tally.count("load: taken, with something past the count");
            }
        }
        Err(LoadRefusal::OutOfRange) => count_out_of_range(table, tally),
        Err(LoadRefusal::NotRising) => tally.count("load: refusal 17"),
        Err(LoadRefusal::AreaTooGreat) => tally.count("load: refusal 18"),
    }
    if (1..=SIZES).contains(&count) {
        count_order(
            &table.diameters[..count],
            &table.areas[..count],
            loaded,
            tally,
        );
    }
}

fn count_out_of_range(table: &BoltTable, tally: &mut Tally) {
    let count = table.count as usize;
    tally.count(if !(1..=SIZES).contains(&count) {
        "load: refusal 16 by the count"
    } else if table.diameters[..count]
        .iter()
        .any(|&diameter| !(6..=64).contains(&diameter))
    {
        "load: refusal 16 by a diameter"
    } else {
        "load: refusal 16 by an area"
    });
}

/// Where a later refusal holds as well as the one that is told.
fn count_order(
    diameters: &[u32],
    areas: &[u32],
    loaded: &Result<(), LoadRefusal>,
    tally: &mut Tally,
) {
    let falls = diameters.windows(2).any(|pair| pair[0] >= pair[1]);
    let mut sizes = diameters.iter().zip(areas);
    let is_too_great =
        |(&diameter, &area): (&u32, &u32)| diameter <= 64 && area > greatest_area(diameter);
    let too_great = sizes.any(is_too_great);
    match loaded {
        Err(LoadRefusal::OutOfRange) if falls => tally.count("load: 16 before 17"),
        Err(LoadRefusal::OutOfRange) if too_great => tally.count("load: 16 before 18"),
        Err(LoadRefusal::NotRising) if too_great => tally.count("load: 17 before 18"),
        _ => {}
    }
}

// ---- Allocate

pub fn count_allocated(
    table: &LimitTable,
    allocated: &Result<[u64; ROWS], AllocateRefusal>,
    tally: &mut Tally,
) {
    if let Err(AllocateRefusal::RowCount) = allocated {
        tally.count_refused_rows("allocate", table.count);
    }
    tally.count(match allocated {
        Ok(_) if table.count == 0 => case_of_no_rows(&table.limits),
        Ok(_) => "allocate: shared",
        Err(AllocateRefusal::RowCount) => "allocate: refusal 3",
        Err(AllocateRefusal::FewLimits) => "allocate: refusal 7",
        Err(AllocateRefusal::LimitTooGreat) => "allocate: refusal 8",
    });
}

/// Any limits are further ones.
fn case_of_no_rows(limits: &[u64]) -> &'static str {
    if limits.is_empty() {
        "allocate, no rows: no limits"
    } else if limits.iter().any(|&limit| limit > GREATEST_LIMIT) {
        "allocate, no rows: further limits, one above the greatest"
    } else {
        "allocate, no rows: further limits"
    }
}

/// How far one limit, raised, moved the forces; the levers fall.
pub fn count_raise(
    raise: &Raise,
    levers: &[u64],
    before: &[u64],
    after: &[u64],
    tally: &mut Tally,
) {
    if before == after {
        tally.count("raised: nothing moved");
        return;
    }
    tally.count("raised: something moved");
    let rise = moment(levers, after) - moment(levers, before);
    let at_lever_of = |row: usize| u128::from(raise.newtons) * u128::from(levers[row]);
    if after.iter().sum::<u64>() == before.iter().sum::<u64>() + raise.newtons {
        tally.count("raised: the whole sum by all of it");
    }
    if rise == at_lever_of(raise.first) {
        tally.count("raised: Z by all of it at the first row's lever");
    }
    if rise > at_lever_of(raise.last) {
        tally.count("raised: Z by more than the last row's lever allows");
    }
    if before.iter().zip(after).any(|(low, high)| high < low) {
        tally.count("raised: a row lost force");
    }
    if before[..=raise.first] == after[..=raise.first] {
        tally.count("raised: the group's first row didn't move, others did");
    }
}

// ---- Write and Read

const WRITTEN_WITH_NO_ROWS: NoRows = [
    "write, no rows: file",
    "write, two faces: file, no rows on the first",
    "write, two faces: file, no rows on the second",
    "write, two faces: file, no rows on both",
];

const READ_WITH_NO_ROWS: NoRows = [
    "read, no rows: joint",
    "read, two faces: joint, no rows on the first",
    "read, two faces: joint, no rows on the second",
    "read, two faces: joint, no rows on both",
];

const READ_OLD_WITH_NO_ROWS: NoRows = [
    "read, no rows, old kind: joint",
    "read, two faces, old kind: joint, no rows on the first",
    "read, two faces, old kind: joint, no rows on the second",
    "read, two faces, old kind: joint, no rows on both",
];

pub fn count_written(joint: &Joint, written: &Result<usize, WriteRefusal>, tally: &mut Tally) {
    tally.count(match (written, joint.is_two_faced()) {
        (Ok(_), false) => "write: file",
        (Ok(_), true) => "write, two faces: file",
        (Err(WriteRefusal::RowCount), false) => "write: refusal 3",
        (Err(WriteRefusal::RowCount), true) => "write, two faces: refusal 3 of the second",
        (Err(WriteRefusal::ShortBuffer), false) => "write: refusal 5",
        (Err(WriteRefusal::ShortBuffer), true) => "write, two faces: refusal 5",
        (Err(WriteRefusal::SpareLever), false) => "write: refusal 6",
        (Err(WriteRefusal::SpareLever), true) => "write, two faces: refusal 6",
    });
    count_rows_written(joint, written, tally);
    if !joint.is_two_faced() {
        if written.is_ok() && joint.other != Face::default() {
            tally.count("write: file, with something in the second face");
        }
        return;
    }
    let first_has_spare = has_spare_lever(&joint.first_of_two());
    let second_has_spare = has_spare_lever(&joint.other);
    match written {
        Err(WriteRefusal::RowCount) if first_has_spare => {
            tally.count("write, two faces: 3 of the second before 6 of the first");
        }
        Err(WriteRefusal::SpareLever) if second_has_spare && !first_has_spare => {
            tally.count("write, two faces: refusal 6 of the second");
        }
        _ => {}
    }
}

/// Faces with no rows, and row counts that are refused.
fn count_rows_written(joint: &Joint, written: &Result<usize, WriteRefusal>, tally: &mut Tally) {
    match (written, joint.is_two_faced()) {
        (Ok(_), _) => count_faces_with_no_rows(joint, &WRITTEN_WITH_NO_ROWS, tally),
        (Err(WriteRefusal::RowCount), false) => {
            tally.count_refused_rows("write", joint.face.rows as usize);
        }
        (Err(WriteRefusal::RowCount), true) => {
            tally.count_refused_rows("write, second face", joint.other.rows as usize);
        }
        (Err(WriteRefusal::SpareLever), false) if joint.face.rows == 0 => {
            tally.count("write, no rows: refusal 6");
        }
        _ => {}
    }
}

fn has_spare_lever(face: &Face) -> bool {
    let rows = face.row_count().min(ROWS);
    face.levers[rows..].iter().any(|&lever| lever != 0)
}

pub fn count_read(
    bytes: &[u8],
    kind: FileKind,
    read: &Result<Joint, ReadRefusal>,
    tally: &mut Tally,
) {
    tally.count(match (kind, read) {
        (FileKind::New, Ok(joint)) if joint.is_two_faced() => "read, two faces: joint",
        (FileKind::New, Ok(_)) => "read: joint",
        (FileKind::New, Err(ReadRefusal::BytesEnd)) => "read: refusal 1",
        (FileKind::New, Err(ReadRefusal::NumberForm)) => "read: refusal 2",
        (FileKind::New, Err(ReadRefusal::RowCount)) => "read: refusal 3",
        (FileKind::Old, Ok(joint)) if joint.is_two_faced() => "read, two faces, old kind: joint",
        (FileKind::Old, Ok(_)) => "read, old kind: joint",
        (FileKind::Old, Err(ReadRefusal::BytesEnd)) => "read, old kind: refusal 1",
        (FileKind::Old, Err(ReadRefusal::NumberForm)) => "read, old kind: refusal 2",
        (FileKind::Old, Err(ReadRefusal::RowCount)) => "read, old kind: refusal 3",
    });
    let refusal = match read {
        Ok(joint) => {
            let cases = match kind {
                FileKind::New => &READ_WITH_NO_ROWS,
                FileKind::Old => &READ_OLD_WITH_NO_ROWS,
            };
            return count_faces_with_no_rows(joint, cases, tally);
        }
        Err(refusal) => *refusal,
    };
    let second = second_face_of(bytes, kind);
    if second.is_some() {
        count_read_of_second(kind, refusal, tally);
    }
    if refusal == ReadRefusal::RowCount {
        // a count of one byte is itself, any other is 128 or more
        match second {
            None => tally.count_refused_rows("read", bytes[0].into()),
            Some(second) => tally.count_refused_rows("read, second face", second[0].into()),
        }
    }
}

/// The bytes where a second face should begin, after a first that can be read.
fn second_face_of(bytes: &[u8], kind: FileKind) -> Option<Vec<u8>> {
    let second_face = SECOND_FACE as u8;
    let (&count, rest) = bytes.split_first()?;
    if !(second_face..=second_face + ROWS as u8).contains(&count) {
        return None;
    }
    let alone = [&[count - second_face], rest].concat();
    let (_, second) = reference::read(&alone, kind).ok()?;
    Some(second.to_vec())
}

fn count_read_of_second(kind: FileKind, refusal: ReadRefusal, tally: &mut Tally) {
    tally.count(match (kind, refusal) {
        (FileKind::New, ReadRefusal::BytesEnd) => "read, two faces: refusal 1 in the second",
        (FileKind::New, ReadRefusal::NumberForm) => "read, two faces: refusal 2 in the second",
        (FileKind::New, ReadRefusal::RowCount) => "read, two faces: refusal 3 in the second",
        (FileKind::Old, ReadRefusal::BytesEnd) => {
            "read, two faces, old kind: refusal 1 in the second"
        }
        (FileKind::Old, ReadRefusal::NumberForm) => {
            "read, two faces, old kind: refusal 2 in the second"
        }
        (FileKind::Old, ReadRefusal::RowCount) => {
            "read, two faces, old kind: refusal 3 in the second"
        }
    });
}

// ---- Sheet

pub fn count_sheet(bytes: &[u8], lines: &[u8], tally: &mut Tally) {
    tally.count(if bytes.len() > LONGEST_INPUT {
        "sheet: R 4"
    } else if lines.is_empty() {
        "sheet: nothing"
    } else if lines.ends_with(b" R 1\n") || lines.ends_with(b" R 2\n") || lines.ends_with(b" R 3\n")
    {
        "sheet: ended by a read refusal"
    } else {
        "sheet: to the end of the input"
    });
    let numbers: Vec<&[u8]> = lines
        .split(|&byte| byte == b'\n')
        .filter_map(|line| line.split(|&byte| byte == b' ').next())
        .collect();
    if numbers.windows(2).any(|pair| pair[0] == pair[1]) {
        tally.count("sheet: two lines of one joint");
    }
    let is_of_no_rows = |line: &[u8]| line.split(|&byte| byte == b' ').nth(1) == Some(b"0");
    if lines.split(|&byte| byte == b'\n').any(is_of_no_rows) {
        tally.count("sheet: a line of no rows");
    }
}
