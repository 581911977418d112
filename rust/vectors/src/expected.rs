//! What each vector should come to, by the plain reading.

use crate::call::{Call, Cell, Printed, Work};
use crate::items::{Answer, Form};
use reference::{
    allocate, load, read, work, write, BoltTable, FaceResult, FileKind, Joint, JointResult,
    WorkRefusal, BUILT_IN, ROWS,
};

/// What each byte of the buffer is before Write is called.
const UNWRITTEN: u8 = 0xa5;

/// The expected items. A printed figure that isn't met as its line says is an error.
pub fn expected(call: &Call) -> Result<String, String> {
    let answer = match call {
        Call::Load(table) => loaded(table),
        Call::Work(Work { table, joint, form }) => worked(&work(table, joint), *form),
        Call::Allocate { count, limits } => shared(*count, limits),
        Call::Read { bytes, kind } => joint_read(bytes, *kind),
        Call::Write { joint, size } => written(joint, *size),
        Call::Cell(cell) => cell_met(cell)?,
        Call::Shear { printed, joint } => shear_met(printed, joint)?,
    };
    Ok(answer.text())
}

/// The refusal, and the table in force after it; before it that is the one built in.
fn loaded(table: &BoltTable) -> Answer {
    let mut in_force = BUILT_IN;
    let refusal = match load(table, &mut in_force) {
        Ok(()) => 0,
        Err(refusal) => refusal as u64,
    };
    Answer::default().number(refusal).bolt_table(&in_force)
}

/// Of a joint in the long form the second face's result, the panel's verdict and the face refused come last.
fn worked(worked: &Result<JointResult, WorkRefusal>, form: Form) -> Answer {
    let answer = Answer::default().numbers(&first_face_items(worked));
    if form == Form::Short {
        return answer;
    }
    let other = worked.ok().and_then(|result| result.other);
    answer
        .numbers(&other.map_or([0; 17], |other| result_items(&other.face)))
        .number(other.map_or(0, |other| u64::from(other.panel_passes)))
        .number(worked.err().map_or(0, |refusal| u64::from(refusal.face)))
}

/// Refusal, field and the first face's 17 numbers, which are 0 in a refusal.
fn first_face_items(worked: &Result<JointResult, WorkRefusal>) -> [u64; 19] {
    let mut items = [0; 19];
    match worked {
        Ok(result) => items[2..].copy_from_slice(&result_items(&result.face)),
        Err(refusal) => {
            items[0] = u64::from(refusal.number());
            items[1] = u64::from(refusal.field());
        }
    }
    items
}

fn result_items(result: &FaceResult) -> [u64; 17] {
    let mut items = [0; 17];
    let verdicts = &result.verdicts;
    items[..ROWS].copy_from_slice(&result.forces);
    items[ROWS..].copy_from_slice(&[
        result.sum,
        result.newton_metres,
        result.cap,
        result.check as u64,
        result.governing_force,
        u64::from(verdicts.bending),
        u64::from(verdicts.bolts),
        u64::from(verdicts.flange_weld),
        u64::from(verdicts.web_weld),
    ]);
    items
}

fn shared(count: u64, limits: &[u64]) -> Answer {
    // where a count has fewer bits, one that doesn't fit is refused as the greatest is
    let count = usize::try_from(count).unwrap_or(usize::MAX);
    let (refusal, forces) = match allocate(count, limits) {
        Ok(forces) => (0, forces),
        Err(refusal) => (refusal as u64, [0; ROWS]),
    };
    Answer::default().number(refusal).numbers(&forces)
}

fn joint_read(bytes: &[u8], kind: FileKind) -> Answer {
    let (refusal, next, joint) = match read(bytes, kind) {
        Ok((joint, rest)) => (0, bytes.len() - rest.len(), joint),
        Err(refusal) => (refusal as u64, bytes.len(), Joint::default()),
    };
    let form = if joint.is_two_faced() {
        Form::Long
    } else {
        Form::Short
    };
    Answer::default()
        .number(refusal)
        .number(next as u64)
        .joint(&joint, form)
}

fn written(joint: &Joint, size: usize) -> Answer {
    let mut buffer = vec![UNWRITTEN; size];
    let (refusal, length) = match write(joint, &mut buffer) {
        Ok(length) => (0, length),
        Err(refusal) => (refusal as u64, 0),
    };
    Answer::default()
        .number(refusal)
        .number(length as u64)
        .bytes(&buffer)
}

/// A cell agrees; an exception doesn't.
fn cell_met(cell: &Cell) -> Result<Answer, String> {
    let items = first_face_items(&work(&BUILT_IN, &cell.joint));
    let figure = items[cell.place - 1];
    let agrees = agrees(&cell.printed, figure);
    if agrees == cell.is_exception {
        let what = if agrees {
            "is within the tolerance"
        } else {
            "isn't within the tolerance"
        };
        return Err(format!("the figure worked, {figure}, {what}"));
    }
    Ok(Answer::default().numbers(&items))
}

fn agrees(printed: &Printed, figure: u64) -> bool {
    let count = u128::from(printed.count);
    let should = count * u128::from(printed.newtons);
    u128::from(figure).abs_diff(should) <= count * u128::from(printed.tolerance)
}

/// The bolts pass with the tolerance off the printed figure, and fail with it added.
fn shear_met(printed: &Printed, joint: &Joint) -> Result<Answer, String> {
    let low = printed.newtons.checked_sub(printed.tolerance);
    let high = printed.newtons.checked_add(printed.tolerance);
    let verdicts = [
        bolts_pass(joint, printed.count, low)?,
        bolts_pass(joint, printed.count, high)?,
    ];
    if verdicts != [1, 0] {
        let [low, high] = verdicts;
        return Err(format!("the bolts' verdicts are {low} {high}, not 1 0"));
    }
    Ok(Answer::default().numbers(&verdicts))
}

/// The bolts' verdict under the shear of so many bolts or pairs, each with this force.
fn bolts_pass(joint: &Joint, count: u64, force: Option<u64>) -> Result<u64, String> {
    let shear = force
        .and_then(|force| force.checked_mul(count))
        .and_then(|shear| u32::try_from(shear).ok())
        .ok_or("the shear force isn't one of 32 bits")?;
    let mut joint = *joint;
    joint.face.loads.shear = shear;
    match work(&BUILT_IN, &joint) {
        Ok(result) => Ok(u64::from(result.face.verdicts.bolts)),
        Err(refusal) => Err(format!("refused by {}", refusal.number())),
    }
}

#[cfg(test)]
mod tests {
    use super::*;
    use crate::{BUILT_IN_TABLE, JOINT_I, SECOND_FACE_I};

    const RESULT_I: &str = " 0 0 219345 0 0 0 0 0 0 0 219345 52642 407706 2 407706 1 1 1 1";
    const FILE_I: &str = "01005814930293029302a329a7108401607f9d25ff17f90c7643d00fc801840700d804503cd00f0100a8bd03d086039875e012";

    fn answer(text: &str) -> Result<String, String> {
        expected(&Call::of(text).unwrap())
    }

    fn zeros(count: usize) -> String {
        " 0".repeat(count)
    }

    #[test]
    fn work_vectors() {
        assert_eq!(answer(&format!("work {JOINT_I}")).unwrap(), RESULT_I);
        let nine_rows = JOINT_I.replacen('1', "9", 1);
        assert_eq!(
            answer(&format!("work {nine_rows}")).unwrap(),
            format!(" 10 1{}", zeros(17))
        );
        let compressed = JOINT_I.replace(" 1 0 57000 ", " 1 407707 57000 ");
        assert_eq!(
            answer(&format!("work {compressed}")).unwrap(),
            format!(" 15{}", zeros(18))
        );
    }

    /// M22 of 303 mm² and something past the count.
    const OWN_TABLE: &str = "2 20 22 22 9 9 9 9 9 9 9 9 9 2450 3030 1 0 0 0 0 0 0 0 0 0";

    #[test]
    fn load_vectors() {
        let loaded = |table: &str| answer(&format!("load {table}")).unwrap();
        assert_eq!(loaded(BUILT_IN_TABLE), format!(" 0 {BUILT_IN_TABLE}"));
        assert_eq!(loaded(OWN_TABLE), format!(" 0 {OWN_TABLE}"));
        for (found, changed, refusal) in [
            ("2 20", "0 20", 16),
            ("2 20", "13 20", 16),
            ("20 22 22", "20 65 22", 16),
            ("2 20", "3 20", 17),
            ("2450 3030", "3141 3030", 18),
        ] {
            assert_eq!(
                loaded(&OWN_TABLE.replacen(found, changed, 1)),
                format!(" {refusal} {BUILT_IN_TABLE}")
            );
        }
    }

    #[test]
    fn work_vectors_by_own_tables() {
        let own = |table: &str, joint: &str| answer(&format!("own {table} {joint}")).unwrap();
        assert_eq!(own(BUILT_IN_TABLE, JOINT_I), RESULT_I);
        assert_eq!(own(OWN_TABLE, JOINT_I), RESULT_I);
        let result = " 255434 0 0 0 0 0 0 0 255434 61304 407706 2 407706 1 1 1 1";
        let m22 = JOINT_I.replacen(" 88 20 ", " 88 22 ", 1);
        assert_eq!(own(OWN_TABLE, &m22), format!(" 0 0{result}"));
        let refused = format!(" 10 4{}", zeros(17));
        assert_eq!(own(BUILT_IN_TABLE, &m22), refused);
        assert_eq!(own(&OWN_TABLE.replacen('2', "3", 1), &m22), refused);
        let both = two_faced().replacen(" 88 20 ", " 88 22 ", 1);
        assert_eq!(own(OWN_TABLE, &both), format!(" 0 0{result}{result} 1 0"));
        assert_eq!(own(BUILT_IN_TABLE, &both), format!(" 10 4{} 1", zeros(35)));
    }

    /// Joint I on both faces.
    fn two_faced() -> String {
        format!("17{} {SECOND_FACE_I}", JOINT_I.strip_prefix('1').unwrap())
    }

    #[test]
    fn work_vectors_of_two_faces() {
        let result = RESULT_I.strip_prefix(" 0 0").unwrap();
        let line = format!("work {}", two_faced());
        assert_eq!(answer(&line).unwrap(), format!("{RESULT_I}{result} 1 0"));
        for (found, changed, refused) in [
            (
                "2000 1 0 57000 50000 15000",
                "2000 1 407707 57000 50000 15000",
                "15 0 1",
            ),
            (
                "2000 1 0 57000 50000 2400",
                "2000 1 407707 57000 50000 2400",
                "15 0 2",
            ),
            (" 1 0 275 275 3071", " 9 0 275 275 3071", "10 1 2"),
        ] {
            let [number, field, face] = refused.split(' ').collect::<Vec<_>>()[..] else {
                panic!("{refused}");
            };
            assert_eq!(
                answer(&line.replace(found, changed)).unwrap(),
                format!(" {number} {field}{} {face}", zeros(35))
            );
        }
    }

    #[test]
    fn faces_with_no_rows() {
        let no_rows = |joint: &str| joint.replacen('1', "0", 1).replacen(" 2400 ", " 0 ", 1);
        let result = " 0 0 0 0 0 0 0 0 0 0 407706 2 407706 0 1 1 1";
        let (alone, second) = (no_rows(JOINT_I), no_rows(SECOND_FACE_I));
        assert_eq!(
            answer(&format!("work {alone}")).unwrap(),
            format!(" 0 0{result}")
        );
        let both = format!("16{} {second}", alone.strip_prefix('0').unwrap());
        assert_eq!(
            answer(&format!("work {both}")).unwrap(),
            format!(" 0 0{result}{result} 1 0")
        );
        let file = format!("10{}", "00".repeat(49));
        assert_eq!(
            answer(&format!("read {file}ff")).unwrap(),
            format!(" 0 50 16{}", zeros(65))
        );
        assert_eq!(answer("allocate 0").unwrap(), zeros(9));
        assert_eq!(answer("allocate 0 4000000001").unwrap(), zeros(9));
    }

    #[test]
    fn a_second_face_that_is_not_there() {
        let result = format!("{RESULT_I}{}", zeros(19));
        let junk = " 4294967295".repeat(17) + " -1" + &" 4294967295".repeat(10);
        for second_face in [zeros(28), junk] {
            assert_eq!(
                answer(&format!("work {JOINT_I}{second_face}")).unwrap(),
                result
            );
            assert_eq!(
                answer(&format!("write {JOINT_I}{second_face} 51")).unwrap(),
                format!(" 0 51 {FILE_I}")
            );
        }
        let nine_rows = JOINT_I.replacen('1', "9", 1);
        assert_eq!(
            answer(&format!("work {nine_rows} {SECOND_FACE_I}")).unwrap(),
            format!(" 10 1{}", zeros(36))
        );
    }

    #[test]
    fn files_of_two_faces() {
        let second_file = "010093029302ff17f90c7643d00fc801840700d804503cd00f0100a8bd03d08603e012";
        let file = format!("11{}{second_file}", FILE_I.strip_prefix("01").unwrap());
        let joint = two_faced();
        assert_eq!(
            answer(&format!("read {file}ff")).unwrap(),
            format!(" 0 86 {joint}")
        );
        assert_eq!(
            answer(&format!("old {}", file.replace("9875", ""))).unwrap(),
            format!(" 0 84 {joint}")
        );
        assert_eq!(
            answer(&format!("write {joint} 86")).unwrap(),
            format!(" 0 86 {file}")
        );
        assert_eq!(
            answer(&format!("read {}", &file[..160])).unwrap(),
            format!(" 1 80{}", zeros(38))
        );
    }

    #[test]
    fn allocate_vectors() {
        assert_eq!(
            answer("allocate 3 371 687 974 375 679 375").unwrap(),
            format!(" 0 371 316 287{}", zeros(5))
        );
        for (text, refusal) in [
            ("allocate 18446744073709551615", 3),
            ("allocate 2 1 1", 7),
            ("allocate 1 4000000001", 8),
        ] {
            let refused = format!(" {refusal}{}", zeros(8));
            assert_eq!(answer(text).unwrap(), refused);
        }
    }

    #[test]
    fn read_vectors() {
        let old_file = FILE_I.replace("9875", "");
        for rest in ["", "ff"] {
            assert_eq!(
                answer(&format!("read {FILE_I}{rest}")).unwrap(),
                format!(" 0 51 {JOINT_I}")
            );
            assert_eq!(
                answer(&format!("old {old_file}{rest}")).unwrap(),
                format!(" 0 49 {JOINT_I}")
            );
        }
        let refused = |refusal, length| format!(" {refusal} {length}{}", zeros(38));
        for word in ["read", "old"] {
            let answered = |bytes| answer(&format!("{word} {bytes}")).unwrap();
            assert_eq!(answered("-"), refused(1, 0));
            assert_eq!(answered("ac8200"), refused(2, 3));
            assert_eq!(answered("0901"), refused(3, 2));
        }
    }

    #[test]
    fn a_joint_read_has_the_sign_of_its_axial_force() {
        let tension = FILE_I.replace("0100a8bd03", "0101a8bd03");
        let answer = answer(&format!("read {tension}")).unwrap();
        assert!(answer.contains(" 1 -1 57000 "), "{answer}");
    }

    #[test]
    fn write_vectors() {
        let written = |size| answer(&format!("write {JOINT_I} {size}")).unwrap();
        assert_eq!(written(53), format!(" 0 51 {FILE_I}a5a5"));
        assert_eq!(written(51), format!(" 0 51 {FILE_I}"));
        assert_eq!(written(50), format!(" 5 0 {}", "a5".repeat(50)));
        assert_eq!(written(0), " 5 0 -");
    }

    #[test]
    fn cells_and_exceptions() {
        // row 1 is 219345 newtons, 345 over three times 73000
        let line = |kind, tolerance| format!("{kind} 1 3 73000 {tolerance} 3 {JOINT_I}");
        assert_eq!(answer(&line("cell", 115)).unwrap(), RESULT_I);
        assert_eq!(answer(&line("exception", 114)).unwrap(), RESULT_I);
        assert_eq!(
            answer(&line("cell", 114)).unwrap_err(),
            "the figure worked, 219345, isn't within the tolerance"
        );
        assert_eq!(
            answer(&line("exception", 115)).unwrap_err(),
            "the figure worked, 219345, is within the tolerance"
        );
        let most = u64::MAX;
        assert!(answer(&format!("cell 1 {most} {most} {most} 3 {JOINT_I}")).is_ok());
    }

    #[test]
    fn shear_capacities() {
        // row 1, with a force, and the one shear row carry 73500 + 183750 = 257250 newtons
        let line = |count, printed, tolerance| {
            answer(&format!("shear 1 {count} {printed} {tolerance} {JOINT_I}"))
        };
        assert_eq!(line(1, 257_250, 1).unwrap(), " 1 0");
        assert_eq!(line(250, 1029, 1).unwrap(), " 1 0");
        for (printed, verdicts) in [(257_250, "1 1"), (257_251, "0 0")] {
            let why = format!("the bolts' verdicts are {verdicts}, not 1 0");
            assert_eq!(line(1, printed, 0).unwrap_err(), why);
        }
        assert_eq!(line(1, 10_000_001, 0).unwrap_err(), "refused by 10");
        for (count, printed, tolerance) in [(1, 1, 2), (2, 1 << 31, 0), (1, u64::MAX, 1)] {
            assert_eq!(
                line(count, printed, tolerance).unwrap_err(),
                "the shear force isn't one of 32 bits"
            );
        }
    }
}
