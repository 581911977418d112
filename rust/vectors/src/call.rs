//! The kinds of vectors, and reading what they ask.

use crate::items::{Form, Items};
use reference::{BoltTable, FileKind, Joint, BUILT_IN};

/// The longest buffer that Write is lent.
const LONGEST_BUFFER: u64 = 512;
/// The most limits that Allocate is handed.
const MOST_LIMITS: usize = 64;

/// What a vector asks.
#[derive(Debug, PartialEq)]
pub enum Call {
    Load(BoltTable),
    Work(Work),
    Allocate { count: u64, limits: Vec<u64> },
    Read { bytes: Vec<u8>, kind: FileKind },
    Write { joint: Joint, size: usize },
    Cell(Cell),
    Shear { printed: Printed, joint: Joint },
}

/// A joint to be worked by a bolt table.
#[derive(Debug, PartialEq)]
pub struct Work {
    pub table: BoltTable,
    pub joint: Joint,
    pub form: Form,
}

/// A figure of P207 that Work gives, or one that is known not to agree.
#[derive(Debug, PartialEq)]
pub struct Cell {
    pub printed: Printed,
    /// of the item among refusal, field and result, from 1
    pub place: usize,
    pub joint: Joint,
    pub is_exception: bool,
}

/// A printed figure, which stands for several bolts or pairs alike.
#[derive(Clone, Copy, Debug, PartialEq)]
pub struct Printed {
    pub count: u64,
    pub newtons: u64,
    pub tolerance: u64,
}

impl Call {
    /// Reads a vector up to the sign ` =`.
    pub fn of(text: &str) -> Result<Call, String> {
        let (word, mut items) = Items::of(text);
        let call = match word {
            "load" => Call::Load(items.bolt_table()?),
            "own" => {
                let table = items.bolt_table()?;
                Call::Work(work(&mut items, table)?)
            }
            "work" => Call::Work(work(&mut items, BUILT_IN)?),
            "allocate" => allocate(&mut items)?,
            "read" => read(&mut items, FileKind::New)?,
            "old" => read(&mut items, FileKind::Old)?,
            "write" => write(&mut items)?,
            "cell" => Call::Cell(cell(&mut items, false)?),
            "exception" => Call::Cell(cell(&mut items, true)?),
            "shear" => Call::Shear {
                printed: printed(&mut items)?,
                joint: items.joint(Form::Short)?,
            },
            _ => return Err(format!("`{word}` is no kind of vector")),
        };
        items.end()?;
        Ok(call)
    }
}

fn work(items: &mut Items, table: BoltTable) -> Result<Work, String> {
    let form = items.form(0);
    let joint = items.joint(form)?;
    Ok(Work { table, joint, form })
}

fn write(items: &mut Items) -> Result<Call, String> {
    let form = items.form(1);
    Ok(Call::Write {
        joint: items.joint(form)?,
        size: items.number(0..=LONGEST_BUFFER)? as usize,
    })
}

fn allocate(items: &mut Items) -> Result<Call, String> {
    let count = items.number(0..=u64::MAX)?;
    let limits = items.numbers()?;
    if limits.len() > MOST_LIMITS {
        return Err(format!("more than {MOST_LIMITS} limits"));
    }
    Ok(Call::Allocate { count, limits })
}

fn read(items: &mut Items, kind: FileKind) -> Result<Call, String> {
    let bytes = items.bytes()?;
    Ok(Call::Read { bytes, kind })
}

fn cell(items: &mut Items, is_exception: bool) -> Result<Cell, String> {
    Ok(Cell {
        printed: printed(items)?,
        place: items.number(1..=19)? as usize,
        joint: items.joint(Form::Short)?,
        is_exception,
    })
}

/// The line of P207's text is for readers.
fn printed(items: &mut Items) -> Result<Printed, String> {
    let _line = items.number(0..=u64::MAX)?;
    Ok(Printed {
        count: items.number(0..=u64::MAX)?,
        newtons: items.number(0..=u64::MAX)?,
        tolerance: items.number(0..=u64::MAX)?,
    })
}

#[cfg(test)]
mod tests {
    use super::*;
    use crate::{BUILT_IN_TABLE, JOINT_I, SECOND_FACE_I};

    fn work_of(text: &str) -> Work {
        match Call::of(text) {
            Ok(Call::Work(work)) => work,
            other => panic!("{other:?}"),
        }
    }

    #[test]
    fn good_lines() {
        let Work { table, joint, form } = work_of(&format!("work {JOINT_I}"));
        assert_eq!((table, form), (BUILT_IN, Form::Short));
        let written = Call::Write { joint, size: 512 };
        assert_eq!(Call::of(&format!("write {JOINT_I} 512")), Ok(written));
        let none = Call::Allocate {
            count: u64::MAX,
            limits: vec![],
        };
        assert_eq!(Call::of("allocate 18446744073709551615"), Ok(none));
        let printed = Printed {
            count: 2,
            newtons: 3,
            tolerance: 4,
        };
        let cell = |is_exception| {
            Ok(Call::Cell(Cell {
                printed,
                place: 19,
                joint,
                is_exception,
            }))
        };
        assert_eq!(Call::of(&format!("cell 1 2 3 4 19 {JOINT_I}")), cell(false));
        assert_eq!(
            Call::of(&format!("exception 1 2 3 4 19 {JOINT_I}")),
            cell(true)
        );
        let shear = Call::Shear { printed, joint };
        assert_eq!(Call::of(&format!("shear 1 2 3 4 {JOINT_I}")), Ok(shear));
    }

    #[test]
    fn joints_of_both_forms() {
        let Work { joint, form, .. } = work_of(&format!("work {JOINT_I} {SECOND_FACE_I}"));
        assert_eq!(form, Form::Long);
        assert_eq!(joint.other, joint.face);
        let written = Call::Write { joint, size: 0 };
        let line = format!("write {JOINT_I} {SECOND_FACE_I} 0");
        assert_eq!(Call::of(&line), Ok(written));
        for line in [
            format!("work {JOINT_I} {SECOND_FACE_I} 0"),
            format!("shear 1 2 3 4 {JOINT_I} {SECOND_FACE_I}"),
            format!("cell 1 2 3 4 19 {JOINT_I} {SECOND_FACE_I}"),
            format!("work {JOINT_I} 1 0 275"),
        ] {
            let why = Call::of(&line).unwrap_err();
            assert!(why.ends_with("stands after the last item"), "{why}");
        }
        let one_short = SECOND_FACE_I.strip_suffix(" 0").unwrap();
        assert_eq!(
            Call::of(&format!("write {JOINT_I} {one_short} 0")).unwrap_err(),
            "`0` stands after the last item"
        );
    }

    #[test]
    fn tables() {
        let numbers: Vec<u32> = (1..=24).chain([u32::MAX]).collect();
        let table = BoltTable::from_words(&numbers[..].try_into().unwrap());
        let items: Vec<String> = numbers.iter().map(u32::to_string).collect();
        let items = items.join(" ");
        assert_eq!(Call::of(&format!("load {items}")), Ok(Call::Load(table)));
        assert_eq!(
            Call::of(&format!("load {BUILT_IN_TABLE}")),
            Ok(Call::Load(BUILT_IN))
        );
        let short = work_of(&format!("own {items} {JOINT_I}"));
        assert_eq!((short.table, short.form), (table, Form::Short));
        let long = work_of(&format!("own {items} {JOINT_I} {SECOND_FACE_I}"));
        assert_eq!((long.table, long.form), (table, Form::Long));
        assert_eq!(short.joint.face, long.joint.other);
        let why = |text: String| Call::of(&text).unwrap_err();
        let past_32_bits = items.replace("4294967295", "4294967296");
        assert_eq!(
            why(format!("load {past_32_bits}")),
            "item 25, `4294967296`: not a number from 0 to 4294967295"
        );
        assert_eq!(why("load 5 12".to_string()), "item 3 is missing");
        assert_eq!(
            why(format!("load {items} 0")),
            "`0` stands after the last item"
        );
        assert_eq!(why(format!("own {items}")), "item 26 is missing");
        assert_eq!(
            why(format!("own {items} {JOINT_I} 0")),
            "`0` stands after the last item"
        );
    }

    #[test]
    fn files_of_both_kinds() {
        for (text, kind) in [("read 0a", FileKind::New), ("old 0a", FileKind::Old)] {
            let bytes = vec![10];
            assert_eq!(Call::of(text), Ok(Call::Read { bytes, kind }));
        }
        let bytes = vec![];
        let kind = FileKind::New;
        assert_eq!(Call::of("read -"), Ok(Call::Read { bytes, kind }));
    }

    #[test]
    fn the_axial_forces_alone_have_a_sign() {
        let long = format!("{JOINT_I} {SECOND_FACE_I}");
        let with = |place: usize, item: &str| {
            let mut items: Vec<&str> = long.split(' ').collect();
            items[place - 1] = item;
            Call::of(&format!("work {}", items.join(" ")))
        };
        assert!(with(27, "-2147483648").is_ok());
        assert!(with(27, "2147483648").is_err());
        assert!(with(28, "4294967295").is_ok());
        assert!(with(56, "-2147483648").is_ok());
        assert!(with(56, "2147483648").is_err());
        assert!(with(55, "-1").is_err());
        assert!(with(57, "4294967295").is_ok());
        assert_eq!(
            with(28, "-1").unwrap_err(),
            "item 28, `-1`: not a number from 0 to 4294967295"
        );
    }

    #[test]
    fn bad_lines() {
        let why = |text: &str| Call::of(text).unwrap_err();
        assert_eq!(why(""), "`` is no kind of vector");
        assert_eq!(why("Work 1"), "`Work` is no kind of vector");
        assert_eq!(why("work"), "item 1 is missing");
        assert_eq!(
            why(&format!("work {JOINT_I} 0")),
            "`0` stands after the last item"
        );
        assert_eq!(
            why("allocate 1  5"),
            format!("item 2, ``: not a number from 0 to {}", u64::MAX)
        );
        assert_eq!(
            why(&format!("allocate 8{}", " 1".repeat(65))),
            "more than 64 limits"
        );
        assert_eq!(
            why(&format!("write {JOINT_I} 513")),
            "item 39, `513`: not a number from 0 to 512"
        );
        assert_eq!(
            why(&format!("cell 1 1 1 1 20 {JOINT_I}")),
            "item 5, `20`: not a number from 1 to 19"
        );
        assert_eq!(why("read 0 0"), "item 1, `0`: not bytes");
        assert_eq!(why("read 00 00"), "`00` stands after the last item");
    }
}
