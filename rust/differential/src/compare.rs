//! One input, both answers.

use crate::cases::{
    count_allocated, count_loaded, count_own_table, count_raise, count_read, count_sheet,
    count_worked, count_written,
};
use crate::tally::Tally;
use proved::{
    longest_sheet, FACE_WORDS, FORCES, JOINT_WORDS, NEW_KIND, NO_ROOM, OLD_KIND, PANEL,
    RESULT_WORDS, SHORT, TABLE_WORDS,
};
use reference::{
    broken_rule, raised, BoltTable, FaceResult, FileKind, Joint, JointResult, BUILT_IN,
    LONGEST_FILE, LONGEST_INPUT,
};
use sample::{
    any_bolt_table, any_joint_with_own_table, any_raise, falling_levers, file_of, file_of_kind,
    LimitTable, Random,
};
use std::fmt::Debug;

/// The input and both answers, for printing.
pub type Difference = String;

fn same<T: PartialEq + Debug>(
    call: &str,
    input: &dyn Debug,
    proved: T,
    plain: T,
) -> Result<(), Difference> {
    if proved == plain {
        return Ok(());
    }
    Err(format!(
        "{call}\ninput: {input:?}\nproved: {proved:?}\nplain:  {plain:?}"
    ))
}

/// What slices and places hold before a call: a stray write shows, and so does any write in a refusal.
const MARK_64: u64 = 0x5a5a_5a5a_5a5a_5a5a;
const MARK_32: u32 = 0x5a5a_5a5a;
const MARK_8: u8 = 0x5a;
const MARK_PLACE: usize = usize::MAX;

// ---- Work

pub fn compare_work(
    table: &BoltTable,
    joint: &Joint,
    random: &mut Random,
    tally: &mut Tally,
) -> Result<(), Difference> {
    let sizes = marked(random, table);
    let fields = joint.to_fields();
    let mut words = [MARK_64; RESULT_WORDS + 1];
    let answer = proved::work(&sizes, &fields, &mut words);
    let worked = reference::work(table, joint);
    let mut expected = [MARK_64; RESULT_WORDS + 1];
    let told = match &worked {
        Ok(result) => {
            expected[..RESULT_WORDS].copy_from_slice(&result_words(result));
            (0, 0, 0)
        }
        Err(refusal) => (refusal.number(), refusal.field(), refusal.face),
    };
    count_worked(table, joint, &worked, tally);
    if *table != BUILT_IN {
        count_own_table(table, joint, &worked, tally);
    }
    let parts = (
        proved::number(answer),
        proved::field(answer),
        proved::face(answer),
    );
    same(
        "work",
        &(sizes, fields),
        (answer >> 24, parts, words),
        (0, told, expected),
    )
}

/// A result as the exported call gives it.
fn result_words(result: &JointResult) -> [u64; RESULT_WORDS] {
    let mut words = [0; RESULT_WORDS];
    words[..FACE_WORDS].copy_from_slice(&face_words(&result.face));
    if let Some(other) = &result.other {
        words[FACE_WORDS..PANEL].copy_from_slice(&face_words(&other.face));
        words[PANEL] = u64::from(other.panel_passes);
    }
    words
}

fn face_words(result: &FaceResult) -> [u64; FACE_WORDS] {
    let mut words = [0; FACE_WORDS];
    words[..8].copy_from_slice(&result.forces);
    words[8] = result.sum;
    words[9] = result.newton_metres;
    words[10] = result.cap;
    words[11] = result.check as u64;
    words[12] = result.governing_force;
    words[13] = u64::from(result.verdicts.bending);
    words[14] = u64::from(result.verdicts.bolts);
    words[15] = u64::from(result.verdicts.flange_weld);
    words[16] = u64::from(result.verdicts.web_weld);
    words
}

// ---- Bolt tables

/// Any table in force before, and slices that are mostly longer than a table.
pub fn compare_load(random: &mut Random, tally: &mut Tally) -> Result<(), Difference> {
    let table = any_bolt_table(random);
    let before = any_bolt_table(random);
    let handed = marked(random, &table);
    let mut in_force = marked(random, &before);
    let mut expected = in_force.clone();
    let answer = proved::load(&handed, &mut in_force);
    let mut table_in_force = before;
    let loaded = reference::load(&table, &mut table_in_force);
    let number = match loaded {
        Ok(()) => 0,
        Err(refusal) => refusal as u32,
    };
    expected[..TABLE_WORDS].copy_from_slice(&table_in_force.to_words());
    count_loaded(&table, &loaded, tally);
    same(
        "load",
        &(handed, before),
        (answer, in_force),
        (number, expected),
    )
}

/// The table's words, with some marks after them.
fn marked(random: &mut Random, table: &BoltTable) -> Vec<u32> {
    let mut words = table.to_words().to_vec();
    words.resize(TABLE_WORDS + random.below(3) as usize, MARK_32);
    words
}

pub fn compare_built_in(random: &mut Random, tally: &mut Tally) -> Result<(), Difference> {
    let size = TABLE_WORDS + random.below(3) as usize;
    let mut words = vec![MARK_32; size];
    let answer = proved::built_in(&mut words);
    let mut expected = vec![MARK_32; size];
    expected[..TABLE_WORDS].copy_from_slice(&BUILT_IN.to_words());
    tally.count("built in: table");
    same("built in", &size, (answer, words), (0, expected))
}

// ---- Write and Read

/// Writes the joint to a buffer of some length, and reads what is there as either kind.
pub fn compare_file(
    joint: &Joint,
    random: &mut Random,
    tally: &mut Tally,
) -> Result<(), Difference> {
    let fields = joint.to_fields();
    let size = buffer_size(joint, random);
    let mut buffer = vec![MARK_8; size];
    let mut length = MARK_PLACE;
    let answer = proved::write(&fields, &mut buffer, &mut length);
    let mut expected = vec![MARK_8; size];
    let written = reference::write(joint, &mut expected);
    let (number, expected_length) = match written {
        Ok(length) => (0, length),
        Err(refusal) => (refusal as u32, MARK_PLACE),
    };
    count_written(joint, &written, tally);
    same(
        "write",
        &(fields, size),
        (answer, length, &buffer),
        (number, expected_length, &expected),
    )?;
    let told = random_kind(random);
    compare_read(&buffer, kind_number(random, told), tally)
}

/// About the length of the file, or any.
fn buffer_size(joint: &Joint, random: &mut Random) -> usize {
    if random.one_in(3) {
        (file_of(joint).len() + random.below(3) as usize).saturating_sub(1)
    } else {
        random.below(2 * LONGEST_FILE as u64) as usize
    }
}

pub fn random_kind(random: &mut Random) -> FileKind {
    random.pick(&[FileKind::Old, FileKind::New, FileKind::New])
}

/// The number that a caller gives for a kind: 1 is the old one, any other the new.
fn kind_number(random: &mut Random, kind: FileKind) -> u32 {
    match kind {
        FileKind::Old => OLD_KIND,
        FileKind::New if random.one_in(8) => {
            random.pick(&[0, 3, 257, 65537, 0x8000_0001, u32::MAX])
        }
        FileKind::New => NEW_KIND,
    }
}

fn kind_of(number: u32) -> FileKind {
    if number == 1 {
        FileKind::Old
    } else {
        FileKind::New
    }
}

fn compare_read(bytes: &[u8], number: u32, tally: &mut Tally) -> Result<(), Difference> {
    let kind = kind_of(number);
    let mut fields = [MARK_32; JOINT_WORDS + 1];
    let mut next = MARK_PLACE;
    let answer = proved::read(bytes, number, &mut fields, &mut next);
    let read = reference::read(bytes, kind);
    if number != OLD_KIND && number != NEW_KIND {
        tally.count("read: the new kind by a number that isn't 2");
    }
    count_read(bytes, kind, &read.map(|(joint, _)| joint), tally);
    let mut expected = [MARK_32; JOINT_WORDS + 1];
    let (refusal, place) = match read {
        Ok((joint, rest)) => {
            expected[..JOINT_WORDS].copy_from_slice(&joint.to_fields());
            (0, bytes.len() - rest.len())
        }
        Err(refusal) => (refusal as u32, MARK_PLACE),
    };
    same(
        "read",
        &(bytes, number),
        (answer, next, fields),
        (refusal, place, expected),
    )?;
    let start = proved::rest(bytes, number);
    same(
        "rest",
        &(bytes, number),
        bytes.get(start..),
        Some(reference::rest(bytes, kind)),
    )
}

// ---- Allocate

pub fn compare_allocate(
    table: &LimitTable,
    random: &mut Random,
    tally: &mut Tally,
) -> Result<(), Difference> {
    let size = FORCES + random.below(3) as usize;
    let mut forces = vec![MARK_64; size];
    let answer = proved::allocate(table.count, &table.limits, &mut forces);
    let mut expected = vec![MARK_64; size];
    let allocated = reference::allocate(table.count, &table.limits);
    let number = match allocated {
        Ok(forces) => {
            expected[..FORCES].copy_from_slice(&forces);
            0
        }
        Err(refusal) => refusal as u32,
    };
    count_allocated(table, &allocated, tally);
    same("allocate", table, (answer, forces), (number, expected))
}

/// The proved call after one limit of the table is raised, against the plain reading and against what it answered before.
pub fn compare_raised(
    table: &LimitTable,
    random: &mut Random,
    tally: &mut Tally,
) -> Result<(), Difference> {
    let Some(raise) = any_raise(random, table) else {
        return Ok(());
    };
    let after = LimitTable {
        count: table.count,
        limits: raised(&raise, table.count, &table.limits),
    };
    compare_allocate(&after, random, tally)?;
    let Some(forces) = proved_forces(table) else {
        return Ok(());
    };
    let Some(forces_after) = proved_forces(&after) else {
        tally.count("raised: refused after, by 8");
        return Ok(());
    };
    let levers = falling_levers(random, table.count);
    same(
        "allocate, one limit raised",
        &(table, raise, &levers, &forces, &forces_after),
        broken_rule(&raise, &levers, &forces, &forces_after),
        None,
    )?;
    count_raise(&raise, &levers, &forces, &forces_after, tally);
    Ok(())
}

/// The rows' forces that the proved call answers, where it refuses nothing.
fn proved_forces(table: &LimitTable) -> Option<Vec<u64>> {
    let mut forces = vec![MARK_64; FORCES];
    let answer = proved::allocate(table.count, &table.limits, &mut forces);
    forces.truncate(table.count);
    (answer == 0).then_some(forces)
}

// ---- Streams

/// Files of the kind, read one after the other under its number, and the sheet of them.
pub fn compare_stream(
    bytes: &[u8],
    kind: FileKind,
    random: &mut Random,
    tally: &mut Tally,
) -> Result<(), Difference> {
    let number = kind_number(random, kind);
    let mut place = 0;
    loop {
        let rest = &bytes[place..];
        compare_read(rest, number, tally)?;
        let taken = proved::rest(rest, number);
        if rest.is_empty() || taken == rest.len() || bytes.len() > LONGEST_INPUT {
            break;
        }
        place += taken;
    }
    compare_sheet(bytes, random, tally)
}

/// The sheet into a buffer that mostly has room for it, and now and then more than any sheet of so many bytes takes.
fn compare_sheet(bytes: &[u8], random: &mut Random, tally: &mut Tally) -> Result<(), Difference> {
    let mut lines = Vec::new();
    reference::sheet(bytes, &mut lines);
    count_sheet(bytes, &lines, tally);
    same(
        "longest sheet",
        &(bytes, lines.len()),
        lines.len() <= longest_sheet(bytes.len()),
        true,
    )?;
    let size = output_size(bytes, &lines, random);
    let mut output = vec![MARK_8; size];
    let mut length = MARK_PLACE;
    let answer = proved::sheet(bytes, &mut output, &mut length);
    let mut expected = vec![MARK_8; size];
    if size < lines.len() {
        tally.count("sheet: no room");
        return same(
            "sheet",
            &(bytes, size),
            (answer, length, output),
            (NO_ROOM, MARK_PLACE, expected),
        );
    }
    tally.count(if size < longest_sheet(bytes.len()) {
        "sheet: measured first"
    } else {
        "sheet: printed straight"
    });
    expected[..lines.len()].copy_from_slice(&lines);
    same(
        "sheet",
        &(bytes, size),
        (answer, length, output),
        (0, lines.len(), expected),
    )
}

/// Too short for the lines, long enough for any of so many bytes, or about just enough.
fn output_size(bytes: &[u8], lines: &[u8], random: &mut Random) -> usize {
    let spare = random.below(20) as usize;
    match random.below(4) {
        0 => random.below(lines.len() as u64 + 1) as usize,
        1 => longest_sheet(bytes.len()) + spare,
        _ => lines.len() + spare,
    }
}

// ---- Slices that are too short

pub fn compare_short(random: &mut Random, tally: &mut Tally) -> Result<(), Difference> {
    let (table, joint) = any_joint_with_own_table(random);
    tally.count("short: allocate");
    short_allocate(random)?;
    tally.count("short: read");
    short_read(&joint, random)?;
    tally.count("short: write");
    short_write(&joint, random)?;
    tally.count("short: built in");
    short_built_in(random)?;
    short_load(&table, random, tally)?;
    short_work(&table, &joint, random, tally)
}

fn short_allocate(random: &mut Random) -> Result<(), Difference> {
    let mut forces = vec![MARK_64; random.below(FORCES as u64) as usize];
    let untouched = forces.clone();
    let count = random.below(2) as usize;
    let answer = proved::allocate(count, &[1], &mut forces);
    same(
        "short allocate",
        &(count, forces.len()),
        (answer, &forces),
        (SHORT, &untouched),
    )
}

fn short_read(joint: &Joint, random: &mut Random) -> Result<(), Difference> {
    let kind = random_kind(random);
    let file = file_of_kind(joint, kind);
    let mut words = vec![MARK_32; random.below(JOINT_WORDS as u64) as usize];
    let untouched = words.clone();
    let mut next = MARK_PLACE;
    let number = kind_number(random, kind);
    let answer = proved::read(&file, number, &mut words, &mut next);
    same(
        "short read",
        &(&file, number, words.len()),
        (answer, &words, next),
        (SHORT, &untouched, MARK_PLACE),
    )
}

fn short_write(joint: &Joint, random: &mut Random) -> Result<(), Difference> {
    let fields = joint.to_fields();
    let few_fields = &fields[..random.below(JOINT_WORDS as u64) as usize];
    let mut buffer = [MARK_8; LONGEST_FILE];
    let mut length = MARK_PLACE;
    let answer = proved::write(few_fields, &mut buffer, &mut length);
    same(
        "short write",
        &few_fields,
        (answer, buffer, length),
        (SHORT, [MARK_8; LONGEST_FILE], MARK_PLACE),
    )
}

fn short_built_in(random: &mut Random) -> Result<(), Difference> {
    let mut table = vec![MARK_32; random.below(TABLE_WORDS as u64) as usize];
    let untouched = table.clone();
    let answer = proved::built_in(&mut table);
    same(
        "short built in",
        &table.len(),
        (answer, &table),
        (SHORT, &untouched),
    )
}

fn short_load(table: &BoltTable, random: &mut Random, tally: &mut Tally) -> Result<(), Difference> {
    let words = table.to_words();
    let mut few = || random.below(TABLE_WORDS as u64) as usize;
    for (case, handed, places) in [
        ("short: load, table", few(), TABLE_WORDS),
        ("short: load, table in force", TABLE_WORDS, few()),
        ("short: load, both", few(), few()),
    ] {
        let mut in_force = [MARK_32; TABLE_WORDS];
        let answer = proved::load(&words[..handed], &mut in_force[..places]);
        tally.count(case);
        same(
            case,
            &(&words[..handed], places),
            (answer, in_force),
            (SHORT, [MARK_32; TABLE_WORDS]),
        )?;
    }
    Ok(())
}

fn short_work(
    table: &BoltTable,
    joint: &Joint,
    random: &mut Random,
    tally: &mut Tally,
) -> Result<(), Difference> {
    let sizes = table.to_words();
    let fields = joint.to_fields();
    let mut few = |count: usize| random.below(count as u64) as usize;
    for (case, words, numbers, places) in [
        (
            "short: work, table",
            few(TABLE_WORDS),
            JOINT_WORDS,
            RESULT_WORDS,
        ),
        (
            "short: work, fields",
            TABLE_WORDS,
            few(JOINT_WORDS),
            RESULT_WORDS,
        ),
        (
            "short: work, result",
            TABLE_WORDS,
            JOINT_WORDS,
            few(RESULT_WORDS),
        ),
        (
            "short: work, all",
            few(TABLE_WORDS),
            few(JOINT_WORDS),
            few(RESULT_WORDS),
        ),
    ] {
        let mut result = [MARK_64; RESULT_WORDS];
        let answer = proved::work(&sizes[..words], &fields[..numbers], &mut result[..places]);
        tally.count(case);
        same(
            case,
            &(&sizes[..words], &fields[..numbers], places),
            (answer, result),
            (SHORT, [MARK_64; RESULT_WORDS]),
        )?;
    }
    Ok(())
}
