//! Times the proved calls, those of a library of before, and the plain reading side by side, in one process and one run: for each line,
//! rounds of the sides, and the median of each. Prints a table for a page of docs/.

mod libraries;
mod rounds;
mod sides;
mod words;

use libraries::{sheet_before, Before, Plain, Proved};
use proved::{JOINT_WORDS, TABLE_WORDS};
use reference::{BoltTable, FileKind, Joint, BUILT_IN, GROUPS, LONGEST_FILE, LONGEST_INPUT, SIZES};
use rounds::measure;
use sample::{
    file_of, good_bolt_table, worked_joint, worked_joint_in_triangle, worked_two_faced_joint,
    Random,
};
use std::hint::black_box;
use std::iter::repeat_with;

const SEED: u64 = 7;
/// Of joints with two faces, so that those with one stay the same.
const TWO_FACED_SEED: u64 = 8;
/// Of bolt tables and of joints worked by one of twelve sizes, so that the others stay the same.
const OWN_TABLE_SEED: u64 = 9;
/// Of joints whose rows go by the triangle, so that the others stay the same.
const TRIANGLE_SEED: u64 = 10;
/// Of joints with no rows, so that the others stay the same.
const NO_ROWS_SEED: u64 = 11;
/// Whose calls the second column has.
const BEFORE: &str = if cfg!(feature = "before") {
    "the library that BEFORE named"
} else {
    "the same library again"
};
/// Different inputs of each line.
const INPUTS: usize = 512;

/// Twelve sizes of coarse thread.
const TWELVE_SIZES: BoltTable = BoltTable {
    count: 12,
    diameters: [10, 12, 14, 16, 18, 20, 22, 24, 27, 30, 33, 36],
    areas: [
        580, 843, 1150, 1570, 1920, 2450, 3030, 3530, 4590, 5610, 6940, 8170,
    ],
};

fn main() {
    let mut random = Random::new(SEED);
    println!("Nanoseconds a call, of the sheet microseconds; medians, {INPUTS} different inputs a line, over the same words and bytes.");
    println!("Before is {BEFORE}. The last column is plain Rust on its own types. No buffer is cleared between calls.");
    println!();
    println!("| call | proved | before | plain Rust | plain ÷ proved | proved ÷ before | plain, own types |");
    println!("|---|---:|---:|---:|---:|---:|---:|");
    line("read, 1 to 8 rows", time_read(&mixed_joints(&mut random)));
    line("write, 1 to 8 rows", time_write(&mixed_joints(&mut random)));
    line("allocate, 8 rows", time_allocate(&mut random));
    for (call, rows) in [("work, 1 row", 1), ("work, 3 rows", 3), ("work, 8 rows", 8)] {
        line(call, time_work(&BUILT_IN, &alike_joints(&mut random, rows)));
    }
    let input = full_input(&mut random);
    sheet_line(&input, time_sheet(&input));
    two_faced_lines(&mut Random::new(TWO_FACED_SEED));
    own_table_lines(&mut Random::new(OWN_TABLE_SEED));
    triangle_lines(&mut Random::new(TRIANGLE_SEED));
    let no_rows = alike_joints(&mut Random::new(NO_ROWS_SEED), 0);
    line("work, no rows", time_work(&BUILT_IN, &no_rows));
}

fn two_faced_lines(random: &mut Random) {
    let mixed = mixed_two_faced_joints(random);
    line("read, two faces of 1 to 8 rows", time_read(&mixed));
    line("write, two faces of 1 to 8 rows", time_write(&mixed));
    for (call, rows) in [
        ("work, two faces of 1 row", 1),
        ("work, two faces of 3 rows", 3),
        ("work, two faces of 8 rows", 8),
    ] {
        let joints: Vec<Joint> = (0..INPUTS)
            .map(|_| worked_two_faced_joint(random, &BUILT_IN, [rows, rows]))
            .collect();
        line(call, time_work(&BUILT_IN, &joints));
    }
}

fn own_table_lines(random: &mut Random) {
    line("load, 12 sizes", time_load(random));
    for (call, rows) in [("work, 1 row, 12 sizes", 1), ("work, 3 rows, 12 sizes", 3)] {
        let joints = joints_of_each_size(|| worked_joint(random, &TWELVE_SIZES, rows));
        line(call, time_work(&TWELVE_SIZES, &joints));
    }
    let joints = joints_of_each_size(|| worked_two_faced_joint(random, &TWELVE_SIZES, [3, 3]));
    line(
        "work, two faces of 3 rows, 12 sizes",
        time_work(&TWELVE_SIZES, &joints),
    );
}

fn triangle_lines(random: &mut Random) {
    for (call, rows) in [("work, 3 rows, triangle", 3), ("work, 8 rows, triangle", 8)] {
        let joints: Vec<Joint> = (0..INPUTS)
            .map(|_| worked_joint_in_triangle(random, &BUILT_IN, rows))
            .collect();
        line(call, time_work(&BUILT_IN, &joints));
    }
}

/// Joints with each of the twelve sizes in turn.
fn joints_of_each_size(mut draw: impl FnMut() -> Joint) -> Vec<Joint> {
    let mut drawn_with = |diameter: u32| {
        repeat_with(&mut draw)
            .find(|joint| joint.bolts.diameter == diameter)
            .expect("every size is drawn at last")
    };
    (0..INPUTS)
        .map(|input| drawn_with(TWELVE_SIZES.diameters[input % SIZES]))
        .collect()
}

/// Times are of a run over all inputs.
fn line(call: &str, times: [f64; 4]) {
    let [proved, before, plain, native] = times.map(|time| time / INPUTS as f64);
    let compared = compared(proved, before, plain);
    println!("| {call} | {compared} | {native:.1} |");
}

fn sheet_line(input: &[u8], times: [f64; 3]) {
    let [proved, before, plain] = times.map(|time| time / 1000.0);
    let compared = compared(proved, before, plain);
    println!("| sheet, {} bytes | {compared} | |", input.len());
}

fn compared(proved: f64, before: f64, plain: f64) -> String {
    let ahead = plain / proved;
    let faster = proved / before;
    format!("{proved:.1} | {before:.1} | {plain:.1} | {ahead:.2} | {faster:.2}")
}

/// Joints of one to eight rows, as many of each.
fn mixed_joints(random: &mut Random) -> Vec<Joint> {
    (0..INPUTS)
        .map(|input| worked_joint(random, &BUILT_IN, input as u32 % 8 + 1))
        .collect()
}

fn alike_joints(random: &mut Random, rows: u32) -> Vec<Joint> {
    (0..INPUTS)
        .map(|_| worked_joint(random, &BUILT_IN, rows))
        .collect()
}

/// Every pair of row counts, as many of each.
fn mixed_two_faced_joints(random: &mut Random) -> Vec<Joint> {
    (0..INPUTS as u32)
        .map(|input| worked_two_faced_joint(random, &BUILT_IN, [input % 8 + 1, input / 8 % 8 + 1]))
        .collect()
}

fn time_read(joints: &[Joint]) -> [f64; 4] {
    let files: Vec<Vec<u8>> = joints.iter().map(file_of).collect();
    measure([
        Box::new(sides::read::<Proved>(&files)),
        Box::new(sides::read::<Before>(&files)),
        Box::new(sides::read::<Plain>(&files)),
        Box::new(|| {
            for file in &files {
                black_box(&reference::read(black_box(file), black_box(FileKind::New)));
            }
        }),
    ])
}

fn time_write(joints: &[Joint]) -> [f64; 4] {
    let fields: Vec<[u32; JOINT_WORDS]> = joints.iter().map(Joint::to_fields).collect();
    let mut buffer = [0; LONGEST_FILE];
    measure([
        Box::new(sides::write::<Proved>(&fields)),
        Box::new(sides::write::<Before>(&fields)),
        Box::new(sides::write::<Plain>(&fields)),
        Box::new(|| {
            for joint in joints {
                black_box(&reference::write(black_box(joint), &mut buffer));
                black_box(&buffer);
            }
        }),
    ])
}

fn time_allocate(random: &mut Random) -> [f64; 4] {
    let table = |random: &mut Random| (0..GROUPS).map(|_| random.below(3_000_000)).collect();
    let tables: Vec<Vec<u64>> = (0..INPUTS).map(|_| table(random)).collect();
    measure([
        Box::new(sides::allocate::<Proved>(&tables)),
        Box::new(sides::allocate::<Before>(&tables)),
        Box::new(sides::allocate::<Plain>(&tables)),
        Box::new(|| {
            for limits in &tables {
                black_box(&reference::allocate(black_box(8), black_box(limits)));
            }
        }),
    ])
}

fn time_load(random: &mut Random) -> [f64; 4] {
    let tables: Vec<BoltTable> = (0..INPUTS)
        .map(|_| good_bolt_table(random, SIZES as u32))
        .collect();
    let words: Vec<[u32; TABLE_WORDS]> = tables.iter().map(BoltTable::to_words).collect();
    let mut in_force = BUILT_IN;
    measure([
        Box::new(sides::load::<Proved>(&words)),
        Box::new(sides::load::<Before>(&words)),
        Box::new(sides::load::<Plain>(&words)),
        Box::new(|| {
            for table in &tables {
                black_box(&reference::load(black_box(table), &mut in_force));
                black_box(&in_force);
            }
        }),
    ])
}

fn time_work(table: &BoltTable, joints: &[Joint]) -> [f64; 4] {
    let sizes = table.to_words();
    let fields: Vec<[u32; JOINT_WORDS]> = joints.iter().map(Joint::to_fields).collect();
    measure([
        Box::new(sides::work::<Proved>(&sizes, &fields)),
        Box::new(sides::work::<Before>(&sizes, &fields)),
        Box::new(sides::work::<Plain>(&sizes, &fields)),
        Box::new(|| {
            for joint in joints {
                black_box(&reference::work(black_box(table), black_box(joint)));
            }
        }),
    ])
}

/// Files end to end, of which the last is cut where the longest input ends.
fn full_input(random: &mut Random) -> Vec<u8> {
    let mut input = Vec::new();
    while input.len() < LONGEST_INPUT {
        let rows = random.between(1, 8);
        input.extend(file_of(&worked_joint(random, &BUILT_IN, rows)));
    }
    input.truncate(LONGEST_INPUT);
    input
}

/// The plain side's vector keeps its room.
fn time_sheet(input: &[u8]) -> [f64; 3] {
    let mut lines = Vec::with_capacity(4 * LONGEST_INPUT);
    measure([
        Box::new(sides::sheet(proved::sheet, input)),
        Box::new(sides::sheet(sheet_before, input)),
        Box::new(|| {
            lines.clear();
            reference::sheet(black_box(input), &mut lines);
            black_box(&lines);
        }),
    ])
}
