//! How often each case of input and answer occurred.

use std::collections::BTreeMap;
use std::fmt;

/// What a run of full size has to reach.
const CASES: [&str; 188] = [
    "allocate, no rows: further limits",
    "allocate, no rows: further limits, one above the greatest",
    "allocate, no rows: no limits",
    "allocate: refusal 3",
    "allocate: refusal 7",
    "allocate: refusal 8",
    "allocate: shared",
    "built in: table",
    "load: 16 before 17",
    "load: 16 before 18",
    "load: 17 before 18",
    "load: refusal 16 by a diameter",
    "load: refusal 16 by an area",
    "load: refusal 16 by the count",
    "load: refusal 17",
    "load: refusal 18",
    "load: taken",
    "load: taken, with something past the count",
    "raised: Z by all of it at the first row's lever",
    "raised: Z by more than the last row's lever allows",
    "raised: a row lost force",
    "raised: nothing moved",
    "raised: refused after, by 8",
    "raised: something moved",
    "raised: the group's first row didn't move, others did",
    "raised: the whole sum by all of it",
    "read, no rows, old kind: joint",
    "read, no rows: joint",
    "read, old kind: joint",
    "read, old kind: refusal 1",
    "read, old kind: refusal 2",
    "read, old kind: refusal 3",
    "read, two faces, old kind: joint",
    "read, two faces, old kind: joint, no rows on both",
    "read, two faces, old kind: joint, no rows on the first",
    "read, two faces, old kind: joint, no rows on the second",
    "read, two faces, old kind: refusal 1 in the second",
    "read, two faces, old kind: refusal 2 in the second",
    "read, two faces, old kind: refusal 3 in the second",
    "read, two faces: joint",
    "read, two faces: joint, no rows on both",
    "read, two faces: joint, no rows on the first",
    "read, two faces: joint, no rows on the second",
    "read, two faces: refusal 1 in the second",
    "read, two faces: refusal 2 in the second",
    "read, two faces: refusal 3 in the second",
    "read: files of the other kind",
    "read: joint",
    "read: refusal 1",
    "read: refusal 2",
    "read: refusal 3",
    "read: the new kind by a number that isn't 2",
    "sheet: R 4",
    "sheet: a line of no rows",
    "sheet: ended by a read refusal",
    "sheet: measured first",
    "sheet: no room",
    "sheet: nothing",
    "sheet: printed straight",
    "sheet: to the end of the input",
    "sheet: two lines of one joint",
    "short: allocate",
    "short: built in",
    "short: load, both",
    "short: load, table",
    "short: load, table in force",
    "short: read",
    "short: work, all",
    "short: work, fields",
    "short: work, result",
    "short: work, table",
    "short: write",
    "work, no rows: N is the governing force",
    "work, no rows: bending fails",
    "work, no rows: bending passes",
    "work, no rows: bolts fail",
    "work, no rows: bolts pass",
    "work, no rows: flange and plate both too thick",
    "work, no rows: flange weld passes",
    "work, no rows: governed by B",
    "work, no rows: governed by F",
    "work, no rows: governed by K",
    "work, no rows: governed by S",
    "work, no rows: refusal 10 by a lever",
    "work, no rows: refusal 10 by field 2",
    "work, no rows: refusal 13",
    "work, no rows: refusal 15",
    "work, no rows: the flange weld's leg alone isn't enough",
    "work, no rows: web weld fails",
    "work, no rows: web weld passes",
    "work, no rows: worked",
    "work, own table, two faces: worked",
    "work, own table: a face in the triangle",
    "work, own table: a refused one without field 4",
    "work, own table: field 4 is none of its sizes",
    "work, own table: field 4 is past the count",
    "work, own table: one refused by 16 has field 4",
    "work, own table: one refused by 17 has field 4",
    "work, own table: one refused by 18 has field 4",
    "work, own table: refusal 19",
    "work, own table: worked",
    "work, two faces: both in the triangle",
    "work, two faces: no rows on both",
    "work, two faces: no rows on the first",
    "work, two faces: no rows on the second",
    "work, two faces: panel at its edge with a total below 0",
    "work, two faces: panel fails",
    "work, two faces: panel passes",
    "work, two faces: panel shear below both governing forces",
    "work, two faces: refusal 10 of the first",
    "work, two faces: refusal 10 of the second",
    "work, two faces: refusal 11 of the first",
    "work, two faces: refusal 11 of the second",
    "work, two faces: refusal 12 of the first",
    "work, two faces: refusal 12 of the second",
    "work, two faces: refusal 13 of the first",
    "work, two faces: refusal 13 of the second",
    "work, two faces: refusal 15 of the first",
    "work, two faces: refusal 15 of the second",
    "work, two faces: refusal 19 of the first",
    "work, two faces: refusal 19 of the second",
    "work, two faces: the first in the triangle",
    "work, two faces: the first total greater by one newton more",
    "work, two faces: the first total greater by panel shear",
    "work, two faces: the second in the triangle",
    "work, two faces: the second total greater by one newton more",
    "work, two faces: the second total greater by panel shear",
    "work, two faces: worked",
    "work: 19 before 12",
    "work: bending fails",
    "work: bending passes",
    "work: bolts fail",
    "work: bolts pass",
    "work: buckling reduced near the column end",
    "work: column end at 0.7dc",
    "work: column end one step nearer than 0.7dc",
    "work: column end one step past 0.7dc",
    "work: extended",
    "work: extension row 25δ from the next",
    "work: flange weld fails",
    "work: flange weld passes",
    "work: flush",
    "work: governed by B",
    "work: governed by F",
    "work: governed by K",
    "work: governed by S",
    "work: governed by reduced buckling",
    "work: limited by the cap",
    "work: one step of thickness short of the triangle",
    "work: only the extension row too close",
    "work: refusal 10",
    "work: refusal 11",
    "work: refusal 12",
    "work: refusal 13",
    "work: refusal 15",
    "work: refusal 15 in the triangle",
    "work: refusal 19",
    "work: rows 25δ apart",
    "work: rows one step closer than 25δ",
    "work: the column flange alone too thick",
    "work: the plate alone too thick",
    "work: triangle, a row gets more than without it",
    "work: triangle, an added limit sets a row",
    "work: triangle, extended",
    "work: triangle, flush",
    "work: triangle, limited by the cap",
    "work: triangle, no row below the reference",
    "work: triangle, the reference row has no force",
    "work: web weld fails",
    "work: web weld passes",
    "work: worked",
    "work: worked, with something in the second face",
    "write, no rows: file",
    "write, no rows: refusal 6",
    "write, two faces: 3 of the second before 6 of the first",
    "write, two faces: file",
    "write, two faces: file, no rows on both",
    "write, two faces: file, no rows on the first",
    "write, two faces: file, no rows on the second",
    "write, two faces: refusal 3 of the second",
    "write, two faces: refusal 5",
    "write, two faces: refusal 6",
    "write, two faces: refusal 6 of the second",
    "write: file",
    "write: file, with something in the second face",
    "write: refusal 3",
    "write: refusal 5",
    "write: refusal 6",
];

/// Row counts that refusal 3 has to tell, next to those that are taken, by the call and the face.
const REFUSED_ROWS: [(&str, &[usize]); 5] = [
    ("allocate", &[9, 16]),
    ("read", &[9, 15, 25]),
    ("read, second face", &[9, 16, 24]),
    ("write", &[9, 15, 25]),
    ("write, second face", &[9]),
];

/// Refused row counts up to here are counted each.
const MOST_REFUSED_ROWS: usize = 32;

#[derive(Default)]
pub struct Tally {
    counts: BTreeMap<&'static str, u64>,
    /// by the face, 0 in a joint with one
    fields: [BTreeMap<u32, u64>; 3],
    rows: [BTreeMap<u32, u64>; 3],
    refused_rows: BTreeMap<&'static str, BTreeMap<usize, u64>>,
}

/// What each face is called where it is counted by number.
const FACES: [&str; 3] = ["one face", "first of two", "second of two"];

impl Tally {
    pub fn count(&mut self, case: &'static str) {
        *self.counts.entry(case).or_default() += 1;
    }

    /// The rows of a worked face.
    pub fn count_rows(&mut self, face: u32, rows: u32) {
        *self.rows[face as usize].entry(rows).or_default() += 1;
    }

    /// The field that refusal 10 told.
    pub fn count_field(&mut self, face: u32, field: u32) {
        *self.fields[face as usize].entry(field).or_default() += 1;
    }

    /// The row count that refusal 3 told; a great one isn't listed.
    pub fn count_refused_rows(&mut self, call: &'static str, rows: usize) {
        if rows <= MOST_REFUSED_ROWS {
            let counts = self.refused_rows.entry(call).or_default();
            *counts.entry(rows).or_default() += 1;
        }
    }

    /// What was not reached.
    pub fn missed(&self) -> Vec<String> {
        let cases = CASES
            .iter()
            .filter(|case| !self.counts.contains_key(**case))
            .map(|case| case.to_string());
        let faces = (0..FACES.len()).flat_map(|face| self.missed_numbers(face));
        cases.chain(faces).chain(self.missed_refusals()).collect()
    }

    fn missed_refusals(&self) -> impl Iterator<Item = String> + '_ {
        let is_reached = |call: &str, rows: &usize| {
            let counts = self.refused_rows.get(call);
            counts.is_some_and(|counts| counts.contains_key(rows))
        };
        REFUSED_ROWS.iter().flat_map(move |&(call, rows)| {
            rows.iter()
                .filter(move |rows| !is_reached(call, rows))
                .map(move |rows| format!("{call}: refusal 3 by {rows}"))
        })
    }

    /// Fields that were never out of range, and row counts that were never worked.
    fn missed_numbers(&self, face: usize) -> impl Iterator<Item = String> + '_ {
        let fields = (1..=38)
            .filter(move |&field| can_be_out(face, field))
            .filter(move |field| !self.fields[face].contains_key(field))
            .map(move |field| format!("{}: field {field}", FACES[face]));
        let rows = (0..=8)
            .filter(move |rows| !self.rows[face].contains_key(rows))
            .map(move |rows| format!("{}: {rows} rows", FACES[face]));
        fields.chain(rows)
    }
}

/// Whether refusal 10 can tell the field of this face. Field 1 of the first of two is never out of range, since it says that there are
/// two; of the second only its own fields are told.
fn can_be_out(face: usize, field: u32) -> bool {
    match face {
        0 => true,
        1 => field != 1,
        _ => matches!(field, 1 | 2 | 6 | 7 | 14..=29 | 31..),
    }
}

impl fmt::Display for Tally {
    fn fmt(&self, out: &mut fmt::Formatter) -> fmt::Result {
        for (case, count) in &self.counts {
            writeln!(out, "{count:>9}  {case}")?;
        }
        for (face, name) in FACES.iter().enumerate() {
            writeln!(out, "{name}, worked by rows: {}", listed(&self.rows[face]))?;
            writeln!(
                out,
                "{name}, refusal 10 by field: {}",
                listed(&self.fields[face])
            )?;
        }
        for (call, counts) in &self.refused_rows {
            writeln!(out, "{call}, refusal 3 by row count: {}", listed(counts))?;
        }
        Ok(())
    }
}

fn listed<Key: fmt::Display>(counts: &BTreeMap<Key, u64>) -> String {
    let items: Vec<String> = counts
        .iter()
        .map(|(key, count)| format!("{key}: {count}"))
        .collect();
    items.join(", ")
}
