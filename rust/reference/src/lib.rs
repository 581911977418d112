//! Document 01, and the rules for joints near the column end, for a beam on both faces, for bolt tables, for rows too close, for one
//! limit raised, for thick flanges with thick plates and for plates with no rows, read in plain Rust. It was written from the papers, with
//! the signatures of the proved calls and some of their bodies known.
//! Rows count from 0 here, from 1 in the rules.

mod bolt_table;
mod compression;
mod file;
mod joint;
mod outcome;
mod raising;
mod range;
mod sharing;
mod sheet;
mod strength;
mod tension;
mod verdict;
mod work;

pub use bolt_table::{greatest_area, load, BoltTable, LoadRefusal, BUILT_IN, SIZES, TABLE_WORDS};
pub use compression::panel_shear;
pub use file::{read, rest, write, FileKind, ReadRefusal, WriteRefusal, LONGEST_FILE};
pub use joint::{
    Beam, Bolts, Column, Face, Joint, Layout, Loads, Plate, Welds, FIELDS, ONE_FACED_FIELDS, OWN,
    ROWS, SECOND_FACE,
};
pub use outcome::{Check, FaceResult, JointResult, OtherResult, Trouble, Verdicts, WorkRefusal};
pub use raising::{broken_rule, moment, place, raised, Raise};
pub use sharing::{allocate, AllocateRefusal, GREATEST_LIMIT, GROUPS};
pub use sheet::{sheet, LONGEST_INPUT};
pub use strength::is_too_thick;
pub use work::{forces_without_triangle, minimum_pitch, work};
