//! What Work answers.

use crate::joint::ROWS;

#[derive(Clone, Copy, Debug, PartialEq, Eq)]
pub enum Check {
    Flange,
    Bearing,
    Buckling,
    Panel,
}

impl Check {
    pub fn letter(self) -> u8 {
        match self {
            Check::Flange => b'F',
            Check::Bearing => b'B',
            Check::Buckling => b'K',
            Check::Panel => b'S',
        }
    }
}

#[derive(Clone, Copy, Debug, PartialEq, Eq)]
pub struct Verdicts {
    pub bending: bool,
    pub bolts: bool,
    pub flange_weld: bool,
    pub web_weld: bool,
}

/// What one face of the column comes to.
#[derive(Clone, Copy, Debug, PartialEq, Eq)]
pub struct FaceResult {
    /// newtons, 0 past the last row
    pub forces: [u64; ROWS],
    pub sum: u64,
    pub newton_metres: u64,
    pub cap: u64,
    pub check: Check,
    pub governing_force: u64,
    pub verdicts: Verdicts,
}

/// What a joint comes to.
#[derive(Clone, Copy, Debug, PartialEq, Eq)]
pub struct JointResult {
    pub face: FaceResult,
    /// none of a joint with one face
    pub other: Option<OtherResult>,
}

/// What the second face comes to, and the column's web panel between the two.
#[derive(Clone, Copy, Debug, PartialEq, Eq)]
pub struct OtherResult {
    pub face: FaceResult,
    pub panel_passes: bool,
}

/// Why a joint isn't worked.
#[derive(Clone, Copy, Debug, PartialEq, Eq)]
pub struct WorkRefusal {
    pub trouble: Trouble,
    /// 1 or 2 in a joint with two faces, else 0
    pub face: u32,
}

/// Why a face isn't worked.
#[derive(Clone, Copy, Debug, PartialEq, Eq)]
pub enum Trouble {
    /// with the number of the first field out of range
    Field(u32),
    LeverOrder,
    RowsTooClose,
    RowPlace,
    TooTight,
    Compression,
}

impl WorkRefusal {
    pub fn number(self) -> u32 {
        match self.trouble {
            Trouble::Field(_) => 10,
            Trouble::LeverOrder => 11,
            Trouble::RowsTooClose => 19,
            Trouble::RowPlace => 12,
            Trouble::TooTight => 13,
            Trouble::Compression => 15,
        }
    }

    /// 0 unless it is refusal 10.
    pub fn field(self) -> u32 {
        match self.trouble {
            Trouble::Field(field) => field,
            _ => 0,
        }
    }
}
