//! The joint's fields, grouped by what the two faces of the column share. Lengths are in tenths of a millimetre unless said. The
//! numbers are those of docs/rules.md, 2.1.

use std::ops::RangeInclusive;

/// Most bolt rows of a face.
pub const ROWS: usize = 8;
/// The fields before the levers.
pub const HEAD: usize = 30;
/// Fields that a second face has of its own, before its levers: 1, 2, 6, 7 and 14 to 29.
pub const OWN: usize = 20;
/// Fields of a joint with one face, spare levers included.
pub const ONE_FACED_FIELDS: usize = HEAD + ROWS;
/// Fields of a joint with two faces, spare levers included.
pub const FIELDS: usize = ONE_FACED_FIELDS + OWN + ROWS;
/// What field 1 is raised by where a second face follows.
pub const SECOND_FACE: u32 = 16;
/// Row counts of a face; a pinned stub has no rows.
pub const COUNTS: RangeInclusive<u32> = 0..=ROWS as u32;
/// Field 1 of a joint with two faces.
pub const RAISED_COUNTS: RangeInclusive<u32> = SECOND_FACE..=SECOND_FACE + ROWS as u32;

/// A beam on a column flange through an end plate, or one on each of the two flanges.
#[derive(Clone, Copy, Debug, Default, PartialEq, Eq)]
pub struct Joint {
    pub column: Column,
    pub bolts: Bolts,
    /// the first face; its row count is raised by 16 where there is a second
    pub face: Face,
    /// the second face; not looked at where field 1 tells of none, and 0 as it is read
    pub other: Face,
}

/// Fields 5, 8 to 13 and 30.
#[derive(Clone, Copy, Debug, Default, PartialEq, Eq)]
pub struct Column {
    pub grade: u32,
    pub depth: u32,
    pub width: u32,
    pub flange: u32,
    pub web: u32,
    /// of the root
    pub radius: u32,
    /// between the fillets
    pub clear: u32,
    /// from the compression force to the nearer end
    pub end_distance: u32,
}

/// Fields 3 and 4.
#[derive(Clone, Copy, Debug, Default, PartialEq, Eq)]
pub struct Bolts {
    pub class: u32,
    /// in millimetres
    pub diameter: u32,
}

/// One face of the column, with the beam on it.
#[derive(Clone, Copy, Debug, Default, PartialEq, Eq)]
pub struct Face {
    pub rows: u32,
    /// 1 if row 1 stands above the beam flange
    pub extended: u32,
    pub beam: Beam,
    pub plate: Plate,
    pub layout: Layout,
    pub welds: Welds,
    pub shear_rows: u32,
    pub loads: Loads,
    /// of each row; 0 past the last
    pub levers: [u32; ROWS],
}

/// Fields 6 and 14 to 17.
#[derive(Clone, Copy, Debug, Default, PartialEq, Eq)]
pub struct Beam {
    pub grade: u32,
    pub depth: u32,
    pub width: u32,
    pub flange: u32,
    pub web: u32,
}

/// Fields 7, 18 and 19.
#[derive(Clone, Copy, Debug, Default, PartialEq, Eq)]
pub struct Plate {
    pub grade: u32,
    pub width: u32,
    pub thickness: u32,
}

/// How the bolts stand on the plate: fields 20 to 22.
#[derive(Clone, Copy, Debug, Default, PartialEq, Eq)]
pub struct Layout {
    pub gauge: u32,
    /// from row 1 to the plate's top; 0 if flush
    pub edge: u32,
    /// in hundredths
    pub alpha: u32,
}

/// Fields 23 to 25: two legs, and the length of the web weld.
#[derive(Clone, Copy, Debug, Default, PartialEq, Eq)]
pub struct Welds {
    pub flange: u32,
    pub web: u32,
    pub length: u32,
}

/// Fields 27 to 29.
#[derive(Clone, Copy, Debug, Default, PartialEq, Eq)]
pub struct Loads {
    /// newtons, compression positive
    pub axial: i32,
    /// newtons
    pub shear: u32,
    /// newton metres
    pub moment: u32,
}

impl Joint {
    /// From the fields in file order, the second face's after the first's, axial forces by their two's complement.
    pub fn from_fields(fields: &[u32; FIELDS]) -> Joint {
        let (first, second) = fields.split_at(ONE_FACED_FIELDS);
        Joint {
            other: Face::from_own_fields(second),
            ..Joint::one_faced(first)
        }
    }

    /// From the fields of a joint with one face; the second is 0.
    pub fn one_faced(fields: &[u32]) -> Joint {
        let field = |number: usize| fields[number - 1];
        Joint {
            column: Column {
                grade: field(5),
                depth: field(8),
                width: field(9),
                flange: field(10),
                web: field(11),
                radius: field(12),
                clear: field(13),
                end_distance: field(30),
            },
            bolts: Bolts {
                class: field(3),
                diameter: field(4),
            },
            face: Face::from_fields(field, &fields[HEAD..]),
            other: Face::default(),
        }
    }

    /// The fields in file order, the second face's after the first's, axial forces by their two's complement.
    pub fn to_fields(&self) -> [u32; FIELDS] {
        let mut fields = [0; FIELDS];
        fields[..HEAD].copy_from_slice(&self.head());
        fields[HEAD..ONE_FACED_FIELDS].copy_from_slice(&self.face.levers);
        fields[ONE_FACED_FIELDS..FIELDS - ROWS].copy_from_slice(&self.other.own_fields());
        fields[FIELDS - ROWS..].copy_from_slice(&self.other.levers);
        fields
    }

    /// The fields before the first face's levers.
    pub fn head(&self) -> [u32; HEAD] {
        let Joint { column, bolts, .. } = self;
        let own = self.face.own_fields();
        let mut head = [0; HEAD];
        head[..2].copy_from_slice(&own[..2]);
        head[2..5].copy_from_slice(&[bolts.class, bolts.diameter, column.grade]);
        head[5..7].copy_from_slice(&own[2..4]);
        head[7..13].copy_from_slice(&[
            column.depth,
            column.width,
            column.flange,
            column.web,
            column.radius,
            column.clear,
        ]);
        head[13..29].copy_from_slice(&own[4..]);
        head[29] = column.end_distance;
        head
    }

    /// Field 1 is 16 to 24.
    pub fn is_two_faced(&self) -> bool {
        RAISED_COUNTS.contains(&self.face.rows)
    }

    /// The first face of a joint with two, its row count without the 16.
    pub fn first_of_two(&self) -> Face {
        Face {
            rows: self.face.rows - SECOND_FACE,
            ..self.face
        }
    }
}

impl Face {
    /// From the fields by their numbers, and eight levers.
    fn from_fields(field: impl Fn(usize) -> u32, eight_levers: &[u32]) -> Face {
        let mut levers = [0; ROWS];
        levers.copy_from_slice(eight_levers);
        Face {
            rows: field(1),
            extended: field(2),
            beam: Beam {
                grade: field(6),
                depth: field(14),
                width: field(15),
                flange: field(16),
                web: field(17),
            },
            plate: Plate {
                grade: field(7),
                width: field(18),
                thickness: field(19),
            },
            layout: Layout {
                gauge: field(20),
                edge: field(21),
                alpha: field(22),
            },
            welds: Welds {
                flange: field(23),
                web: field(24),
                length: field(25),
            },
            shear_rows: field(26),
            loads: Loads {
                axial: field(27) as i32,
                shear: field(28),
                moment: field(29),
            },
            levers,
        }
    }

    /// A second face, from its own fields and eight levers.
    pub fn from_own_fields(own: &[u32]) -> Face {
        let field = |number: usize| match number {
            1 | 2 => own[number - 1],
            6 | 7 => own[number - 4],
            _ => own[number - 10],
        };
        Face::from_fields(field, &own[OWN..])
    }

    /// Fields 1, 2, 6, 7 and 14 to 29.
    pub fn own_fields(&self) -> [u32; OWN] {
        [
            self.rows,
            self.extended,
            self.beam.grade,
            self.plate.grade,
            self.beam.depth,
            self.beam.width,
            self.beam.flange,
            self.beam.web,
            self.plate.width,
            self.plate.thickness,
            self.layout.gauge,
            self.layout.edge,
            self.layout.alpha,
            self.welds.flange,
            self.welds.web,
            self.welds.length,
            self.shear_rows,
            self.loads.axial as u32,
            self.loads.shear,
            self.loads.moment,
        ]
    }

    pub fn row_count(&self) -> usize {
        self.rows as usize
    }

    pub fn is_extended(&self) -> bool {
        self.extended == 1
    }

    /// The place of the first row below the beam flange; past the last row where there is none.
    pub fn row_under_flange(&self) -> usize {
        usize::from(self.is_extended())
    }
}
