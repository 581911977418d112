//! The limit of each group of rows. Lengths are in hundredths of a millimetre unless said.

use crate::joint::{Column, Face};
use crate::sharing::GROUPS;
use crate::strength::{square, BoltStrengths, SteelStrengths};
use std::cmp::Ordering;

/// The distances that bending needs: m and e of both sides, mx of the extension row.
#[derive(Clone, Copy, Debug)]
pub struct Distances {
    column_m: u64,
    plate_m: u64,
    column_e: u64,
    plate_e: u64,
    extension_m: u64,
}

impl Distances {
    /// None is refusal 13: a distance that is too small.
    pub fn of(column: &Column, face: &Face) -> Option<Distances> {
        let Face { beam, welds, .. } = face;
        let signed = |length: u32| i64::from(length);
        let gauge = signed(face.layout.gauge);
        let column_m = 5 * (gauge - signed(column.web)) - 8 * signed(column.radius);
        let plate_m = 5 * (gauge - signed(beam.web)) - 8 * signed(welds.web);
        let column_e = 5 * (signed(column.width) - gauge);
        let plate_e = 5 * (signed(face.plate.width) - gauge);
        let above_flange =
            2 * signed(face.levers[0]) - 2 * signed(beam.depth) + signed(beam.flange);
        let extension_m = 5 * above_flange - 8 * signed(welds.flange);
        let narrow = column_m < 500 || plate_m < 500 || column_e < 1000 || plate_e < 1000;
        if narrow || (face.is_extended() && extension_m < 500) {
            return None;
        }
        Some(Distances {
            column_m: column_m as u64,
            plate_m: plate_m as u64,
            column_e: column_e as u64,
            plate_e: plate_e as u64,
            // not read for a flush plate
            extension_m: extension_m.max(0) as u64,
        })
    }
}

/// An equivalent T-stub: what its bending limit takes besides the effective length.
#[derive(Clone, Copy, Debug)]
struct Stub {
    /// t²y
    resistance: u64,
    /// 100m
    yielding: u64,
    /// 200(m + n')
    combined: u64,
    /// 200n'W
    prying: u64,
    /// m + 2n'
    reach: u64,
    /// 200n'Wm
    prying_moment: u64,
    /// W
    pair: u64,
}

impl Stub {
    /// `thickness` in tenths of a millimetre; n' is the smaller of `edge` and 5m÷4.
    fn new(thickness: u32, strength: u64, m: u64, edge: u64, pair: u64) -> Stub {
        let n = edge.min(5 * m / 4);
        let prying = 200 * n * pair;
        Stub {
            resistance: square(thickness) * strength,
            yielding: 100 * m,
            combined: 200 * (m + n),
            prying,
            reach: m + 2 * n,
            prying_moment: prying * m,
            pair,
        }
    }

    /// The bending limit of `rows` rows over an effective length. Of the modes in which the flange yields the lesser alone is divided:
    /// with b the bending, k rows and p the prying, b ÷ 100m is at most (b + kp) ÷ 200(m + n') exactly where b(m + 2n') is at most kpm.
    #[inline]
    fn limit(&self, length: u64, rows: u64) -> u64 {
        let bending = length * self.resistance;
        let (moment, distance) = if bending * self.reach <= rows * self.prying_moment {
            (bending, self.yielding)
        } else {
            (bending + rows * self.prying, self.combined)
        };
        (moment / distance).min(rows * self.pair)
    }
}

/// A side's stub with the effective lengths of a single row.
struct Side {
    stub: Stub,
    circular: u64,
    other: u64,
}

impl Side {
    fn new(stub: Stub, m: u64, e: u64) -> Side {
        Side {
            stub,
            circular: 6283 * m / 1000,
            other: 4 * m + 5 * e / 4,
        }
    }

    /// `spread` is the group's height in tenths of a millimetre.
    #[inline]
    fn limit(&self, other: u64, spread: u64, rows: u64) -> u64 {
        let length = (self.circular + 20 * spread).min(other + 10 * spread);
        self.stub.limit(length, rows)
    }
}

/// A web's t×y, t in tenths of a millimetre.
fn web_resistance(thickness: u32, strength: u64) -> u64 {
    u64::from(thickness) * strength
}

/// A web in tension; `width` is 173g, g in tenths of a millimetre.
#[inline]
fn web_limit(width: u64, spread: u64, resistance: u64) -> u64 {
    (width + 100 * spread) * resistance / 10000
}

/// The limit of the extension row alone on the plate.
fn extension_limit(
    bolt: &BoltStrengths,
    face: &Face,
    steel: &SteelStrengths,
    distances: &Distances,
) -> u64 {
    let m = distances.extension_m;
    let e = distances.plate_e;
    let plate = &face.plate;
    let gauge = u64::from(face.layout.gauge);
    let edge = 10 * u64::from(face.layout.edge);
    let half_circle = 6283 * m / 2000;
    let half_other = 2 * m + 5 * edge / 8;
    let length = (6283 * m / 1000)
        .min(half_circle + 10 * gauge)
        .min(half_circle + 2 * e)
        .min(4 * m + 5 * edge / 4)
        .min(half_other + e)
        .min(half_other + 5 * gauge)
        .min(5 * u64::from(plate.width));
    let stub = Stub::new(plate.thickness, steel.plate, m, edge, bolt.pair_tension);
    stub.limit(length, 1)
}

/// What the limits of a face's groups take.
struct Parts {
    column: Side,
    plate: Side,
    /// in the place of the plate's other pattern, for a group that begins at the first row below the beam flange
    beside_flange: u64,
    /// of the extension row alone; 0 if flush
    extension: u64,
    /// 173g
    web_width: u64,
    column_web: u64,
    /// of the column's web and the beam's, for a group that both limit
    lesser_web: u64,
    /// the first row below the beam flange
    under_flange: usize,
}

impl Parts {
    fn of(
        column: &Column,
        bolt: &BoltStrengths,
        face: &Face,
        steel: &SteelStrengths,
        distances: &Distances,
    ) -> Parts {
        let Distances {
            column_m, plate_m, ..
        } = *distances;
        let pair = bolt.pair_tension;
        let column_web = web_resistance(column.web, steel.column);
        let least_e = distances.column_e.min(distances.plate_e);
        let column_stub = Stub::new(column.flange, steel.column, column_m, least_e, pair);
        let plate_stub = Stub::new(face.plate.thickness, steel.plate, plate_m, least_e, pair);
        Parts {
            column: Side::new(column_stub, column_m, distances.column_e),
            plate: Side::new(plate_stub, plate_m, distances.plate_e),
            beside_flange: u64::from(face.layout.alpha) * plate_m / 100,
            extension: if face.is_extended() {
                extension_limit(bolt, face, steel, distances)
            } else {
                0
            },
            web_width: 173 * u64::from(face.layout.gauge),
            column_web,
            lesser_web: column_web.min(web_resistance(face.beam.web, steel.beam)),
            under_flange: face.row_under_flange(),
        }
    }

    /// The limit of `rows` rows from `first` on.
    #[inline]
    fn limit(&self, first: usize, rows: u64, spread: u64) -> u64 {
        let web = if first > self.under_flange {
            self.lesser_web
        } else {
            self.column_web
        };
        let column = self
            .column
            .limit(self.column.other, spread, rows)
            .min(web_limit(self.web_width, spread, web));
        match first.cmp(&self.under_flange) {
            Ordering::Less if rows == 1 => column.min(self.extension),
            Ordering::Less => column,
            Ordering::Equal => column.min(self.plate.limit(self.beside_flange, spread, rows)),
            Ordering::Greater => column.min(self.plate.limit(self.plate.other, spread, rows)),
        }
    }
}

/// The limits of groups 1–1, 1–2, .. 1–n, 2–2 and so on; the rest is 0.
pub fn group_limits(
    column: &Column,
    bolt: &BoltStrengths,
    face: &Face,
    steel: &SteelStrengths,
    distances: &Distances,
) -> [u64; GROUPS] {
    let parts = Parts::of(column, bolt, face, steel, distances);
    let rows = face.row_count();
    let mut limits = [0; GROUPS];
    let mut group = 0;
    for first in 0..rows {
        for last in first..rows {
            let spread = u64::from(face.levers[first] - face.levers[last]);
            limits[group] = parts.limit(first, (last - first + 1) as u64, spread);
            group += 1;
        }
    }
    limits
}

#[cfg(test)]
mod tests {
    use super::*;

    #[test]
    fn column_flange_of_checked_joint_d() {
        let stub = Stub::new(205, 265, 3334, 7915.min(5000), 395_360);
        let side = Side::new(stub, 3334, 7915);
        assert_eq!(side.limit(side.other, 0, 1), 375_131);
        assert_eq!(side.limit(side.other, 1000, 2), 685_938);
        assert_eq!(side.limit(side.other, 1900, 3), 972_382);
    }

    /// The three modes as the rule has them, over lengths about the one where two of them meet.
    #[test]
    fn least_of_three_modes() {
        let mut first = 0;
        let mut second = 0;
        for (thickness, strength) in [(40, 255), (95, 275), (205, 265), (500, 355)] {
            for (m, edge) in [(500, 1000), (3334, 5000), (4000, 500), (15000, 30000)] {
                for pair in [1, 188_160, 395_360, 4_501_420] {
                    let stub = Stub::new(thickness, strength, m, edge, pair);
                    let n = edge.min(5 * m / 4);
                    for rows in 1..=8 {
                        let meeting = rows * stub.prying_moment / (stub.resistance * stub.reach);
                        for length in meeting.saturating_sub(2)..meeting + 3 {
                            let bending = length * stub.resistance;
                            let mode1 = bending / (100 * m);
                            let mode2 = (bending + 200 * n * rows * pair) / (200 * (m + n));
                            let least = mode1.min(mode2).min(rows * pair);
                            assert_eq!(stub.limit(length, rows), least);
                            first += u32::from(mode1 < mode2);
                            second += u32::from(mode2 < mode1);
                        }
                    }
                }
            }
        }
        assert!(first > 500 && second > 500, "{first} {second}");
    }

    #[test]
    fn lesser_of_two_webs() {
        for (one, other) in [(130 * 265, 130 * 265), (3450, 34_451), (142_000, 141_999)] {
            for spread in [0, 1, 999, 20_000] {
                let each = [one, other].map(|web| web_limit(173 * 1000, spread, web));
                let lesser = web_limit(173 * 1000, spread, one.min(other));
                assert_eq!(lesser, each[0].min(each[1]));
            }
        }
    }

    #[test]
    fn column_web_of_checked_joint_e() {
        let web = web_resistance(130, 265);
        assert_eq!(web_limit(173 * 1000, 0, web), 595_985);
    }
}
