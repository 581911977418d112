//! The compression side: four checks, the first least of which governs. Between two faces panel shear is none of them: it is held to
//! what the faces differ by.

use crate::joint::{Column, Face};
use crate::outcome::Check;
use crate::strength::{column_strength, square, SteelStrengths};

/// On how many faces of the column there is a beam.
#[derive(Clone, Copy, Debug, PartialEq, Eq)]
pub enum Faces {
    One,
    Two,
}

/// The governing check of a face with its force in newtons.
pub fn governing(
    column: &Column,
    face: &Face,
    steel: &SteelStrengths,
    faces: Faces,
) -> (Check, u64) {
    let beam = &face.beam;
    let bearing_length = u64::from(
        beam.flange
            + 2 * face.welds.flange
            + 2 * face.plate.thickness
            + 5 * (column.flange + column.radius),
    );
    let web = u64::from(column.web);
    let flange = 7 * steel.beam * u64::from(beam.flange) * u64::from(beam.width) / 500;
    let bearing = bearing_length * web * steel.column / 100;
    let far = web_buckling(bearing_length, column.clear, column.web, steel.column);
    let buckling = reduced_near_end(far, column.end_distance, column.clear);
    let mut least = (Check::Flange, flange);
    let mut count = |check: Check, force: u64| {
        if force < least.1 {
            least = (check, force);
        }
    };
    count(Check::Bearing, bearing);
    count(Check::Buckling, buckling);
    if faces == Faces::One {
        count(Check::Panel, panel_shear(column));
    }
    least
}

/// Of the column's web, in newtons.
pub fn panel_shear(column: &Column) -> u64 {
    3 * column_strength(column) * u64::from(column.web) * u64::from(column.depth) / 500
}

/// Whether panel shear takes what the governing totals of the two faces, each the sum of its forces plus its N, differ by.
pub fn panel_passes(panel_shear: u64, totals: [i64; 2]) -> bool {
    let [first, second] = totals;
    first.abs_diff(second) <= panel_shear
}

/// The greatest w with 16 dc w² at most 275 b yc tc⁴, where no column end is near.
fn web_buckling(bearing_length: u64, clear: u32, web: u32, strength: u64) -> u64 {
    let most = 275 * bearing_length * strength * square(web) * square(web);
    (most / (16 * u64::from(clear))).isqrt()
}

/// w, or w (10z + 7dc) ÷ (14dc) where z is below 0.7dc.
fn reduced_near_end(buckling: u64, end_distance: u32, clear: u32) -> u64 {
    let end = 10 * u64::from(end_distance);
    let reach = 7 * u64::from(clear);
    if end < reach {
        buckling * (end + reach) / (2 * reach)
    } else {
        buckling
    }
}

#[cfg(test)]
mod tests {
    use super::*;

    #[test]
    fn buckling_of_checked_joint_f() {
        assert_eq!(web_buckling(1973, 4765, 96, 275), 407_706);
    }

    #[test]
    fn checked_joint_f_near_the_column_end() {
        let reduced = |end_distance| reduced_near_end(407_706, end_distance, 4765);
        assert_eq!(reduced(15000), 407_706);
        assert_eq!(reduced(3336), 407_706);
        assert_eq!(reduced(3335), 407_675);
        // 407706 × 33365 ÷ 66710 = 203914.11..
        assert_eq!(reduced(1), 203_914);
    }

    /// 0.7dc is 3500, 3500.7 and 3506.3 here: rounded down or to the nearest it would be a tenth off.
    #[test]
    fn the_edge_is_not_rounded() {
        for (clear, least_far) in [(5000, 3500), (5001, 3501), (5009, 3507)] {
            assert_eq!(reduced_near_end(700_000, least_far, clear), 700_000);
            assert!(reduced_near_end(700_000, least_far - 1, clear) < 700_000);
        }
    }

    #[test]
    fn the_panel_takes_the_difference_either_way() {
        for (first, second) in [(1_500, 400), (-400, -1_500), (700, -400), (1_100, 0)] {
            assert!(panel_passes(1_100, [first, second]));
            assert!(panel_passes(1_100, [second, first]));
            assert!(!panel_passes(1_099, [first, second]));
            assert!(!panel_passes(1_099, [second, first]));
        }
        assert!(panel_passes(0, [-3, -3]));
    }

    #[test]
    fn buckling_is_the_greatest_by_its_rule() {
        for (length, clear, web, strength) in [
            (420, 14000, 30, 255),
            (6500, 500, 400, 335),
            (1973, 4765, 96, 275),
        ] {
            let w = u128::from(web_buckling(length, clear, web, strength));
            let most = 275 * u128::from(length) * u128::from(strength) * u128::from(web).pow(4);
            let side = |w: u128| 16 * u128::from(clear) * w * w;
            assert!(side(w) <= most && most < side(w + 1));
        }
    }
}
