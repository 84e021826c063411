//! Stand-in for a file that is not in docs/src; `Shape::normalize` alone calls it.

use super::edge_segment::EdgeSegment;

pub fn convergent_curve_ordering(_a: &EdgeSegment, _b: &EdgeSegment) -> i32 {
    0
}
