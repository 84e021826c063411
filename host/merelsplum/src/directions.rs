use crate::coloring::answer;
use crate::ffi::{self, FlatDirections};
use crate::outline::{Outline, Point};
use crate::refusal::Refusal;

/// A unit direction.
#[derive(Clone, Copy, Debug, PartialEq)]
pub struct Direction {
    /// Along the x axis.
    pub x: f64,
    /// Along the y axis.
    pub y: f64,
    /// True where the length, the root of the squared length as rounded, is 0 and (0, 1) stands in.
    pub stand_in: bool,
}

/// The unit directions of an edge.
#[derive(Clone, Copy, Debug, PartialEq)]
pub struct Directions {
    /// In which it starts.
    pub start: Direction,
    /// In which it ends.
    pub end: Direction,
}

impl Direction {
    fn new([x, y]: Point, stand_in: u8) -> Direction {
        Direction { x, y, stand_in: stand_in != 0 }
    }
}

/// The unit directions of the edges of each contour. Where the two control points at an end of a curve are the same,
/// the next one is taken in place of the nearer. The corners of a colouring follow from them and its threshold alone.
///
/// # Errors
///
/// [`Refusal::TooMany`] or [`Refusal::BadCoordinate`].
///
/// ```
/// use merelsplum::{Direction, Edge, Outline, edge_directions};
///
/// let square = Outline::polygon(&[[0.0, 0.0], [1.0, 0.0], [1.0, 1.0], [0.0, 1.0]]);
/// let directions = &edge_directions(&square)?[0];
/// assert_eq!(directions[1].start, Direction { x: 0.0, y: 1.0, stand_in: false });
/// // an edge begins at a corner where it turns from the end of the one before by more than the threshold
/// let corner = |e: Direction, s: Direction| e.x * s.x + e.y * s.y <= 0.0 || (e.x * s.y - e.y * s.x).abs() > 0.125;
/// assert!((0..4).all(|i| corner(directions[(i + 3) % 4].end, directions[i].start)));
///
/// // three control points at one place: the curve has no direction there
/// let edge = Edge::Cubic([[1.0, 1.0], [1.0, 1.0], [1.0, 1.0], [4.0, 5.0]]);
/// let directions = edge_directions(&Outline::from(vec![vec![edge]]))?[0][0];
/// assert_eq!(directions.start, Direction { x: 0.0, y: 1.0, stand_in: true });
/// assert_eq!(directions.end, Direction { x: 0.6, y: 0.8, stand_in: false });
/// # Ok::<(), merelsplum::Refusal>(())
/// ```
pub fn edge_directions(outline: &Outline) -> Result<Vec<Vec<Directions>>, Refusal> {
    let mut out = FlatDirections::default();
    answer(ffi::edge_directions(&outline.flat(), &mut out))?;
    let mut list = out.vectors.into_iter().zip(out.stand_ins).map(|([start, end], [no_start, no_end])| Directions {
        start: Direction::new(start, no_start),
        end: Direction::new(end, no_end),
    });
    Ok(outline.contours.iter().map(|edges| list.by_ref().take(edges.len()).collect()).collect())
}
