use crate::ffi::{Flat, FlatResult, Places};

/// x and y.
pub type Point = [f64; 2];

/// A line or a Bézier curve, by its control points.
#[derive(Clone, Copy, Debug, PartialEq)]
pub enum Edge {
    /// From the first point to the second.
    Line([Point; 2]),
    /// A quadratic curve.
    Quadratic([Point; 3]),
    /// A cubic curve.
    Cubic([Point; 4]),
}

/// The channels that an edge feeds.
#[derive(Clone, Copy, Debug, PartialEq, Eq, Hash)]
#[allow(missing_docs)]
pub enum EdgeColor {
    Black,
    Red,
    Green,
    Yellow,
    Blue,
    Magenta,
    Cyan,
    White,
}

/// What is to be coloured: contours of edges. A contour may be empty; an edge stands as it is given, its end is not
/// joined to the start of the next.
#[derive(Clone, Debug, Default, PartialEq)]
pub struct Outline {
    /// The edges of each contour.
    pub contours: Vec<Vec<Edge>>,
}

/// A coloured outline. A contour of one or two edges with one corner is split in thirds; otherwise the edges are those
/// of the outline.
#[derive(Clone, Debug, Default, PartialEq)]
pub struct Colored {
    /// The edges of each contour with their colours.
    pub contours: Vec<Vec<(Edge, EdgeColor)>>,
    /// How many of the outline's directions had no length, so that (0, 1) stood in for them: each of its edges has two,
    /// in which it starts and in which it ends, and those of a line are the same.
    /// [`edge_directions`](crate::edge_directions) says which.
    pub stand_ins: usize,
}

/// An outline cut into splines, runs of edges from corner to corner.
#[derive(Clone, Debug, Default, PartialEq)]
pub struct Collected {
    /// The edges of each contour with the numbers of their splines; `None` where an edge belongs to none and will be
    /// White.
    pub contours: Vec<Vec<(Edge, Option<u8>)>>,
    /// How many splines there are.
    pub splines: usize,
    /// As in [`Colored`].
    pub stand_ins: usize,
}

impl Edge {
    /// Its control points.
    #[must_use]
    pub fn points(&self) -> &[Point] {
        match self {
            Edge::Line(points) => points,
            Edge::Quadratic(points) => points,
            Edge::Cubic(points) => points,
        }
    }

    /// The kind as the library numbers it: 1 line, 2 quadratic, 3 cubic.
    pub(crate) fn kind(&self) -> u8 {
        self.points().len() as u8 - 1
    }

    /// Eight numbers, of which a line uses four and a quadratic six.
    fn places(&self) -> Places {
        const UNUSED: Point = [0.0; 2];
        match *self {
            Edge::Line([a, b]) => [a, b, UNUSED, UNUSED],
            Edge::Quadratic([a, b, c]) => [a, b, c, UNUSED],
            Edge::Cubic(points) => points,
        }
    }

    fn from_places(kind: u8, places: Places) -> Edge {
        let [a, b, c, _] = places;
        match kind {
            1 => Edge::Line([a, b]),
            2 => Edge::Quadratic([a, b, c]),
            _ => Edge::Cubic(places),
        }
    }
}

impl EdgeColor {
    /// All of them, by their bits.
    pub const ALL: [EdgeColor; 8] = [
        EdgeColor::Black,
        EdgeColor::Red,
        EdgeColor::Green,
        EdgeColor::Yellow,
        EdgeColor::Blue,
        EdgeColor::Magenta,
        EdgeColor::Cyan,
        EdgeColor::White,
    ];

    /// 1 for red, 2 for green and 4 for blue, added up.
    #[must_use]
    pub fn bits(self) -> u8 {
        self as u8
    }

    /// Whether it has channel 0 (red), 1 (green) or 2 (blue).
    ///
    /// ```
    /// # use merelsplum::EdgeColor;
    /// assert_eq!([0, 1, 2].map(|channel| EdgeColor::Yellow.has_channel(channel)), [true, true, false]);
    /// ```
    #[must_use]
    pub fn has_channel(self, channel: usize) -> bool {
        channel < 3 && self.bits() >> channel & 1 == 1
    }

    pub(crate) fn from_bits(bits: u8) -> EdgeColor {
        Self::ALL[bits as usize]
    }
}

impl Outline {
    /// One closed contour of lines through these points.
    #[must_use]
    pub fn polygon(points: &[Point]) -> Outline {
        let next = points.iter().cycle().skip(1);
        Outline { contours: vec![points.iter().zip(next).map(|(&a, &b)| Edge::Line([a, b])).collect()] }
    }

    /// How many edges it has.
    pub fn edge_count(&self) -> usize {
        self.contours.iter().map(Vec::len).sum()
    }

    pub(crate) fn flat(&self) -> Flat {
        let edges = self.edge_count();
        let mut flat = Flat {
            lengths: Vec::with_capacity(self.contours.len()),
            kinds: Vec::with_capacity(edges),
            points: Vec::with_capacity(edges),
        };
        for contour in &self.contours {
            // a contour this long is refused for its length
            flat.lengths.push(contour.len().try_into().unwrap_or(u16::MAX));
            flat.kinds.extend(contour.iter().map(Edge::kind));
            flat.points.extend(contour.iter().map(Edge::places));
        }
        flat
    }

    /// Buffers that hold every result: contours of one or two edges may be split in thirds.
    pub(crate) fn room(&self) -> FlatResult {
        let edges = self.contours.iter().map(|c| if c.len() < 3 { 3 * c.len() } else { c.len() }).sum();
        FlatResult::new(self.contours.len(), edges)
    }
}

impl From<Vec<Vec<Edge>>> for Outline {
    fn from(contours: Vec<Vec<Edge>>) -> Outline {
        Outline { contours }
    }
}

impl Colored {
    /// How many edges it has.
    pub fn edge_count(&self) -> usize {
        self.contours.iter().map(Vec::len).sum()
    }
}

/// The contours that buffers hold, each edge with the value of its byte.
pub(crate) fn contours<T>(
    lengths: impl Iterator<Item = usize>,
    kinds: &[u8],
    points: &[Places],
    bytes: &[u8],
    value: impl Fn(u8) -> T,
) -> Vec<Vec<(Edge, T)>> {
    let mut at = 0;
    let contour = |length: usize| {
        let places = at..at + length;
        at = places.end;
        let edges = kinds[places.clone()].iter().zip(&points[places.clone()]).zip(&bytes[places]);
        edges.map(|((&kind, &points), &byte)| (Edge::from_places(kind, points), value(byte))).collect()
    };
    lengths.map(contour).collect()
}
