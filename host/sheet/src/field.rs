//! The distance field of a coloured outline, after msdfgen: in each channel the signed distance to the nearest edge
//! that feeds it, perpendicular beyond the edge's ends (a pseudo-distance). Contours that overlap are measured each for
//! itself and joined.

use crate::distance::signed_distance;
use crate::source::{Bounds, Contour, EdgeColor, EdgeSegment, Shape, SignedDistance, Vector2, cross, dot, median, segment};
use crate::winding::{bounds, overlaps, winding};
use merelsplum::Colored;

/// The distance in each channel: positive inside.
pub type Distances = [f64; 3];

/// By how much an edge must be too far, in units of the font, to be left out: more than what rounding takes.
const MARGIN: f64 = 1e-6;

/// The sine of the angle up to which two edges go on straight.
const SMOOTH: f64 = 1e-9;

/// An outline, prepared to be measured.
pub struct Field {
    parts: Vec<Part>,
    /// Whether edges that cannot be nearest are left out.
    skip: bool,
}

/// Edges that are measured together: those of one contour, or of all where none overlap.
struct Part {
    edges: Vec<FieldEdge>,
    winding: i32,
}

struct FieldEdge {
    segment: EdgeSegment,
    /// A bit for each channel that it feeds.
    color: u8,
    bounds: Bounds,
    /// Its place in the outline.
    place: usize,
    start: End,
    end: End,
}

/// One end of an edge: where, which way the edge leads out of itself there, and the middle between that way and the
/// neighbour's way in.
struct End {
    point: Vector2,
    outward: Vector2,
    middle: Vector2,
    /// Whether the two ways differ: else nothing is beyond the end and on its side.
    corner: bool,
}

/// How a field is measured.
#[derive(Clone, Copy, PartialEq)]
enum Kind {
    /// To the nearest point of an edge.
    True,
    /// Perpendicular beyond the ends.
    Perpendicular,
}

/// Measures points, one after the other: the edges nearest to the last one are looked at first. N is 3 for the channels
/// of the colours, or 1 for all edges alike.
pub struct Measure<'a, const N: usize> {
    field: &'a Field,
    kind: Kind,
    /// For each part the edges that were nearest.
    last: Vec<[usize; N]>,
    /// For each part the edges that can be nearest to a point within the disc.
    among: Vec<Vec<usize>>,
    disc: Disc,
}

/// The points about a center.
#[derive(Clone, Copy)]
struct Disc {
    center: Vector2,
    radius: f64,
}

impl Field {
    pub fn new(colored: &Colored) -> Field {
        Field::with(colored, true, true)
    }

    /// Where `overlap` is not set, contours are taken not to overlap; where `skip` is not set, no edge is left out.
    pub fn with(colored: &Colored, overlap: bool, skip: bool) -> Field {
        let shape = shape(colored);
        let mut parts: Vec<Part> = Vec::new();
        let mut place = 0;
        let apart = overlap && overlaps(&shape);
        for contour in shape.contours.iter().filter(|contour| !contour.is_empty()) {
            let edges = edges(contour, place);
            place += edges.len();
            match parts.first_mut() {
                Some(part) if !apart => part.edges.extend(edges),
                _ => parts.push(Part { edges, winding: winding(contour) }),
            }
        }
        Field { parts, skip }
    }

    /// The distances of points in the three channels.
    pub fn channels(&self) -> Measure<'_, 3> {
        self.measure(Kind::Perpendicular)
    }

    /// The perpendicular distances of points from all edges.
    pub fn perpendicular(&self) -> Measure<'_, 1> {
        self.measure(Kind::Perpendicular)
    }

    /// The true distances of points.
    pub fn distance(&self) -> Measure<'_, 1> {
        self.measure(Kind::True)
    }

    fn measure<const N: usize>(&self, kind: Kind) -> Measure<'_, N> {
        let among = self.parts.iter().map(|part| (0..part.edges.len()).collect()).collect();
        let everywhere = Disc { center: Vector2::ZERO, radius: f64::INFINITY };
        Measure { field: self, kind, last: vec![[0; N]; self.parts.len()], among, disc: everywhere }
    }
}

fn shape(colored: &Colored) -> Shape {
    let mut shape = Shape::new();
    for edges in &colored.contours {
        let contour = shape.add_contour_mut();
        edges.iter().for_each(|(edge, color)| contour.add_edge_colored(segment(edge), EdgeColor::from_bits(color.bits())));
    }
    shape
}

fn edges(contour: &Contour, first: usize) -> Vec<FieldEdge> {
    let n = contour.len();
    let way = |i: usize, t: f64| contour.segments[i % n].direction(t).normalize(true);
    let edge = |i: usize| {
        let segment = contour.segments[i];
        let end = |t: f64, outward: Vector2, inward: Vector2| End {
            point: segment.point(t),
            outward,
            middle: (outward + inward).normalize(true),
            corner: cross(outward, inward).abs() > SMOOTH || dot(outward, inward) < 0.0,
        };
        FieldEdge {
            segment,
            color: contour.colors[i].bits(),
            bounds: bounds(&segment),
            place: first + i,
            start: end(0.0, -way(i, 0.0), -way(i + n - 1, 1.0)),
            end: end(1.0, way(i, 1.0), way(i + 1, 0.0)),
        }
    };
    (0..n).map(edge).collect()
}

impl<'a, const N: usize> Measure<'a, N> {
    /// The distances of a point, within the disc where there is one.
    pub fn at(&mut self, point: Vector2) -> [f64; N] {
        match &self.field.parts[..] {
            [] => [f64::MIN; N],
            [part] => self.nearest(part, 0, point).distances(point, self.kind),
            parts => {
                let each: Vec<Channels<N>> = parts.iter().enumerate().map(|(i, part)| self.nearest(part, i, point)).collect();
                self.join(&each, point)
            }
        }
    }

    /// From now on all points are within a disc: the edges are found that can be nearest there. What is nearest to the
    /// center is at most the radius further from a point of the disc, and any edge at most the radius nearer.
    pub fn within(&mut self, center: Vector2, radius: f64) {
        if !self.field.skip {
            return;
        }
        for (i, part) in self.field.parts.iter().enumerate() {
            self.among[i] = (0..part.edges.len()).collect();
            self.disc = Disc { center, radius: 0.0 };
            let nearest = self.nearest(part, i, center);
            self.disc = Disc { center, radius };
            self.among[i].retain(|&edge| nearest.wants(&part.edges[edge], center, radius));
        }
    }

    /// What is nearest in one part, and remembers it.
    fn nearest(&mut self, part: &'a Part, number: usize, point: Vector2) -> Channels<'a, N> {
        debug_assert!((point - self.disc.center).length() <= self.disc.radius + MARGIN);
        let mut nearest = Channels::default();
        if !self.field.skip {
            part.edges.iter().for_each(|edge| nearest.add(edge, point));
            return nearest;
        }
        let last = self.last[number];
        for i in 0..N {
            if !last[..i].contains(&last[i]) {
                nearest.add(&part.edges[last[i]], point);
            }
        }
        for &i in &self.among[number] {
            let edge = &part.edges[i];
            if nearest.wants(edge, point, 0.0) && !last.contains(&i) {
                nearest.add(edge, point);
            }
        }
        let first = part.edges[0].place;
        self.last[number] = nearest.channels.map(|channel| channel.near.edge.map_or(0, |edge| edge.place - first));
        nearest
    }

    /// Joins what each part says. A point inside one contour is not outside for another one's sake: of the contours
    /// that turn the same way the one that it is deepest in counts, bounded by those that turn the other way.
    fn join(&self, each: &[Channels<N>], point: Vector2) -> [f64; N] {
        let distances: Vec<[f64; N]> = each.iter().map(|nearest| nearest.distances(point, self.kind)).collect();
        let windings = || self.field.parts.iter().map(|part| part.winding);
        let merged = |wanted: &dyn Fn(i32, f64) -> bool| {
            let mut nearest = Channels::default();
            for (i, winding) in windings().enumerate() {
                if wanted(winding, middle(&distances[i])) {
                    nearest.merge(&each[i]);
                }
            }
            nearest.distances(point, self.kind)
        };
        let shape = merged(&|_, _| true);
        let inner = merged(&|winding, distance| winding > 0 && distance >= 0.0);
        let outer = merged(&|winding, distance| winding < 0 && distance <= 0.0);
        let (depth, height) = (middle(&inner), middle(&outer));

        let (mut joined, side) = if depth >= 0.0 && depth.abs() <= height.abs() {
            (inner, 1)
        } else if height <= 0.0 && height.abs() < depth.abs() {
            (outer, -1)
        } else {
            return shape;
        };
        let limit = if side > 0 { height.abs() } else { depth.abs() };
        for (winding, distance) in windings().zip(&distances) {
            let further = f64::from(side) * (middle(distance) - middle(&joined)) > 0.0;
            if winding == side && middle(distance).abs() < limit && further {
                joined = *distance;
            }
        }
        for (winding, distance) in windings().zip(&distances) {
            let same_side = middle(distance) * middle(&joined) >= 0.0;
            if winding != side && same_side && middle(distance).abs() < middle(&joined).abs() {
                joined = *distance;
            }
        }
        if middle(&joined) == middle(&shape) { shape } else { joined }
    }
}

/// The distance that a field is drawn by: the middle one of three.
pub fn middle<const N: usize>(distances: &[f64; N]) -> f64 {
    if N < 3 { distances[0] } else { median(distances[0], distances[1], distances[2]) }
}

impl End {
    /// The distance to the straight continuation of the edge, for a point on this end's side; `off` widens that side.
    fn perpendicular(&self, point: Vector2, off: f64) -> Option<f64> {
        if !self.corner {
            return None;
        }
        let way = point - self.point;
        let beyond = dot(way, self.middle) < off && dot(way, self.outward) > -off;
        beyond.then(|| cross(way, self.outward))
    }
}

impl FieldEdge {
    fn feeds<const N: usize>(&self, channel: usize) -> bool {
        N < 3 || self.color >> channel & 1 == 1
    }

    /// The distances to its continuations.
    fn continued(&self, point: Vector2, off: f64) -> [Option<f64>; 2] {
        [self.start.perpendicular(point, off).map(|distance| -distance), self.end.perpendicular(point, off)]
    }

    /// No more than the square of its distance.
    fn at_least(&self, point: Vector2) -> f64 {
        let Bounds { l, b, r, t } = self.bounds;
        let (across, up) = ((l - point.x).max(point.x - r).max(0.0), (b - point.y).max(point.y - t).max(0.0));
        across * across + up * up
    }
}

/// The edge nearest to a point.
#[derive(Clone, Copy, Default)]
struct Near<'a> {
    distance: SignedDistance,
    param: f64,
    edge: Option<&'a FieldEdge>,
}

/// What is nearest to a point in one channel: an edge, and the nearest continuations on either side.
#[derive(Clone, Copy)]
struct Channel<'a> {
    near: Near<'a>,
    outside: f64,
    inside: f64,
}

#[derive(Clone, Copy)]
struct Channels<'a, const N: usize> {
    channels: [Channel<'a>; N],
    /// For each color how far an edge that feeds it may be.
    reach: [f64; 8],
}

impl<const N: usize> Default for Channels<'_, N> {
    fn default() -> Self {
        let far = Channel { near: Near::default(), outside: f64::MIN, inside: f64::MAX };
        Channels { channels: [far; N], reach: [f64::MAX; 8] }
    }
}

impl<'a> Channel<'a> {
    /// The first of edges that are as near as each other stays.
    fn add(&mut self, near: Near<'a>) {
        let place = |near: &Near| near.edge.map_or(usize::MAX, |edge| edge.place);
        if near.distance.cmp_key(self.near.distance).then_with(|| place(&near).cmp(&place(&self.near))).is_lt() {
            self.near = near;
        }
    }

    fn add_perpendicular(&mut self, distance: f64) {
        if distance <= 0.0 {
            self.outside = self.outside.max(distance);
        }
        if distance >= 0.0 {
            self.inside = self.inside.min(distance);
        }
    }

    fn merge(&mut self, other: &Channel<'a>) {
        self.add(other.near);
        self.outside = self.outside.max(other.outside);
        self.inside = self.inside.min(other.inside);
    }

    fn distance(&self, point: Vector2, kind: Kind) -> f64 {
        let Near { mut distance, param, edge } = self.near;
        if kind == Kind::True {
            return distance.distance;
        }
        let continued = if distance.distance < 0.0 { self.outside } else { self.inside };
        let Some(edge) = edge else { return continued };
        edge.segment.distance_to_perpendicular_distance(&mut distance, point, param);
        if distance.distance.abs() < continued.abs() { distance.distance } else { continued }
    }
}

impl<'a, const N: usize> Channels<'a, N> {
    fn add(&mut self, edge: &'a FieldEdge, point: Vector2) {
        let (distance, param) = signed_distance(&edge.segment, point);
        let nearer = |continued: &f64| continued.abs() < distance.distance.abs();
        let continued = edge.continued(point, 0.0).map(|continued| continued.filter(nearer));
        for (i, channel) in self.channels.iter_mut().enumerate() {
            if edge.feeds::<N>(i) {
                channel.add(Near { distance, param, edge: Some(edge) });
                continued.into_iter().flatten().for_each(|distance| channel.add_perpendicular(distance));
            }
        }
        let reach = self.channels.each_ref().map(|channel| channel.near.distance.distance.abs() + MARGIN);
        for color in 0..8 {
            let fed = (0..N).filter(|&i| N < 3 || color >> i & 1 == 1);
            self.reach[color] = fed.map(|i| reach[i]).fold(0.0, f64::max);
        }
    }

    /// Whether an edge or its continuations may be as near as what there is, to a point that is at most `off` from the
    /// one that was measured. A continuation that is further than the nearest edge counts for nothing.
    fn wants(&self, edge: &FieldEdge, point: Vector2, off: f64) -> bool {
        let reach = self.reach[usize::from(edge.color)] + 2.0 * off;
        edge.at_least(point) <= reach * reach
            || edge.continued(point, off).iter().flatten().any(|distance| distance.abs() <= reach)
    }

    fn merge(&mut self, other: &Channels<'a, N>) {
        self.channels.iter_mut().zip(&other.channels).for_each(|(channel, other)| channel.merge(other));
    }

    fn distances(&self, point: Vector2, kind: Kind) -> [f64; N] {
        self.channels.each_ref().map(|channel| channel.distance(point, kind))
    }
}

#[cfg(test)]
mod tests {
    use super::*;
    use merelsplum::{Outline, edge_coloring_simple};

    /// Squares that turn clockwise, by their lower left corners and their sides.
    fn colored(corners: &[(f64, f64, f64)]) -> Colored {
        let square = |&(x, y, side): &(f64, f64, f64)| {
            Outline::polygon(&[[x, y], [x, y + side], [x + side, y + side], [x + side, y]]).contours.remove(0)
        };
        let outline = Outline { contours: corners.iter().map(square).collect() };
        edge_coloring_simple(&outline, 0.125, 0).unwrap()
    }

    fn squares(corners: &[(f64, f64, f64)]) -> Field {
        Field::new(&colored(corners))
    }

    fn depth(field: &Field, x: f64, y: f64) -> f64 {
        middle(&field.channels().at(Vector2::new(x, y)))
    }

    #[test]
    fn inside_and_outside_a_square() {
        let field = squares(&[(0.0, 0.0, 4.0)]);
        assert_eq!(depth(&field, 2.0, 2.0), 2.0);
        assert_eq!(depth(&field, 1.0, 2.0), 1.0);
        assert_eq!(depth(&field, 2.0, -3.0), -3.0);
        assert_eq!(depth(&field, 7.0, 2.0), -3.0);
    }

    /// The two sides of a corner feed different channels, so that the middle goes on straight beyond it.
    #[test]
    fn corners_are_sharp() {
        let field = squares(&[(0.0, 0.0, 4.0)]);
        assert_eq!(depth(&field, -1.0, -1.0), -1.0);
        assert_eq!(depth(&field, -1.0, 0.5), -1.0);
        assert_eq!(depth(&field, 0.5, 0.25), 0.25);
    }

    #[test]
    fn overlapping_contours_are_joined() {
        let field = squares(&[(0.0, 0.0, 4.0), (3.0, 1.0, 4.0)]);
        assert_eq!(depth(&field, 3.0, 2.0), 1.0, "on an edge of the second, inside the first");
        assert_eq!(depth(&field, 3.5, 2.0), 0.5);
        assert_eq!(depth(&field, 5.0, 3.0), 2.0);
        assert_eq!(depth(&field, 8.0, 3.0), -1.0);
    }

    /// A contour without edges counts for nothing, alone, first, and between contours that overlap.
    #[test]
    fn empty_contours() {
        let full = colored(&[(0.0, 0.0, 4.0), (3.0, 1.0, 4.0)]);
        let with = |places: &[usize]| {
            let mut colored = full.clone();
            places.iter().for_each(|&place| colored.contours.insert(place, vec![]));
            Field::new(&colored)
        };
        for (x, y) in [(3.5, 2.0), (5.0, 3.0), (8.0, 3.0), (-1.0, -1.0)] {
            assert_eq!(depth(&with(&[0, 2, 4]), x, y), depth(&with(&[]), x, y));
        }
        let nothing = Field::new(&Colored { contours: vec![vec![]; 2], stand_ins: 0 });
        assert_eq!(depth(&nothing, 0.0, 0.0), f64::MIN);
    }

    /// The field is the same, to the bit, whether or not edges are left out that cannot be nearest: in each channel,
    /// perpendicular and true, alone and overlapping, in whatever order points are measured.
    #[test]
    fn nothing_is_lost_by_skipping() {
        let outlines: [&[(f64, f64, f64)]; 4] =
            [&[(0.0, 0.0, 4.0)], &[(0.0, 0.0, 4.0), (7.0, 1.0, 2.0)], &[(0.0, 0.0, 4.0), (3.0, 1.0, 4.0)], &[(0.0, 0.0, 9.0); 2]];
        for corners in outlines {
            let colored = colored(corners);
            let (all, some) = (Field::with(&colored, true, false), Field::with(&colored, true, true));
            for step in [1, 7910] {
                let (mut a, mut b) = (
                    (all.channels(), all.perpendicular(), all.distance()),
                    (some.channels(), some.perpendicular(), some.distance()),
                );
                for i in (0..10_000).map(|i| i * step % 10_000) {
                    let point = Vector2::new(f64::from(i % 100) * 0.25 - 8.0, f64::from(i / 100) * 0.25 - 8.0);
                    if i % 10 == 0 {
                        // a disc that holds this point and the nine after it, or this one alone
                        let radius = if step == 1 { 2.5 } else { 0.0 };
                        let center = point + Vector2::new(0.45 * radius, 0.8 * radius);
                        b.0.within(center, radius);
                        b.1.within(center, radius);
                        b.2.within(center, radius);
                    }
                    assert_eq!(a.0.at(point).map(f64::to_bits), b.0.at(point).map(f64::to_bits), "{corners:?} at {point:?}");
                    assert_eq!(a.1.at(point).map(f64::to_bits), b.1.at(point).map(f64::to_bits), "{corners:?} at {point:?}");
                    assert_eq!(a.2.at(point).map(f64::to_bits), b.2.at(point).map(f64::to_bits), "{corners:?} at {point:?}");
                }
            }
        }
    }
}
