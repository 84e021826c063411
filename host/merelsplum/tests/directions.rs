//! Unit directions of single edges, which of them are stand-ins, and refusals.

use merelsplum::{Direction, Directions, Edge, Outline, Refusal, edge_directions};

/// The directions of an edge by itself.
fn of(edge: Edge) -> Directions {
    edge_directions(&Outline::from(vec![vec![edge]])).unwrap()[0][0]
}

fn bits(d: Direction) -> ([u64; 2], bool) {
    ([d.x, d.y].map(f64::to_bits), d.stand_in)
}

/// A direction that is no stand-in.
fn unit(x: f64, y: f64) -> Direction {
    Direction { x, y, stand_in: false }
}

const STAND_IN: Direction = Direction { x: 0.0, y: 1.0, stand_in: true };

#[test]
fn a_line_has_one_direction() {
    for to in [[3.0, 4.0], [-0.0, 5.0], [0.1, -0.7], [5e-324, 1.0], [1e-160, 3e-170], [0.0, -0.0]] {
        let Directions { start, end } = of(Edge::Line([[0.0, 0.0], to]));
        assert_eq!(bits(start), bits(end));
    }
    assert_eq!(of(Edge::Line([[1.0, 1.0], [4.0, -3.0]])).start, unit(0.6, -0.8));
}

#[test]
fn start_and_end_of_curves() {
    let bow = of(Edge::Quadratic([[0.0, 0.0], [2.0, 0.0], [2.0, 3.0]]));
    assert_eq!(bow, Directions { start: unit(1.0, 0.0), end: unit(0.0, 1.0) });
    let wave = of(Edge::Cubic([[0.0, 0.0], [3.0, 4.0], [5.0, 6.0], [5.0, 0.0]]));
    assert_eq!(wave, Directions { start: unit(0.6, 0.8), end: unit(0.0, -1.0) });
}

#[test]
fn the_next_control_point() {
    let (a, b, c) = ([1.0, 1.0], [4.0, 5.0], [4.0, -2.0]);
    let (up, down) = (unit(0.6, 0.8), unit(0.0, -1.0));
    assert_eq!(of(Edge::Cubic([a, a, b, c])), Directions { start: up, end: down });
    assert_eq!(of(Edge::Cubic([a, b, c, c])), Directions { start: up, end: down });
    assert_eq!(of(Edge::Quadratic([a, a, b])), Directions { start: up, end: up });
    assert_eq!(of(Edge::Quadratic([a, b, b])), Directions { start: up, end: up });
}

#[test]
fn stand_ins() {
    let (a, b) = ([7.0, -7.0], [10.0, -11.0]);
    for edge in [Edge::Line([a, a]), Edge::Quadratic([a, a, a]), Edge::Cubic([a, a, a, a])] {
        let Directions { start, end } = of(edge);
        assert_eq!([bits(start), bits(end)], [bits(STAND_IN); 2]);
    }
    // the next control point is the same too, and the last is not looked at
    let along = unit(0.6, -0.8);
    assert_eq!(of(Edge::Cubic([a, a, a, b])), Directions { start: STAND_IN, end: along });
    assert_eq!(of(Edge::Cubic([a, b, b, b])), Directions { start: along, end: STAND_IN });
}

/// Not zero, but so short that the square of the length is: below 2^-537.
#[test]
fn lengths_that_are_rounded_to_zero() {
    let line = |x: f64| of(Edge::Line([[0.0, 0.0], [x, 0.0]])).start;
    assert_eq!([2f64.powi(-600), 2f64.powi(-538), 5e-324].map(line), [STAND_IN; 3]);
    assert_eq!([2f64.powi(-537), 2f64.powi(-511)].map(line), [unit(1.0, 0.0); 2]);
    // the tangent at the start is not zero, so no other control point is asked
    let hook = of(Edge::Quadratic([[0.0, 0.0], [2f64.powi(-600), 0.0], [3.0, -4.0]]));
    assert_eq!(hook, Directions { start: STAND_IN, end: unit(0.6, -0.8) });
}

/// What is (0, 1) by itself is no stand-in.
#[test]
fn straight_up() {
    let (a, b) = ([3.0, 3.0], [3.0, 5.0]);
    let up = Directions { start: unit(0.0, 1.0), end: unit(0.0, 1.0) };
    for edge in [Edge::Line([a, b]), Edge::Quadratic([a, a, b]), Edge::Cubic([a, a, b, b])] {
        assert_eq!(of(edge), up);
    }
    assert_eq!(of(Edge::Line([[0.0, 0.0], [0.0, 2f64.powi(-537)]])), up);
}

#[test]
fn contours() {
    assert_eq!(edge_directions(&Outline::default()), Ok(vec![]));
    let edge = |x: f64| Edge::Line([[0.0, 0.0], [x, 0.0]]);
    let outline = Outline::from(vec![vec![], vec![edge(1.0), edge(-1.0)], vec![], vec![edge(-2.0), edge(0.0)], vec![]]);
    let directions = edge_directions(&outline).unwrap();
    let starts: Vec<Vec<f64>> = directions.iter().map(|c| c.iter().map(|d| d.start.x).collect()).collect();
    assert_eq!(starts, [vec![], vec![1.0, -1.0], vec![], vec![-1.0, 0.0], vec![]]);
    let stand_ins: Vec<bool> = directions.iter().flatten().map(|d| d.start.stand_in && d.end.stand_in).collect();
    assert_eq!(stand_ins, [false, false, false, true]);
}

#[test]
fn refusals() {
    let (line, far) = (Edge::Line([[0.0, 0.0], [1.0, 0.0]]), Edge::Line([[0.0, 0.0], [0.0, 1_048_577.0]]));
    let contour = |edges: usize, last: Edge| Outline::from(vec![[vec![line; edges - 1], vec![last]].concat()]);
    assert_eq!(edge_directions(&contour(256, line)).unwrap()[0].len(), 256);
    assert_eq!(edge_directions(&contour(256, far)), Err(Refusal::BadCoordinate));
    assert_eq!(edge_directions(&contour(257, line)), Err(Refusal::TooMany));
    assert_eq!(edge_directions(&contour(257, far)), Err(Refusal::TooMany));
    assert_eq!(edge_directions(&contour(70_000, line)), Err(Refusal::TooMany));
    assert_eq!(edge_directions(&Outline::from(vec![vec![]; 64])), Ok(vec![vec![]; 64]));
    assert_eq!(edge_directions(&Outline::from(vec![vec![]; 65])), Err(Refusal::TooMany));
    assert_eq!(edge_directions(&Outline::from(vec![vec![far]; 65])), Err(Refusal::TooMany));
}
