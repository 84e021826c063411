//! Job files to try: of the shapes that are coloured, at SCOPE's limits, and longer than any that is accepted.

use crate::contours::{self, Edges, MAX_COORDINATE, contour, edge};
use crate::distances::{self, MOST_DISTANCES, WAYS, pairs};
use crate::glyphs::{circle, polygon, square};
use crate::jobs::{Job, Records, balanced, counted, edge_record, header, records, splines, write};
use crate::math::Vector2;
use crate::numbers::Random;
use crate::shapes::{self, decode, some};
use crate::teardrops::{TIES, teardrop};

// ---- accepted ones

/// A job of any strategy, by either division.
pub fn job(r: &mut Random) -> Job {
    if r.below(5) < 2 {
        let (c, _, _) = distances::call(r);
        let distances = c.distances.into_iter().map(f64::from_bits).collect();
        let contours = decode(&c.call.outline);
        let (seed, threshold, balanced) = (c.call.seed, c.call.threshold, r.coin());
        return Job { strategy: 3, seed, threshold, balanced, contours, distances };
    }
    let c = shapes::call(r);
    let (strategy, contours) = (1 + r.below(2) as u8, decode(&c.outline));
    let (seed, threshold, balanced) = (c.seed, c.threshold, r.coin());
    Job { strategy, seed, threshold, balanced, contours, distances: Vec::new() }
}

/// A job by a strategy and the source's division, with distances of some kind where it asks for them.
pub fn by(r: &mut Random, strategy: u8, contours: Vec<Edges>, threshold: f64) -> Job {
    let (seed, distances) = (contours::seed(r), Vec::new());
    let mut job = Job { strategy, seed, threshold, balanced: false, contours, distances };
    if strategy == 3 {
        let way = some(r, WAYS.len());
        job.distances = WAYS[way].1(r, pairs(splines(&job)).min(MOST_DISTANCES));
    }
    job
}

/// A job of few edges, by either division.
pub fn small(r: &mut Random, strategy: u8) -> Job {
    let threshold = contours::threshold(r);
    let contours = (0..r.below(3)).map(|_| match some(r, 4) {
        0 => Vec::new(),
        m => contour(r, m, threshold),
    });
    let contours = contours.collect();
    let balanced = r.coin();
    Job { balanced, ..by(r, strategy, contours, threshold) }
}

// ---- SCOPE's examples and limits

/// A file, and the answer that SCOPE gives: so many edges, or a refusal.
pub struct Known {
    pub name: &'static str,
    pub file: Vec<u8>,
    pub answer: Result<usize, u8>,
}

/// The square of P6; by distance with P7's distances, 0 beside and 1 across.
pub fn square_job(strategy: u8) -> Job {
    let beside = if strategy == 3 { vec![0.0, 1.0, 0.0, 0.0, 1.0, 0.0] } else { Vec::new() };
    let contours = vec![square()];
    Job { strategy, seed: 0, threshold: 0.125, balanced: false, contours, distances: beside }
}

/// A job without contours.
pub fn no_contours(strategy: u8) -> Job {
    Job { contours: Vec::new(), distances: Vec::new(), ..square_job(strategy) }
}

/// A contour of n lines, each place a corner.
pub fn saw(n: usize) -> Edges {
    polygon(&(0..n).map(|i| (i as f64, (i % 2) as f64)).collect::<Vec<_>>())
}

/// A line again and again.
pub fn lines(n: usize) -> Edges {
    vec![edge(&[Vector2::new(0.0, 0.0), Vector2::new(1.0, 0.0)]); n]
}

/// A job with so many distances, all 1.
pub fn ones(contours: Vec<Edges>, distances: usize) -> Job {
    let distances = vec![1.0; distances];
    Job { strategy: 3, seed: 7, threshold: 0.125, balanced: false, contours, distances }
}

/// BL, 64 contours, 256 cubics, 64 splines, 2,016 distances: 33,179 bytes.
pub fn longest() -> Job {
    let circles = (0..64).map(|i| circle(i as f64, 0.0, 1.0 + i as f64)).collect();
    Job { balanced: true, ..ones(circles, MOST_DISTANCES) }
}

/// 508 edges out of 256: 63 contours of two edges with one corner, and one of 130 edges.
pub fn widest(strategy: u8) -> Job {
    let (p, q, s) = (Vector2::new(0.0, 0.0), Vector2::new(1.0, 0.0), Vector2::new(2.0, 0.0));
    let two = vec![edge(&[p, q]), edge(&[q, s, Vector2::new(0.0, 1.0)])];
    let mut contours = vec![two; 63];
    contours.push(lines(130));
    let (seed, distances) = (1234567, Vec::new());
    Job { strategy, seed, threshold: 0.125, balanced: false, contours, distances }
}

/// The same with 449 stand-ins, three in each contour of two edges and two an edge in the last: the longest text.
pub fn widest_of_stand_ins(strategy: u8) -> Job {
    let (p, down) = (Vector2::new(2.0, 3.0), Vector2::new(2.0, -3.0));
    let point = edge(&[p, p]);
    let mut contours = vec![vec![point, edge(&[p, p, p, down])]; 63];
    contours.push(vec![point; 130]);
    Job { contours, ..widest(strategy) }
}

/// Each place of an edge of each kind, in turn, with a coordinate there. By the threshold each edge has a
/// corner, so that it is split.
fn with_coordinate(x: f64) -> Vec<Vec<u8>> {
    let mut files = Vec::new();
    for order in 1..4 {
        for place in 0..2 * (order + 1) {
            let mut points = [Vector2::new(0.0, 0.0), Vector2::new(3.0, 1.0)].repeat(2);
            let p = &mut points[place / 2];
            *(if place % 2 == 0 { &mut p.x } else { &mut p.y }) = x;
            let contours = vec![vec![edge(&points[..=order])], Vec::new()];
            files.push(write(&Job { threshold: -1.0, contours, ..square_job(1) }));
        }
    }
    files
}

/// What SCOPE says of the square, of a job without contours and of each limit.
pub fn known() -> Vec<Known> {
    let mut all = Vec::new();
    let mut add = |name, file, answer| all.push(Known { name, file, answer });
    add("0 bytes", Vec::new(), Err(1));
    let empty = |n: usize| vec![Edges::new(); n];
    for strategy in 1..4 {
        let on = |contours: Vec<Edges>| {
            let job = Job { contours, distances: Vec::new(), ..square_job(strategy) };
            let splines = splines(&job);
            let count = if strategy == 3 { pairs(splines).min(MOST_DISTANCES) } else { 0 };
            write(&Job { distances: vec![1.0; count], ..job })
        };
        add("the square", write(&square_job(strategy)), Ok(4));
        add("a job without contours", write(&no_contours(strategy)), Ok(0));
        add("256 edges in a contour", on(vec![lines(256)]), Ok(256));
        add("257 edges in a contour", on(vec![lines(257)]), Err(4));
        add("256 edges in 32 contours", on(vec![lines(8); 32]), Ok(256));
        add("257 edges in 33 contours", on([vec![lines(8); 32], vec![lines(1)]].concat()), Err(4));
        add("64 contours", on([vec![lines(3); 62], empty(2)].concat()), Ok(186));
        add("65 contours", on([vec![lines(3); 62], empty(3)].concat()), Err(4));
        add("64 empty contours", on(empty(64)), Ok(0));
        add("65 empty contours", on(empty(65)), Err(4));
        let limit = if strategy == 3 { Err(4) } else { Ok(65) };
        add("64 splines", on(vec![saw(64)]), Ok(64));
        add("65 splines", on(vec![saw(65)]), limit);
        add("65 splines in two contours", on(vec![saw(64), lines(1)]), limit);
    }
    for x in [MAX_COORDINATE, -MAX_COORDINATE] {
        with_coordinate(x).into_iter().for_each(|file| add("1,048,576", file, Ok(3)));
    }
    for x in [MAX_COORDINATE.next_up(), -MAX_COORDINATE.next_up()] {
        let next = with_coordinate(x).into_iter();
        next.for_each(|file| add("the next after 1,048,576", file, Err(7)));
    }
    for (threshold, next) in [(1.0, 1.0f64.next_up()), (-1.0, -1.0f64.next_up())] {
        let with = |threshold| write(&Job { threshold, ..square_job(2) });
        add("a threshold of 1", with(threshold), Ok(4));
        add("the next threshold after 1", with(next), Err(6));
    }
    add("2,016 distances", write(&ones(vec![saw(64)], 2016)), Ok(64));
    add("2,015 distances", write(&ones(vec![saw(64)], 2015)), Err(8));
    add("2,017 distances", write(&ones(vec![saw(64)], 2017)), Err(4));
    add("2,017 distances for 65 splines", write(&ones(vec![saw(65)], 2017)), Err(4));
    add("65,535 distances", write(&ones(vec![saw(64)], 65535)), Err(4));
    add("508 edges out", write(&widest(1)), Ok(508));
    add("508 edges out", write(&widest(2)), Ok(508));
    add("508 edges out, 449 stand-ins", write(&widest_of_stand_ins(1)), Ok(508));
    add("508 edges out, 449 stand-ins", write(&widest_of_stand_ins(2)), Ok(508));
    add("the longest accepted file", write(&longest()), Ok(256));
    let due = [header(3, 0, 0.125), b"EN".to_vec()].concat();
    add("no contours, EN while DS is due", due, Err(3));
    let early = [header(3, 0, 0.125), counted(0, &[]), b"CTEN".to_vec()].concat();
    add("DS before the contours", early, Err(3));
    all
}

// ---- the balanced division

/// A job by a strategy whose one contour has m edges and one corner, at a place.
pub fn drop_job(r: &mut Random, strategy: u8, balanced: bool, m: usize, corner: usize) -> Job {
    let contours = vec![teardrop(r, m, corner, 0.125)];
    Job { balanced, ..by(r, strategy, contours, 0.125) }
}

/// A record BL more, before the record at a place of a file or after the last one.
pub fn with_balanced(f: &Records, at: usize) -> Vec<u8> {
    [f[..at].concat(), balanced(), f[at..].concat()].concat()
}

/// A file of a job with BL more at each place where none may stand.
pub fn misplaced_balanced(job: &Job) -> Vec<Vec<u8>> {
    let f = records(job);
    let wrong = |at: &usize| *at != 1 || job.balanced;
    (0..=f.len()).filter(wrong).map(|at| with_balanced(&f, at)).collect()
}

/// The square far away, with the letters BL in its seed, its threshold and its coordinates, and no BL.
pub fn letters(strategy: u8) -> Job {
    let letters = u64::from_le_bytes(*b"BLBLBLBL");
    let number = |size: f64| f64::from_bits(size.to_bits() + letters % (1 << 48));
    let (near, far) = (number(1.0), number(1024.0));
    let contours = vec![polygon(&[(near, near), (far, near), (far, far), (near, far)])];
    Job { seed: letters, threshold: number(0.125), contours, ..square_job(strategy) }
}

/// BL where none may stand, and a later record with another fault: a bad coordinate, an unknown mark, a cut.
pub fn balanced_before_faults(strategy: u8) -> Vec<Vec<u8>> {
    let start = [header(strategy, 0, 0.125), b"CTBL".to_vec()].concat();
    let line = |x: f64| edge_record(&edge(&[Vector2::new(0.0, 0.0), Vector2::new(x, 0.0)]));
    [line(f64::INFINITY), [line(1.0), b"??".to_vec()].concat(), line(1.0)[..7].to_vec()]
        .map(|rest| [start.clone(), rest].concat())
        .into()
}

/// What SCOPE says of BL.
pub fn known_balanced() -> Vec<Known> {
    let mut all = Vec::new();
    let r = &mut Random(709);
    for strategy in 1..4 {
        let mut add = |name, file: Vec<u8>, answer| all.push(Known { name, file, answer });
        let (square, two) = (square_job(strategy), no_contours(strategy));
        let balanced = |job: &Job| Job { balanced: true, ..job.clone() };
        add("BL, the square", write(&balanced(&square)), Ok(4));
        add("BL, a job without contours", write(&balanced(&two)), Ok(0));
        for m in [1, 2].into_iter().chain(3..9).chain(TIES).chain([46, 48, 94, 256]) {
            let edges = if m < 3 { 3 * m } else { m };
            let corner = some(r, m);
            let job = drop_job(r, strategy, true, m, corner);
            add("BL, a contour with one corner", write(&job), Ok(edges));
            add("the same without BL", write(&Job { balanced: false, ..job }), Ok(edges));
        }
        for job in [&square, &balanced(&square), &two, &balanced(&two)] {
            let files = misplaced_balanced(job).into_iter();
            files.for_each(|file| add("BL where none may stand", file, Err(3)));
        }
        for file in balanced_before_faults(strategy) {
            add("BL where none may stand, then another fault", file, Err(3));
        }
        add("the letters BL in numbers", write(&letters(strategy)), Ok(4));
        let header = header(strategy, 0, 0.125);
        for rest in [&b"B"[..], b"BL", b"BLE", b"BLB", b"BLC"] {
            add("BL, cut after JB", [&header, rest].concat(), Err(1));
        }
        for rest in [b"bl", b"LB", b"BI", b"CL", b"BT"] {
            add("a mark like BL", [&header[..], rest, b"EN"].concat(), Err(2));
        }
    }
    all
}

// ---- files longer than any that is accepted

/// The program's buffer holds so many bytes.
pub const PROGRAM_BYTES: usize = 34_000;

pub const LONG: [&str; 9] = [
    "long: random bytes",
    "long: an accepted file and random bytes",
    "long: the longest accepted file and zeros",
    "long: the start of a file and random bytes",
    "long: above 256 edges",
    "long: above 64 contours",
    "long: above 2,016 distances",
    "long: a file again and again",
    "long: zeros",
];

/// A file of more than 34,000 bytes, in one of the ways of `LONG`.
pub fn long(r: &mut Random, way: usize) -> Vec<u8> {
    let size = PROGRAM_BYTES + 1 + r.pick(&[0, 1, 2000, 40000]).min(some(r, 40001));
    let noise = |r: &mut Random, file: Vec<u8>| {
        let more = size.saturating_sub(file.len());
        [file, (0..more).map(|_| r.next() as u8).collect()].concat()
    };
    let strategy = 1 + r.below(3) as u8;
    let all: Records = records(&small(r, strategy));
    let open = || [header(1, 0, 0.5), b"CT".to_vec()].concat();
    match way {
        0 => noise(r, Vec::new()),
        1 => noise(r, all.concat()),
        2 => {
            let mut file = write(&longest());
            file.resize(size, 0);
            file
        }
        3 => {
            let kept = some(r, all.len());
            noise(r, all[..kept].concat())
        }
        4 => [open(), edge_record(&circle(0.0, 0.0, 1.0)[0]).repeat(size / 66)].concat(),
        5 => [open(), b"CT".repeat(size / 2)].concat(),
        6 => write(&ones(vec![saw(64)], size / 8)),
        7 => all.concat().repeat(size / all.concat().len() + 1),
        _ => vec![0; size],
    }
}
