//! The job file, by the rules of SCOPE (Job file, Refusals) and nothing else: a job and its bytes, a reader, what is
//! tested after reading, the listing, and the part of each contour. The colourings are the source's, by its own
//! division of teardrops or by the balanced one.

use crate::contours::{Edges, MAX_COORDINATE, edge};
use crate::distances::{self as by_distance, MOST_DISTANCES, MOST_SPLINES, collect_splines, pairs};
use crate::geometry::{EdgeSegment, Shape};
use crate::math::Vector2;
use crate::shapes::{self, Answer, Buffers, deliver, encode, run, run_balanced, source_shape};
use crate::stand_ins;
use std::fmt::Write;
use std::ops::Range;

pub const MOST_CONTOURS: usize = 64;
pub const MOST_EDGES: usize = 256;

/// Strategy 1 simple, 2 ink trap, 3 by distance; 0 before it is read. Balanced: teardrops are divided so.
#[derive(Clone, Debug, Default, PartialEq)]
pub struct Job {
    pub strategy: u8,
    pub seed: u64,
    pub threshold: f64,
    pub balanced: bool,
    pub contours: Vec<Edges>,
    pub distances: Vec<f64>,
}

// ---- the bytes of a job

/// A file as its records, one after the other.
pub type Records = Vec<Vec<u8>>;

pub fn header(strategy: u8, seed: u64, threshold: f64) -> Vec<u8> {
    [b"JB", &[strategy][..], &seed.to_le_bytes(), &threshold.to_le_bytes()].concat()
}

pub fn balanced() -> Vec<u8> {
    b"BL".to_vec()
}

pub fn edge_record(e: &EdgeSegment) -> Vec<u8> {
    let (points, order) = e.control_points();
    let mark = [b"LN", b"QD", b"CB"][order - 1];
    let numbers = points[..=order].iter().flat_map(|p| [p.x, p.y]);
    mark.iter().copied().chain(numbers.flat_map(f64::to_le_bytes)).collect()
}

/// DS with a count of its own.
pub fn counted(count: u16, distances: &[f64]) -> Vec<u8> {
    let numbers = distances.iter().flat_map(|d| d.to_le_bytes());
    b"DS".iter().copied().chain(count.to_le_bytes()).chain(numbers).collect()
}

pub fn distances(distances: &[f64]) -> Vec<u8> {
    counted(distances.len() as u16, distances)
}

pub fn contour_records(edges: &Edges) -> Records {
    [b"CT".to_vec()].into_iter().chain(edges.iter().map(edge_record)).collect()
}

pub fn records(job: &Job) -> Records {
    let mut records = vec![header(job.strategy, job.seed, job.threshold)];
    if job.balanced {
        records.push(balanced());
    }
    records.extend(job.contours.iter().flat_map(contour_records));
    if job.strategy == 3 {
        records.push(distances(&job.distances));
    }
    records.push(b"EN".to_vec());
    records
}

pub fn write(job: &Job) -> Vec<u8> {
    records(job).concat()
}

// ---- faults

/// What can be wrong with a record, in the order in which it is looked for, and with a job that was read.
#[derive(Clone, Copy, Debug, PartialEq)]
pub enum Fault {
    MarkCut,
    UnknownMark,
    Misplaced,
    TooMany,
    BodyCut,
    Strategy,
    Threshold,
    Coordinate,
    TooManyDistances,
    DistancesCut,
    Distance,
    AfterEnd,
    Splines,
    DistanceCount,
}

pub use Fault::*;

pub const FAULTS: [Fault; 14] = [
    MarkCut,
    UnknownMark,
    Misplaced,
    TooMany,
    BodyCut,
    Strategy,
    Threshold,
    Coordinate,
    TooManyDistances,
    DistancesCut,
    Distance,
    AfterEnd,
    Splines,
    DistanceCount,
];

impl Fault {
    /// The number (SCOPE, Refusals).
    pub fn number(self) -> u8 {
        match self {
            MarkCut | BodyCut | DistancesCut => 1,
            UnknownMark => 2,
            Misplaced | AfterEnd => 3,
            TooMany | TooManyDistances | Splines => 4,
            Strategy => 5,
            Threshold => 6,
            Coordinate => 7,
            DistanceCount => 8,
            Distance => 9,
        }
    }
}

fn good_strategy(byte: u8) -> bool {
    (1..=3).contains(&byte)
}

fn good_threshold(x: f64) -> bool {
    (-1.0..=1.0).contains(&x)
}

fn good_coordinate(x: f64) -> bool {
    x.abs() <= MAX_COORDINATE
}

fn good_distance(d: f64) -> bool {
    d.is_finite() && d >= 0.0
}

// ---- the reader

pub const MARKS: [&[u8; 2]; 8] = [b"JB", b"BL", b"CT", b"LN", b"QD", b"CB", b"DS", b"EN"];

/// How many bytes follow a mark, of DS those of the count; none where the mark is unknown.
fn body_size(mark: &[u8]) -> Option<usize> {
    match mark {
        b"JB" => Some(1 + 8 + 8),
        b"LN" => Some(2 * 16),
        b"QD" => Some(3 * 16),
        b"CB" => Some(4 * 16),
        b"DS" => Some(2),
        b"BL" | b"CT" | b"EN" => Some(0),
        _ => None,
    }
}

/// The whole doubles at the start of some bytes.
fn doubles(bytes: &[u8]) -> impl Iterator<Item = f64> {
    bytes.chunks_exact(8).map(|b| f64::from_le_bytes(b.try_into().unwrap()))
}

fn count(body: &[u8]) -> usize {
    u16::from_le_bytes([body[0], body[1]]) as usize
}

/// What was read, and where each contour begins; the last one ends where DS or EN begins.
pub struct Reading {
    pub job: Job,
    starts: Vec<usize>,
    end: usize,
}

impl Reading {
    /// From a contour's CT up to the next CT, DS or EN; nothing where there is no such contour.
    pub fn part(&self, contour: u64) -> Range<usize> {
        let at = contour.min(self.starts.len() as u64) as usize;
        let ends = self.starts.iter().chain([&self.end]).skip(1);
        self.starts.iter().zip(ends).nth(at).map_or(0..0, |(&start, &end)| start..end)
    }
}

struct Reader<'a> {
    file: &'a [u8],
    /// Where the next record begins.
    at: usize,
    /// The mark of the record before it, nothing at the start.
    last: &'a [u8],
    job: Job,
    starts: Vec<usize>,
    edges: usize,
    /// Where DS begins, once it is read.
    distances: Option<usize>,
}

impl<'a> Reader<'a> {
    fn new(file: &'a [u8]) -> Self {
        let job = Job::default();
        Reader { file, at: 0, last: b"", job, starts: Vec::new(), edges: 0, distances: None }
    }

    fn allows(&self, mark: &[u8]) -> bool {
        let begun = self.job.strategy != 0;
        let among = begun && self.distances.is_none();
        let by_distance = self.job.strategy == 3;
        match mark {
            b"JB" => !begun,
            b"BL" => self.last == b"JB",
            b"CT" => among,
            b"DS" => among && by_distance,
            b"EN" => begun && by_distance == self.distances.is_some(),
            _ => among && !self.starts.is_empty(),
        }
    }

    fn is_full(&self, mark: &[u8]) -> bool {
        match mark {
            b"CT" => self.starts.len() == MOST_CONTOURS,
            b"LN" | b"QD" | b"CB" => self.edges == MOST_EDGES,
            _ => false,
        }
    }

    /// Reads the next record; whether it was the last.
    fn record(&mut self) -> Result<bool, Fault> {
        let (mark, rest) = self.file[self.at..].split_at_checked(2).ok_or(MarkCut)?;
        let size = body_size(mark).ok_or(UnknownMark)?;
        if !self.allows(mark) {
            return Err(Misplaced);
        }
        if self.is_full(mark) {
            return Err(TooMany);
        }
        let (body, rest) = rest.split_at_checked(size).ok_or(BodyCut)?;
        let mut end = self.at + 2 + size;
        match mark {
            b"JB" => self.header(body)?,
            b"BL" => self.job.balanced = true,
            b"CT" => {
                self.starts.push(self.at);
                self.job.contours.push(Vec::new());
            }
            b"DS" => {
                self.job.distances = read_distances(count(body), rest)?;
                self.distances = Some(self.at);
                end += 8 * count(body);
            }
            b"EN" if !rest.is_empty() => return Err(AfterEnd),
            b"EN" => return Ok(true),
            _ => self.edge(body)?,
        }
        self.at = end;
        self.last = mark;
        Ok(false)
    }

    fn header(&mut self, body: &[u8]) -> Result<(), Fault> {
        if !good_strategy(body[0]) {
            return Err(Strategy);
        }
        let threshold = f64::from_le_bytes(body[9..].try_into().unwrap());
        if !good_threshold(threshold) {
            return Err(Threshold);
        }
        self.job.strategy = body[0];
        self.job.seed = u64::from_le_bytes(body[1..9].try_into().unwrap());
        self.job.threshold = threshold;
        Ok(())
    }

    fn edge(&mut self, body: &[u8]) -> Result<(), Fault> {
        if !doubles(body).all(good_coordinate) {
            return Err(Coordinate);
        }
        let mut points = [Vector2::ZERO; 4];
        for (p, xy) in points.iter_mut().zip(body.chunks(16)) {
            (p.x, p.y) = (doubles(xy).next().unwrap(), doubles(&xy[8..]).next().unwrap());
        }
        self.job.contours.last_mut().unwrap().push(edge(&points[..body.len() / 16]));
        self.edges += 1;
        Ok(())
    }
}

fn read_distances(count: usize, rest: &[u8]) -> Result<Vec<f64>, Fault> {
    if count > MOST_DISTANCES {
        return Err(TooManyDistances);
    }
    let all: Vec<f64> = doubles(rest.get(..8 * count).ok_or(DistancesCut)?).collect();
    if all.iter().all(|&d| good_distance(d)) { Ok(all) } else { Err(Distance) }
}

/// The job of a file, or its first fault.
pub fn read(file: &[u8]) -> Result<Reading, Fault> {
    let mut reader = Reader::new(file);
    while !reader.record()? {}
    let end = reader.distances.unwrap_or(reader.at);
    Ok(Reading { job: reader.job, starts: reader.starts, end })
}

// ---- after reading

pub fn splines(job: &Job) -> usize {
    collect_splines(job.balanced, &mut source_shape(&job.contours), job.threshold).1.len() - 1
}

/// What is tested of a job that was read: for strategy 3 alone the splines, then the distances.
pub fn check(job: &Job) -> Result<(), Fault> {
    if job.strategy != 3 {
        return Ok(());
    }
    let splines = splines(job);
    if splines > MOST_SPLINES {
        return Err(Splines);
    }
    if job.distances.len() != pairs(splines) { Err(DistanceCount) } else { Ok(()) }
}

/// The coloured shape of a job, or what is wrong with it.
pub fn color(job: &Job) -> Result<Shape, Fault> {
    check(job)?;
    let mut shape = source_shape(&job.contours);
    let Job { seed, threshold, balanced, distances, .. } = job;
    let run = if *balanced { run_balanced } else { run };
    match job.strategy {
        1 => run(shapes::Strategy::Simple, &mut shape, *threshold, *seed),
        2 => run(shapes::Strategy::InkTrap, &mut shape, *threshold, *seed),
        _ => drop(by_distance::run(*balanced, &mut shape, *threshold, *seed, distances)),
    }
    Ok(shape)
}

/// What a file comes to: its job where it is read, and the coloured shape where it is accepted.
pub struct Outcome {
    pub reading: Result<Reading, Fault>,
    pub colored: Result<Shape, Fault>,
}

pub fn outcome(file: &[u8]) -> Outcome {
    let reading = read(file);
    let colored = reading.as_ref().map_err(|fault| *fault).and_then(|r| color(&r.job));
    Outcome { reading, colored }
}

impl Outcome {
    pub fn fault(&self) -> Option<Fault> {
        self.colored.as_ref().err().copied()
    }

    /// The job of an accepted file, or the fault of reading or of the checks after it.
    pub fn accepted(&self) -> Result<&Reading, Fault> {
        let reading = self.reading.as_ref().map_err(|fault| *fault)?;
        self.colored.as_ref().map(|_| reading).map_err(|fault| *fault)
    }

    /// The part of a contour, empty for a refused file.
    pub fn part(&self, contour: u64) -> Range<usize> {
        self.accepted().map_or(0..0, |reading| reading.part(contour))
    }

    /// How many of the unit directions of the job are stand-ins, none for a refused file.
    pub fn stand_ins(&self) -> usize {
        self.accepted().map_or(0, |reading| stand_ins::count(&reading.job.contours))
    }

    /// What colouring answers, and the result buffers after it.
    pub fn color(&self, out: Buffers) -> (Answer, Buffers) {
        match &self.colored {
            Ok(shape) => deliver(&encode(shape), self.stand_ins(), out),
            Err(fault) => (Answer::Refused(fault.number()), out),
        }
    }

    /// What checking answers: the same, as if every result fitted.
    pub fn check(&self) -> Answer {
        match &self.colored {
            Ok(shape) => {
                let edges = shape.contours.iter().map(|c| c.segments.len()).sum();
                Answer::Colored { edges, stand_ins: self.stand_ins() }
            }
            Err(fault) => Answer::Refused(fault.number()),
        }
    }

    /// Whether the job of an accepted file is balanced, as C gets it: 1 or 0, or 2^32 and the number of the refusal.
    pub fn balanced(&self) -> u64 {
        match self.accepted() {
            Ok(reading) => reading.job.balanced as u64,
            Err(fault) => Answer::Refused(fault.number()).code(),
        }
    }

    /// What the program prints.
    pub fn text(&self) -> String {
        match &self.colored {
            Ok(shape) => listing(shape, self.stand_ins()),
            Err(fault) => format!("refused {}\n", fault.number()),
        }
    }
}

/// The lines of a coloured shape, and the last two: its edges, and the stand-ins of its outline.
pub fn listing(shape: &Shape, stand_ins: usize) -> String {
    let mut text = String::new();
    let mut edges = 0;
    for (contour, c) in shape.contours.iter().enumerate() {
        for (place, (segment, color)) in c.segments.iter().zip(&c.colors).enumerate() {
            let kind = ['L', 'Q', 'C'][segment.order() - 1];
            writeln!(text, "{contour} {place} {kind} {}", color.bits()).unwrap();
            edges += 1;
        }
    }
    writeln!(text, "edges {edges}\nstandins {stand_ins}").unwrap();
    text
}

/// The buffers that a job is read into. A double is its bits.
#[derive(Clone, Debug, Default, PartialEq)]
pub struct JobBuffers {
    pub lengths: Vec<u16>,
    pub kinds: Vec<u8>,
    pub points: Vec<u64>,
    pub distances: Vec<u64>,
    pub numbers: [u64; 6],
}

impl JobBuffers {
    pub fn sizes(&self) -> [usize; 4] {
        [self.lengths.len(), self.kinds.len(), self.points.len(), self.distances.len()]
    }
}

/// A job as they hold it: unused places are +0. The numbers are strategy, seed, the threshold's bits, and
/// how many contours, edges and distances there are.
pub fn stored(job: &Job) -> JobBuffers {
    let outline = encode(&source_shape(&job.contours));
    let counts = [outline.lengths.len(), outline.kinds.len(), job.distances.len()];
    let [contours, edges, distances] = counts.map(|n| n as u64);
    let threshold = job.threshold.to_bits();
    JobBuffers {
        lengths: outline.lengths,
        kinds: outline.kinds,
        points: outline.points,
        distances: job.distances.iter().map(|d| d.to_bits()).collect(),
        numbers: [job.strategy as u64, job.seed, threshold, contours, edges, distances],
    }
}

// ---- what a refused file has besides

/// Where a refused file stops: the mark of the record that decides, or what there is of it; that of the record before,
/// and what follows the mark; the strategy, 0 before JB; whether DS was read; the faults; and the first double that is
/// bad.
pub struct Stop<'a> {
    pub mark: &'a [u8],
    pub last: &'a [u8],
    pub rest: &'a [u8],
    pub strategy: u8,
    pub after_distances: bool,
    pub faults: Vec<Fault>,
    pub number: Option<f64>,
}

/// All faults of the record that decides, each by itself as far as there are bytes for it, in the order of
/// `FAULTS`; where the contours are all read, those of the job too. An unknown mark counts as misplaced
/// where one mark alone may stand. An accepted file has none.
pub fn stop(file: &[u8]) -> Stop<'_> {
    let mut reader = Reader::new(file);
    let read = loop {
        match reader.record() {
            Ok(false) => {}
            other => break other.is_ok(),
        }
    };
    let rest = &file[reader.at..];
    let (mark, body) = rest.split_at(rest.len().min(2));
    let (size, strategy) = (body_size(mark), reader.job.strategy);
    let is = |wanted: &[u8; 2]| mark == wanted;
    let is_edge = is(b"LN") || is(b"QD") || is(b"CB");
    let first_bad = |from: usize, most: usize, good: fn(f64) -> bool| {
        let end = body.len().min(from + 8 * most);
        doubles(body.get(from..end).unwrap_or(&[])).find(|&x| !good(x))
    };
    let count = (is(b"DS") && body.len() >= 2).then(|| count(body));
    let threshold = is(b"JB").then(|| first_bad(9, 1, good_threshold)).flatten();
    let coordinate = is_edge.then(|| first_bad(0, size.unwrap() / 8, good_coordinate)).flatten();
    let distance = count.and_then(|count| first_bad(2, count, good_distance));

    let whole = strategy == 3 && (read || is(b"DS") || is(b"EN"));
    let splines = if whole { splines(&reader.job) } else { 0 };
    let given =
        if is(b"DS") { count } else { reader.distances.map(|_| reader.job.distances.len()) };
    let holds = |fault: &Fault| match fault {
        MarkCut => mark.len() < 2,
        UnknownMark => !mark.is_empty() && !MARKS.iter().any(|m| m.starts_with(mark)),
        Misplaced if size.is_some() => !reader.allows(mark),
        Misplaced => mark.len() == 2 && MARKS.iter().filter(|m| reader.allows(**m)).count() == 1,
        TooMany => reader.is_full(mark),
        BodyCut => size.is_some_and(|size| body.len() < size),
        Strategy => is(b"JB") && body.first().is_some_and(|&byte| !good_strategy(byte)),
        Threshold => threshold.is_some(),
        Coordinate => coordinate.is_some(),
        TooManyDistances => count.is_some_and(|count| count > MOST_DISTANCES),
        DistancesCut => count.is_some_and(|count| body.len() < 2 + 8 * count),
        Distance => distance.is_some(),
        AfterEnd => is(b"EN") && !body.is_empty(),
        Splines => splines > MOST_SPLINES,
        DistanceCount => whole && given.is_some_and(|n| n != pairs(splines)),
    };
    let faults = FAULTS.into_iter().filter(holds).collect();
    let number = threshold.or(coordinate).or(distance);
    let after_distances = reader.distances.is_some();
    Stop { mark, last: reader.last, rest: body, strategy, after_distances, faults, number }
}
