//! Job files: an outline with all that its colouring needs, in a few kilobytes (docs/FORMAT.md of the repository has
//! the format).
//!
//! ```
//! use merelsplum::{Outline, job::{self, Job, Strategy}};
//!
//! let outline = Outline::polygon(&[[0.0, 0.0], [1.0, 0.0], [1.0, 1.0], [0.0, 1.0]]);
//! let job = Job { strategy: Strategy::Simple, seed: 0, threshold: 0.125, balanced: false, outline, distances: vec![] };
//! let file = job.to_bytes();
//! assert_eq!(file.len(), 159);
//! assert_eq!(Job::read(&file)?, job);
//! assert_eq!(job::check(&file)?.edges, 4);
//! assert_eq!(job::listing(&file), "0 0 L 5\n0 1 L 3\n0 2 L 6\n0 3 L 3\nedges 4\nstandins 0\n");
//! # Ok::<(), merelsplum::Refusal>(())
//! ```

use crate::coloring::{answer, by_distance, colored, counts, ink_trap, simple};
use crate::ffi::{self, Division, Flat, FlatJob, FlatResult, Places};
use crate::outline::{self, Colored, Outline};
use crate::refusal::Refusal;

const MAX_CONTOURS: usize = 64;
const MAX_EDGES: usize = 256;
const MAX_RESULT_EDGES: usize = 508;
const MAX_DISTANCES: usize = 2016;
const MAX_LISTING_BYTES: usize = 5611;

/// How a job is coloured.
#[derive(Clone, Copy, Debug, PartialEq, Eq, Hash)]
pub enum Strategy {
    /// By [`edge_coloring_simple`](crate::edge_coloring_simple).
    Simple = 1,
    /// By [`edge_coloring_ink_trap`](crate::edge_coloring_ink_trap).
    InkTrap,
    /// By [`edge_coloring_by_distance`](crate::edge_coloring_by_distance).
    ByDistance,
}

/// What a job file holds.
#[derive(Clone, Debug, PartialEq)]
pub struct Job {
    /// How it is coloured.
    pub strategy: Strategy,
    /// The seed of the colouring.
    pub seed: u64,
    /// The sine of the angle from which a turn is a corner.
    pub threshold: f64,
    /// Whether teardrops are balanced: then it is coloured by the function of [`balanced`](crate::balanced), and its
    /// file has the record `BL`.
    pub balanced: bool,
    /// The edges.
    pub outline: Outline,
    /// The distances of the splines, for [`Strategy::ByDistance`] only.
    pub distances: Vec<f64>,
}

impl Job {
    /// Reads a job file. A file that is read is accepted.
    ///
    /// # Errors
    ///
    /// The number that [`check`] gives: the file's first fault.
    pub fn read(file: &[u8]) -> Result<Job, Refusal> {
        let outline =
            Flat { lengths: vec![0; MAX_CONTOURS], kinds: vec![0; MAX_EDGES], points: vec![Places::default(); MAX_EDGES] };
        let mut flat = FlatJob { outline, distances: vec![0.0; MAX_DISTANCES], numbers: [0; 6] };
        answer(ffi::job_read(file, &mut flat))?;
        let balanced = answer(ffi::job_balanced(file))? == 1;
        let [strategy, seed, threshold, contours, _, distances] = flat.numbers;
        let Flat { lengths, kinds, points } = flat.outline;
        let lengths = lengths[..contours as usize].iter().map(|&length| length as usize);
        let edges = outline::contours(lengths, &kinds, &points, &kinds, |_| ());
        let contours = edges.into_iter().map(|contour| contour.into_iter().map(|(edge, ())| edge).collect()).collect();
        flat.distances.truncate(distances as usize);
        Ok(Job {
            strategy: match strategy {
                1 => Strategy::Simple,
                2 => Strategy::InkTrap,
                _ => Strategy::ByDistance,
            },
            seed,
            threshold: f64::from_bits(threshold),
            balanced,
            outline: Outline { contours },
            distances: flat.distances,
        })
    }

    /// Colours the outline by the job's strategy, its teardrops as the job has them.
    ///
    /// # Errors
    ///
    /// What the colouring refuses.
    pub fn color(&self) -> Result<Colored, Refusal> {
        let division = if self.balanced { Division::Balanced } else { Division::Source };
        match self.strategy {
            Strategy::Simple => simple(division, &self.outline, self.threshold, self.seed),
            Strategy::InkTrap => ink_trap(division, &self.outline, self.threshold, self.seed),
            Strategy::ByDistance => by_distance(division, &self.outline, self.threshold, self.seed, &self.distances),
        }
    }

    /// The job as a file. Nothing is looked at: a job that cannot be coloured gives a file that is refused. This writer
    /// is plain Rust and not proved.
    #[must_use]
    pub fn to_bytes(&self) -> Vec<u8> {
        let mut file = b"JB".to_vec();
        file.push(self.strategy as u8);
        file.extend(self.seed.to_le_bytes());
        file.extend(self.threshold.to_le_bytes());
        if self.balanced {
            file.extend(b"BL");
        }
        for contour in &self.outline.contours {
            file.extend(b"CT");
            for edge in contour {
                file.extend([b"LN", b"QD", b"CB"][edge.kind() as usize - 1]);
                file.extend(edge.points().as_flattened().iter().flat_map(|x| x.to_le_bytes()));
            }
        }
        if self.strategy == Strategy::ByDistance {
            file.extend(b"DS");
            file.extend(u16::try_from(self.distances.len()).unwrap_or(u16::MAX).to_le_bytes());
            file.extend(self.distances.iter().flat_map(|x| x.to_le_bytes()));
        }
        file.extend(b"EN");
        file
    }
}

/// What colouring a file comes to.
#[derive(Clone, Copy, Debug, PartialEq, Eq, Hash)]
pub struct Checked {
    /// How many edges it has once coloured.
    pub edges: usize,
    /// How many of its outline's directions have no length, as in [`Colored`].
    pub stand_ins: usize,
}

/// Whether a file is accepted: what colouring it comes to, or why it is refused.
///
/// # Errors
///
/// The first fault of the file.
pub fn check(file: &[u8]) -> Result<Checked, Refusal> {
    counts(ffi::job_check(file)).map(|counts| Checked { edges: counts.edges, stand_ins: counts.stand_ins })
}

/// Reads and colours a file.
///
/// # Errors
///
/// The first fault of the file.
pub fn color(file: &[u8]) -> Result<Colored, Refusal> {
    let mut out = FlatResult::new(MAX_CONTOURS, MAX_RESULT_EDGES);
    let code = ffi::job_color(file, &mut out);
    colored(code, &out)
}

/// Reads and colours a file, and lists the result: a line for each edge with its contour, its place in it, its kind and
/// its colour; then `edges` and how many there are; last `standins` and how many directions had no length. A refused
/// file gives one line, `refused` and the number.
///
/// ```
/// assert_eq!(merelsplum::job::listing(b""), "refused 1\n");
/// ```
#[must_use]
pub fn listing(file: &[u8]) -> String {
    let mut out = vec![0; MAX_LISTING_BYTES];
    let length = answer(ffi::job_listing(file, &mut out)).expect("every listing fits");
    out.truncate(length as usize);
    String::from_utf8(out).expect("a listing is ASCII")
}

/// The records of one contour (from 0), a part of the file; empty where the file is refused or has no such contour.
///
/// ```
/// use merelsplum::job::contour_part;
///
/// let file = b"JB\x01\0\0\0\0\0\0\0\0\0\0\0\0\0\0\xc0\x3fCTCTEN";
/// assert_eq!(contour_part(file, 1), b"CT");
/// assert_eq!(contour_part(file, 2), b"");
/// ```
#[must_use]
pub fn contour_part(file: &[u8], contour: usize) -> &[u8] {
    let part = ffi::job_contour_part(file, contour);
    let (start, length) = (part as u32 as usize, (part >> 32) as usize);
    &file[start..start + length]
}

#[cfg(test)]
mod tests {
    use super::*;

    #[test]
    fn limits_of_the_header() {
        let header = include_str!("../../../crates/capi/merelsplum.h");
        for (name, limit) in [
            ("CONTOURS", MAX_CONTOURS),
            ("EDGES", MAX_EDGES),
            ("RESULT_EDGES", MAX_RESULT_EDGES),
            ("DISTANCES", MAX_DISTANCES),
            ("LISTING_BYTES", MAX_LISTING_BYTES),
        ] {
            let line = header.lines().find(|line| line.starts_with(&format!("#define MERELSPLUM_MAX_{name} "))).unwrap();
            assert_eq!(line.split_whitespace().nth(2), Some(limit.to_string().as_str()), "{name}");
        }
    }
}
