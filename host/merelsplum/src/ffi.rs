//! The library's C functions (crates/capi/merelsplum.h), and all unsafe code of this crate.
//!
//! The functions take any contents and lengths. What they ask of a caller is what slices have: each pointer is good for
//! the length beside it, and what is written overlaps nothing else.

/// The eight point places of an edge: room for the control points of every kind.
pub(crate) type Places = [[f64; 2]; 4];

/// How a contour with one corner is divided in three runs.
#[derive(Clone, Copy)]
pub(crate) enum Division {
    /// As docs/src does.
    Source,
    /// So that the two outer runs are equally long.
    Balanced,
}

/// An outline as the library takes it.
pub(crate) struct Flat {
    pub lengths: Vec<u16>,
    pub kinds: Vec<u8>,
    pub points: Vec<Places>,
}

/// Whether a call was refused. No count of an answer reaches this bit.
pub(crate) fn is_refusal(code: u64) -> bool {
    code >> 32 == 1
}

/// What the answer of a colouring, of its collecting pass or of a job file counts, where it is no refusal.
#[derive(Debug, PartialEq)]
pub(crate) struct Counts {
    pub edges: usize,
    /// Of the collecting pass; else 0.
    pub splines: usize,
    pub stand_ins: usize,
}

impl Counts {
    /// Each has 16 bits of the answer.
    pub fn of(code: u64) -> Counts {
        let at = |bit: u32| usize::from((code >> bit) as u16);
        Counts { edges: at(0), splines: at(16), stand_ins: at(48) }
    }
}

/// A length that no result has. Places beyond a result keep their bytes, so the contours of a result end at the first
/// of these.
const UNWRITTEN: u16 = u16::MAX;

/// Where a result goes: an outline and a byte for each edge. What stands for edges is empty until they are written.
pub(crate) struct FlatResult {
    pub lengths: Vec<u16>,
    pub kinds: Vec<u8>,
    pub points: Vec<Places>,
    pub bytes: Vec<u8>,
    /// For how many edges there is room.
    room: usize,
}

impl FlatResult {
    pub fn new(contours: usize, edges: usize) -> FlatResult {
        FlatResult {
            lengths: vec![UNWRITTEN; contours],
            kinds: Vec::with_capacity(edges),
            points: Vec::with_capacity(edges),
            bytes: Vec::with_capacity(edges),
            room: edges,
        }
    }

    /// # Safety
    ///
    /// The code is that of a call which had these buffers: where it is no refusal, it counts the edges that were
    /// written, of which there are at most 508.
    unsafe fn written(&mut self, code: u64) {
        let edges = if is_refusal(code) { 0 } else { Counts::of(code).edges };
        // SAFETY: so many are written, and there was room for them.
        unsafe {
            self.kinds.set_len(edges);
            self.points.set_len(edges);
            self.bytes.set_len(edges);
        }
    }

    /// The lengths of the contours that were written.
    pub fn lengths(&self) -> impl Iterator<Item = usize> {
        self.lengths.iter().take_while(|&&length| length != UNWRITTEN).map(|&length| length as usize)
    }
}

/// What a job file holds, as the library writes it.
pub(crate) struct FlatJob {
    pub outline: Flat,
    pub distances: Vec<f64>,
    /// Strategy, seed, the threshold's bits, contours, edges, distances.
    pub numbers: [u64; 6],
}

unsafe extern "C" {
    fn merelsplum_edge_coloring_simple(
        lengths: *const u16,
        lengths_len: usize,
        kinds: *const u8,
        kinds_len: usize,
        points: *const f64,
        points_len: usize,
        threshold: f64,
        seed: u64,
        out_lengths: *mut u16,
        out_lengths_len: usize,
        out_kinds: *mut u8,
        out_kinds_len: usize,
        out_points: *mut f64,
        out_points_len: usize,
        out_colors: *mut u8,
        out_colors_len: usize,
    ) -> u64;

    fn merelsplum_edge_coloring_simple_balanced(
        lengths: *const u16,
        lengths_len: usize,
        kinds: *const u8,
        kinds_len: usize,
        points: *const f64,
        points_len: usize,
        threshold: f64,
        seed: u64,
        out_lengths: *mut u16,
        out_lengths_len: usize,
        out_kinds: *mut u8,
        out_kinds_len: usize,
        out_points: *mut f64,
        out_points_len: usize,
        out_colors: *mut u8,
        out_colors_len: usize,
    ) -> u64;

    fn merelsplum_edge_coloring_ink_trap(
        lengths: *const u16,
        lengths_len: usize,
        kinds: *const u8,
        kinds_len: usize,
        points: *const f64,
        points_len: usize,
        threshold: f64,
        seed: u64,
        out_lengths: *mut u16,
        out_lengths_len: usize,
        out_kinds: *mut u8,
        out_kinds_len: usize,
        out_points: *mut f64,
        out_points_len: usize,
        out_colors: *mut u8,
        out_colors_len: usize,
    ) -> u64;

    fn merelsplum_edge_coloring_ink_trap_balanced(
        lengths: *const u16,
        lengths_len: usize,
        kinds: *const u8,
        kinds_len: usize,
        points: *const f64,
        points_len: usize,
        threshold: f64,
        seed: u64,
        out_lengths: *mut u16,
        out_lengths_len: usize,
        out_kinds: *mut u8,
        out_kinds_len: usize,
        out_points: *mut f64,
        out_points_len: usize,
        out_colors: *mut u8,
        out_colors_len: usize,
    ) -> u64;

    fn merelsplum_edge_coloring_by_distance(
        lengths: *const u16,
        lengths_len: usize,
        kinds: *const u8,
        kinds_len: usize,
        points: *const f64,
        points_len: usize,
        threshold: f64,
        seed: u64,
        distances: *const f64,
        distances_len: usize,
        out_lengths: *mut u16,
        out_lengths_len: usize,
        out_kinds: *mut u8,
        out_kinds_len: usize,
        out_points: *mut f64,
        out_points_len: usize,
        out_colors: *mut u8,
        out_colors_len: usize,
    ) -> u64;

    fn merelsplum_edge_coloring_by_distance_balanced(
        lengths: *const u16,
        lengths_len: usize,
        kinds: *const u8,
        kinds_len: usize,
        points: *const f64,
        points_len: usize,
        threshold: f64,
        seed: u64,
        distances: *const f64,
        distances_len: usize,
        out_lengths: *mut u16,
        out_lengths_len: usize,
        out_kinds: *mut u8,
        out_kinds_len: usize,
        out_points: *mut f64,
        out_points_len: usize,
        out_colors: *mut u8,
        out_colors_len: usize,
    ) -> u64;

    fn merelsplum_collect_splines(
        lengths: *const u16,
        lengths_len: usize,
        kinds: *const u8,
        kinds_len: usize,
        points: *const f64,
        points_len: usize,
        threshold: f64,
        out_lengths: *mut u16,
        out_lengths_len: usize,
        out_kinds: *mut u8,
        out_kinds_len: usize,
        out_points: *mut f64,
        out_points_len: usize,
        out_splines: *mut u8,
        out_splines_len: usize,
    ) -> u64;

    fn merelsplum_collect_splines_balanced(
        lengths: *const u16,
        lengths_len: usize,
        kinds: *const u8,
        kinds_len: usize,
        points: *const f64,
        points_len: usize,
        threshold: f64,
        out_lengths: *mut u16,
        out_lengths_len: usize,
        out_kinds: *mut u8,
        out_kinds_len: usize,
        out_points: *mut f64,
        out_points_len: usize,
        out_splines: *mut u8,
        out_splines_len: usize,
    ) -> u64;

    fn merelsplum_edge_directions(
        lengths: *const u16,
        lengths_len: usize,
        kinds: *const u8,
        kinds_len: usize,
        points: *const f64,
        points_len: usize,
        out_directions: *mut f64,
        out_directions_len: usize,
        out_stand_ins: *mut u8,
        out_stand_ins_len: usize,
    ) -> u64;

    fn merelsplum_try_add_edge(
        coloring: *mut u8,
        coloring_len: usize,
        edge_matrix: *mut u8,
        edge_matrix_len: usize,
        a: usize,
        b: usize,
    ) -> u64;

    fn merelsplum_job_read(
        file: *const u8,
        file_len: usize,
        lengths: *mut u16,
        lengths_len: usize,
        kinds: *mut u8,
        kinds_len: usize,
        points: *mut f64,
        points_len: usize,
        distances: *mut f64,
        distances_len: usize,
        numbers: *mut [u64; 6],
    ) -> u64;

    fn merelsplum_job_balanced(file: *const u8, file_len: usize) -> u64;

    fn merelsplum_job_check(file: *const u8, file_len: usize) -> u64;

    fn merelsplum_job_color(
        file: *const u8,
        file_len: usize,
        out_lengths: *mut u16,
        out_lengths_len: usize,
        out_kinds: *mut u8,
        out_kinds_len: usize,
        out_points: *mut f64,
        out_points_len: usize,
        out_colors: *mut u8,
        out_colors_len: usize,
    ) -> u64;

    fn merelsplum_job_listing(file: *const u8, file_len: usize, out: *mut u8, out_len: usize) -> u64;

    fn merelsplum_job_contour_part(file: *const u8, file_len: usize, contour: usize) -> u64;
}

pub(crate) fn edge_coloring_simple(division: Division, o: &Flat, threshold: f64, seed: u64, out: &mut FlatResult) -> u64 {
    let entry = match division {
        Division::Source => merelsplum_edge_coloring_simple,
        Division::Balanced => merelsplum_edge_coloring_simple_balanced,
    };
    // SAFETY: each pointer and length is a slice's, or that of the room of a `Vec`, and those written are borrowed
    // mutably.
    unsafe {
        let code = entry(
            o.lengths.as_ptr(),
            o.lengths.len(),
            o.kinds.as_ptr(),
            o.kinds.len(),
            o.points.as_ptr().cast(),
            8 * o.points.len(),
            threshold,
            seed,
            out.lengths.as_mut_ptr(),
            out.lengths.len(),
            out.kinds.as_mut_ptr(),
            out.room,
            out.points.as_mut_ptr().cast(),
            8 * out.room,
            out.bytes.as_mut_ptr(),
            out.room,
        );
        out.written(code);
        code
    }
}

pub(crate) fn edge_coloring_ink_trap(division: Division, o: &Flat, threshold: f64, seed: u64, out: &mut FlatResult) -> u64 {
    let entry = match division {
        Division::Source => merelsplum_edge_coloring_ink_trap,
        Division::Balanced => merelsplum_edge_coloring_ink_trap_balanced,
    };
    // SAFETY: as above.
    unsafe {
        let code = entry(
            o.lengths.as_ptr(),
            o.lengths.len(),
            o.kinds.as_ptr(),
            o.kinds.len(),
            o.points.as_ptr().cast(),
            8 * o.points.len(),
            threshold,
            seed,
            out.lengths.as_mut_ptr(),
            out.lengths.len(),
            out.kinds.as_mut_ptr(),
            out.room,
            out.points.as_mut_ptr().cast(),
            8 * out.room,
            out.bytes.as_mut_ptr(),
            out.room,
        );
        out.written(code);
        code
    }
}

pub(crate) fn edge_coloring_by_distance(
    division: Division,
    o: &Flat,
    threshold: f64,
    seed: u64,
    distances: &[f64],
    out: &mut FlatResult,
) -> u64 {
    let entry = match division {
        Division::Source => merelsplum_edge_coloring_by_distance,
        Division::Balanced => merelsplum_edge_coloring_by_distance_balanced,
    };
    // SAFETY: as above.
    unsafe {
        let code = entry(
            o.lengths.as_ptr(),
            o.lengths.len(),
            o.kinds.as_ptr(),
            o.kinds.len(),
            o.points.as_ptr().cast(),
            8 * o.points.len(),
            threshold,
            seed,
            distances.as_ptr(),
            distances.len(),
            out.lengths.as_mut_ptr(),
            out.lengths.len(),
            out.kinds.as_mut_ptr(),
            out.room,
            out.points.as_mut_ptr().cast(),
            8 * out.room,
            out.bytes.as_mut_ptr(),
            out.room,
        );
        out.written(code);
        code
    }
}

pub(crate) fn collect_splines(division: Division, o: &Flat, threshold: f64, out: &mut FlatResult) -> u64 {
    let entry = match division {
        Division::Source => merelsplum_collect_splines,
        Division::Balanced => merelsplum_collect_splines_balanced,
    };
    // SAFETY: as above.
    unsafe {
        let code = entry(
            o.lengths.as_ptr(),
            o.lengths.len(),
            o.kinds.as_ptr(),
            o.kinds.len(),
            o.points.as_ptr().cast(),
            8 * o.points.len(),
            threshold,
            out.lengths.as_mut_ptr(),
            out.lengths.len(),
            out.kinds.as_mut_ptr(),
            out.room,
            out.points.as_mut_ptr().cast(),
            8 * out.room,
            out.bytes.as_mut_ptr(),
            out.room,
        );
        out.written(code);
        code
    }
}

/// Where the directions of edges go, and for each of them 1 where (0, 1) stands in: at the start, at the end.
#[derive(Default)]
pub(crate) struct FlatDirections {
    pub vectors: Vec<[[f64; 2]; 2]>,
    pub stand_ins: Vec<[u8; 2]>,
}

/// Makes both lists anew.
pub(crate) fn edge_directions(o: &Flat, out: &mut FlatDirections) -> u64 {
    let FlatDirections { vectors, stand_ins } = out;
    vectors.clear();
    vectors.reserve_exact(o.kinds.len());
    stand_ins.clear();
    stand_ins.reserve_exact(o.kinds.len());
    // SAFETY: as above; where the code is no refusal it is the number of edges that were written.
    unsafe {
        let code = merelsplum_edge_directions(
            o.lengths.as_ptr(),
            o.lengths.len(),
            o.kinds.as_ptr(),
            o.kinds.len(),
            o.points.as_ptr().cast(),
            8 * o.points.len(),
            vectors.as_mut_ptr().cast(),
            4 * o.kinds.len(),
            stand_ins.as_mut_ptr().cast(),
            2 * o.kinds.len(),
        );
        if !is_refusal(code) {
            vectors.set_len(code as usize);
            stand_ins.set_len(code as usize);
        }
        code
    }
}

pub(crate) fn try_add_edge(colors: &mut [u8], pairs: &mut [u8], a: usize, b: usize) -> u64 {
    // SAFETY: as above.
    unsafe { merelsplum_try_add_edge(colors.as_mut_ptr(), colors.len(), pairs.as_mut_ptr(), pairs.len(), a, b) }
}

pub(crate) fn job_read(file: &[u8], job: &mut FlatJob) -> u64 {
    let Flat { lengths, kinds, points } = &mut job.outline;
    // SAFETY: as above.
    unsafe {
        merelsplum_job_read(
            file.as_ptr(),
            file.len(),
            lengths.as_mut_ptr(),
            lengths.len(),
            kinds.as_mut_ptr(),
            kinds.len(),
            points.as_mut_ptr().cast(),
            8 * points.len(),
            job.distances.as_mut_ptr(),
            job.distances.len(),
            &mut job.numbers,
        )
    }
}

pub(crate) fn job_balanced(file: &[u8]) -> u64 {
    // SAFETY: as above.
    unsafe { merelsplum_job_balanced(file.as_ptr(), file.len()) }
}

pub(crate) fn job_check(file: &[u8]) -> u64 {
    // SAFETY: as above.
    unsafe { merelsplum_job_check(file.as_ptr(), file.len()) }
}

pub(crate) fn job_color(file: &[u8], out: &mut FlatResult) -> u64 {
    // SAFETY: as above.
    unsafe {
        let code = merelsplum_job_color(
            file.as_ptr(),
            file.len(),
            out.lengths.as_mut_ptr(),
            out.lengths.len(),
            out.kinds.as_mut_ptr(),
            out.room,
            out.points.as_mut_ptr().cast(),
            8 * out.room,
            out.bytes.as_mut_ptr(),
            out.room,
        );
        out.written(code);
        code
    }
}

pub(crate) fn job_listing(file: &[u8], out: &mut [u8]) -> u64 {
    // SAFETY: as above.
    unsafe { merelsplum_job_listing(file.as_ptr(), file.len(), out.as_mut_ptr(), out.len()) }
}

pub(crate) fn job_contour_part(file: &[u8], contour: usize) -> u64 {
    // SAFETY: as above.
    unsafe { merelsplum_job_contour_part(file.as_ptr(), file.len(), contour) }
}

#[cfg(test)]
mod tests {
    use super::*;

    #[test]
    fn counts_at_their_limits() {
        let most = 508 + (64 << 16) + (512 << 48);
        assert_eq!(Counts::of(most), Counts { edges: 508, splines: 64, stand_ins: 512 });
        assert!(!is_refusal(most) && (0..=512).all(|stand_ins: u64| !is_refusal(stand_ins << 48)));
        assert!((1..=11).all(|number| is_refusal((1 << 32) + number)));
    }
}
