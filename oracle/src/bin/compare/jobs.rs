//! Job files: reading, checking, colouring, the listing, the part of a contour and whether teardrops are balanced; and
//! the program `channels`.

use crate::Tally;
use crate::shapes::{BYTE, Classes, Guarded, Room, SHORT, WORD};
use crate::stand_ins;
use oracle::job_faults::{BOTH, DAMAGES, can_follow, damage, planted, planted_before};
use oracle::job_files::widest_of_stand_ins;
use oracle::job_files::{Known, LONG, PROGRAM_BYTES, by, job, known, known_balanced, long};
use oracle::job_files::{longest, misplaced_balanced, no_contours, small, square_job};
use oracle::jobs::{FAULTS, Fault, Job, JobBuffers, Outcome, Stop};
use oracle::jobs::{color, outcome, records, splines, stop, stored, write};
use oracle::numbers::Random;
use oracle::shapes::{Answer, Buffers, buffers, encode, noise, some};
use oracle::stand_ins::{count, known_outlines};
use oracle::teardrops::{divided, several};
use std::io::Write;
use std::process::{Command, Stdio};

#[link(name = "capi", kind = "static")]
unsafe extern "C" {
    fn merelsplum_job_read(
        file: *const u8,
        file_len: usize,
        lengths: *mut u16,
        lengths_len: usize,
        kinds: *mut u8,
        kinds_len: usize,
        points: *mut u64,
        points_len: usize,
        distances: *mut u64,
        distances_len: usize,
        numbers: *mut [u64; 6],
    ) -> u64;
    fn merelsplum_job_check(file: *const u8, file_len: usize) -> u64;
    fn merelsplum_job_color(
        file: *const u8,
        file_len: usize,
        out_lengths: *mut u16,
        out_lengths_len: usize,
        out_kinds: *mut u8,
        out_kinds_len: usize,
        out_points: *mut u64,
        out_points_len: usize,
        out_colors: *mut u8,
        out_colors_len: usize,
    ) -> u64;
    fn merelsplum_job_listing(
        file: *const u8,
        file_len: usize,
        out: *mut u8,
        out_len: usize,
    ) -> u64;
    fn merelsplum_job_contour_part(file: *const u8, file_len: usize, contour: u64) -> u64;
    fn merelsplum_job_balanced(file: *const u8, file_len: usize) -> u64;
}

pub fn proved_color(file: &[u8], l: &mut [u16], k: &mut [u8], p: &mut [u64], c: &mut [u8]) -> u64 {
    unsafe {
        merelsplum_job_color(
            file.as_ptr(),
            file.len(),
            l.as_mut_ptr(),
            l.len(),
            k.as_mut_ptr(),
            k.len(),
            p.as_mut_ptr(),
            p.len(),
            c.as_mut_ptr(),
            c.len(),
        )
    }
}

pub fn proved_listing(file: &[u8], out: &mut [u8]) -> u64 {
    unsafe { merelsplum_job_listing(file.as_ptr(), file.len(), out.as_mut_ptr(), out.len()) }
}

/// The number by which C gets a refusal.
fn refused(number: u8) -> u64 {
    Answer::Refused(number).code()
}

// ---- one file

/// How many answers of each entry were compared, and what kinds of files there were.
#[derive(Default)]
struct Comparison {
    files: u64,
    read: Tally,
    check: Tally,
    color: Tally,
    listing: Tally,
    part: Tally,
    balanced: Tally,
    /// By strategy: how many jobs with BL have other colours than without it.
    others: [u64; 3],
    classes: Classes,
    stand_ins: Classes,
    /// By the fault that decides: with no other in its record, and with each other.
    alone: [u64; 14],
    besides: [[u64; 14]; 14],
}

/// Buffers of these sizes to read into, full of noise: lengths, kinds, points, distances.
fn job_buffers(r: &mut Random, [l, k, p, d]: [usize; 4]) -> JobBuffers {
    let Buffers { lengths, kinds, points, .. } = buffers(r, l, k, p, 0);
    let distances = (0..d).map(|_| noise(r)).collect();
    JobBuffers { lengths, kinds, points, distances, numbers: [0; 6].map(|_| noise(r)) }
}

/// Some more of each.
fn longer<const N: usize>(r: &mut Random, sizes: [usize; N]) -> [usize; N] {
    sizes.map(|n| n + some(r, 24))
}

/// One less of each in turn, where there is one, the others exactly right or more.
fn one_short<const N: usize>(r: &mut Random, exact: [usize; N]) -> Vec<[usize; N]> {
    let short = |which: usize| {
        let mut sizes = if r.coin() { exact } else { longer(r, exact) };
        sizes[which] = exact[which] - 1;
        sizes
    };
    (0..N).filter(|&which| exact[which] > 0).map(short).collect()
}

/// Sizes to try: exactly right, longer, each one short, none at all. Of a file that is costly, one or two.
fn tries<const N: usize>(r: &mut Random, exact: [usize; N], costly: bool) -> Vec<[usize; N]> {
    let mut all = one_short(r, exact);
    all.push([0; N]);
    if costly {
        all = vec![all[some(r, all.len())]];
    }
    all.push(longer(r, exact));
    if !costly || r.coin() {
        all.push(exact);
    }
    all
}

fn shown(file: &[u8]) -> String {
    let bytes: String = file.iter().take(400).map(|b| format!("{b:02X}")).collect();
    format!("{} bytes {bytes}", file.len())
}

impl Comparison {
    /// Reads into buffers of these sizes by the proved code and by the oracle's reader.
    fn read(
        &mut self,
        r: &mut Random,
        file: &[u8],
        job: Result<&JobBuffers, Fault>,
        n: [usize; 4],
    ) {
        let mut after = job_buffers(r, n);
        let mut lengths = Guarded::new(&after.lengths, SHORT);
        let mut kinds = Guarded::new(&after.kinds, BYTE);
        let mut points = Guarded::new(&after.points, WORD);
        let mut distances = Guarded::new(&after.distances, WORD);
        let mut numbers = Guarded::new(&after.numbers, WORD);
        let (l, k, p) = (lengths.part(), kinds.part(), points.part());
        let d = distances.part();
        let code = unsafe {
            merelsplum_job_read(
                file.as_ptr(),
                file.len(),
                l.as_mut_ptr(),
                l.len(),
                k.as_mut_ptr(),
                k.len(),
                p.as_mut_ptr(),
                p.len(),
                d.as_mut_ptr(),
                d.len(),
                numbers.part().as_mut_ptr().cast(),
            )
        };
        let expected = match job {
            Err(fault) => refused(fault.number()),
            Ok(job) if job.sizes().iter().zip(n).any(|(&needed, n)| needed > n) => refused(11),
            Ok(job) => {
                after.lengths[..job.lengths.len()].copy_from_slice(&job.lengths);
                after.kinds[..job.kinds.len()].copy_from_slice(&job.kinds);
                after.points[..job.points.len()].copy_from_slice(&job.points);
                after.distances[..job.distances.len()].copy_from_slice(&job.distances);
                after.numbers = job.numbers;
                0
            }
        };
        let agree = code == expected
            && lengths.is(&after.lengths)
            && kinds.is(&after.kinds)
            && points.is(&after.points)
            && distances.is(&after.distances)
            && numbers.is(&after.numbers);
        let what =
            || format!("reading {} into {n:?}: {expected:#x}, proved {code:#x}", shown(file));
        self.read.note(agree, what);
        match job {
            Ok(job) => size_classes(&mut self.classes, &READING, job.sizes(), n),
            Err(fault) => {
                let empty = n == [0; 4];
                let splines = fault == Fault::Splines && empty;
                self.classes.note("reading, 4 by splines before 11", splines);
                let distances = fault == Fault::DistanceCount && empty;
                self.classes.note("reading, 8 before 11", distances);
            }
        }
    }

    /// Colours into buffers of these sizes by the proved code and by the source.
    fn color(&mut self, r: &mut Random, file: &[u8], outcome: &Outcome, n: [usize; 4]) {
        let out = buffers(r, n[0], n[1], n[2], n[3]);
        let mut room = Room::new(&out);
        let (l, k, p, c) = room.parts();
        let code = proved_color(file, l, k, p, c);
        let (answer, after) = outcome.color(out);
        let agree = code == answer.code() && room.is(&after);
        let what = || format!("colouring {} into {n:?}: {answer:?}, proved {code:#x}", shown(file));
        self.color.note(agree, what);
        match &outcome.colored {
            Ok(shape) => size_classes(&mut self.classes, &COLORING, encode(shape).sizes(), n),
            Err(fault) => {
                let empty = n == [0; 4];
                self.classes.note("4 by splines before 11", *fault == Fault::Splines && empty);
                self.classes.note("8 before 11", *fault == Fault::DistanceCount && empty);
            }
        }
        let stand_ins = answer == Answer::Refused(11) && outcome.stand_ins() > 0;
        self.stand_ins.note("11, stand-ins", stand_ins);
    }

    /// Lists into so many bytes.
    fn list(&mut self, r: &mut Random, file: &[u8], text: &[u8], n: usize) {
        let mut after: Vec<u8> = (0..n).map(|_| r.next() as u8).collect();
        let mut out = Guarded::new(&after, BYTE);
        let code = proved_listing(file, out.part());
        let expected = if text.len() > n { refused(11) } else { text.len() as u64 };
        if text.len() <= n {
            after[..text.len()].copy_from_slice(text);
        }
        let agree = code == expected && out.is(&after);
        let what = || format!("listing {} into {n}: {expected:#x}, proved {code:#x}", shown(file));
        self.listing.note(agree, what);
        size_classes(&mut self.classes, &LISTING, [text.len()], [n]);
    }

    fn contour_part(&mut self, file: &[u8], outcome: &Outcome, contour: u64) {
        let code = unsafe { merelsplum_job_contour_part(file.as_ptr(), file.len(), contour) };
        let part = outcome.part(contour);
        let expected = part.start as u64 + ((part.len() as u64) << 32);
        let agree = code == expected;
        let what =
            || format!("contour {contour} of {}: {expected:#x}, proved {code:#x}", shown(file));
        self.part.note(agree, what);
    }

    /// All entries on the first `len` bytes; what stands after them is not the file's.
    fn entries(&mut self, r: &mut Random, padded: &[u8], len: usize) -> Outcome {
        let (before, file) = (padded.to_vec(), &padded[..len]);
        let outcome = outcome(file);
        let job = outcome.accepted().map(|reading| stored(&reading.job));
        let job = job.as_ref().map_err(|fault| *fault);
        let costly = job.is_ok_and(|job| job.kinds.len() > 64 || job.distances.len() > 300);

        let needed = job.map_or([some(r, 9); 4], JobBuffers::sizes);
        for n in tries(r, needed, costly) {
            self.read(r, file, job, n);
        }
        let result = outcome.colored.as_ref().map(|shape| encode(shape).sizes());
        let needed = result.unwrap_or([some(r, 9); 4]);
        for n in tries(r, needed, costly) {
            self.color(r, file, &outcome, n);
        }
        let text = outcome.text().into_bytes();
        for [n] in tries(r, [text.len()], costly) {
            self.list(r, file, &text, n);
        }
        let code = unsafe { merelsplum_job_check(file.as_ptr(), file.len()) };
        let answer = outcome.check();
        let what = || format!("checking {}: {answer:?}, proved {code:#x}", shown(file));
        self.check.note(code == answer.code(), what);
        let code = unsafe { merelsplum_job_balanced(file.as_ptr(), file.len()) };
        let expected = outcome.balanced();
        let what =
            || format!("whether {} is balanced: {expected:#x}, proved {code:#x}", shown(file));
        self.balanced.note(code == expected, what);

        let contours = outcome.reading.as_ref().map_or(0, |r| r.job.contours.len() as u64);
        let any = r.next();
        let huge = r.pick(&[64, 65, 1 << 16, 1 << 32, (1 << 32) + 1, 1 << 63, u64::MAX, any]);
        let far = [contours, contours + 1 + r.below(3), huge];
        for contour in (0..contours).chain(far) {
            self.contour_part(file, &outcome, contour);
        }
        assert!(before == padded, "a file was written to");
        outcome
    }

    /// Compares a file, and counts what it is. Bytes with which it would go on stand after it.
    fn file(&mut self, r: &mut Random, file: &[u8]) -> Outcome {
        let after: &[u8] = r.pick(&[b"EN", b"CTEN", b"N", b"DS\0\0EN"]);
        self.cut(r, &[file, after].concat(), file.len())
    }

    /// The same of the first `len` bytes.
    fn cut(&mut self, r: &mut Random, whole: &[u8], len: usize) -> Outcome {
        let outcome = self.entries(r, whole, len);
        let stop = stop(&whole[..len]);
        assert_eq!(outcome.fault(), stop.faults.first().copied(), "{}", shown(&whole[..len]));
        self.files += 1;
        if let Some((&first, others)) = stop.faults.split_first() {
            let of_the_job = |f: &Fault| [Fault::Splines, Fault::DistanceCount].contains(f);
            self.alone[first as usize] += others.iter().all(of_the_job) as u64;
            others.iter().for_each(|&f| self.besides[first as usize][f as usize] += 1);
            stop_classes(&mut self.classes, first, &stop);
        }
        self.classes.note("files of 0 bytes", len == 0);
        self.classes.note("files of 1 byte", len == 1);
        self.classes.note("files above 34,000 bytes", len > PROGRAM_BYTES);
        if let Ok(reading) = &outcome.reading {
            job_classes(&mut self.classes, &reading.job, &outcome);
            self.others(&reading.job, &outcome);
            stand_in_classes(&mut self.stand_ins, &reading.job, &outcome);
        }
        outcome
    }

    /// Of an accepted job with BL: whether it has other colours without it.
    fn others(&mut self, job: &Job, outcome: &Outcome) {
        let (true, Ok(shape)) = (job.balanced, &outcome.colored) else { return };
        let source = color(&Job { balanced: false, ..job.clone() }).expect("accepted without BL");
        let (source, balanced) = (encode(&source), encode(shape));
        let other = divided(&job.contours, job.threshold, &source, &balanced, 7);
        self.others[job.strategy as usize - 1] += other as u64;
    }

    /// Prints how often each kind was met, and the counts of the entries, which go to the whole.
    fn close(self, all: &mut Tally) {
        self.classes.close(all);
        self.stand_ins.close(all);
        for (fault, count) in FAULTS.iter().zip(self.alone) {
            let name = format!("{} alone", named(*fault));
            println!("{name:60}{count:>10}");
            all.met(count, || name);
        }
        for (first, other, _) in BOTH {
            let name = format!("{} before {} of the same record", named(first), named(other));
            let count = self.besides[first as usize][other as usize];
            println!("{name:60}{count:>10}");
            all.met(count, || name);
        }
        for (name, count) in ["simple", "ink trap", "by distance"].iter().zip(self.others) {
            let name = format!("BL, other colours than without it, {name}");
            println!("{name:60}{count:>10}");
            all.met(count, || name);
        }
        println!("{} job files", self.files);
        all.close("reading a job file", self.read);
        all.close("checking a job file", self.check);
        all.close("colouring a job file", self.color);
        all.close("listing of a job file", self.listing);
        all.close("part of a contour", self.part);
        all.close("whether a job is balanced", self.balanced);
    }
}

fn named(fault: Fault) -> String {
    format!("{} {fault:?}", fault.number())
}

// ---- which kinds of files were met

// Buffers exactly right, longer, and one of them one short.
const READING: [&str; 6] = [
    "reading, buffers exactly right",
    "reading, buffers longer",
    "reading, lengths one short, the others right",
    "reading, kinds one short, the others right",
    "reading, points one short, the others right",
    "reading, distances one short, the others right",
];
const COLORING: [&str; 6] = [
    "colouring, buffers exactly right",
    "colouring, buffers longer",
    "colouring, lengths one short, the others right",
    "colouring, kinds one short, the others right",
    "colouring, points one short, the others right",
    "colouring, colours one short, the others right",
];
const LISTING: [&str; 3] =
    ["listing, buffer exactly right", "listing, buffer longer", "listing, buffer one short"];

fn size_classes<const N: usize>(
    classes: &mut Classes,
    names: &[&'static str],
    needed: [usize; N],
    given: [usize; N],
) {
    let all = |holds: fn(usize, usize) -> bool| {
        needed.into_iter().zip(given).all(|(needed, given)| holds(needed, given))
    };
    classes.note(names[0], all(|needed, given| needed == given) && needed[0] > 0);
    classes.note(names[1], all(|needed, given| needed < given));
    for (which, name) in names[2..].iter().enumerate() {
        let mut one_less = needed;
        one_less[which] = needed[which].wrapping_sub(1);
        classes.note(name, given == one_less);
    }
}

fn stop_classes(classes: &mut Classes, fault: Fault, stop: &Stop) {
    let Stop { mark, last, rest, strategy, after_distances, .. } = stop;
    let (start, after) = (*strategy == 0, *after_distances);
    let among = !start && !after;
    let unknown = fault == Fault::UnknownMark;
    classes.note("an unknown mark at the start", unknown && start);
    classes.note("an unknown mark among the contours", unknown && among);
    classes.note("an unknown mark after DS", unknown && after);
    let misplaced = |at: bool, is: bool| fault == Fault::Misplaced && at && is;
    let edge = [&b"LN"[..], b"QD", b"CB"].contains(mark);
    let (contour, distances, end) = (*mark == b"CT", *mark == b"DS", *mark == b"EN");
    let (balanced, after_edge) = (*mark == b"BL", [&b"LN"[..], b"QD", b"CB"].contains(last));
    classes.note("BL before JB", misplaced(start, balanced));
    classes.note("BL twice", misplaced(*last == b"BL", balanced));
    classes.note("BL after CT", misplaced(*last == b"CT", balanced));
    classes.note("BL after an edge", misplaced(after_edge, balanced));
    let between = (*last == b"CT" || after_edge) && rest.starts_with(b"CT");
    classes.note("BL between contours", misplaced(between, balanced));
    classes.note("BL after DS", misplaced(*last == b"DS", balanced));
    classes.note("BL after EN", fault == Fault::AfterEnd && rest.starts_with(b"BL"));
    let cut = fault == Fault::MarkCut;
    classes.note("BL cut", cut && *mark == b"B" && *last == b"JB");
    classes.note("the end after BL", cut && mark.is_empty() && *last == b"BL");
    classes.note("an edge directly after BL", misplaced(*last == b"BL", edge));
    classes.note("JB after BL", misplaced(*last == b"BL", *mark == b"JB"));
    classes.note("CT before JB", misplaced(start, contour));
    classes.note("an edge before JB", misplaced(start, edge));
    classes.note("DS before JB", misplaced(start, distances));
    classes.note("EN before JB", misplaced(start, end));
    classes.note("JB twice", misplaced(true, *mark == b"JB"));
    classes.note("an edge before CT", misplaced(among, edge));
    classes.note("DS by strategy 1 or 2", misplaced(among, distances));
    classes.note("EN while DS is due", misplaced(among, end));
    classes.note("CT after DS", misplaced(after, contour));
    classes.note("an edge after DS", misplaced(after, edge));
    classes.note("DS twice", misplaced(after, distances));
    number_classes(classes, fault, stop.number.unwrap_or(0.0));
}

/// Of the first double that is bad.
fn number_classes(classes: &mut Classes, fault: Fault, x: f64) {
    let threshold = fault == Fault::Threshold;
    classes.note("threshold NaN", threshold && x.is_nan());
    classes.note("threshold infinite", threshold && x.is_infinite());
    classes.note("threshold the next after 1", threshold && x == 1.0f64.next_up());
    classes.note("threshold the next before -1", threshold && x == (-1.0f64).next_down());
    let coordinate = fault == Fault::Coordinate;
    classes.note("coordinate NaN", coordinate && x.is_nan());
    classes.note("coordinate infinity", coordinate && x == f64::INFINITY);
    classes.note("coordinate -infinity", coordinate && x == f64::NEG_INFINITY);
    let most = 1_048_576.0f64;
    classes.note("coordinate the next after 1,048,576", coordinate && x == most.next_up());
    classes.note("coordinate the next before -1,048,576", coordinate && x == (-most).next_down());
    let distance = fault == Fault::Distance;
    classes.note("distance NaN", distance && x.is_nan());
    classes.note("distance infinity", distance && x == f64::INFINITY);
    classes.note("distance -infinity", distance && x == f64::NEG_INFINITY);
    classes.note("distance below zero", distance && x.is_normal() && x < 0.0);
    classes.note("distance below zero, subnormal", distance && x.is_subnormal());
}

fn job_classes(classes: &mut Classes, job: &Job, outcome: &Outcome) {
    let Job { strategy, seed, threshold, balanced, contours, distances } = job;
    let (n, edges) = (contours.len(), contours.iter().map(Vec::len).sum::<usize>());
    let splines = if *strategy == 3 || edges > 64 { splines(job) } else { 0 };
    classes.note("read, refused by its splines or distances", outcome.colored.is_err());
    classes.note("the same with BL", *balanced && outcome.colored.is_err());
    classes.note("65 splines, by distance", *strategy == 3 && splines == 65);
    let Ok(shape) = &outcome.colored else { return };
    classes.note("accepted, simple", *strategy == 1);
    classes.note("accepted, ink trap", *strategy == 2);
    classes.note("accepted, by distance", *strategy == 3);
    classes.note("BL, simple", *balanced && *strategy == 1);
    classes.note("BL, ink trap", *balanced && *strategy == 2);
    classes.note("BL, by distance", *balanced && *strategy == 3);
    classes.note("BL, no contours", *balanced && n == 0);
    classes.note("BL, empty contours only", *balanced && n > 0 && edges == 0);
    classes.note("BL, 256 edges", *balanced && edges == 256);
    classes.note("BL, 64 contours", *balanced && n == 64);
    classes.note("no contours, simple", n == 0 && *strategy == 1);
    classes.note("no contours, ink trap", n == 0 && *strategy == 2);
    classes.note("no contours, by distance", n == 0 && *strategy == 3);
    classes.note("empty contours only", n > 0 && edges == 0);
    let empty = |i: usize| contours[i].is_empty();
    classes.note("first contour empty", edges > 0 && empty(0));
    classes.note("last contour empty", edges > 0 && empty(n - 1));
    classes.note("a contour between others empty", (1..n.max(1) - 1).any(empty));
    classes.note("64 contours", n == 64);
    classes.note("256 edges, simple", edges == 256 && *strategy == 1);
    classes.note("256 edges, ink trap", edges == 256 && *strategy == 2);
    classes.note("256 edges, by distance", edges == 256 && *strategy == 3);
    classes.note("64 splines, 2,016 distances", distances.len() == 2016 && splines == 64);
    classes.note("more than 64 splines, not by distance", *strategy != 3 && splines > 64);
    classes.note("one spline, no distance", *strategy == 3 && splines == 1);
    classes.note("a distance -0", distances.iter().any(|d| d.to_bits() == 1 << 63));
    classes.note("a subnormal distance", distances.iter().any(|d| d.is_subnormal()));
    classes.note("threshold 1", *threshold == 1.0);
    classes.note("threshold -1", *threshold == -1.0);
    classes.note("threshold -0", threshold.to_bits() == 1 << 63);
    classes.note("seed 2^64 - 1", *seed == u64::MAX);
    let place = |wanted: fn(f64) -> bool| {
        let points = contours.iter().flatten().flat_map(|e| {
            let (points, order) = e.control_points();
            points.into_iter().take(order + 1)
        });
        points.into_iter().any(|p| wanted(p.x) || wanted(p.y))
    };
    classes.note("a coordinate 1,048,576", place(|x| x == 1_048_576.0));
    classes.note("a coordinate -1,048,576", place(|x| x == -1_048_576.0));
    classes.note("a coordinate -0", place(|x| x.to_bits() == 1 << 63));
    classes.note("a subnormal coordinate", place(|x| x.is_subnormal()));
    let kind = |order: usize| contours.iter().flatten().any(|e| e.order() == order);
    classes.note("edges of all three kinds", (1..4).all(kind));
    let lengths = || shape.contours.iter().map(|c| c.segments.len());
    classes.note("more edges out than in", lengths().sum::<usize>() > edges);
    classes.note("BL, more edges out than in", *balanced && lengths().sum::<usize>() > edges);
    classes.note("508 edges out", lengths().sum::<usize>() == 508);
    classes.note("a contour number of two digits", n > 10 && lengths().skip(10).any(|m| m > 0));
    classes.note("a place of two digits", lengths().any(|m| m > 10));
    classes.note("a place of three digits", lengths().any(|m| m > 100));
}

fn stand_in_classes(classes: &mut Classes, job: &Job, outcome: &Outcome) {
    let sum = count(&job.contours);
    if outcome.colored.is_ok() {
        stand_ins::classes(classes, &job.contours);
    }
    let accepted = |strategy: u8| outcome.colored.is_ok() && job.strategy == strategy;
    classes.note("accepted with stand-ins, simple", accepted(1) && sum > 0);
    classes.note("accepted with stand-ins, ink trap", accepted(2) && sum > 0);
    classes.note("accepted with stand-ins, by distance", accepted(3) && sum > 0);
    let refused = |fault: Fault| outcome.fault() == Some(fault) && sum > 0;
    classes.note("refused by its splines, stand-ins", refused(Fault::Splines));
    classes.note("refused by its distances, stand-ins", refused(Fault::DistanceCount));
    classes.note("listed with a sum of one digit, not 0", (1..10).contains(&outcome.stand_ins()));
    classes.note("listed with a sum of two digits", (10..100).contains(&outcome.stand_ins()));
    classes.note("listed with a sum of three digits", outcome.stand_ins() >= 100);
}

// ---- files

/// The square of P6 by each strategy, the limits, and what SCOPE says of them.
fn known_answers(c: &mut Comparison, all: &mut Tally) {
    let mut part = Tally::default();
    let r = &mut Random(700);
    let edges = |outcome: &Outcome| match &outcome.colored {
        Ok(shape) => Ok(shape.contours.iter().map(|c| c.segments.len()).sum::<usize>()),
        Err(fault) => Err(fault.number()),
    };
    for Known { name, file, answer } in known().into_iter().chain(known_balanced()) {
        let found = edges(&c.file(r, &file));
        part.note(found == answer, || format!("{name}: {found:?}, not {answer:?}"));
        c.classes.note(name, true);
    }
    for (job, text) in [
        (square_job(1), "0 0 L 5\n0 1 L 3\n0 2 L 6\n0 3 L 3\nedges 4\nstandins 0\n"),
        (square_job(2), "0 0 L 5\n0 1 L 3\n0 2 L 6\n0 3 L 3\nedges 4\nstandins 0\n"),
        (square_job(3), "0 0 L 3\n0 1 L 6\n0 2 L 5\n0 3 L 6\nedges 4\nstandins 0\n"),
        (no_contours(1), "edges 0\nstandins 0\n"),
    ] {
        let found = outcome(&write(&job)).text();
        part.note(found == text, || format!("{found}, not {text}"));
    }
    part.note(write(&longest()).len() == 33_179, || "the longest accepted file".to_string());
    let text = outcome(&write(&widest_of_stand_ins(1))).text();
    let last = text.ends_with("\nedges 508\nstandins 449\n");
    part.note(last && text.len() == 4_685, || format!("the longest text: {text}"));
    all.close("job files that SCOPE names", part);
}

/// Outlines with their stand-ins written out, by each strategy and by thresholds that split some and not.
fn known_stand_ins(c: &mut Comparison, all: &mut Tally) {
    let mut part = Tally::default();
    let r = &mut Random(708);
    for known in known_outlines() {
        for (strategy, threshold) in (1..4).flat_map(|s| [(s, 0.125), (s, -1.0)]) {
            let balanced = r.coin();
            let job = by(r, strategy, known.contours.clone(), threshold);
            let file = write(&Job { balanced, ..job });
            let outcome = c.file(r, &file);
            let text = outcome.text();
            let last = format!("\nstandins {}\n", known.stand_ins);
            let listed =
                if outcome.colored.is_ok() { text.ends_with(&last) } else { text == "refused 4\n" };
            part.note(listed, || format!("{}: {text}", known.name));
        }
    }
    all.close("job files with stand-ins as written out", part);
}

/// BL at every place of small files, and jobs of several teardrops with and without it.
fn balanced(c: &mut Comparison) {
    let r = &mut Random(710);
    for number in 0..400 {
        let job = small(r, 1 + (number % 3) as u8);
        for file in misplaced_balanced(&job) {
            assert_eq!(c.file(r, &file).fault().map(Fault::number), Some(3), "{}", shown(&file));
        }
        let other = write(&Job { balanced: !job.balanced, ..job });
        assert_eq!(c.file(r, &other).fault(), None, "{}", shown(&other));
    }
    for number in 0..3_000 {
        let threshold = r.pick(&[0.125, 0.5]);
        let contours = several(r, threshold);
        let job = by(r, 1 + (number % 3) as u8, contours, threshold);
        c.file(r, &write(&Job { balanced: true, ..job.clone() }));
        c.file(r, &write(&job));
    }
}

/// Two faults of one record.
fn both_faults(c: &mut Comparison) {
    let r = &mut Random(705);
    for (first, _, make) in BOTH {
        for _ in 0..150 {
            let file = make(r).concat();
            assert_eq!(c.file(r, &file).fault(), Some(first), "{}", shown(&file));
        }
    }
}

/// Each fault planted alone, and before each other one that can follow in a later record.
fn planted_faults(c: &mut Comparison, all: &mut Tally) {
    let r = &mut Random(704);
    let mut before = [[0u64; 14]; 14];
    for (number, fault) in FAULTS.into_iter().enumerate() {
        for _ in 0..400 {
            planted(r, number).map(|f| c.file(r, &f.concat()));
        }
        for (other, later) in FAULTS.into_iter().enumerate().filter(|f| can_follow(fault, f.1)) {
            for _ in 0..150 {
                let Some(f) = planted_before(r, number, other) else { continue };
                let found = c.file(r, &f.concat()).fault();
                before[number][other] += (found == Some(fault)) as u64;
            }
            let count = before[number][other];
            all.met(count, || format!("{} before a later {}", named(fault), named(later)));
        }
    }
    println!("a fault in an earlier record, by each of {FAULTS:?} in a later one");
    for (fault, counts) in FAULTS.iter().zip(before).filter(|row| row.1 != [0; 14]) {
        println!("{:30}{counts:>6?}", named(*fault));
    }
}

fn long_files(c: &mut Comparison) {
    let r = &mut Random(706);
    for (way, name) in LONG.into_iter().enumerate() {
        for _ in 0..150 {
            let file = long(r, way);
            let refused = c.file(r, &file).fault().is_some();
            c.classes.note(name, refused && file.len() > PROGRAM_BYTES);
        }
    }
}

/// Small files cut at every place, and with every byte that can stand at a place of the square's files; of one with BL
/// at the first places.
fn each_place(c: &mut Comparison) {
    let r = &mut Random(701);
    for number in 0..60 {
        let whole = write(&small(r, 1 + number % 3));
        (0..whole.len()).for_each(|len| drop(c.cut(r, &whole, len)));
    }
    for (job, places) in [
        (square_job(1), usize::MAX),
        (square_job(3), usize::MAX),
        (Job { balanced: true, ..square_job(2) }, 25),
        (Job { balanced: true, ..no_contours(3) }, usize::MAX),
    ] {
        let mut file = write(&job);
        for at in 0..places.min(file.len()) {
            let was = file[at];
            for byte in (0..=255).filter(|&byte| byte != was) {
                file[at] = byte;
                c.file(r, &file);
            }
            file[at] = was;
        }
    }
}

/// Files damaged in up to three ways.
fn damaged(c: &mut Comparison, all: &mut Tally) {
    let r = &mut Random(703);
    let mut alone = [[0u64; 15]; DAMAGES.len()];
    for number in 0..130_000 {
        let way = number % DAMAGES.len();
        let strategy = 1 + r.below(3) as u8;
        let whole = records(&if r.coin() { job(r) } else { small(r, strategy) });
        let mut f = whole.clone();
        damage(r, &mut f, way);
        let more = r.below(8).saturating_sub(5);
        (0..more).for_each(|_| {
            let other = some(r, DAMAGES.len());
            damage(r, &mut f, other);
        });
        let fault = c.file(r, &f.concat()).fault();
        if more == 0 && f != whole {
            alone[way][fault.map_or(0, |fault| 1 + fault as usize)] += 1;
        }
    }
    println!("damage alone: accepted, and refused by each of {FAULTS:?}");
    for ((name, faults, _), counts) in DAMAGES.iter().zip(alone) {
        println!("{name:30}{counts:>6?}");
        if faults.is_empty() {
            all.met(counts[0], || format!("{name}: accepted"));
        }
        for &fault in *faults {
            all.met(counts[1 + fault as usize], || format!("{name}: {}", named(fault)));
        }
    }
}

// ---- the program

/// What the built `channels` prints of a file.
fn channels(file: &[u8]) -> Vec<u8> {
    let mut child = Command::new("../target/bin/channels")
        .stdin(Stdio::piped())
        .stdout(Stdio::piped())
        .spawn()
        .expect("tools/build channels makes it");
    // a file above 34,000 bytes may be left unread
    let _ = child.stdin.take().unwrap().write_all(file);
    child.wait_with_output().unwrap().stdout
}

/// The program on every file of examples/, which has its text beside it, and on damaged ones.
pub fn program(all: &mut Tally) {
    let mut part = Tally::default();
    let mut compare = |file: &[u8], text: &[u8]| {
        let found = channels(file);
        let shown = || format!("{}: {}", shown(file), String::from_utf8_lossy(&found));
        part.note(found == text, shown);
    };
    let mut examples = 0;
    for entry in std::fs::read_dir("../examples").unwrap() {
        let path = entry.unwrap().path();
        if path.extension().is_some_and(|e| e == "job") {
            let file = std::fs::read(&path).unwrap();
            compare(&file, &std::fs::read(path.with_extension("txt")).unwrap());
            compare(&file, outcome(&file).text().as_bytes());
            examples += 1;
        }
    }
    let r = &mut Random(707);
    for number in 0..400 {
        let mut f = records(&if r.coin() { job(r) } else { small(r, 1 + (number % 3) as u8) });
        if number % 4 > 0 {
            damage(r, &mut f, number % DAMAGES.len());
        }
        let file = f.concat();
        compare(&file, outcome(&file).text().as_bytes());
    }
    for way in 0..LONG.len() {
        let file = long(r, way);
        compare(&file, outcome(&file).text().as_bytes());
    }
    all.met(examples, || "a file of examples/".to_string());
    all.close("the program channels", part);
}

fn accepted(c: &mut Comparison) {
    let r = &mut Random(702);
    for _ in 0..60_000 {
        let file = write(&job(r));
        assert_eq!(c.file(r, &file).fault(), None);
    }
}

pub fn compare(all: &mut Tally) {
    let mut c = Comparison::default();
    known_answers(&mut c, all);
    known_stand_ins(&mut c, all);
    balanced(&mut c);
    both_faults(&mut c);
    planted_faults(&mut c, all);
    long_files(&mut c);
    each_place(&mut c);
    damaged(&mut c, all);
    accepted(&mut c);
    c.close(all);
}
