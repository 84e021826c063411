//! What can be wrong with a job file: damage of many kinds, one fault planted in a record, and two faults
//! of one record.

use crate::contours::{Edges, MAX_COORDINATE, contour};
use crate::distances::bad_distance;
use crate::job_files::{lines, saw, small};
use crate::jobs::*;
use crate::numbers::Random;
use crate::shapes::{bad_coordinate, bad_threshold, some};

// ---- places in a file

const EDGE: [&[u8; 2]; 3] = [b"LN", b"QD", b"CB"];

/// The doubles of a record begin here.
fn doubles_from(mark: &[u8]) -> usize {
    match mark {
        b"JB" => 11,
        b"DS" => 4,
        _ => 2,
    }
}

/// A record that begins with one of the marks and has what comes before its doubles.
fn find(r: &mut Random, f: &Records, marks: &[&[u8; 2]]) -> Option<usize> {
    let is = |i: &usize| {
        let record = &f[*i];
        marks.iter().any(|&mark| record.starts_with(mark) && record.len() >= doubles_from(mark))
    };
    let all: Vec<usize> = (0..f.len()).filter(is).collect();
    (!all.is_empty()).then(|| r.pick(&all))
}

/// Changes such a record, where there is one, and gives its place.
fn change(
    r: &mut Random,
    f: &mut Records,
    marks: &[&[u8; 2]],
    to: fn(&mut Random, &mut Vec<u8>),
) -> Option<usize> {
    let i = find(r, f, marks)?;
    to(r, &mut f[i]);
    Some(i)
}

fn how_many(f: &Records, marks: &[&[u8; 2]]) -> usize {
    f.iter().filter(|record| marks.iter().any(|&mark| record.starts_with(mark))).count()
}

/// Where the contours end: at DS or EN.
fn contours_end(f: &Records) -> usize {
    f.iter().position(|b| b.starts_with(b"DS") || b.starts_with(b"EN")).unwrap_or(f.len())
}

/// Changes the record of some byte from that byte on.
fn change_bytes(r: &mut Random, f: &mut Records, to: fn(&mut Random, &mut Vec<u8>, usize)) {
    let mut at = some(r, f.iter().map(Vec::len).sum());
    for record in f {
        if at < record.len() {
            return to(r, record, at);
        }
        at -= record.len();
    }
}

// ---- changes of a record

fn set_mark(record: &mut [u8], mark: &[u8; 2]) {
    record[..2].copy_from_slice(mark);
}

/// Puts a double in the place of one of a record's.
fn set_double(r: &mut Random, record: &mut [u8], bits: u64) {
    let from = doubles_from(&record[..2]);
    let count = record.len().saturating_sub(from) / 8;
    let at = from + 8 * some(r, count);
    if count > 0 {
        record[at..at + 8].copy_from_slice(&bits.to_le_bytes());
    }
}

fn count(record: &[u8]) -> u16 {
    u16::from_le_bytes([record[2], record[3]])
}

fn set_count(record: &mut [u8], count: u16) {
    record[2..4].copy_from_slice(&count.to_le_bytes());
}

/// The number alone, one more or one less.
fn count_by(record: &mut [u8], step: i16) {
    let count = count(record).saturating_add_signed(step);
    set_count(record, count);
}

fn one_more(_: &mut Random, record: &mut Vec<u8>) {
    count_by(record, 1);
    record.extend(1.0f64.to_le_bytes());
}

fn one_less(_: &mut Random, record: &mut Vec<u8>) {
    if count(record) > 0 {
        count_by(record, -1);
        record.truncate(record.len().saturating_sub(8));
    }
}

fn above(r: &mut Random, record: &mut Vec<u8>) {
    let more = some(r, 300);
    *record = distances(&vec![1.0; 2017 + r.pick(&[0, 0, more])]);
}

fn spoil_distance(r: &mut Random, record: &mut Vec<u8>) {
    let bits = bad_distance(r);
    set_double(r, record, bits);
}

fn spoil_coordinate(r: &mut Random, record: &mut Vec<u8>) {
    let bits = bad_coordinate(r);
    set_double(r, record, bits);
}

fn spoil_threshold(r: &mut Random, record: &mut Vec<u8>) {
    let threshold = bad_threshold(r);
    set_double(r, record, threshold.to_bits());
}

fn bad_strategy(r: &mut Random) -> u8 {
    let any = 4 + r.below(252) as u8;
    r.pick(&[0, 4, 255, b'1', any])
}

/// Two bytes that are no mark: near one, or any.
fn unknown_mark(r: &mut Random) -> [u8; 2] {
    let [a, b] = *r.pick(&MARKS);
    let mark = match r.below(7) {
        0 => [a.to_ascii_lowercase(), b.to_ascii_lowercase()],
        1 => [b, a],
        2 => [a, b ^ (1 << r.below(8))],
        3 => [a ^ (1 << r.below(8)), b],
        4 => [a, r.pick(&MARKS)[1]],
        5 => [0, 0],
        _ => [r.next() as u8, r.next() as u8],
    };
    if MARKS.contains(&&mark) { unknown_mark(r) } else { mark }
}

// ---- new records

fn an_edge(r: &mut Random) -> Vec<u8> {
    edge_record(&contour(r, 1, 0.5)[0])
}

fn bytes(r: &mut Random, most: usize) -> Vec<u8> {
    let n = 1 + some(r, most);
    (0..n).map(|_| r.next() as u8).collect()
}

fn end() -> Vec<u8> {
    b"EN".to_vec()
}

fn bytes_after(r: &mut Random, f: &mut Records) {
    let any = bytes(r, 9);
    f.push(r.pick(&[&[0][..], b"\n", b"E", b"CT", b"BL", &any]).to_vec());
}

fn is_balanced(f: &Records) -> bool {
    f.get(1).is_some_and(|record| record == b"BL")
}

/// BL directly after JB, where it does not stand there.
fn balanced_put_in(f: &mut Records) {
    if !is_balanced(f) {
        f.insert(1, balanced());
    }
}

fn balanced_left_out(f: &mut Records) {
    if is_balanced(f) {
        f.remove(1);
    }
}

/// One BL more at one of the first places, where none may stand, and that place.
fn balanced_elsewhere(r: &mut Random, f: &mut Records, places: usize) -> usize {
    let at = match some(r, places) {
        1 if !is_balanced(f) => 0,
        at => at,
    };
    f.insert(at, balanced());
    at
}

/// The same at any place, after the last record too.
fn balanced_anywhere(r: &mut Random, f: &mut Records) {
    let places = f.len() + 1;
    balanced_elsewhere(r, f, places);
}

/// Empty contours at the end, until there are so many.
fn contours_to(f: &mut Records, count: usize) {
    let more = count.saturating_sub(how_many(f, &[b"CT"]));
    let at = contours_end(f);
    f.splice(at..at, vec![b"CT".to_vec(); more]);
}

/// Edges at the end of the last contour, until there are so many.
fn edges_to(r: &mut Random, f: &mut Records, count: usize) {
    let more = count.saturating_sub(how_many(f, &EDGE));
    let at = contours_end(f);
    if how_many(f, &[b"CT"]) > 0 {
        f.splice(at..at, (0..more).map(|_| an_edge(r)).collect::<Records>());
    }
}

/// A contour more of 65 splines, by distance.
fn splines_above(f: &mut Records) {
    let at = contours_end(f);
    if how_many(f, &[b"DS"]) > 0 {
        f.splice(at..at, contour_records(&saw(65)));
    }
}

// ---- damage

/// A way to damage a file.
pub type Damage = fn(&mut Random, &mut Records);

fn swapped(r: &mut Random, f: &mut Records) {
    let (i, j) = (some(r, f.len()), some(r, f.len()));
    f.swap(i, j);
}

fn neighbours_swapped(r: &mut Random, f: &mut Records) {
    let i = some(r, f.len() - 1);
    f.swap(i, i + 1);
}

fn moved(r: &mut Random, f: &mut Records) {
    let i = some(r, f.len());
    let record = f.remove(i);
    let j = some(r, f.len() + 1);
    f.insert(j, record);
}

fn from_another(r: &mut Random, f: &mut Records) {
    let strategy = 1 + r.below(3) as u8;
    let other = records(&small(r, strategy));
    let (at, which) = (some(r, f.len() + 1), some(r, other.len()));
    f.insert(at, other[which].clone());
}

/// DS at the end of the contours of a file by strategy 1 or 2.
fn distances_not_asked(r: &mut Random, f: &mut Records) {
    if how_many(f, &[b"DS"]) == 0 {
        let (at, n) = (contours_end(f), some(r, 4));
        f.insert(at, distances(&vec![1.0; n]));
    }
}

fn distances_early(r: &mut Random, f: &mut Records) {
    if let Some(i) = find(r, f, &[b"DS"]) {
        let record = f.remove(i);
        let at = some(r, i);
        f.insert(at, record);
    }
}

fn any_count(r: &mut Random, record: &mut Vec<u8>) {
    let (any, swapped) = (r.next() as u16, count(record).swap_bytes());
    set_count(record, r.pick(&[any, any % 2017, 2016, 2017, 65535, swapped]));
}

fn threshold_at_the_limit(r: &mut Random, f: &mut Records) {
    let threshold: f64 = r.pick(&[1.0, -1.0, 1.0f64.next_down(), -1.0f64.next_down(), -0.0]);
    set_double(r, &mut f[0], threshold.to_bits());
}

fn coordinate_at_the_limit(r: &mut Random, record: &mut Vec<u8>) {
    let x = r.pick(&[MAX_COORDINATE, -MAX_COORDINATE, MAX_COORDINATE.next_down()]);
    set_double(r, record, x.to_bits());
}

fn contours_above(r: &mut Random, f: &mut Records) {
    let more = some(r, 100);
    contours_to(f, 65 + r.pick(&[0, 0, more]));
}

fn edges_above(r: &mut Random, f: &mut Records) {
    let more = some(r, 40);
    let count = 257 + r.pick(&[0, 0, more]);
    edges_to(r, f, count);
}

fn byte_changed(r: &mut Random, record: &mut Vec<u8>, at: usize) {
    let any = r.next() as u8;
    record[at] = r.pick(&[any, any, 0, 0xFF, record[at].wrapping_add(1)]);
}

fn bytes_put_in(r: &mut Random, record: &mut Vec<u8>, at: usize) {
    let more = r.pick(&[1, 1, 2, 8, 16]);
    record.splice(at..at, bytes(r, more));
}

fn bytes_left_out(r: &mut Random, record: &mut Vec<u8>, at: usize) {
    let less = r.pick(&[1, 1, 2, 8, 16]).min(record.len() - at);
    record.drain(at..at + less);
}

fn noise_over(r: &mut Random, record: &mut Vec<u8>, at: usize) {
    let most = r.pick(&[2, 8, 40]);
    record.iter_mut().skip(at).take(most).for_each(|byte| *byte = r.next() as u8);
}

fn cut(r: &mut Random, f: &mut Records) {
    let i = some(r, f.len());
    let size = some(r, f[i].len());
    f.truncate(i + 1);
    f[i].truncate(size);
}

fn in_edge(r: &mut Random, f: &mut Records, to: fn(&mut Random, &mut Vec<u8>)) {
    change(r, f, &EDGE, to);
}

fn in_distances(r: &mut Random, f: &mut Records, to: fn(&mut Random, &mut Vec<u8>)) {
    change(r, f, &[b"DS"], to);
}

/// Each with the faults that it alone must have been met with; none where it is no fault in itself.
pub const DAMAGES: [(&str, &[Fault], Damage); 49] = [
    ("a record doubled", &[Misplaced, AfterEnd], |r, f| {
        let i = some(r, f.len());
        f.insert(i, f[i].clone());
    }),
    ("two records swapped", &[Misplaced, AfterEnd], swapped),
    ("neighbouring records swapped", &[Misplaced, AfterEnd], neighbours_swapped),
    ("a record left out", &[MarkCut, Misplaced], |r, f| drop(f.remove(some(r, f.len())))),
    ("a record moved", &[Misplaced, AfterEnd], moved),
    ("a record of another file", &[Misplaced, AfterEnd], from_another),
    ("another mark", &[MarkCut, UnknownMark, Misplaced, BodyCut], |r, f| {
        let i = some(r, f.len());
        set_mark(&mut f[i], r.pick(&MARKS));
    }),
    ("an unknown mark", &[UnknownMark], |r, f| {
        let i = some(r, f.len());
        set_mark(&mut f[i], &unknown_mark(r));
    }),
    ("an edge of any kind", &[], |r, f| in_edge(r, f, |r, e| *e = an_edge(r))),
    ("JB twice", &[Misplaced, AfterEnd], |r, f| f.insert(1 + some(r, f.len()), f[0].clone())),
    ("BL put in", &[], |_, f| balanced_put_in(f)),
    ("BL left out", &[], |_, f| balanced_left_out(f)),
    ("BL elsewhere", &[Misplaced, AfterEnd], balanced_anywhere),
    ("BL moved", &[Misplaced, AfterEnd], |r, f| {
        balanced_left_out(f);
        balanced_anywhere(r, f);
    }),
    ("an edge before CT", &[Misplaced], |r, f| f.insert(1, an_edge(r))),
    ("EN early", &[Misplaced, AfterEnd], |r, f| f.insert(1 + some(r, f.len() - 1), end())),
    ("EN missing", &[MarkCut], |_, f| drop(f.pop())),
    ("EN twice", &[AfterEnd], |_, f| f.push(end())),
    ("bytes after EN", &[AfterEnd], bytes_after),
    ("DS missing", &[Misplaced], |_, f| f.retain(|record| !record.starts_with(b"DS"))),
    ("DS twice", &[Misplaced], |r, f| {
        find(r, f, &[b"DS"]).map(|i| f.insert(i, f[i].clone()));
    }),
    ("DS by strategy 1 or 2", &[Misplaced], distances_not_asked),
    ("DS before a contour or JB", &[Misplaced], distances_early),
    ("the count one more", &[TooManyDistances, DistancesCut], |r, f| {
        in_distances(r, f, |_, d| count_by(d, 1))
    }),
    ("the count one less", &[UnknownMark], |r, f| in_distances(r, f, |_, d| count_by(d, -1))),
    ("any count", &[UnknownMark, TooManyDistances, DistancesCut], |r, f| {
        in_distances(r, f, any_count)
    }),
    ("a distance more", &[TooManyDistances, DistanceCount], |r, f| in_distances(r, f, one_more)),
    ("a distance less", &[DistanceCount], |r, f| in_distances(r, f, one_less)),
    ("above 2,016 distances", &[TooManyDistances], |r, f| in_distances(r, f, above)),
    ("a bad distance", &[Distance], |r, f| in_distances(r, f, spoil_distance)),
    ("a distance -0", &[], |r, f| in_distances(r, f, |r, d| set_double(r, d, 1 << 63))),
    ("an unknown strategy", &[Strategy], |r, f| f[0][2] = bad_strategy(r)),
    ("another strategy", &[Misplaced], |r, f| f[0][2] = 1 + r.below(3) as u8),
    ("a bad threshold", &[Threshold], |r, f| spoil_threshold(r, &mut f[0])),
    ("a threshold at the limit", &[Splines, DistanceCount], threshold_at_the_limit),
    ("a bad coordinate", &[Coordinate], |r, f| in_edge(r, f, spoil_coordinate)),
    ("a coordinate at the limit", &[DistanceCount], |r, f| in_edge(r, f, coordinate_at_the_limit)),
    ("64 contours", &[], |_, f| contours_to(f, 64)),
    ("above 64 contours", &[TooMany], contours_above),
    ("256 edges", &[Splines], |r, f| edges_to(r, f, 256)),
    ("above 256 edges", &[TooMany], edges_above),
    ("a contour opened", &[DistanceCount], |r, f| {
        let at = 1 + some(r, contours_end(f).max(1));
        f.insert(at, b"CT".to_vec());
    }),
    ("65 splines more", &[Splines, TooMany], |_, f| splines_above(f)),
    ("a byte changed", &[UnknownMark, Strategy, Threshold, Coordinate], |r, f| {
        change_bytes(r, f, byte_changed);
    }),
    ("a bit changed", &[UnknownMark, Coordinate, Distance, DistanceCount], |r, f| {
        change_bytes(r, f, |r, record, at| record[at] ^= 1 << r.below(8));
    }),
    ("bytes put in", &[UnknownMark], |r, f| change_bytes(r, f, bytes_put_in)),
    ("bytes left out", &[UnknownMark], |r, f| change_bytes(r, f, bytes_left_out)),
    ("noise", &[UnknownMark, Threshold, Coordinate, Distance], |r, f| {
        change_bytes(r, f, noise_over);
    }),
    ("cut", &[MarkCut, BodyCut, DistancesCut], cut),
];

/// Damages a file whose first record has the size of JB and whose others have room for a mark.
pub fn damage(r: &mut Random, f: &mut Records, way: usize) {
    if f.len() > 1 && f[0].len() == 19 && f.iter().all(|record| record.len() >= 2) {
        DAMAGES[way].2(r, f);
    }
}

// ---- one fault

/// Plants a fault in a file, or in the first records of one, and gives the place of the record that has it;
/// of the two faults that show after reading, the place after the last record.
pub type Plant = fn(&mut Random, &mut Records) -> Option<usize>;

fn plant_mark_cut(r: &mut Random, f: &mut Records) -> Option<usize> {
    let (i, left) = (some(r, f.len()), some(r, 2));
    f.truncate(i + 1);
    f[i].truncate(left);
    Some(i)
}

fn plant_misplaced(r: &mut Random, f: &mut Records) -> Option<usize> {
    if r.below(4) == 0 {
        let places = f.len();
        return Some(balanced_elsewhere(r, f, places));
    }
    let (by_distance, contours_end) = (f[0][2] == 3, contours_end(f));
    let among = 1 + some(r, contours_end);
    let (at, record) = match r.below(6) {
        0 => (0, b"CT".to_vec()),
        1 => (1, an_edge(r)),
        2 if !by_distance => (among, distances(&[1.0])),
        3 if by_distance => (among, end()),
        4 if by_distance && contours_end + 1 < f.len() => (contours_end + 1, b"CT".to_vec()),
        _ => (1 + some(r, f.len()), f[0].clone()),
    };
    f.insert(at.min(f.len()), record);
    Some(at.min(f.len() - 1))
}

fn plant_too_many(r: &mut Random, f: &mut Records) -> Option<usize> {
    if r.coin() && how_many(f, &[b"CT"]) > 0 {
        edges_to(r, f, 257);
    } else {
        contours_to(f, 65);
    }
    Some(contours_end(f) - 1)
}

fn plant_body_cut(r: &mut Random, f: &mut Records) -> Option<usize> {
    let i = find(r, f, &[b"JB", b"LN", b"QD", b"CB", b"DS"])?;
    let whole = if f[i].starts_with(b"DS") { 4 } else { f[i].len() };
    f.truncate(i + 1);
    f[i].truncate(2 + some(r, whole - 2));
    Some(i)
}

fn plant_distances_cut(r: &mut Random, f: &mut Records) -> Option<usize> {
    let i = find(r, f, &[b"DS"]).filter(|&i| count(&f[i]) > 0)?;
    let size = 4 + some(r, f[i].len() - 4);
    f.truncate(i + 1);
    f[i].truncate(size);
    Some(i)
}

/// By the places of `FAULTS`.
pub const PLANTS: [Plant; 14] = [
    plant_mark_cut,
    |r, f| {
        let i = some(r, f.len());
        set_mark(&mut f[i], &unknown_mark(r));
        Some(i)
    },
    plant_misplaced,
    plant_too_many,
    plant_body_cut,
    |r, f| {
        f[0][2] = bad_strategy(r);
        Some(0)
    },
    |r, f| {
        spoil_threshold(r, &mut f[0]);
        Some(0)
    },
    |r, f| change(r, f, &EDGE, spoil_coordinate),
    |r, f| match r.coin() {
        true => change(r, f, &[b"DS"], above),
        false => change(r, f, &[b"DS"], |_, d| set_count(d, 2017)),
    },
    plant_distances_cut,
    |r, f| change(r, f, &[b"DS"], spoil_distance).filter(|&i| count(&f[i]) > 0),
    |r, f| {
        bytes_after(r, f);
        Some(f.len() - 2)
    },
    |_, f| {
        splines_above(f);
        Some(f.len())
    },
    |r, f| {
        let step = if r.coin() { one_more } else { one_less };
        change(r, f, &[b"DS"], step);
        Some(f.len())
    },
];

/// Whether a later record can have a fault besides an earlier one: after DS only EN is left, JB comes first,
/// and where the file is cut or EN has come nothing follows.
pub fn can_follow(first: Fault, later: Fault) -> bool {
    let of_header = matches!(later, Strategy | Threshold);
    let of_contours = matches!(later, TooMany | BodyCut | Coordinate);
    let of_distances = matches!(later, TooManyDistances | DistancesCut | Distance);
    match first {
        MarkCut | BodyCut | DistancesCut | AfterEnd | Splines | DistanceCount => false,
        TooManyDistances | Distance => !of_header && !of_contours && !of_distances,
        _ => !of_header,
    }
}

/// A small file, by distance where one of the faults asks for it.
fn for_faults(r: &mut Random, faults: &[usize]) -> Records {
    let by_distance = faults.iter().any(|&fault| fault >= 8 && FAULTS[fault] != AfterEnd);
    let strategy = if by_distance { 3 } else { 1 + r.below(3) as u8 };
    records(&small(r, strategy))
}

/// A file with one fault, alone.
pub fn planted(r: &mut Random, fault: usize) -> Option<Records> {
    let mut f = for_faults(r, &[fault]);
    PLANTS[fault](r, &mut f)?;
    Some(f)
}

/// A file with two faults, the first in an earlier record.
pub fn planted_before(r: &mut Random, first: usize, later: usize) -> Option<Records> {
    let mut f = for_faults(r, &[first, later]);
    let at = PLANTS[later](r, &mut f)?;
    let tail = f.split_off(at);
    (!f.is_empty()).then(|| PLANTS[first](r, &mut f))??;
    f.extend(tail);
    Some(f)
}

// ---- two faults of one record

/// Makes a file whose first faulty record has two faults.
pub type Both = fn(&mut Random) -> Records;

/// The start of a file by a strategy, up to the end of its contours.
fn begun(r: &mut Random, strategy: u8) -> Records {
    let mut f = records(&small(r, strategy));
    f.truncate(contours_end(&f));
    f
}

fn not_by_distance(r: &mut Random) -> Records {
    let strategy = 1 + r.below(2) as u8;
    begun(r, strategy)
}

/// JB and one contour.
fn opened(strategy: u8, edges: Edges) -> Records {
    [vec![header(strategy, 5, 0.125)], contour_records(&edges)].concat()
}

/// 256 edges.
fn full(strategy: u8) -> Records {
    opened(strategy, lines(256))
}

/// 65 splines, by distance.
fn crowded() -> Records {
    opened(3, saw(65))
}

/// Three splines, which have three distances.
fn three() -> Records {
    opened(3, saw(3))
}

fn with(mut f: Records, more: &[&[u8]]) -> Records {
    f.extend(more.iter().map(|record| record.to_vec()));
    f
}

/// A record cut, at least so many bytes left.
fn cut_record(r: &mut Random, record: Vec<u8>, least: usize) -> Vec<u8> {
    let size = least + some(r, record.len() - least);
    record[..size].to_vec()
}

fn cut_count(r: &mut Random) -> Vec<u8> {
    cut_record(r, distances(&[]), 2)
}

fn bad_edge(r: &mut Random) -> Vec<u8> {
    let mut record = an_edge(r);
    spoil_coordinate(r, &mut record);
    record
}

/// The bad coordinate first.
fn bad_start(r: &mut Random) -> Vec<u8> {
    let mut record = an_edge(r);
    record[2..10].copy_from_slice(&bad_coordinate(r).to_le_bytes());
    record
}

fn bad_distances(r: &mut Random, n: usize) -> Vec<u8> {
    let mut record = distances(&vec![1.0; n]);
    spoil_distance(r, &mut record);
    record
}

/// DS with a count, and fewer distances.
fn too_few(r: &mut Random, count: u16) -> Vec<u8> {
    let there = some(r, count as usize);
    counted(count, &vec![1.0; there])
}

pub const BOTH: [(Fault, Fault, Both); 29] = [
    (MarkCut, UnknownMark, |r| with(not_by_distance(r), &[b"?"])),
    (UnknownMark, Misplaced, |r| with(three(), &[&distances(&[1.0; 3]), &unknown_mark(r)])),
    (Misplaced, TooMany, |r| {
        let contours = b"CT".repeat(64);
        match r.coin() {
            true => with(full(3), &[&distances(&[]), &an_edge(r), b"EN"]),
            false => vec![header(3, 5, 0.5), contours, distances(&[]), b"CT".to_vec()],
        }
    }),
    (Misplaced, BodyCut, |r| {
        let edge = an_edge(r);
        match r.below(3) {
            0 => vec![header(2, 5, 0.5), cut_record(r, edge, 2)],
            1 => with(not_by_distance(r), &[&cut_count(r)]),
            _ => with(not_by_distance(r), &[&cut_record(r, header(1, 5, 0.5), 2)]),
        }
    }),
    (Misplaced, Strategy, |r| with(not_by_distance(r), &[&header(bad_strategy(r), 5, 0.5), b"EN"])),
    (Misplaced, Threshold, |r| with(not_by_distance(r), &[&header(1, 5, bad_threshold(r)), b"EN"])),
    (Misplaced, Coordinate, |r| vec![header(1, 5, 0.5), bad_edge(r), end()]),
    (Misplaced, TooManyDistances, |r| with(not_by_distance(r), &[&distances(&[1.0; 2017]), b"EN"])),
    (Misplaced, DistancesCut, |r| with(not_by_distance(r), &[&too_few(r, 5)])),
    (Misplaced, Distance, |r| with(not_by_distance(r), &[&bad_distances(r, 3), b"EN"])),
    (Misplaced, AfterEnd, |r| with(begun(r, 3), &[b"EN", &bytes(r, 4)])),
    (TooMany, BodyCut, |r| {
        let edge = an_edge(r);
        with(full(1 + r.below(3) as u8), &[&cut_record(r, edge, 2)])
    }),
    (TooMany, Coordinate, |r| with(full(1 + r.below(3) as u8), &[&bad_edge(r), b"EN"])),
    (BodyCut, Strategy, |r| {
        let header = header(bad_strategy(r), 5, 0.5);
        vec![cut_record(r, header, 3)]
    }),
    (BodyCut, Coordinate, |r| {
        let edge = bad_start(r);
        with(not_by_distance(r), &[b"CT", &cut_record(r, edge, 10)])
    }),
    (BodyCut, Splines, |r| with(crowded(), &[&cut_count(r)])),
    (Strategy, Threshold, |r| vec![header(bad_strategy(r), 5, bad_threshold(r)), end()]),
    (TooManyDistances, DistancesCut, |r| with(three(), &[&too_few(r, 2017)])),
    (TooManyDistances, Distance, |r| with(three(), &[&bad_distances(r, 2017), b"EN"])),
    (TooManyDistances, Splines, |_| with(crowded(), &[&distances(&[1.0; 2017]), b"EN"])),
    (TooManyDistances, DistanceCount, |_| with(three(), &[&distances(&[1.0; 2017]), b"EN"])),
    (DistancesCut, Distance, |r| {
        let mut record = bad_distances(r, 1);
        set_count(&mut record, 3);
        record.resize(12 + some(r, 16), 0);
        with(three(), &[&record])
    }),
    (DistancesCut, Splines, |r| with(crowded(), &[&too_few(r, 2016)])),
    (DistancesCut, DistanceCount, |r| with(three(), &[&too_few(r, 4)])),
    (Distance, Splines, |r| with(crowded(), &[&bad_distances(r, 2016), b"EN"])),
    (Distance, DistanceCount, |r| {
        let count = r.pick(&[1, 2, 4]);
        with(three(), &[&bad_distances(r, count), b"EN"])
    }),
    (AfterEnd, Splines, |r| with(crowded(), &[&distances(&[1.0; 2016]), b"EN", &bytes(r, 4)])),
    (AfterEnd, DistanceCount, |r| with(three(), &[&distances(&[1.0; 2]), b"EN", &bytes(r, 4)])),
    (Splines, DistanceCount, |r| {
        let count = r.pick(&[0, 1, 2015, 2016]);
        with(crowded(), &[&distances(&vec![1.0; count]), b"EN"])
    }),
];
