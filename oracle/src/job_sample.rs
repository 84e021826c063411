//! The sample of job files that a program replays: each with its check, its listing and the part of each contour,
//! and what reading and colouring it leave in buffers.

use crate::contours::{edge, planned};
use crate::glyphs::{long_teardrop, polygon, registered, teardrop};
use crate::job_faults::{BOTH, DAMAGES, damage, planted};
use crate::job_files::{balanced_before_faults, known_balanced, letters, misplaced_balanced};
use crate::job_files::{by, known, long, no_contours, small, square_job};
use crate::jobs::{FAULTS, Job, JobBuffers, outcome, records, stop, stored, write};
use crate::math::Vector2;
use crate::numbers::Random;
use crate::shape_sample::NOISE;
use crate::shapes::{Answer, Buffers, encode};
use crate::stand_ins::known_outlines;

fn bytes(words: &[u64]) -> Vec<u8> {
    words.iter().flat_map(|w| w.to_le_bytes()).collect()
}

fn lengths(lengths: &[u16]) -> Vec<u8> {
    bytes(&lengths.iter().map(|&n| n as u64).collect::<Vec<_>>())
}

/// Filled up to whole words with zeros.
fn whole(bytes: &[u8]) -> Vec<u8> {
    [bytes, &vec![0; bytes.len().next_multiple_of(8) - bytes.len()]].concat()
}

/// Words and what follows them. The second word is set to the bytes of them all.
fn record(mut words: Vec<u64>, body: &[u8]) -> Vec<u8> {
    words[1] = (8 * words.len() + body.len()) as u64;
    [bytes(&words), body.to_vec()].concat()
}

/// Seven words: the number 69, the record's bytes, how many bytes the file and its listing have, how many
/// contours' parts follow, from contour 0 to one beyond the last, what checking answers, and whether the job is
/// balanced; two words a part, where it starts and how many bytes it has, both 0 where it is empty; the file and
/// the listing, each filled up to whole words.
fn answers(file: &[u8]) -> Vec<u8> {
    listed(file, &outcome(file).text())
}

/// The same with a listing that is given.
fn listed(file: &[u8], text: &str) -> Vec<u8> {
    let outcome = outcome(file);
    let contours = outcome.reading.as_ref().map_or(1, |reading| reading.job.contours.len());
    let sizes = [file.len() as u64, text.len() as u64, contours as u64 + 1];
    let mut words = [&[69, 0][..], &sizes, &[outcome.check().code(), outcome.balanced()]].concat();
    for part in (0..=contours).map(|contour| outcome.part(contour as u64)) {
        words.extend([part.start as u64, part.len() as u64]);
    }
    record(words, &[whole(file), whole(text.as_bytes())].concat())
}

/// Whether one of the buffers is too short.
fn short(needed: [usize; 4], room: [usize; 4]) -> bool {
    needed.into_iter().zip(room).any(|(needed, room)| needed > room)
}

/// Thirteen words: the number 70, the record's bytes, how many bytes the file has, how many distances, contours
/// and edges the job that is read, 0, how many places the buffers for lengths, kinds, points and distances have,
/// the answer, and where the job begins; the six numbers after; the file, filled up to whole words; and the job:
/// lengths, kinds, point places, distances.
fn reading(file: &[u8], room: [usize; 4]) -> Vec<u8> {
    let read = match outcome(file).accepted() {
        Err(fault) => Err(fault.number()),
        Ok(reading) => Ok(stored(&reading.job))
            .and_then(|job| if short(job.sizes(), room) { Err(11) } else { Ok(job) }),
    };
    let answer = read.as_ref().map_or_else(|&number| Answer::Refused(number).code(), |_| 0);
    let untouched = JobBuffers { numbers: [NOISE.point; 6], ..JobBuffers::default() };
    let job = read.unwrap_or(untouched);
    let [l, k, _, d] = job.sizes().map(|n| n as u64);
    let file_bytes = whole(file);
    let begins = 19 * 8 + file_bytes.len();
    let words = [
        &[70, 0, file.len() as u64, d, l, k, 0][..],
        &room.map(|n| n as u64),
        &[answer, begins as u64],
        &job.numbers,
    ];
    let JobBuffers { kinds, points, distances, .. } = &job;
    let stored = [lengths(&job.lengths), kinds.clone(), bytes(points), bytes(distances)].concat();
    record(words.concat(), &[file_bytes, stored].concat())
}

/// Thirteen words: the number 71, the record's bytes, how many bytes the file has, 0, how many contours the
/// result, 0, 0, how many places the buffers for lengths, kinds, points and colours have, the answer, and where
/// the result begins; the file, filled up to whole words; and the result: lengths, kinds, colours, point places.
fn coloring(file: &[u8], room: [usize; 4]) -> Vec<u8> {
    let outcome = outcome(file);
    let colored = match &outcome.colored {
        Err(fault) => Err(fault.number()),
        Ok(shape) => Ok(encode(shape))
            .and_then(|result| if short(result.sizes(), room) { Err(11) } else { Ok(result) }),
    };
    let answer = match &colored {
        Err(number) => Answer::Refused(*number),
        Ok(_) => outcome.check(),
    };
    let result = colored.unwrap_or_default();
    let file_bytes = whole(file);
    let begins = 13 * 8 + file_bytes.len();
    let words = [
        &[71, 0, file.len() as u64, 0, result.lengths.len() as u64, 0, 0][..],
        &room.map(|n| n as u64),
        &[answer.code(), begins as u64],
    ];
    let Buffers { kinds, points, colors, .. } = &result;
    let stored = [lengths(&result.lengths), kinds.clone(), colors.clone(), bytes(points)].concat();
    record(words.concat(), &[file_bytes, stored].concat())
}

/// Buffers exactly right, longer, and each one short; of a file that is refused, empty and not.
fn rooms(needed: Option<[usize; 4]>) -> Vec<[usize; 4]> {
    let Some(exact) = needed else { return vec![[0; 4], [1, 4, 32, 6]] };
    let one_short = |which: usize| {
        let mut room = exact;
        room[which] = exact[which].checked_sub(1)?;
        Some(room)
    };
    let mut rooms = vec![exact, exact.map(|n| n + 3)];
    rooms.extend((0..4).filter_map(one_short));
    rooms
}

fn readings(file: &[u8]) -> Vec<Vec<u8>> {
    let outcome = outcome(file);
    let needed = outcome.accepted().ok().map(|reading| stored(&reading.job).sizes());
    rooms(needed).into_iter().map(|room| reading(file, room)).collect()
}

fn colorings(file: &[u8]) -> Vec<Vec<u8>> {
    let needed = outcome(file).colored.ok().map(|shape| encode(&shape).sizes());
    rooms(needed).into_iter().map(|room| coloring(file, room)).collect()
}

/// A record of each kind, small ones, with accepted files.
pub fn small_records() -> Vec<Vec<u8>> {
    let contours = vec![polygon(&[(0.0, 0.0), (1.0, 2.0)])];
    let two = Job { contours, distances: vec![0.5], ..square_job(3) };
    let read = reading(&write(&two), [1, 2, 16, 1]);
    let file = |strategy: u8| write(&stand_in_job(strategy));
    let colored = (1..4).map(|strategy| coloring(&file(strategy), [1, 2, 16, 2]));
    let empty = write(&Job { balanced: true, ..no_contours(1) });
    let balanced = [answers(&empty), reading(&empty, [0; 4]), coloring(&empty, [0; 4])];
    [answers(&file(1)), read].into_iter().chain(colored).chain(balanced).collect()
}

/// The drop of 47 edges without BL and with it, each with the listing of the other.
pub fn wrong_records() -> Vec<Vec<u8>> {
    let files = [false, true].map(|balanced| write(&long_drop(1, balanced)));
    let texts = files.each_ref().map(|file| outcome(file).text());
    assert_ne!(texts[0], texts[1]);
    let [first, second] = &files;
    vec![listed(first, &texts[1]), listed(second, &texts[0])]
}

/// SCOPE's limits; a few of the files that differ by a place alone, and the long ones by strategies 1 and 3.
fn limits() -> Vec<Vec<u8>> {
    let mut files = Vec::new();
    let mut names = Vec::new();
    for k in known().into_iter().filter(|k| k.file.len() <= 34_000 && k.name != "the square") {
        let so_far = names.iter().filter(|name| **name == k.name).count();
        if so_far < 4 && (k.file.len() < 1000 || k.file[2] != 2) {
            names.push(k.name);
            files.push(k.file);
        }
    }
    files
}

/// Files with one fault that gives a number.
fn refused(r: &mut Random, number: u8) -> Vec<Vec<u8>> {
    let mut files = Vec::new();
    for (which, fault) in FAULTS.into_iter().enumerate().filter(|f| f.1.number() == number) {
        let so_far = files.len();
        while files.len() < so_far + 2 {
            let file = planted(r, which).map(|f| f.concat()).unwrap_or_default();
            if stop(&file).faults.first() == Some(&fault) && file.len() < 6000 {
                files.push(file);
            }
        }
    }
    files
}

/// A small file damaged in every second way, where that leaves it small.
fn damaged(r: &mut Random) -> Vec<Vec<u8>> {
    let mut files = Vec::new();
    for way in (0..DAMAGES.len()).step_by(2) {
        let tries = (0..200).map(|_| {
            let strategy = 1 + r.below(3) as u8;
            let whole = records(&small(r, strategy));
            let mut f = whole.clone();
            damage(r, &mut f, way);
            (f != whole).then(|| f.concat())
        });
        files.extend(tries.flatten().find(|file| file.len() < 2000));
    }
    files
}

fn glyphs(r: &mut Random) -> Vec<Vec<u8>> {
    let mut jobs: Vec<Job> = Vec::new();
    for strategy in 1..4 {
        jobs.push(by(r, strategy, registered(), 0.125));
        jobs.push(by(r, strategy, vec![teardrop()], 0.125));
        jobs.extend((0..4).map(|_| small(r, strategy)));
    }
    jobs.iter().map(write).collect()
}

/// Stand-ins of each kind by a strategy; 512 of them; by each strategy few of them, none but in the result, and
/// with a threshold of 2, refused.
fn stand_ins(r: &mut Random) -> Vec<Vec<u8>> {
    let mut files = Vec::new();
    for (i, known) in known_outlines().into_iter().enumerate() {
        let strategy = 1 + (i % 3) as u8;
        let file = write(&by(r, strategy, known.contours, 0.125));
        let outcome = outcome(&file);
        assert_eq!(outcome.stand_ins(), known.stand_ins, "{}", known.name);
        // of those with 256 edges one is enough
        if file.len() < 4000 || known.name == "256 lines of one point" {
            files.push(file);
        }
    }
    for strategy in 1..4 {
        files.push(write(&stand_in_job(strategy)));
        files.push(write(&Job { threshold: 2.0, ..stand_in_job(strategy) }));
        // by the threshold it is split, at doubles that are its ends
        let short = edge(&[Vector2::new(1.0, 1.0), Vector2::new(1.0f64.next_up(), 1.0)]);
        files.push(write(&by(r, strategy, vec![vec![short]], -1.0)));
    }
    files
}

/// The drop of examples/teardrop-47.job by a strategy, and that of teardrop-47-balanced.job.
fn long_drop(strategy: u8, balanced: bool) -> Job {
    let distances = if strategy == 3 { vec![0.0] } else { Vec::new() };
    Job { balanced, contours: vec![long_teardrop()], distances, ..square_job(strategy) }
}

/// The drops of 47 edges; by one strategy each, the other lengths at which the divisions differ.
fn drops(r: &mut Random) -> Vec<Vec<u8>> {
    let mut files = Vec::new();
    for strategy in 1..4 {
        let drops = [true, false].map(|balanced| write(&long_drop(strategy, balanced)));
        assert_ne!(outcome(&drops[0]).text(), outcome(&drops[1]).text());
        files.extend(drops);
    }
    for (strategy, m) in [(1, 139), (2, 185), (3, 231)] {
        let mut corners = vec![false; m];
        corners[m / 3] = true;
        let contours = vec![planned(r, &corners, 0.125, &[1])];
        files.push(write(&Job { balanced: true, ..by(r, strategy, contours, 0.125) }));
    }
    files
}

/// BL in small files of each strategy, and its letters alone.
fn balanced(r: &mut Random) -> Vec<Vec<u8>> {
    let drop = by(r, 2, vec![teardrop()], 0.125);
    let jobs = [square_job(1), square_job(3), drop, no_contours(1), no_contours(3)];
    let files = jobs.map(|job| write(&Job { balanced: true, ..job }));
    files.into_iter().chain([write(&letters(1))]).collect()
}

/// BL at every wrong place of files without it and with it; cut, and marks like it.
fn balanced_places() -> Vec<Vec<u8>> {
    let contours = vec![polygon(&[(0.0, 0.0), (1.0, 2.0)]), Vec::new()];
    let two = Job { contours, distances: Vec::new(), ..square_job(1) };
    let by_distance = Job { strategy: 3, balanced: true, distances: vec![0.5], ..two.clone() };
    let jobs = [no_contours(2), two, by_distance];
    let mut files: Vec<Vec<u8>> = jobs.iter().flat_map(misplaced_balanced).collect();
    files.extend(balanced_before_faults(2));
    let like = known_balanced().into_iter().filter(|k| k.file[2] == 2 && k.file.len() < 24);
    files.extend(like.filter(|k| k.answer.is_err()).map(|k| k.file));
    files
}

/// A line of one point, and a cubic straight up with both its control points at its start.
fn stand_in_job(strategy: u8) -> Job {
    let (p, q) = (Vector2::new(1.0, 2.0), Vector2::new(1.0, 7.0));
    let contours = vec![vec![edge(&[p, p]), edge(&[p, p, p, q])]];
    Job { contours, distances: Vec::new(), ..square_job(strategy) }
}

/// The records of each part, by name.
pub fn sample() -> Vec<(String, Vec<Vec<u8>>)> {
    let r = &mut Random(710);
    let squares: Vec<Vec<u8>> = (1..4).map(|strategy| write(&square_job(strategy))).collect();
    let mut parts = vec![("squares".to_string(), squares), ("limits".to_string(), limits())];
    for number in 1..10 {
        parts.push((format!("refused {number}"), refused(r, number)));
    }
    let both = BOTH.iter().map(|(_, _, make)| make(r).concat()).collect();
    parts.push(("order".to_string(), both));
    parts.push(("damaged".to_string(), damaged(r)));
    parts.push(("glyphs".to_string(), glyphs(r)));
    let r_balanced = &mut Random(711);
    parts.push(("BL".to_string(), balanced(r_balanced)));
    parts.push(("BL places".to_string(), balanced_places()));
    parts.push(("BL drops".to_string(), drops(r_balanced)));
    parts.push(("too long".to_string(), vec![long(r, 2)[..34_001].to_vec()]));
    let mut sample = Vec::new();
    for (name, files) in &parts {
        let records: Vec<_> = files.iter().map(|file| answers(file)).collect();
        sample.push((format!("job {name}"), records));
    }
    let with_stand_ins = stand_ins(r);
    let records = with_stand_ins.iter().map(|file| answers(file)).collect();
    sample.push(("job stand-ins".to_string(), records));
    let jobs = (1..4).map(|strategy| write(&stand_in_job(strategy)));
    sample.push(("color stand-ins".to_string(), jobs.flat_map(|file| colorings(&file)).collect()));
    // of a small file the buffers too
    for (name, files) in &parts {
        let small = || files.iter().filter(|file| file.len() < 1500);
        if small().next().is_some() {
            sample.push((format!("read {name}"), small().flat_map(|f| readings(f)).collect()));
            sample.push((format!("color {name}"), small().flat_map(|f| colorings(f)).collect()));
        }
    }
    let [first, last] = [1, 3].map(|strategy| write(&long_drop(strategy, true)));
    let colored = [&first, &last].map(|file| coloring(file, [1, 47, 376, 47]));
    sample.push(("read BL drops".to_string(), vec![reading(&last, [1, 47, 376, 1])]));
    sample.push(("color BL drops".to_string(), colored.into()));
    for (_, records) in &sample {
        for record in records {
            assert!(record.len() <= 65536, "no program holds a record of {} bytes", record.len());
        }
    }
    sample
}
