//! The processor time of this thread, and the two sides pass by pass.

use super::Race;
use std::time::Duration;

/// How many passes each side makes.
pub const PASSES: usize = 15;

#[repr(C)]
struct Timespec {
    seconds: i64,
    nanoseconds: i64,
}

/// CLOCK_THREAD_CPUTIME_ID of Linux.
const THREAD_TIME: i32 = 3;

unsafe extern "C" {
    fn clock_gettime(clock: i32, time: *mut Timespec) -> i32;
}

fn thread_time() -> Duration {
    let mut time = Timespec { seconds: 0, nanoseconds: 0 };
    let failed = unsafe { clock_gettime(THREAD_TIME, &mut time) };
    assert_eq!(failed, 0, "no clock counts this thread's time");
    Duration::new(time.seconds as u64, time.nanoseconds as u32)
}

/// All that is timed, and all that callgrind counts, runs inside this function.
pub const MEASURED: &str = "measured_pass";

#[unsafe(no_mangle)]
#[inline(never)]
fn measured_pass(run: &mut dyn FnMut()) {
    run();
}

/// Copies the inputs, which is not timed, and goes over the copies.
pub fn pass<T: Clone>(inputs: &[T], mut each: impl FnMut(&mut T)) -> Duration {
    let mut copies = inputs.to_vec();
    let from = thread_time();
    measured_pass(&mut || copies.iter_mut().for_each(&mut each));
    thread_time() - from
}

/// What the passes of a race come to: the medians of both sides in microseconds an input, and the
/// lowest and the highest ratio of a pass of the proved code and a pass of the Rust next to it.
pub struct Times {
    pub proved: f64,
    pub rust: f64,
    pub lowest: f64,
    pub highest: f64,
}

/// Both sides by turns.
pub fn by_turns(race: &mut Race) -> Times {
    let mut passes = Vec::new();
    for _ in 0..PASSES {
        passes.push((race.proved)().as_secs_f64());
        passes.push((race.rust)().as_secs_f64());
    }
    let microseconds = |first: usize| {
        let side = passes.iter().skip(first).step_by(2).copied().collect();
        median(side) * 1e6 / race.inputs as f64
    };
    // of two neighbours the proved code's pass is the one with the even place
    let ratio = |at: usize| passes[at + at % 2] / passes[at + 1 - at % 2];
    let ratios: Vec<f64> = (0..passes.len() - 1).map(ratio).collect();
    Times {
        proved: microseconds(0),
        rust: microseconds(1),
        lowest: ratios.iter().copied().fold(f64::INFINITY, f64::min),
        highest: ratios.iter().copied().fold(0.0, f64::max),
    }
}

fn median(mut numbers: Vec<f64>) -> f64 {
    numbers.sort_by(f64::total_cmp);
    numbers[numbers.len() / 2]
}
