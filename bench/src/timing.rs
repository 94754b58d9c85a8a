//! Medians over rounds in which the contenders take turns.

use std::ffi::{c_int, c_long};
use std::time::Duration;

const ROUNDS: usize = 31;
const BATCH: Duration = Duration::from_millis(2);

/// The clock that counts only while this thread runs, so that other work on the machine does not.
const THREAD_TIME: c_int = 3;

#[repr(C)]
struct Timespec {
    seconds: i64,
    nanos: c_long,
}

extern "C" {
    fn clock_gettime(clock: c_int, time: *mut Timespec) -> c_int;
}

/// Makes so many calls.
pub type Calls<'a> = Box<dyn FnMut(usize) + 'a>;

/// Nanoseconds a call, and how many times those of the first contender that is, both as medians.
#[derive(Clone, Copy)]
pub struct Timing {
    pub nanos: f64,
    pub ratio: f64,
}

/// All in turn; the first one's calls are those that the others are held to.
pub fn interleaved(contenders: &mut [Calls]) -> Vec<Timing> {
    let sizes: Vec<usize> = contenders.iter_mut().map(batch_size).collect();
    let rounds: Vec<Vec<f64>> = (0..ROUNDS).map(|round| one_round(contenders, &sizes, round)).collect();
    (0..contenders.len())
        .map(|number| Timing {
            nanos: median(rounds.iter().map(|round| round[number]).collect()),
            ratio: median(rounds.iter().map(|round| round[number] / round[0]).collect()),
        })
        .collect()
}

/// Each round begins with another contender.
fn one_round(contenders: &mut [Calls], sizes: &[usize], round: usize) -> Vec<f64> {
    let mut nanos = vec![0.0; contenders.len()];
    for turn in 0..contenders.len() {
        let number = (round + turn) % contenders.len();
        let elapsed = timed(&mut contenders[number], sizes[number]);
        nanos[number] = elapsed.as_nanos() as f64 / sizes[number] as f64;
    }
    nanos
}

/// How many calls fill a batch.
fn batch_size(calls: &mut Calls) -> usize {
    let mut size = 64;
    loop {
        let elapsed = timed(calls, size);
        if BATCH <= elapsed * 2 {
            let filled = BATCH.as_secs_f64() / elapsed.as_secs_f64() * size as f64;
            return (filled as usize).max(1);
        }
        size *= 2;
    }
}

fn timed(calls: &mut Calls, number: usize) -> Duration {
    let start = thread_time();
    calls(number);
    thread_time() - start
}

fn thread_time() -> Duration {
    let mut time = Timespec { seconds: 0, nanos: 0 };
    // SAFETY: the pointer is to a live value of the type that clock_gettime fills.
    unsafe { clock_gettime(THREAD_TIME, &mut time) };
    Duration::new(time.seconds as u64, time.nanos as u32)
}

fn median(mut values: Vec<f64>) -> f64 {
    values.sort_by(f64::total_cmp);
    values[values.len() / 2]
}
