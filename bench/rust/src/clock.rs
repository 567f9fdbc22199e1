//! Calls in turn, and the medians of what they took.

/// Linux's `CLOCK_THREAD_CPUTIME_ID`: other programs on the machine do not count.
const THREAD_TIME: i32 = 3;

#[repr(C)]
struct TimeSpec {
    seconds: i64,
    nanoseconds: i64,
}

extern "C" {
    fn clock_gettime(clock: i32, time: *mut TimeSpec) -> i32;
}

/// This thread's processor time in nanoseconds.
fn now() -> u64 {
    let mut time = TimeSpec { seconds: 0, nanoseconds: 0 };
    assert_eq!(unsafe { clock_gettime(THREAD_TIME, &mut time) }, 0);
    time.seconds as u64 * 1_000_000_000 + time.nanoseconds as u64
}

/// Runs of each call of which the median is taken.
pub const RUNS: usize = 51;
/// A run repeats its call until it takes so many nanoseconds, so that the clock's own cost is small.
const LEAST: u64 = 100_000;

/// A call to be timed.
pub type Call<'a> = Box<dyn FnMut() + 'a>;

fn timed(call: &mut Call, times: u32) -> u64 {
    let before = now();
    for _ in 0..times {
        call();
    }
    now() - before
}

/// How often a call is made in a run; what it does the first times is not counted.
fn times(call: &mut Call) -> u32 {
    timed(call, 1);
    let mut times = 1;
    while timed(call, times) < LEAST {
        times *= 2;
    }
    times
}

/// The median time of each call in nanoseconds. The runs take turns, so that what disturbs one disturbs all.
pub fn medians<const N: usize>(mut calls: [Call; N]) -> [f64; N] {
    let times = calls.each_mut().map(times);
    let mut runs = [const { Vec::new() }; N];
    for _ in 0..RUNS {
        for (n, call) in calls.iter_mut().enumerate() {
            runs[n].push(timed(call, times[n]) as f64 / f64::from(times[n]));
        }
    }
    runs.map(median)
}

fn median(mut runs: Vec<f64>) -> f64 {
    runs.sort_by(f64::total_cmp);
    runs[runs.len() / 2]
}
