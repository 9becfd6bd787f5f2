//! The processor time of this thread.
use std::hint::black_box;

unsafe extern "C" {
    fn clock_gettime(clock: i32, time: *mut Time) -> i32;
}

#[repr(C)]
#[derive(Default)]
struct Time {
    seconds: i64,
    nanoseconds: i64,
}

/// The milliseconds of this thread's processor time that the call takes.
pub fn milliseconds<T>(call: impl FnOnce() -> T) -> f64 {
    let begin = now();
    black_box(call());
    now() - begin
}

/// The milliseconds of the work done once, where the call begins with something and then does the work
/// so often: the best of five runs with so many that they take 20 ms and as long as what it begins
/// with, less the best of five with none.
pub fn best<T>(call: impl Fn(u32) -> T) -> f64 {
    const RUNS: usize = 5;
    const READING: f64 = 20.0;
    let read = |repeats| milliseconds(|| call(repeats));
    let nothing = read(0);
    let mut repeats = 1;
    while read(repeats) < nothing + nothing.max(READING) {
        repeats *= 2;
    }
    let (mut some, mut none) = (f64::INFINITY, f64::INFINITY);
    for _ in 0..RUNS {
        none = none.min(read(0));
        some = some.min(read(repeats));
    }
    (some - none) / f64::from(repeats)
}

fn now() -> f64 {
    const THREAD_PROCESSOR_TIME: i32 = 3;
    let mut time = Time::default();
    assert_eq!(
        unsafe { clock_gettime(THREAD_PROCESSOR_TIME, &mut time) },
        0
    );
    time.seconds as f64 * 1e3 + time.nanoseconds as f64 / 1e6
}
