//! Time per piece of work: the median of several batches, two contenders in turn. Time is the
//! thread's own processor time, so that other programs on the machine count less.

pub const BATCHES: usize = 25;
pub const BATCH_MILLISECONDS: f64 = 2.0;

#[repr(C)]
struct TimeSpec {
    seconds: i64,
    nanoseconds: i64,
}

extern "C" {
    fn clock_gettime(clock: i32, time: *mut TimeSpec) -> i32;
}

/// Linux's clock of the calling thread.
const THREAD_CLOCK: i32 = 3;

/// The processor time of this thread, in seconds.
fn now() -> f64 {
    let mut time = TimeSpec {
        seconds: 0,
        nanoseconds: 0,
    };
    // sound: the call fills in one struct, laid out as C's
    let status = unsafe { clock_gettime(THREAD_CLOCK, &mut time) };
    assert_eq!(status, 0, "this system has no thread clock");
    time.seconds as f64 + time.nanoseconds as f64 * 1e-9
}

#[derive(Clone, Copy)]
pub struct Times {
    pub ours: f64,
    pub rust: f64,
}

impl Times {
    pub fn ratio(self) -> f64 {
        self.ours / self.rust
    }
}

/// How often `work` is to be run for a batch of some milliseconds. It warms it up, too.
fn repeats(work: &mut dyn FnMut()) -> usize {
    let start = now();
    let mut runs = 0;
    while now() - start < BATCH_MILLISECONDS * 1e-3 {
        work();
        runs += 1;
    }
    runs
}

fn batch(work: &mut dyn FnMut(), runs: usize) -> f64 {
    let start = now();
    for _ in 0..runs {
        work();
    }
    (now() - start) / runs as f64
}

fn median(mut times: Vec<f64>) -> f64 {
    times.sort_by(f64::total_cmp);
    times[times.len() / 2]
}

/// Seconds for one of the `pieces` that each run of the work does, for each contender.
pub fn compare_all<const N: usize>(pieces: usize, mut work: [&mut dyn FnMut(); N]) -> [f64; N] {
    let runs = work.each_mut().map(|contender| repeats(contender));
    let mut times = [(); N].map(|()| Vec::new());
    for _ in 0..BATCHES {
        for k in 0..N {
            times[k].push(batch(work[k], runs[k]));
        }
    }
    times.map(|batches| median(batches) / pieces as f64)
}

pub fn compare(pieces: usize, mut ours: impl FnMut(), mut rust: impl FnMut()) -> Times {
    let [ours, rust] = compare_all(pieces, [&mut ours, &mut rust]);
    Times { ours, rust }
}
