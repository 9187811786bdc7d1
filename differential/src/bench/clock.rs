//! Timing: the least of many samples of processor time. On a machine that others use too, the
//! time on the wall would count their turns as well, and what their work does to the caches only
//! ever makes a sample longer, so that the least of many is nearest to the call's own time.

use std::hint::black_box;
use std::time::Duration;

/// How long a sample is at least.
const SAMPLE: Duration = Duration::from_micros(150);
/// Samples go on until they have taken so long, but for no more and no fewer turns than these.
const BUDGET: Duration = Duration::from_millis(20);
const MOST: usize = 60;
const FEWEST: usize = 2;

/// The least times of one call in nanoseconds: Pelisafu's, and that of the other side.
#[derive(Clone, Copy)]
pub(super) struct Pair {
    pub(super) ours: f64,
    pub(super) theirs: f64,
}

impl Pair {
    pub(super) fn ratio(self) -> f64 {
        self.ours / self.theirs
    }

    /// Both as times of one of so many units.
    pub(super) fn each(self, units: usize) -> Self {
        let units = units as f64;
        Self { ours: self.ours / units, theirs: self.theirs / units }
    }

    pub(super) fn least(self, other: Self) -> Self {
        let (ours, theirs) = (self.ours.min(other.ours), self.theirs.min(other.theirs));
        Self { ours, theirs }
    }
}

/// The least times of two calls whose samples take turns, so that what disturbs one of them
/// disturbs the other as much.
pub(super) fn turns<T, U>(mut ours: impl FnMut() -> T, mut theirs: impl FnMut() -> U) -> Pair {
    let (our_repeats, their_repeats) = (repeats(&mut ours), repeats(&mut theirs));
    let (mut least, mut turn) = (Pair { ours: f64::INFINITY, theirs: f64::INFINITY }, 0);
    let begin = processor_time();
    while turn < FEWEST || turn < MOST && processor_time() - begin < BUDGET {
        let (ours, theirs) = (each(&mut ours, our_repeats), each(&mut theirs, their_repeats));
        least = least.least(Pair { ours, theirs });
        turn += 1;
    }
    least
}

/// How often a call is repeated until a sample is long enough, which also warms it up.
fn repeats<T>(call: &mut impl FnMut() -> T) -> u32 {
    let mut repeats = 1;
    while sample(call, repeats) < SAMPLE {
        repeats *= 2;
    }
    repeats
}

fn each<T>(call: &mut impl FnMut() -> T, repeats: u32) -> f64 {
    sample(call, repeats).as_nanos() as f64 / f64::from(repeats)
}

fn sample<T>(call: &mut impl FnMut() -> T, repeats: u32) -> Duration {
    let begin = processor_time();
    for _ in 0..repeats {
        black_box(call());
    }
    processor_time() - begin
}

/// What the C library calls `struct timespec` on 64-bit Linux.
#[repr(C)]
struct Time {
    seconds: i64,
    nanoseconds: i64,
}

unsafe extern "C" {
    fn clock_gettime(clock: i32, time: *mut Time) -> i32;
}

/// The processor time that this thread has used.
fn processor_time() -> Duration {
    const THREAD_PROCESSOR_TIME: i32 = 3;
    let mut time = Time { seconds: 0, nanoseconds: 0 };
    // SAFETY: the call writes one timespec, and `time` has its layout.
    let failed = unsafe { clock_gettime(THREAD_PROCESSOR_TIME, &mut time) };
    assert_eq!(failed, 0, "the thread's processor time can be read");
    Duration::new(time.seconds as u64, time.nanoseconds as u32)
}
