//! Timed runs.

use crate::kept::{give, Kept};
use cephlouk::Plan;
use std::hint::black_box;

/// How many samples a median is taken of.
pub const SAMPLES: usize = 501;
/// How many samples are taken ahead of them and not counted.
const WARM_UP: usize = 50;

/// Something to be timed.
pub trait Timed {
    /// Makes a run ready, which is not timed.
    fn prepare(&mut self);

    fn run(&mut self);
}

/// The median time of a run of each in nanoseconds. They take turns, sample by
/// sample; what a look at the clock takes is not counted in.
pub fn medians<const RUNS: usize>(mut runs: [&mut dyn Timed; RUNS]) -> [f64; RUNS] {
    let mut samples = [const { Vec::new() }; RUNS];
    let mut looks = Vec::new();
    for _ in 0..WARM_UP + SAMPLES {
        looks.push(time(&mut || {}));
        for (run, samples) in runs.iter_mut().zip(&mut samples) {
            run.prepare();
            samples.push(time(&mut || run.run()));
        }
    }
    let look = median(looks);
    samples.map(|samples| median(samples) - look)
}

/// The nanoseconds of a run, and of a look at the clock.
fn time(run: &mut dyn FnMut()) -> f64 {
    let begin = now();
    run();
    (now() - begin) as f64
}

/// Of the samples that count.
fn median(mut samples: Vec<f64>) -> f64 {
    let samples = &mut samples[WARM_UP..];
    samples.sort_by(f64::total_cmp);
    samples[samples.len() / 2]
}

/// Some commands, each time on new copies of a plan.
pub struct Batch<'a, P> {
    commands: &'a [u8],
    prepared: P,
    plans: Vec<P>,
    starts: [u16; Plan::LEAST_STARTS],
}

impl<'a, P: Kept + Clone> Batch<'a, P> {
    /// So many copies of a plan.
    pub fn new(commands: &'a [u8], prepared: P, copies: usize) -> Batch<'a, P> {
        Batch {
            commands,
            plans: vec![prepared.clone(); copies],
            prepared,
            starts: [0; Plan::LEAST_STARTS],
        }
    }
}

impl<P: Kept + Clone> Timed for Batch<'_, P> {
    fn prepare(&mut self) {
        for plan in &mut self.plans {
            plan.clone_from(&self.prepared);
        }
    }

    fn run(&mut self) {
        for plan in &mut self.plans {
            give(
                plan,
                self.commands,
                0..self.commands.len(),
                &mut self.starts,
            );
            black_box(&self.starts);
        }
    }
}

/// Calls that change nothing.
pub struct Calls<F>(pub F);

impl<F: FnMut()> Timed for Calls<F> {
    fn prepare(&mut self) {}

    fn run(&mut self) {
        self.0();
    }
}

/// `struct timespec` of the C library on 64-bit Linux.
#[repr(C)]
struct Timespec {
    seconds: i64,
    nanoseconds: i64,
}

/// The clock that counts while this thread has a processor, so that other
/// programs on the machine are not counted in.
const THREAD_CPUTIME: i32 = 3;

extern "C" {
    fn clock_gettime(clock: i32, time: *mut Timespec) -> i32;
}

/// The nanoseconds for which this thread has had a processor.
fn now() -> i64 {
    let mut time = Timespec {
        seconds: 0,
        nanoseconds: 0,
    };
    // The clock is one that every thread has, and the time is lent for writing.
    let failed = unsafe { clock_gettime(THREAD_CPUTIME, &mut time) };
    assert_eq!(failed, 0, "the clock of the thread");
    1_000_000_000 * time.seconds + time.nanoseconds
}
