//! Runs of both over a mix, one after the other, and the medians of their times.

use std::hint::black_box;
use std::time::{Duration, Instant};

use midvokt_reference::component_plan::build_active_component_plan;

use crate::mixes::{Mix, Prepared};

/// How long the calls of a run last at least.
const LEAST_RUN: Duration = Duration::from_millis(30);
/// The fewest calls of a run.
const FEWEST_CALLS: usize = 200;

/// Whether the Rust's plan is freed inside its time or after it.
#[derive(Clone, Copy)]
pub enum Freeing {
    Inside,
    After,
}

/// Nanoseconds a plan, and the ratios of the library's time to the Rust's.
pub struct Timed {
    pub ours: f64,
    pub theirs: f64,
    pub ratio: f64,
    pub least_ratio: f64,
    pub most_ratio: f64,
}

/// What reading the time twice takes by itself.
pub struct Clock {
    cost: Duration,
}

impl Clock {
    /// The median of many readings with nothing between.
    pub fn new() -> Self {
        let mut costs: Vec<Duration> = (0..10_001).map(|_| Instant::now().elapsed()).collect();
        costs.sort();
        Self {
            cost: costs[costs.len() / 2],
        }
    }

    /// The cost in nanoseconds.
    pub fn cost(&self) -> u128 {
        self.cost.as_nanos()
    }

    /// The time of one call.
    pub fn time<T>(&self, call: impl FnOnce() -> T) -> (T, Duration) {
        let start = Instant::now();
        let answer = call();
        let elapsed = start.elapsed();
        (answer, elapsed.saturating_sub(self.cost))
    }
}

/// One pass of the library over the mix.
fn ours(mix: &mut Mix, clock: &Clock) -> Duration {
    let mut total = Duration::ZERO;
    for (index, program) in mix.programs.iter().enumerate() {
        mix.buffers.make_noise(index as u64);
        let (number, time) = clock.time(|| mix.buffers.plan(black_box(program)));
        assert_eq!(number, 0, "the mix has plans only");
        total += time;
    }
    total
}

/// The Rust's time for a program.
fn their_time(program: &Prepared, clock: &Clock, freeing: Freeing) -> Duration {
    let plan = || build_active_component_plan(black_box(&program.rust));
    let (is_plan, time) = match freeing {
        Freeing::Inside => clock.time(|| black_box(plan()).is_ok()),
        Freeing::After => {
            let (plan, time) = clock.time(plan);
            (black_box(plan).is_ok(), time)
        }
    };
    assert!(is_plan, "the mix has plans only");
    time
}

/// One pass of the Rust over the mix.
fn theirs(mix: &Mix, clock: &Clock, freeing: Freeing) -> Duration {
    let programs = mix.programs.iter();
    programs
        .map(|program| their_time(program, clock, freeing))
        .sum()
}

/// Nanoseconds a plan over so many passes.
pub fn run(passes: usize, programs: usize, mut pass: impl FnMut() -> Duration) -> f64 {
    let total: Duration = (0..passes).map(|_| pass()).sum();
    total.as_nanos() as f64 / (passes * programs) as f64
}

/// How many passes last long enough for a run.
pub fn passes_by_time(pass: Duration) -> usize {
    (LEAST_RUN.as_nanos() / pass.as_nanos().max(1) + 1) as usize
}

/// How many passes make a run long enough and of enough calls.
pub fn passes_for(pass: Duration, programs: usize) -> usize {
    passes_by_time(pass).max(FEWEST_CALLS.div_ceil(programs))
}

/// The middle one of an odd number of values, or the upper of the two middle ones.
pub fn median(values: impl Iterator<Item = f64>) -> f64 {
    let mut sorted: Vec<f64> = values.collect();
    sorted.sort_by(f64::total_cmp);
    sorted[sorted.len() / 2]
}

impl Timed {
    /// The medians of pairs of the library's time and the Rust's, and of their ratios.
    pub fn of(pairs: &[(f64, f64)]) -> Self {
        let ratios = || pairs.iter().map(|(ours, theirs)| ours / theirs);
        Self {
            ours: median(pairs.iter().map(|pair| pair.0)),
            theirs: median(pairs.iter().map(|pair| pair.1)),
            ratio: median(ratios()),
            least_ratio: ratios().fold(f64::INFINITY, f64::min),
            most_ratio: ratios().fold(0.0, f64::max),
        }
    }
}

/// A run of the library, and one of the Rust with each freeing in so many passes.
fn round(
    mix: &mut Mix,
    clock: &Clock,
    our_passes: usize,
    their_passes: &[(Freeing, usize)],
) -> Vec<(f64, f64)> {
    let programs = mix.programs.len();
    let our_time = run(our_passes, programs, || ours(mix, clock));
    let their_time = |&(freeing, passes)| run(passes, programs, || theirs(mix, clock, freeing));
    let times = their_passes.iter().map(their_time);
    times.map(|their_time| (our_time, their_time)).collect()
}

/// Times a mix against the Rust with each of some freeings. So many runs of the library and of
/// each alternate, after a pass of each that is not counted.
pub fn time(mix: &mut Mix, clock: &Clock, runs: usize, freeings: &[Freeing]) -> Vec<Timed> {
    let programs = mix.programs.len();
    ours(mix, clock);
    let our_passes = passes_for(ours(mix, clock), programs);
    let passes_with = |&freeing| {
        theirs(mix, clock, freeing);
        (freeing, passes_for(theirs(mix, clock, freeing), programs))
    };
    let their_passes: Vec<(Freeing, usize)> = freeings.iter().map(passes_with).collect();
    let rounds: Vec<Vec<(f64, f64)>> = (0..runs)
        .map(|_| round(mix, clock, our_passes, &their_passes))
        .collect();
    let pairs_at = |place: usize| rounds.iter().map(|round| round[place]).collect::<Vec<_>>();
    (0..freeings.len())
        .map(|place| Timed::of(&pairs_at(place)))
        .collect()
}
