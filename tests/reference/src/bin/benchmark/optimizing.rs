//! The optimizer of pending operations (02, CR 6) beside the Rust's, on lists of the most
//! operations.
//!
//! The library's time is that of the call on prepared words, into outputs that are just long
//! enough and hold noise. The Rust's time is that of `optimize_pending_operations` on a prepared
//! state, which is copied before and freed after it.

use std::hint::black_box;
use std::time::Duration;

use midvokt_reference::factored::PendingFactoredState;
use midvokt_reference::pending::answer::{self, Answer, RESULT_WORDS};
use midvokt_reference::pending::form::MOST_OPERATIONS;
use midvokt_reference::pending::lists::long::{SORTS, Sort};
use midvokt_reference::pending::operations::state;
use midvokt_reference::pending::{Call, library};
use midvokt_reference::pending_optimizer::optimize_pending_operations;

use crate::timing::{Clock, Timed, passes_by_time, run};

/// Lists of each sort.
const LISTS: u64 = 4;

/// What the ratio must not be above: of a sort, and of classical records alone.
const BOUND: f64 = 0.5;
const BOUND_OF_RECORDS: f64 = 1.5;

/// A list for both.
struct Prepared {
    call: Call,
    prefixes: Vec<usize>,
    state: PendingFactoredState,
}

/// What the ratio of a sort must not be above.
fn bound(sort: &Sort) -> f64 {
    match sort.is_classical {
        true => BOUND_OF_RECORDS,
        false => BOUND,
    }
}

/// The lists of a sort with the answer of the first, and outputs just long enough for each.
struct Lists {
    prepared: Vec<Prepared>,
    first: Answer,
    list: Vec<u64>,
    map: Vec<u64>,
    result: [u64; RESULT_WORDS],
}

/// The list for both.
fn prepared(call: Call) -> Result<Prepared, String> {
    Ok(Prepared {
        prefixes: answer::prefixes(&call),
        state: state(call.width, answer::operations(&call)?),
        call,
    })
}

/// Whether words are the used ones with zeros behind them.
fn holds(found: &[u64], used: &[u64]) -> bool {
    found.starts_with(used) && found[used.len()..].iter().all(|&word| word == 0)
}

impl Lists {
    /// The lists of a sort, once the library has given the Rust's answer to each.
    fn new(sort: &Sort) -> Result<Self, String> {
        let calls: Vec<Call> = (0..LISTS).map(|index| sort.call(index)).collect();
        let [list, map] = calls[0].least_lengths();
        let answers: Result<Vec<Answer>, String> = calls.iter().map(answer::answer).collect();
        let answers = answers?;
        let mut lists = Self {
            prepared: calls.into_iter().map(prepared).collect::<Result<_, _>>()?,
            first: answers[0].clone(),
            list: vec![0; list],
            map: vec![0; map],
            result: [0; RESULT_WORDS],
        };
        for (index, answer) in answers.iter().enumerate() {
            lists.make_noise(index as u64);
            let number = lists.optimize(index);
            if number != 0 || answer.number != 0 || !lists.hold(answer) {
                return Err(format!(
                    "{}: list {index} is refused, or differs",
                    sort.name
                ));
            }
        }
        Ok(lists)
    }

    /// Noise in every word that a call writes.
    fn make_noise(&mut self, noise: u64) {
        self.list.fill(noise | 1);
        self.map.fill(noise | 1);
        self.result.fill(noise | 1);
    }

    /// The library's call.
    #[inline]
    fn optimize(&mut self, index: usize) -> u64 {
        let call = black_box(&self.prepared[index].call);
        library::optimize(call, &mut self.list, &mut self.map, &mut self.result)
    }

    /// Whether the outputs hold this answer.
    fn hold(&self, answer: &Answer) -> bool {
        self.result == answer.result
            && holds(&self.list, &answer.list)
            && holds(&self.map, &answer.map)
    }

    /// One pass of the library over the lists.
    fn ours(&mut self, clock: &Clock) -> Duration {
        let mut total = Duration::ZERO;
        for index in 0..self.prepared.len() {
            self.make_noise(index as u64);
            let (number, time) = clock.time(|| self.optimize(index));
            assert_eq!(number, 0, "the lists are optimized");
            total += time;
        }
        total
    }

    /// One pass of the Rust over the lists.
    fn theirs(&self, clock: &Clock) -> Duration {
        let time = |prepared: &Prepared| {
            let mut state = prepared.state.clone();
            let (said, time) = clock.time(|| {
                optimize_pending_operations(black_box(&mut state), black_box(&prepared.prefixes))
            });
            assert!(black_box(said).is_ok(), "the lists are optimized");
            black_box(state);
            time
        };
        self.prepared.iter().map(time).sum()
    }

    /// So many pairs of runs, after a pass of each that is not counted.
    fn time(&mut self, clock: &Clock, runs: usize) -> Timed {
        let count = self.prepared.len();
        self.ours(clock);
        self.theirs(clock);
        let our_passes = passes_by_time(self.ours(clock));
        let their_passes = passes_by_time(self.theirs(clock));
        let pairs: Vec<(f64, f64)> = (0..runs)
            .map(|_| {
                let ours = run(our_passes, count, || self.ours(clock));
                (ours, run(their_passes, count, || self.theirs(clock)))
            })
            .collect();
        Timed::of(&pairs)
    }
}

/// Times a sort and prints its line; the ratio.
fn print_sort(sort: &Sort, clock: &Clock, runs: usize) -> Result<f64, String> {
    let mut lists = Lists::new(sort)?;
    let timed = lists.time(clock, runs);
    let [_, _, left, fused, cancelled, swaps] = lists.first.result;
    println!(
        "| {} | {left} | {fused} | {cancelled} | {swaps} | {:.1} | {:.1} | {:.3} | {:.3} to {:.3} | {} |",
        sort.name,
        timed.ours / 1000.0,
        timed.theirs / 1000.0,
        timed.ratio,
        timed.least_ratio,
        timed.most_ratio,
        bound(sort)
    );
    Ok(timed.ratio)
}

/// Times all sorts and prints the table, and the sorts above their bounds.
pub fn print(clock: &Clock, runs: usize) -> Result<(), String> {
    println!();
    println!("**Pending operations.** Lists of {MOST_OPERATIONS}, microseconds a list:");
    println!();
    println!(
        "| operations | left | fused | cancelled | places moved | library | Rust | ratio | ratios seen | bound |"
    );
    println!("|---|---|---|---|---|---|---|---|---|---|");
    let mut above = Vec::new();
    for sort in &SORTS {
        let ratio = print_sort(sort, clock, runs)?;
        if ratio > bound(sort) {
            above.push(format!("{} ({ratio:.3})", sort.name));
        }
    }
    println!();
    println!(
        "The bound is {BOUND}, and {BOUND_OF_RECORDS} for classical records alone; above it: {}.",
        if above.is_empty() {
            "none".to_owned()
        } else {
            above.join("; ")
        }
    );
    Ok(())
}
