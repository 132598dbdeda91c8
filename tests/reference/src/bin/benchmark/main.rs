//! Times the static library and the published Rust in one process, on the same programs.
//!
//! The library's time is that of the call on prepared words, into buffers that are just long
//! enough, hold noise, and are cleared by the call itself. The Rust's time is that of
//! `build_active_component_plan` on a prepared program; freeing the plan is not in it for
//! programs in blocks, and is in it for check circuits, which are timed without it as well.
//! Each call is timed by itself, and the clock's own time is taken off. A run goes over the
//! programs of a mix until it has lasted long enough; runs of both alternate, and each pair
//! gives a ratio. For the mixes of the most records, loading a stored plan is timed beside
//! planning it and storing it. Then the optimizer of pending operations is timed beside the
//! Rust's. `benchmark [optimizing] [RUNS]` prints markdown, with `optimizing` that part alone.
//!
//! A ratio above the bound is named in the last lines and is no failure: times depend on what
//! else the machine does.
//!
//! Exit status: 0, or 1 where an answer is not the Rust's or a stored plan does not load again,
//! or 2 for a malformed option.

mod mixes;
mod optimizing;
mod stack;
mod stored;
mod tables;
mod timing;

use std::process::ExitCode;

use tables::TABLES;
use timing::Clock;

/// Runs of each mix, unless the option says otherwise.
const RUNS: usize = 7;
const FEWEST_RUNS: usize = 5;

/// What the options ask for.
struct Options {
    /// Whether the optimizer alone is timed.
    optimizing: bool,
    runs: usize,
}

/// The options, where they are well formed.
fn options() -> Result<Options, String> {
    let mut words = std::env::args().skip(1).peekable();
    let optimizing = words.next_if(|word| word == "optimizing").is_some();
    let runs = match words.next() {
        None => RUNS,
        Some(word) => word
            .parse()
            .map_err(|error| format!("{word:?} is not a number: {error}"))?,
    };
    if runs < FEWEST_RUNS || words.next().is_some() {
        return Err(format!(
            "usage: benchmark [optimizing] [RUNS], at least {FEWEST_RUNS}"
        ));
    }
    Ok(Options { optimizing, runs })
}

/// Times all mixes of programs and prints the tables.
fn run_plans(clock: &Clock, runs: usize) -> Result<(), String> {
    let mut entries = Vec::new();
    println!(
        "Nanoseconds a plan; medians of {runs} pairs of runs. The clock's own {} ns a call are taken off.",
        clock.cost()
    );
    for table in TABLES {
        entries.extend(table.print(clock, runs)?);
    }
    tables::print_range(&entries);
    println!();
    println!(
        "{}",
        stack::plan_on_small_stack(entries.iter().map(|entry| &entry.mix))?
    );
    stored::print(&entries, clock, runs)
}

/// Times what the options ask for.
fn run(options: &Options) -> Result<(), String> {
    let clock = Clock::new();
    if !options.optimizing {
        run_plans(&clock, options.runs)?;
    }
    optimizing::print(&clock, options.runs)
}

fn main() -> ExitCode {
    let options = match options() {
        Ok(options) => options,
        Err(message) => {
            eprintln!("benchmark: {message}");
            return ExitCode::from(2);
        }
    };
    match run(&options) {
        Ok(()) => ExitCode::SUCCESS,
        Err(message) => {
            eprintln!("benchmark: {message}");
            ExitCode::FAILURE
        }
    }
}
