//! Compares the library's optimizer of pending operations (02, CR 6) with the published Rust in
//! one process.
//!
//! Each call is answered by the Rust, 26 by the request's own words, and made of the library in
//! outputs of noise. The number that it returns and every word of list, map and result have to be
//! the expected ones, in outputs that are just long enough, longer or too short, and words beside
//! the lent ones have to stay. The typed call of the Rust crate gets the Rust's own operations and has
//! to give back the Rust's operations and numbers. Of every optimized list what the request claims is asked too, over
//! the places that operations had in the input: of the Rust's own answer.
//!
//! Calls: all short lists over a small alphabet, all somewhat longer ones over fewer operations,
//! a list of every size, one for each thing that can be wrong with the form, ones with several
//! faults at once, and random ones. Everything that the report counts has to occur, and each thing
//! that can be wrong, in each word where it can be, by itself.
//!
//!     optimizing [--spoil N] [SEED [COUNT]]
//!
//! Exit status: 0 no difference, 1 a difference or something that came too seldom, 2 a malformed
//! option, 3 anything that was not foreseen.

mod compare;
mod inputs;
mod reached;
mod tally;

use std::process::ExitCode;
use std::sync::atomic::{AtomicU64, Ordering};

use compare::Comparison;
use inputs::Inputs;
use midvokt_reference::machine::on_all_processors;
use midvokt_reference::options;
use tally::Tally;

/// Calls that a thread takes at a time.
const SHARE: u64 = 64;

/// What the options ask for.
struct Options {
    seed: u64,
    count: u64,
    spoiled: Option<u64>,
}

/// The options, where they are well formed.
fn options() -> Result<Options, String> {
    let mut options = Options {
        seed: 1,
        count: 200_000,
        spoiled: None,
    };
    options.spoiled = options::read(
        std::env::args().skip(1),
        &mut [&mut options.seed, &mut options.count],
    )?;
    Ok(options)
}

/// Compares shares of the calls until none is left.
fn work(inputs: &Inputs, spoiled: Option<u64>, next: &AtomicU64) -> Result<Tally, String> {
    let mut comparison = Comparison::new(spoiled);
    loop {
        let start = next.fetch_add(SHARE, Ordering::Relaxed);
        if start >= inputs.len() {
            return Ok(comparison.tally);
        }
        for index in start..inputs.len().min(start + SHARE) {
            let call = inputs.call(index);
            comparison
                .compare(index, &call)
                .map_err(|trouble| format!("call {index}: {trouble}\n{}", call.text()))?;
        }
    }
}

/// The whole run; true where nothing differs and nothing came too seldom.
fn run(options: &Options) -> Result<bool, String> {
    let inputs = Inputs::new(options.seed, options.count);
    if options.spoiled.is_some_and(|index| index >= inputs.len()) {
        return Err(format!("there are only {} calls", inputs.len()));
    }
    let next = AtomicU64::new(0);
    let found = on_all_processors(|| work(&inputs, options.spoiled, &next))?;
    let mut total = Tally::default();
    found.into_iter().for_each(|tally| total.add(tally));
    println!("{}", inputs.text());
    println!("{}", total.text());
    Ok(total.is_good())
}

fn main() -> ExitCode {
    options::run("optimizing", options(), run)
}
