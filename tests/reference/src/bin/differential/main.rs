//! Compares the static library with the published Rust in one process.
//!
//! Each program is answered by the Rust, in the numbers and words of docs/01-scope.md, and
//! planned by the library in buffers of noise. Every word that a call returns and writes has
//! to be the expected one, and words beside the lent ones have to stay. The typed plan of
//! the crate `midvokt` is turned into the Rust's own and compared with it as well, and so are
//! its whole works, the defaults and methods of its kernels, and its complex numbers. Then each
//! program is stored, where every byte of the file counts too, and each file is loaded again.
//!
//! Programs: the stored ones, all with up to two records over small widths, those with
//! several faults at once, and random ones. These have the ceiling 62, and the Rust is their
//! reference. Then as much is compared for programs under other ceilings, with the oracle's
//! reading of them, and each that gets a plan has to get the same plan and file at 62.
//!
//!     differential [--spoil N] [SEED [COUNT [CEILINGS]]]
//!
//! COUNT random programs at 62 and CEILINGS under other ceilings. The programs under ceilings have
//! the numbers behind the others for --spoil.
//!
//! Exit status: 0 no difference, 1 a difference, or a refusal or groups in another order than
//! their first members that never occurred, 2 a malformed option, 3 anything that was not foreseen.

mod ceilings;
mod compare;
mod complex;
mod dropin;
mod files;
mod inputs;
mod kernels;
mod memory;
mod results;
mod tally;
mod wanted;

use std::process::ExitCode;
use std::sync::atomic::{AtomicU64, Ordering};

use compare::Comparison;
use inputs::Inputs;
use midvokt_reference::machine::{self, on_all_processors};
use midvokt_reference::options;
use tally::Tally;

/// Programs that a thread takes at a time.
const SHARE: u64 = 32;

/// What the options ask for.
struct Options {
    seed: u64,
    count: u64,
    /// How many random programs are under ceilings.
    ceilings: u64,
    spoiled: Option<u64>,
}

/// The options, where they are well formed.
fn options() -> Result<Options, String> {
    let mut options = Options {
        seed: 1,
        count: 200_000,
        ceilings: 100_000,
        spoiled: None,
    };
    options.spoiled = options::read(
        std::env::args().skip(1),
        &mut [&mut options.seed, &mut options.count, &mut options.ceilings],
    )?;
    Ok(options)
}

/// Compares shares of the programs until none is left.
fn work(inputs: &Inputs, spoiled: Option<u64>, next: &AtomicU64) -> Result<Tally, String> {
    let mut comparison = Comparison::new(spoiled);
    loop {
        let start = next.fetch_add(SHARE, Ordering::Relaxed);
        if start >= inputs.len() {
            return Ok(comparison.tally);
        }
        for index in start..inputs.len().min(start + SHARE) {
            let program = inputs.program(index)?;
            comparison
                .compare(index, &program)
                .map_err(|trouble| format!("program {index}: {trouble}\n{}", program.text()))?;
        }
    }
}

/// Compares all programs, on as many threads as the machine has processors.
fn compare_all(inputs: &Inputs, spoiled: Option<u64>) -> Result<Tally, String> {
    let next = AtomicU64::new(0);
    let found = on_all_processors(|| work(inputs, spoiled, &next))?;
    let mut total = Tally::default();
    found.into_iter().for_each(|tally| total.add(tally));
    Ok(total)
}

/// Compares the programs at the ceiling 62; true where nothing differs and nothing is missing.
fn run_at_62(inputs: &Inputs, spoiled: Option<u64>) -> Result<bool, String> {
    let mut tally = compare_all(inputs, spoiled)?;
    tally.defaults = kernels::compare_defaults();
    println!("{}", inputs.text());
    println!("{}", tally.text());
    Ok(tally.is_good())
}

/// The same for programs under other ceilings.
fn run_under_ceilings(inputs: &Inputs, spoiled: Option<u64>) -> Result<bool, String> {
    let tally = compare_all(inputs, spoiled)?;
    println!("{}", inputs.text());
    println!("{}", tally.text_under_ceilings());
    Ok(tally.is_good_under_ceilings())
}

/// The whole run; true where nothing differs and nothing is missing.
fn run(options: &Options) -> Result<bool, String> {
    machine::check_exact_powers()?;
    let at_62 = Inputs::at_62(options.seed, options.count)?;
    let under = Inputs::under_ceilings(options.seed, options.ceilings)?;
    let all = at_62.len() + under.len();
    if options.spoiled.is_some_and(|index| index >= all) {
        return Err(format!("there are only {all} programs"));
    }
    let behind = options
        .spoiled
        .and_then(|index| index.checked_sub(at_62.len()));
    let is_good = run_at_62(&at_62, options.spoiled)?;
    Ok(run_under_ceilings(&under, behind)? && is_good)
}

fn main() -> ExitCode {
    options::run("differential", options(), run)
}
