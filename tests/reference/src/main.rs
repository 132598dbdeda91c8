//! The published Rust planner as an oracle: answers programs with what the unchanged
//! Rust says, in the words of docs/01-scope.md.
//!
//! Input, one program a line, numbers decimal or 0x and hexadecimal:
//!
//!     initial_k max_k nexpvals ; seven buffer lengths ; record words
//!     initial_k max_k nexpvals ceiling ; seven buffer lengths ; record words
//!
//! Where no ceiling is given it is 62. The lengths stand in the order steps, merges, sizes,
//! rotations, promotions, measurements, groups; where that part is empty they are just
//! large enough. Empty lines and lines that begin with # are skipped.
//!
//! Output for each program, one of:
//!
//!     refused NUMBER INDEX
//!     incomparable INDEX
//!     plan SELECTED INITIAL_COMPONENTS COMPONENT_COUNT DENSE_WORK COMPONENT_WORK DENSE_PEAK PEAK ALLOCATED MARK DENSE COMPONENT QUOTIENT REMAINDER
//!
//! and after `plan` the used words of the seven outputs, a line each, as `steps ...`
//! to `groups ...`. Floats stand as their bits in hexadecimal, all else in decimal.
//! From MARK on stand the whole works: 0 for a program that is too wide for them, 1 for
//! works without a quotient, 2 for works with one; what a mark does not give is 0.
//! `incomparable` names the first rotation that the walk reached (the record where it
//! stops counts too) whose sine or cosine word is not Rust's own for its angle.
//!
//! With `--fill` each program is printed again, those words replaced by Rust's own.
//! With `random SEED COUNT` nothing is read, and so many random programs are printed; with
//! `random-ceilings SEED COUNT` as many under ceilings.
//! With `vectors` nothing is read, and the fixed vectors are written as bytes; with `files` the
//! list of the files in which their plans are stored is printed. With `optimizing-vectors` those
//! of the optimizer of pending operations are written as bytes, and with `optimizing-random SEED
//! COUNT` so many random lists of operations in the same form.
//!
//! Exit status: 0, or 2 for a malformed line or option, or 3 for anything that was not
//! foreseen, which never becomes an answer.

use std::io::{self, BufRead, BufWriter, Write};
use std::process::ExitCode;

use midvokt_reference::generator::Draw;
use midvokt_reference::input::{Program, is_skipped};
use midvokt_reference::{answer, generator, machine, output, pending, vectors};

/// Why a run ends early, and its exit status.
struct Trouble {
    status: u8,
    message: String,
}

impl Trouble {
    /// Something wrong in the input or the options.
    fn malformed(message: String) -> Self {
        Self { status: 2, message }
    }

    /// Something that was not foreseen.
    fn unforeseen(message: String) -> Self {
        Self { status: 3, message }
    }

    /// The same with the number of the line.
    fn at_line(mut self, number: usize) -> Self {
        self.message = format!("line {number}: {}", self.message);
        self
    }
}

impl From<io::Error> for Trouble {
    /// A failed read or write.
    fn from(error: io::Error) -> Self {
        Self::unforeseen(error.to_string())
    }
}

/// What a run is for.
enum Task {
    Answer,
    Fill,
    Random { draw: Draw, seed: u64, count: u64 },
    Vectors,
    OptimizingVectors,
    OptimizingRandom { seed: u64, count: u64 },
    Files,
}

/// The task that the options name.
fn task(options: &[String]) -> Result<Task, Trouble> {
    let number = |text: &str| {
        text.parse()
            .map_err(|error| Trouble::malformed(format!("{text:?} is not a number: {error}")))
    };
    let random = |draw: Draw, seed: &str, count: &str| {
        Ok(Task::Random {
            draw,
            seed: number(seed)?,
            count: number(count)?,
        })
    };
    match options.iter().map(String::as_str).collect::<Vec<_>>()[..] {
        [] => Ok(Task::Answer),
        ["--fill"] => Ok(Task::Fill),
        ["random", seed, count] => random(generator::AT_62, seed, count),
        ["random-ceilings", seed, count] => random(generator::UNDER_CEILINGS, seed, count),
        ["vectors"] => Ok(Task::Vectors),
        ["optimizing-vectors"] => Ok(Task::OptimizingVectors),
        ["optimizing-random", seed, count] => Ok(Task::OptimizingRandom {
            seed: number(seed)?,
            count: number(count)?,
        }),
        ["files"] => Ok(Task::Files),
        _ => Err(Trouble::malformed(format!(
            "{options:?}: the options are --fill, random SEED COUNT, random-ceilings SEED COUNT, vectors, optimizing-vectors, optimizing-random SEED COUNT, and files"
        ))),
    }
}

/// What is printed for one line.
fn handle(line: &str, fill: bool) -> Result<String, Trouble> {
    let program = Program::parse(line).map_err(Trouble::malformed)?;
    if fill {
        return Ok(program.filled().text());
    }
    let answer = answer::answer(&program).map_err(Trouble::unforeseen)?;
    output::text(&answer).map_err(Trouble::unforeseen)
}

/// Handles each program that is read.
fn handle_all(output: &mut impl Write, fill: bool) -> Result<(), Trouble> {
    for (index, line) in io::stdin().lock().lines().enumerate() {
        let line =
            line.map_err(|error| Trouble::malformed(error.to_string()).at_line(index + 1))?;
        if !is_skipped(&line) {
            let text = handle(&line, fill).map_err(|trouble| trouble.at_line(index + 1))?;
            writeln!(output, "{text}")?;
        }
    }
    Ok(())
}

/// Writes vectors as bytes.
fn write_words(output: &mut impl Write, words: Result<Vec<u64>, String>) -> Result<(), Trouble> {
    for word in words.map_err(Trouble::unforeseen)? {
        output.write_all(&word.to_le_bytes())?;
    }
    Ok(())
}

/// Does what the options ask for.
fn work(output: &mut impl Write) -> Result<(), Trouble> {
    let options: Vec<String> = std::env::args().skip(1).collect();
    let task = task(&options)?;
    machine::check_exact_powers().map_err(Trouble::unforeseen)?;
    match task {
        Task::Answer => handle_all(output, false),
        Task::Fill => handle_all(output, true),
        Task::Random { draw, seed, count } => {
            for index in 0..count {
                let program = draw(seed, index).map_err(Trouble::unforeseen)?;
                writeln!(output, "{}", program.text())?;
            }
            Ok(())
        }
        Task::Vectors => write_words(output, vectors::words()),
        Task::OptimizingVectors => write_words(output, pending::vectors::words()),
        Task::OptimizingRandom { seed, count } => {
            write_words(output, pending::vectors::random_words(seed, count))
        }
        Task::Files => {
            let list = vectors::files().map_err(Trouble::unforeseen)?;
            Ok(output.write_all(list.as_bytes())?)
        }
    }
}

fn main() -> ExitCode {
    let mut output = BufWriter::new(io::stdout().lock());
    let worked = work(&mut output);
    let flushed = output.flush().map_err(Trouble::from);
    match worked.and(flushed) {
        Ok(()) => ExitCode::SUCCESS,
        Err(trouble) => {
            eprintln!("midvokt-reference: {}", trouble.message);
            ExitCode::from(trouble.status)
        }
    }
}
