//! One program stored and loaded: the file has to be the one that the Rust's answer makes by
//! 02's CR 2, and loading has to bring every word of it back.

use midvokt_reference::expected::Expected;
use midvokt_reference::input::{Program, RECORD_WORDS};
use midvokt_reference::refusals::least_lengths;

use crate::compare::{Comparison, Found, head};
use crate::memory::Lent;
use crate::tally::TOO_SHORT;
use crate::wanted::Wanted;

/// Words of a whole result of storing: the refused record and the file's length.
const STORE_WORDS: usize = 2;
/// Words of a whole result of loading: a zero, the scalar fields, six counts.
const LOAD_WORDS: usize = 15;
/// The outputs that a file has.
const STORED_OUTPUTS: usize = 6;
/// Bytes lent for the file of a program that is refused.
const REFUSED_FILES: [usize; 6] = [0, 1, 127, 128, 192, 1000];

/// Outputs without a used word.
static NOTHING: [Vec<u64>; 7] = [const { Vec::new() }; 7];

/// What a call leaves for which something lent is too short, with so many outputs.
fn too_short(outputs: usize) -> Wanted<'static> {
    Wanted {
        number: TOO_SHORT,
        result: &[],
        outputs: &NOTHING[..outputs],
        file: &[],
    }
}

/// The length of a result: mostly the whole one, sometimes a shorter or longer one.
fn result_length(comparison: &mut Comparison, whole: usize) -> usize {
    if comparison.random.chance(80) {
        whole
    } else {
        comparison.random.below(2 * whole as u64 + 2) as usize
    }
}

/// Stores with so much lent, and says what differs.
fn store(comparison: &mut Comparison, program: &Program, lent: Lent, wanted: &Wanted) -> Found {
    let words = (&head(program), &program.words[..]);
    let Comparison { memory, random, .. } = comparison;
    let number = memory.store(words, &lent, random);
    comparison.tally.stores.count(wanted.number);
    let found = wanted.difference(number, &comparison.memory)?;
    let Lent { file, result, .. } = lent;
    let lent_too = format!("stored, with {file} bytes for the file and {result} words of result");
    Some((lent.buffers, format!("{found} ({lent_too})")))
}

/// A program that is refused, stored: the same refusal however short the file is.
fn store_refused(
    comparison: &mut Comparison,
    program: &Program,
    expected: &Expected,
    buffers: [u64; 7],
) -> Found {
    let lent = Lent {
        buffers,
        file: comparison.random.pick(&REFUSED_FILES),
        result: result_length(comparison, STORE_WORDS),
    };
    let wanted = Wanted {
        number: expected.number,
        result: &expected.result[..1],
        outputs: &expected.outputs,
        file: &[],
    };
    store(comparison, program, lent, &wanted)
}

/// A plan stored three times: in a file that is just long enough, in one that is a byte too
/// short, and in a longer one with longer buffers.
fn store_plan(
    comparison: &mut Comparison,
    program: &Program,
    expected: &Expected,
    file: &[u8],
    buffers: [u64; 7],
) -> Found {
    let result = [0, file.len() as u64];
    let stored = Wanted {
        number: expected.number,
        result: &result,
        outputs: &expected.outputs,
        file,
    };
    let short = too_short(NOTHING.len());
    let more = comparison.random.pick(&[1, 8, 9, 700]);
    let longer = match program.lengths {
        Some(_) => buffers,
        None => buffers.map(|length| length + comparison.random.between(0, 3)),
    };
    let tries = [
        (&stored, file.len(), buffers),
        (&short, file.len() - 1, buffers),
        (&stored, file.len() + more, longer),
    ];
    tries.into_iter().find_map(|(wanted, file, buffers)| {
        let result = result_length(comparison, STORE_WORDS);
        let lent = Lent {
            buffers,
            file,
            result,
        };
        store(comparison, program, lent, wanted)
    })
}

/// Loads a file into outputs of these lengths, and says what differs.
fn load(
    comparison: &mut Comparison,
    file: &[u8],
    lengths: [usize; STORED_OUTPUTS],
    wanted: &Wanted,
) -> Option<String> {
    let mut buffers = [0; 7];
    for (buffer, length) in buffers.iter_mut().zip(lengths) {
        *buffer = length as u64;
    }
    let result = result_length(comparison, LOAD_WORDS);
    let lent = Lent {
        buffers,
        file: 0,
        result,
    };
    let Comparison { memory, random, .. } = comparison;
    let number = memory.load(file, &lent, random);
    comparison.tally.loads.count(wanted.number);
    let found = wanted.difference(number, &comparison.memory)?;
    let lent_too = format!("loaded, outputs of {lengths:?} and result of {result} words");
    Some(format!("{found} ({lent_too})"))
}

/// The lengths with one fewer at an output that has words; none where no output has any.
fn one_short(
    comparison: &mut Comparison,
    lengths: [usize; STORED_OUTPUTS],
) -> Option<[usize; STORED_OUTPUTS]> {
    let used: Vec<usize> = (0..STORED_OUTPUTS).filter(|&n| lengths[n] > 0).collect();
    if used.is_empty() {
        return None;
    }
    let mut short = lengths;
    short[comparison.random.pick(&used)] -= 1;
    Some(short)
}

/// A plan's file loaded: into outputs that are just long enough, into longer ones, and into
/// outputs of which one is a word too short.
fn load_plan(comparison: &mut Comparison, expected: &Expected, file: &[u8]) -> Option<String> {
    let outputs = &expected.outputs[..STORED_OUTPUTS];
    let lengths: [usize; STORED_OUTPUTS] = std::array::from_fn(|place| outputs[place].len());
    let counts = lengths.map(|length| length as u64);
    let result = [&[0], &expected.result[1..9], &counts].concat();
    let whole = Wanted {
        number: expected.number,
        result: &result,
        outputs,
        file: &[],
    };
    let short = too_short(STORED_OUTPUTS);
    let longer = lengths.map(|length| length + comparison.random.between(0, 40) as usize);
    let found = load(comparison, file, lengths, &whole);
    let found = found.or_else(|| load(comparison, file, longer, &whole));
    found.or_else(|| {
        let lengths = one_short(comparison, lengths)?;
        load(comparison, file, lengths, &short)
    })
}

/// What differs when a program is stored and its file, which is empty for a refusal, is loaded.
pub fn compare(
    comparison: &mut Comparison,
    program: &Program,
    expected: &Expected,
    file: &[u8],
) -> Found {
    let least = least_lengths((program.words.len() / RECORD_WORDS) as u64);
    let buffers = program.lengths.unwrap_or(least);
    if file.is_empty() {
        return store_refused(comparison, program, expected, buffers);
    }
    store_plan(comparison, program, expected, file, buffers)
        .or_else(|| Some((buffers, load_plan(comparison, expected, file)?)))
}
