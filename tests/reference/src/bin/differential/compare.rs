//! One program through both: what the Rust expects, what the library gives.

use midvokt::{ActiveComponentPlan, Head, plan_encoded};
use midvokt_reference::answer::{Answer, answer};
use midvokt_reference::component_plan;
use midvokt_reference::expected::{Expected, RESULT_WORDS};
use midvokt_reference::generator::Numbers;
use midvokt_reference::input::{LARGEST_CEILING, Program, RECORD_WORDS};
use midvokt_reference::refusals::least_lengths;
use midvokt_reference::stored_file;

use crate::complex;
use crate::dropin;
use crate::files;
use crate::kernels;
use crate::memory::{Lent, Memory};
use crate::tally::Tally;
use crate::wanted::Wanted;

/// The lengths of the lent buffers and what differs.
pub type Found = Option<([u64; 7], String)>;

/// The refusal that depends on the buffers' lengths.
const SHORT_BUFFERS: u64 = 3;

/// A thread's memory and what it has counted.
pub struct Comparison {
    pub memory: Memory,
    pub random: Numbers,
    spoiled: Option<u64>,
    pub tally: Tally,
}

/// Changes one bit of one expected word or of one byte of the file, which ones by the program's
/// number.
fn spoil(expected: &mut Expected, file: &mut [u8], index: u64) {
    let Expected {
        number,
        result,
        outputs,
    } = expected;
    let mut words: Vec<&mut u64> = std::iter::once(number)
        .chain(result)
        .chain(outputs.iter_mut().flatten())
        .collect();
    let place = index as usize % (words.len() + file.len());
    match place.checked_sub(words.len()) {
        None => *words[place] ^= 1 << (index % 64),
        Some(byte) => file[byte] ^= 1 << (index % 8),
    }
}

impl Comparison {
    /// Nothing compared yet; the program of this number gets a wrong expectation.
    pub fn new(spoiled: Option<u64>) -> Self {
        Self {
            memory: Memory::default(),
            random: Numbers::new(0, 0),
            spoiled,
            tally: Tally::default(),
        }
    }

    /// What differs after a call with these lengths.
    fn call(
        &mut self,
        program: &Program,
        expected: &Expected,
        lengths: [u64; 7],
        result: usize,
    ) -> Option<String> {
        let words = (&head(program), &program.words[..]);
        let lent = Lent {
            buffers: lengths,
            file: 0,
            result,
        };
        let number = self.memory.plan(words, &lent, &mut self.random);
        self.tally.calls += 1;
        let wanted = Wanted {
            number: expected.number,
            result: &expected.result,
            outputs: &expected.outputs,
            file: &[],
        };
        wanted.difference(number, &self.memory)
    }

    /// Two calls: with the program's own lengths, or just long enough ones, and a whole
    /// result; then, for some programs, with longer buffers and a result of another length.
    fn calls(&mut self, program: &Program, expected: &Expected) -> Found {
        let least = least_lengths((program.words.len() / RECORD_WORDS) as u64);
        let lengths = program.lengths.unwrap_or(least);
        if let Some(found) = self.call(program, expected, lengths, RESULT_WORDS) {
            return Some((lengths, found));
        }
        if self.random.chance(60) {
            return None;
        }
        let more = self.random.pick(&[0, 3, 300]);
        let longer = match program.lengths {
            Some(lengths) => lengths,
            None => least.map(|length| length + self.random.between(0, more)),
        };
        let result = self.random.below(2 * RESULT_WORDS as u64) as usize;
        let found = self.call(program, expected, longer, result)?;
        Some((longer, format!("{found} (result of {result} words)")))
    }

    /// What differs in the methods of the kernels and in complex numbers. The numbers drawn
    /// here leave the program's own as they are.
    fn methods(
        &mut self,
        ours: &ActiveComponentPlan,
        theirs: &component_plan::ActiveComponentPlan,
    ) -> Option<String> {
        let mut random = self.random.clone();
        let methods = kernels::compare(ours, theirs, &mut random);
        let numbers = complex::compare(&mut random);
        self.tally.methods += methods.count;
        self.tally.numbers += numbers.count;
        methods.first.or(numbers.first)
    }

    /// What differs in the typed plan, where it does not depend on the lent lengths.
    fn typed(&mut self, program: &Program, answer: &Answer, expected: &Expected) -> Option<String> {
        if expected.number == SHORT_BUFFERS {
            return None;
        }
        self.tally.typed += 1;
        match (plan_encoded(&head(program), &program.words), answer) {
            (Ok(ours), Answer::Plan(theirs, whole)) => {
                dropin::difference(&ours, theirs, *whole).or_else(|| self.methods(&ours, theirs))
            }
            (Err(ours), Answer::Refused(theirs)) => {
                let same = (ours.number(), ours.index) == (theirs.number, theirs.index);
                (!same).then(|| format!("the typed call gives {ours:?}"))
            }
            (ours, _) => Some(format!("the typed call gives {:?}", ours.map(|_| "a plan"))),
        }
    }

    /// What differs where a program is planned, stored and loaded.
    fn planned_and_stored(&mut self, program: &Program, expected: &Expected, file: &[u8]) -> Found {
        self.calls(program, expected)
            .or_else(|| files::compare(self, program, expected, file))
    }

    /// What differs at the ceiling 62, where a plan under a smaller one has to be the same.
    fn at_62(&mut self, program: &Program, expected: &Expected, file: &[u8]) -> Found {
        if program.ceiling == LARGEST_CEILING || expected.number != 0 {
            return None;
        }
        let found = self.planned_and_stored(&program.under(LARGEST_CEILING), expected, file);
        self.tally.ceilings.same_at_62 += u64::from(found.is_none());
        let (lengths, found) = found?;
        Some((lengths, format!("at ceiling 62, {found}")))
    }

    /// Compares one program. An error is something that was not foreseen.
    pub fn compare(&mut self, index: u64, program: &Program) -> Result<(), String> {
        // The same lengths and noise for a program, whichever thread compares it.
        self.random = Numbers::new(index, 0);
        let answer = answer(program)?;
        let Some(mut expected) = Expected::of(&answer)? else {
            self.tally.incomparable += 1;
            return Ok(());
        };
        self.tally.count(program, &expected);
        self.tally.ceilings.count(program, &expected)?;
        let typed = self.typed(program, &answer, &expected);
        let mut file = stored_file::of(&expected).unwrap_or_default();
        if self.spoiled == Some(index) {
            spoil(&mut expected, &mut file, index);
        }
        let mut shown = program.clone();
        let found = self.planned_and_stored(program, &expected, &file);
        let found = match found.or_else(|| self.at_62(program, &expected, &file)) {
            Some((lengths, found)) => {
                shown.lengths = Some(lengths);
                Some(found)
            }
            None => typed,
        };
        if let Some(found) = found {
            self.tally
                .differences
                .note(index, format!("{found}\n{}", shown.text()));
        }
        Ok(())
    }
}

/// The program's head for the library.
pub fn head(program: &Program) -> Head {
    Head {
        initial_k: program.initial_k,
        max_k: program.max_k,
        nexpvals: program.nexpvals,
        ceiling: program.ceiling,
    }
}
