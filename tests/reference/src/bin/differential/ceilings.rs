//! What programs under a ceiling below 62 (02, CR 4) come to, counted.

use midvokt_reference::answer::{Answer, answer};
use midvokt_reference::expected::Expected;
use midvokt_reference::input::{LARGEST_CEILING, Program, RECORD_WORDS, Record};

/// 01's number for a component that is too large.
const TOO_LARGE: u64 = 14;

/// Programs under a ceiling below 62.
#[derive(Default)]
pub struct Ceilings {
    /// Refused 14, where 62 gives a plan or another refusal.
    alone: u64,
    /// Of these, at a measurement.
    at_measurement: u64,
    /// Of these, where 62 gives 15 to 20 at the same measurement.
    before_others: u64,
    /// Plans whose largest join has one coordinate fewer than the ceiling.
    just_below: u64,
    /// Plans that the library gives at 62 too, by every word and byte.
    pub same_at_62: u64,
}

/// The size of the largest component that a row of a plan joins.
fn largest_join(expected: &Expected) -> u64 {
    let rotations = expected.outputs[3].chunks_exact(21);
    let measurements = expected.outputs[5].chunks_exact(19);
    let sizes = rotations.chain(measurements).map(|row| row[3]);
    sizes.max().unwrap_or(0)
}

impl Ceilings {
    /// Counts a refusal 14, unless 62 gives it too.
    fn count_too_large(&mut self, program: &Program, index: u64) -> Result<(), String> {
        let at_62 = match answer(&program.under(LARGEST_CEILING))? {
            Answer::Refused(refusal) => (refusal.number, refusal.index as u64),
            _ => (0, 0),
        };
        if at_62 == (TOO_LARGE, index) {
            return Ok(());
        }
        let record = Record::from_words(&program.words[index as usize * RECORD_WORDS..]);
        self.alone += 1;
        self.at_measurement += u64::from(record.is_measurement());
        self.before_others += u64::from(at_62.0 > TOO_LARGE && at_62.1 == index);
        Ok(())
    }

    /// Counts a program with its answer.
    pub fn count(&mut self, program: &Program, expected: &Expected) -> Result<(), String> {
        match (program.ceiling, expected.number) {
            (LARGEST_CEILING, _) => Ok(()),
            (_, TOO_LARGE) => self.count_too_large(program, expected.result[0]),
            (ceiling, 0) => {
                self.just_below += u64::from(largest_join(expected) + 1 == ceiling);
                Ok(())
            }
            _ => Ok(()),
        }
    }

    /// Adds what another thread has counted.
    pub fn add(&mut self, other: &Self) {
        self.alone += other.alone;
        self.at_measurement += other.at_measurement;
        self.before_others += other.before_others;
        self.just_below += other.just_below;
        self.same_at_62 += other.same_at_62;
    }

    /// What was counted, by name.
    pub fn counts(&self) -> [(&'static str, u64); 5] {
        [
            ("refused 14 by the ceiling alone", self.alone),
            ("of these at a measurement", self.at_measurement),
            (
                "of these where 62 gives 15 to 20 at the same record",
                self.before_others,
            ),
            (
                "plans with a largest join of one below the ceiling",
                self.just_below,
            ),
            (
                "plans that are the same at ceiling 62, by every word and byte",
                self.same_at_62,
            ),
        ]
    }
}
