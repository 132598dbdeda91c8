//! The walk under a ceiling below 62 (02, CR 4), made of the Rust's own answers.
//!
//! The Rust knows the ceiling 62 only, at which it is the reference and nothing here changes its
//! answer. Below 62 the definition in crates/plan_spec is the reference, and this is a second
//! reading beside it: 14 at the first record whose join makes a component of the ceiling's size or
//! more, else what the Rust says. The sizes of the joins come from the Rust's plans.

use crate::component_plan::ActiveComponentPlan;
use crate::input::{LARGEST_CEILING, Program, Record};
use crate::refusals::Refusal;
use crate::replay::{self, Sizes};
use crate::walk::{self, Walked};

/// 01's number for a component that is too large.
const TOO_LARGE: u64 = 14;
/// The refusals of a measurement that come behind 14, after its join.
const BEHIND: std::ops::RangeInclusive<u64> = 15..=20;

/// The size that a step's join makes; 0 for a step without one.
fn joined(sizes: &Sizes) -> usize {
    sizes.last().copied().unwrap_or(0)
}

/// The size that each step's join makes.
fn sizes_of(plan: &ActiveComponentPlan) -> Result<Vec<usize>, String> {
    Ok(replay::played(plan)?.sizes.iter().map(joined).collect())
}

/// A rotation by the angle 0 that joins what this record joins.
fn joining_rotation(record: &Record) -> Record {
    let mut rotation = Record {
        kind: 0,
        phase: 0,
        last: [0; 3],
        ..*record
    };
    let [sine, cosine] = rotation.own_sine_and_cosine();
    rotation.last = [0f64.to_bits(), sine, cosine];
    rotation
}

/// The sizes of the joins before the record at which the Rust stops, and of its own join where
/// the refusal comes behind that.
fn sizes_before(
    program: &Program,
    records: &[Record],
    refusal: Refusal,
) -> Result<Vec<usize>, String> {
    let mut reached = records[..refusal.index].to_vec();
    if BEHIND.contains(&refusal.number) {
        reached.push(joining_rotation(&records[refusal.index]));
    }
    sizes_of(&walk::plan_accepted(program, &reached)?)
}

/// The size that each record's join makes, as far as the Rust comes; 0 for a record without one.
pub fn join_sizes(
    program: &Program,
    records: &[Record],
    walked: &Walked,
) -> Result<Vec<usize>, String> {
    match walked {
        Walked::Plan(plan) => sizes_of(plan),
        Walked::Stopped(refusal) => sizes_before(program, records, *refusal),
    }
}

/// What the Rust says, unless a join comes to the ceiling first.
fn limited(ceiling: u64, sizes: &[usize], walked: Walked) -> Walked {
    match sizes.iter().position(|&size| size as u64 >= ceiling) {
        Some(index) => Walked::Stopped(Refusal {
            number: TOO_LARGE,
            index,
        }),
        None => walked,
    }
}

/// What the Rust says of a program's records, under the program's ceiling.
pub fn under(program: &Program, records: &[Record], walked: Walked) -> Result<Walked, String> {
    if program.ceiling == LARGEST_CEILING {
        return Ok(walked);
    }
    let sizes = join_sizes(program, records, &walked)?;
    Ok(limited(program.ceiling, &sizes, walked))
}

#[cfg(test)]
mod tests {
    use super::{join_sizes, limited};
    use crate::answer::{Answer, answer};
    use crate::generator;
    use crate::input::{LARGEST_CEILING, Program};
    use crate::refusals::{before_the_walk, is_left_unread, of_head};
    use crate::walk::{Walked, walk};

    /// The number and the record of the answer, 0 and 0 for a plan.
    fn answered(text: &str) -> (u64, usize) {
        let program = Program::parse(text).expect("a program").filled();
        match answer(&program) {
            Ok(Answer::Refused(refusal)) => (refusal.number, refusal.index),
            Ok(Answer::Plan(..)) => (0, 0),
            _ => panic!("no answer"),
        }
    }

    /// Whether two walks say the same.
    fn are_same(one: &Walked, other: &Walked) -> bool {
        match (one, other) {
            (Walked::Plan(one), Walked::Plan(other)) => one == other,
            (Walked::Stopped(one), Walked::Stopped(other)) => {
                (one.number, one.index) == (other.number, other.index)
            }
            _ => false,
        }
    }

    #[test]
    fn a_join_at_the_ceiling() {
        // A rotation of nine coordinates among twelve, then one of ten.
        let records = "0 12 0x1ff 0 0 0 0 0 0 12 0x201 0 0 0 0 0";
        assert_eq!(answered(&format!("12 8 0 9 ; ; {records}")), (14, 0));
        assert_eq!(answered(&format!("12 8 0 10 ; ; {records}")), (14, 1));
        assert_eq!(answered(&format!("12 8 0 11 ; ; {records}")), (0, 0));
        // A measurement of nine.
        assert_eq!(answered("12 8 0 9 ; ; 4 12 0x1ff 0 0 0 0 0"), (14, 0));
        assert_eq!(answered("12 8 0 10 ; ; 4 12 0x1ff 0 0 0 0 0"), (0, 0));
    }

    #[test]
    fn numbers_beside_14() {
        // 15, 16, 17 and 19 come behind 14, and stand where the join is small enough.
        for (record, number) in [
            ("4 12 0x1ff 0 0 12 0 0", 15),
            ("4 12 0x1ff 0 0 11 0 0", 16),
            ("4 12 0xff 0x100 0 8 0 0", 17),
            ("4 12 0 0x1ff 1 0 0 0", 19),
        ] {
            assert_eq!(answered(&format!("12 8 0 9 ; ; {record}")), (14, 0));
            assert_eq!(answered(&format!("12 8 0 10 ; ; {record}")), (number, 0));
        }
        // 11 and 12 come before it.
        assert_eq!(answered("12 8 0 9 ; ; 0 11 0x1ff 0 0 0 0 0"), (11, 0));
        assert_eq!(answered("12 8 0 9 ; ; 4 11 0x1ff 0 0 0 0 0"), (12, 0));
        // 14 at 62 comes at a smaller ceiling too.
        assert_eq!(
            answered("62 8 0 61 ; ; 0 62 0x3fffffffffffffff 0 0 0 0 0"),
            (14, 0)
        );
    }

    #[test]
    fn nothing_changes_at_the_largest_ceiling() {
        let mut stopped = 0;
        for index in 0..3000 {
            let program = generator::program(5, index);
            if of_head(&program).is_some()
                || is_left_unread(&program)
                || before_the_walk(&program).is_some()
            {
                continue;
            }
            let records = program.records();
            let found = || walk(&program, &records).expect("an answer");
            stopped += usize::from(matches!(found(), Walked::Stopped(_)));
            let sizes = join_sizes(&program, &records, &found()).expect("the joins' sizes");
            assert!(are_same(
                &limited(LARGEST_CEILING, &sizes, found()),
                &found()
            ));
        }
        assert!(stopped > 0);
    }
}
