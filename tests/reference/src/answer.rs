//! The answer for a program, found in the order of 01's "Where planning stops".

use crate::ceiling;
use crate::component_plan::ActiveComponentPlan;
use crate::input::{Program, Record};
use crate::refusals::{self, Refusal};
use crate::walk::{self, Walked};
use crate::whole::{self, WholeWorks};

pub enum Answer {
    Refused(Refusal),
    /// The rotation whose sine or cosine is not Rust's own.
    Incomparable(usize),
    Plan(ActiveComponentPlan, WholeWorks),
}

/// The Rust's answer under the program's ceiling, or the documents' own refusal where it comes
/// first.
pub fn answer(program: &Program) -> Result<Answer, String> {
    if let Some(refusal) = refusals::of_head(program) {
        return Ok(Answer::Refused(refusal));
    }
    if refusals::is_left_unread(program) {
        return planned(program, walk::plan_unread(program)?);
    }
    if let Some(refusal) = refusals::before_the_walk(program) {
        return Ok(Answer::Refused(refusal));
    }
    let records = program.records();
    let walked = ceiling::under(program, &records, walk::walk(program, &records)?)?;
    compared(program, walked, &records)
}

/// The Rust's plan with its whole works.
fn planned(program: &Program, plan: ActiveComponentPlan) -> Result<Answer, String> {
    let whole = whole::of(program, &plan)?;
    Ok(Answer::Plan(plan, whole))
}

/// The Rust's answer, unless a record that the walk reached may not be compared.
fn compared(program: &Program, walked: Walked, records: &[Record]) -> Result<Answer, String> {
    let reached = match &walked {
        Walked::Plan(_) => records,
        Walked::Stopped(refusal) => &records[..=refusal.index],
    };
    match (
        reached.iter().position(|record| !record.is_comparable()),
        walked,
    ) {
        (Some(index), _) => Ok(Answer::Incomparable(index)),
        (None, Walked::Plan(plan)) => planned(program, plan),
        (None, Walked::Stopped(refusal)) => Ok(Answer::Refused(refusal)),
    }
}
