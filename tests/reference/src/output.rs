//! An answer as text, in 01's row formats.

use crate::answer::Answer;
use crate::component_plan::ActiveComponentPlan;
use crate::input::BUFFERS;
use crate::rows::{self, Word};
use crate::whole::WholeWorks;

/// A name and its words.
fn line<'a>(name: &str, words: impl IntoIterator<Item = &'a Word>) -> String {
    let words = words.into_iter().map(|word| word.to_string());
    std::iter::once(name.to_owned())
        .chain(words)
        .collect::<Vec<_>>()
        .join(" ")
}

/// The scalar fields with the whole works, and the seven outputs, a line each.
fn plan_text(plan: &ActiveComponentPlan, whole: &WholeWorks) -> Result<String, String> {
    let outputs = rows::outputs(plan)?;
    let named = BUFFERS.iter().zip(&outputs);
    let lines = std::iter::once(line("plan", &rows::fields(plan, whole)))
        .chain(named.map(|(name, words)| line(name, words)));
    Ok(lines.collect::<Vec<_>>().join("\n"))
}

/// What is printed for an answer.
pub fn text(answer: &Answer) -> Result<String, String> {
    match answer {
        Answer::Refused(refusal) => Ok(format!("refused {} {}", refusal.number, refusal.index)),
        Answer::Incomparable(index) => Ok(format!("incomparable {index}")),
        Answer::Plan(plan, whole) => plan_text(plan, whole),
    }
}
