//! Both works of a plan as whole numbers, and dense divided by component.
//!
//! The costs are those of section 4 of docs/01-scope.md. Which step is of which kind, and how
//! large its component is, comes from the Rust's own plan, whose steps, rows and merge list are
//! played once more. The active widths come from the program's head and records alone.

use crate::component_plan::{ActiveComponentPlan, ActiveComponentStepKind};
use crate::input::Program;
use crate::refusals::is_left_unread;
use crate::replay::{self, Sizes};

/// The greatest active width of a program that gets whole works.
const WIDEST: u64 = 38;
/// What a step of the components costs beside its amplitudes.
const DISPATCH: u128 = 32;
/// Every whole number below this one is a float.
const EXACT_BELOW: u64 = 1 << 53;

/// Both works as whole numbers, as far as a program gets them.
#[derive(Clone, Copy, Debug, PartialEq, Eq)]
pub enum WholeWorks {
    TooWide,
    /// The component work is 0.
    WithoutQuotient {
        dense: u64,
    },
    WithQuotient {
        dense: u64,
        component: u64,
        quotient: u64,
        remainder: u64,
    },
}

impl WholeWorks {
    /// The last five words of a result: mark, dense, component, quotient, remainder.
    pub fn words(&self) -> [u64; 5] {
        match *self {
            Self::TooWide => [0; 5],
            Self::WithoutQuotient { dense } => [1, dense, 0, 0, 0],
            Self::WithQuotient {
                dense,
                component,
                quotient,
                remainder,
            } => [2, dense, component, quotient, remainder],
        }
    }
}

/// The active width at the start and after each record; none where the records are left unread.
pub fn widths(program: &Program) -> Vec<u64> {
    if is_left_unread(program) {
        return Vec::new();
    }
    let mut widths = vec![program.initial_k];
    let mut width = program.initial_k;
    for record in program.records() {
        width = record.width_after(width);
        widths.push(width);
    }
    widths
}

/// 2 to this power.
fn dimension(exponent: usize) -> u128 {
    1 << exponent
}

/// The cost of a join: 2·2^size after each source but the target.
fn joining_cost(sizes: &[usize]) -> u128 {
    sizes.iter().skip(1).map(|&size| 2 * dimension(size)).sum()
}

/// What a step adds to the dense work where the active width before it is this one.
fn dense_cost(kind: ActiveComponentStepKind, width: u64) -> u128 {
    let all = dimension(width as usize);
    match kind {
        ActiveComponentStepKind::None => 0,
        ActiveComponentStepKind::IgnoredGlobalPhase => 1,
        ActiveComponentStepKind::Rotation => all,
        ActiveComponentStepKind::Promotion | ActiveComponentStepKind::Measurement => 2 * all,
    }
}

/// What a step adds to the component work where its join has these sizes.
fn component_cost(kind: ActiveComponentStepKind, sizes: &[usize]) -> u128 {
    let joined = sizes.last().map_or(0, |&size| dimension(size));
    match kind {
        ActiveComponentStepKind::None | ActiveComponentStepKind::IgnoredGlobalPhase => 0,
        ActiveComponentStepKind::Rotation => joining_cost(sizes) + joined + DISPATCH,
        ActiveComponentStepKind::Promotion => 2 + DISPATCH,
        ActiveComponentStepKind::Measurement => joining_cost(sizes) + 2 * joined + DISPATCH,
    }
}

/// The dense and the component work of all steps.
fn works(
    plan: &ActiveComponentPlan,
    widths: &[u64],
    sizes: &[Sizes],
) -> Result<(u128, u128), String> {
    if plan.instruction_steps.len() != widths.len().saturating_sub(1) {
        return Err("a plan has not a step for each record".to_owned());
    }
    let (mut dense, mut component) = (0, 0);
    for ((step, &width), sizes) in plan.instruction_steps.iter().zip(widths).zip(sizes) {
        dense += dense_cost(step.kind, width);
        component += component_cost(step.kind, sizes);
    }
    Ok((dense, component))
}

/// A work as a word. The Rust's float has to be just this number.
fn exact(name: &str, work: u128, float: f64) -> Result<u64, String> {
    let is_float = |&word: &u64| word < EXACT_BELOW && (word as f64).to_bits() == float.to_bits();
    let word = u64::try_from(work).ok().filter(is_float);
    word.ok_or_else(|| format!("the {name} work is {work}, which the Rust gives as {float:?}"))
}

/// The whole works of a program that has this plan.
pub fn of(program: &Program, plan: &ActiveComponentPlan) -> Result<WholeWorks, String> {
    let widths = widths(program);
    if widths.iter().any(|&width| width > WIDEST) {
        return Ok(WholeWorks::TooWide);
    }
    let sizes = replay::played(plan)?.sizes;
    let (dense, component) = works(plan, &widths, &sizes)?;
    let dense = exact("dense", dense, plan.estimated_dense_work)?;
    let component = exact("component", component, plan.estimated_component_work)?;
    if component == 0 {
        return Ok(WholeWorks::WithoutQuotient { dense });
    }
    Ok(WholeWorks::WithQuotient {
        dense,
        component,
        quotient: dense / component,
        remainder: dense % component,
    })
}

#[cfg(test)]
mod tests {
    use super::{EXACT_BELOW, WholeWorks, exact, of};
    use crate::answer::{Answer, answer};
    use crate::component_plan::ActiveComponentPlan;
    use crate::input::Program;

    const PROMOTION: &str = " 1 0 0 0 0 0 0 0";

    /// A rotation of this width about X at these bits.
    fn rotation(width: u64, x: u64) -> String {
        format!(" 0 {width} {x} 0 0 0 0 0")
    }

    /// A measurement of this width of X at these bits, with pivot 0.
    fn measurement(width: u64, x: u64) -> String {
        format!(" 4 {width} {x} 0 0 0 0 0")
    }

    /// The program of a head and records.
    fn program(head: &str, records: &[String]) -> Program {
        let text = format!("{head} ; ; {}", records.concat());
        Program::parse(&text).expect("a program").filled()
    }

    /// The Rust's plan and the whole works.
    fn planned(program: &Program) -> (ActiveComponentPlan, WholeWorks) {
        match answer(program) {
            Ok(Answer::Plan(plan, whole)) => (plan, whole),
            _ => panic!("no plan"),
        }
    }

    /// The five words of a program.
    fn words(head: &str, records: &[String]) -> [u64; 5] {
        planned(&program(head, records)).1.words()
    }

    /// Mark 2 with these numbers, which have to be a division.
    fn divided(dense: u64, component: u64, quotient: u64, remainder: u64) -> [u64; 5] {
        assert_eq!(dense, quotient * component + remainder);
        assert!(remainder < component);
        [2, dense, component, quotient, remainder]
    }

    #[test]
    fn works_of_the_scope_document() {
        // Rotation: 2^3; two joined 2·2^2, then 2^2 + 32.
        let first = rotation(3, 5);
        let alone = std::slice::from_ref(&first);
        assert_eq!(words("3 8 0", alone), divided(8, 44, 0, 8));
        // Measurement: 2·2^3 more; a third joined 2·2^3, then 2·2^3 + 32, before the removal.
        let second = " 4 3 0 6 0 2 0 0".to_owned();
        assert_eq!(words("3 8 0", &[first, second]), divided(24, 108, 0, 24));
        // An ignored rotation: 1 and nothing.
        assert_eq!(words("0 8 0", &[rotation(0, 0)]), [1, 1, 0, 0, 0]);
    }

    #[test]
    fn joining_costs_of_every_source() {
        // 2^10; four joined one by one 2·2^2 + 2·2^3 + 2·2^4 = 56, then 2^4 + 32.
        let join = rotation(10, 15);
        assert_eq!(words("10 8 0", &[join]), divided(1024, 104, 9, 88));
        // A pair joins a pair at 2·2^4, after 2·2^2 + 2^2 + 32 for each: 44 + 44 + 32 + 48.
        let joins = [rotation(10, 3), rotation(10, 12), rotation(10, 5)];
        assert_eq!(words("10 8 0", &joins), divided(3072, 168, 18, 48));
    }

    #[test]
    fn costs_of_the_other_kinds() {
        // 2·2^4 and 34.
        assert_eq!(words("4 8 0", &[PROMOTION.into()]), divided(32, 34, 0, 32));
        // 2·2^9 and 2·2 + 32, the size before the removal.
        assert_eq!(
            words("9 8 0", &[measurement(9, 1)]),
            divided(1024, 36, 28, 16)
        );
        // An expectation, three classical records, and no record at all cost nothing.
        let unread = [
            " 4 9 9 9 9 9 1 9",
            " 2 9 9 9 9 9 9 9",
            " 3 9 9 9 9 9 9 9",
            " 5 9 9 9 9 9 9 9",
        ];
        assert_eq!(words("5 8 0", &unread.map(str::to_owned)), [1, 0, 0, 0, 0]);
        assert_eq!(words("5 8 0", &[]), [1, 0, 0, 0, 0]);
    }

    #[test]
    fn widths_up_to_38() {
        // 2^38 = 274877906944 and 2·2^2 + 2^2 + 32 = 44: 44 · 6247225157 = 274877906908.
        assert_eq!(
            words("38 8 0", &[rotation(38, 3)]),
            divided(274_877_906_944, 44, 6_247_225_157, 36)
        );
        // All 38 joined: 2·(2^39 - 4), then 2^38 + 32: 5·2^38 + 24.
        let all = rotation(38, (1 << 38) - 1);
        assert_eq!(
            words("38 8 0", &[all]),
            divided(1 << 38, 5 * (1 << 38) + 24, 0, 1 << 38)
        );
        // A promotion comes to 38: 2·2^37, then 2^38; 34 and 44: 78 · 7048151460 = 549755813880.
        let climb = [PROMOTION.into(), rotation(38, 3)];
        assert_eq!(
            words("37 8 0", &climb),
            divided(549_755_813_888, 78, 7_048_151_460, 8)
        );
    }

    #[test]
    fn widths_past_38() {
        assert_eq!(words("39 8 0", &[]), [0; 5]);
        assert_eq!(words("39 8 0", &[rotation(39, 3)]), [0; 5]);
        assert_eq!(words("39 8 0", &[measurement(39, 1)]), [0; 5]);
        assert_eq!(words("38 8 0", &[PROMOTION.into()]), [0; 5]);
        let and_back = [PROMOTION.into(), measurement(39, 1), rotation(38, 1)];
        assert_eq!(words("38 8 0", &and_back), [0; 5]);
        // An expectation takes no coordinate away, so that the promotion comes to 39.
        let expectation = " 4 0 0 0 0 0 1 0".to_owned();
        assert_eq!(words("38 8 0", &[expectation, PROMOTION.into()]), [0; 5]);
    }

    #[test]
    fn unread_programs_are_never_too_wide() {
        assert_eq!(words("18446744073709551615 7 0", &[]), [1, 0, 0, 0, 0]);
        let promotions = vec![PROMOTION.to_owned(); 3];
        assert_eq!(words("512 61 1", &promotions), [1, 0, 0, 0, 0]);
        assert_eq!(words("39 7 0", &promotions), [1, 0, 0, 0, 0]);
    }

    #[test]
    fn a_float_that_differs_is_an_error() {
        let program = program("3 8 0", &[rotation(3, 5)]);
        let (plan, whole) = planned(&program);
        assert_eq!(of(&program, &plan), Ok(whole));
        let mut other = plan.clone();
        other.estimated_dense_work = 8.0f64.next_up();
        assert!(of(&program, &other).is_err());
        let mut other = plan.clone();
        other.estimated_component_work = 43.0;
        assert!(of(&program, &other).is_err());
        let mut other = plan;
        other.instruction_steps.push(Default::default());
        assert!(of(&program, &other).is_err());
    }

    #[test]
    fn floats_are_exact_below_two_to_the_53() {
        let last = EXACT_BELOW - 1;
        assert_eq!(exact("dense", last.into(), last as f64), Ok(last));
        let next = EXACT_BELOW;
        assert!(exact("dense", next.into(), next as f64).is_err());
        assert!(exact("dense", 1 << 64, 0.0).is_err());
        assert!(exact("dense", 0, -0.0).is_err());
        assert_eq!(exact("dense", 0, 0.0), Ok(0));
    }
}
