//! Why a plan is selected or not: the four tests of the choice, each with its two sides. The
//! field of a plan that was planned now decides, and the tests are computed again only to be
//! shown; a stored plan is held to them.

use midvokt::{ActiveComponentStepKind as Kind, Head, StoredPlan};

use crate::figures;
use crate::sense::{self, require};
use crate::text;

/// The least max with which records are read.
pub const LEAST_MAX: u64 = 8;
/// How many times as large as the components' work one wide register's has to be.
const RATIO: f64 = 1.8;
/// How much work has to be saved.
const SAVING: f64 = 8192.0;
/// How many times the dense peak may be allocated.
const ROOM: f64 = 1.25;
/// How many instructions have to act on the register.
const INSTRUCTIONS: usize = 4;

/// One test: a value, and the limit that it is held to.
#[derive(Clone, Debug, PartialEq)]
pub struct Test {
    /// What the left side is.
    pub name: &'static str,
    /// The left side.
    pub left: f64,
    /// The relation that has to hold.
    pub relation: &'static str,
    /// Where the right side comes from; empty for a fixed number.
    pub origin: String,
    /// The right side.
    pub right: f64,
    /// Whether it holds.
    pub passes: bool,
    /// Whether the left side was rounded to a float.
    pub is_rounded: bool,
}

impl Test {
    /// A left side that has to be at least the right one.
    fn at_least(name: &'static str, left: f64, origin: &str, right: f64) -> Self {
        Self {
            name,
            left,
            relation: ">=",
            origin: origin.to_owned(),
            right,
            passes: left >= right,
            is_rounded: false,
        }
    }

    /// Both sides in digits; every digit where fewer would show two sides as the same.
    pub fn sides(&self) -> (String, String) {
        let (left, right) = (figures::float(self.left), figures::float(self.right));
        if left == right && self.left != self.right {
            return (self.left.to_string(), self.right.to_string());
        }
        (left, right)
    }
}

/// Why a plan is selected or not.
#[derive(Clone, Debug, PartialEq)]
pub enum Choice {
    /// The head has the records left unread, for this reason.
    Unread(String),
    /// A stored plan with neither steps nor components.
    Nothing,
    /// The four tests, and whether they say what the plan says.
    Tested {
        /// The tests in the order of the definition.
        tests: Vec<Test>,
        /// Whether all pass exactly where the plan is selected.
        agrees: bool,
    },
}

/// How many instructions act on the register: rotations, ignored ones too, promotions, and
/// measurements that are no expectations.
pub fn instructions(plan: &StoredPlan) -> usize {
    let acting = |kind| kind != Kind::None;
    let steps = plan.instruction_steps.iter();
    steps.filter(|step| acting(step.kind)).count()
}

/// The four tests of a plan whose records are read.
fn tests(plan: &StoredPlan) -> Vec<Test> {
    let dense = plan.estimated_dense_work;
    let component = plan.estimated_component_work;
    let allocated = plan.component_allocated_dimension as f64;
    let room = ROOM * plan.dense_peak_dimension as f64;
    vec![
        Test::at_least(
            "quantum instructions",
            instructions(plan) as f64,
            "",
            INSTRUCTIONS as f64,
        ),
        Test::at_least(
            "dense work",
            dense,
            "1.8 x component work",
            RATIO * component,
        ),
        Test::at_least("work saved", dense - component, "", SAVING),
        Test {
            name: "allocated",
            left: allocated,
            relation: "<=",
            origin: format!("1.25 x {}", power(plan.dense_peak_dimension as u64)),
            right: room,
            passes: allocated <= room,
            is_rounded: allocated as u128 != plan.component_allocated_dimension as u128,
        },
    ]
}

/// A number as the power of two that it is, if it is one.
fn power(number: u64) -> String {
    match number.is_power_of_two() {
        true => format!("2^{}", number.trailing_zeros()),
        false => figures::whole(number),
    }
}

impl Choice {
    /// The tests, and whether they say what the plan says.
    fn tested(plan: &StoredPlan) -> Self {
        let tests = tests(plan);
        let agrees = tests.iter().all(|test| test.passes) == plan.selected;
        Self::Tested { tests, agrees }
    }

    /// The tests of a stored plan, which tells of its head no more than the dense peak.
    pub fn of_stored(plan: &StoredPlan) -> Self {
        match sense::is_empty(plan) && !plan.selected {
            true => Self::Nothing,
            false => Self::tested(plan),
        }
    }

    /// Whether a stored plan is selected where all its tests pass, and there alone.
    pub fn is_sound(&self, plan: &StoredPlan) -> Result<(), String> {
        let Self::Tested { tests, agrees } = self else {
            return Ok(());
        };
        require(*agrees, || {
            let found = u8::from(plan.selected);
            format!("selected is {found}, and {}", text::verdict(tests))
        })
    }

    /// The tests of a plan, or why there are none.
    pub fn of(head: &Head, plan: &StoredPlan) -> Self {
        if head.max_k < LEAST_MAX {
            return Self::Unread(format!("max {} is below {LEAST_MAX}", head.max_k));
        }
        if head.nexpvals != 0 {
            return Self::Unread(format!("expvals {} is not 0", head.nexpvals));
        }
        Self::tested(plan)
    }
}

#[cfg(test)]
mod tests_of_choice {
    use super::*;
    use midvokt::{Record, Refusal, LARGEST_CEILING};

    /// What a file keeps of a plan.
    fn plan(head: &Head, records: &[Record]) -> Result<StoredPlan, Refusal> {
        midvokt::plan(head, records).map(StoredPlan::from)
    }

    /// The head with so many coordinates and this limit.
    fn head(initial_k: u64, max_k: u64, nexpvals: u64) -> Head {
        Head {
            initial_k,
            max_k,
            nexpvals,
            ceiling: LARGEST_CEILING,
        }
    }

    #[test]
    fn each_test_has_its_sides() {
        let head = head(3, 8, 0);
        let plan = plan(&head, &[Record::rotation(3, 5, 0, 0, 0.0)]).unwrap();
        let Choice::Tested { tests, agrees } = Choice::of(&head, &plan) else {
            panic!("unread");
        };
        let sides: Vec<_> = tests.iter().map(|test| (test.left, test.right)).collect();
        assert_eq!(
            sides,
            [(1.0, 4.0), (8.0, 1.8 * 44.0), (-36.0, 8192.0), (8.0, 320.0)]
        );
        let passes: Vec<_> = tests.iter().map(|test| test.passes).collect();
        assert_eq!(passes, [false, false, false, true]);
        assert!(agrees);
    }

    #[test]
    fn a_plan_that_says_otherwise_is_noticed() {
        let head = head(3, 8, 0);
        let mut plan = plan(&head, &[]).unwrap();
        plan.selected = true;
        assert!(matches!(
            Choice::of(&head, &plan),
            Choice::Tested { agrees: false, .. }
        ));
    }

    #[test]
    fn an_unread_head_gives_the_reason() {
        let small = head(3, 7, 0);
        let plan = plan(&small, &[]).unwrap();
        assert_eq!(
            Choice::of(&small, &plan),
            Choice::Unread("max 7 is below 8".to_owned())
        );
        let expected = head(3, 8, 2);
        assert_eq!(
            Choice::of(&expected, &plan),
            Choice::Unread("expvals 2 is not 0".to_owned())
        );
    }

    #[test]
    fn a_stored_plan_has_the_tests_of_its_circuit() {
        let head = head(3, 8, 0);
        let planned = plan(&head, &[Record::rotation(3, 5, 0, 0, 0.0)]).unwrap();
        assert_eq!(Choice::of_stored(&planned), Choice::of(&head, &planned));
        let unread = plan(&Head { max_k: 7, ..head }, &[]).unwrap();
        assert_eq!(Choice::of_stored(&unread), Choice::Nothing);
        let selected = StoredPlan {
            selected: true,
            ..unread
        };
        let choice = Choice::of_stored(&selected);
        assert_eq!(
            choice.is_sound(&selected).unwrap_err(),
            "selected is 1, and 2 of the four tests fail: quantum instructions, work saved"
        );
        assert_eq!(Choice::Nothing.is_sound(&planned), Ok(()));
        assert_eq!(Choice::of_stored(&planned).is_sound(&planned), Ok(()));
        assert_eq!([power(256), power(100)], ["2^8", "100"]);
    }

    #[test]
    fn sides_that_look_the_same_are_written_out() {
        let test = Test::at_least("work", 79.2, "", 79.200_000_000_000_03);
        assert_eq!(
            test.sides(),
            ("79.2".to_owned(), "79.20000000000003".to_owned())
        );
    }
}
