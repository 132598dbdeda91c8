//! What a plan has to hold so that it can be followed and shown: rows in the order of the steps
//! that name them, and sizes, masks and pivots that belong to their members. The library's own
//! plans hold all of it; a stored plan that is damaged or comes from elsewhere may not, and then
//! it is said in words.

use midvokt::{
    ActiveComponentMeasurementStep, ActiveComponentStepKind as Kind, ActiveComponentStepRef,
    ActivePauliAction, StoredPlan, LARGEST_CEILING, MOST_RECORDS,
};

use crate::figures;

/// The most components that a program can make, and the most members that one can have: below the
/// largest ceiling, since a stored plan does not hold its own.
pub const MOST_COMPONENTS: usize = 512;
const MOST_MEMBERS: usize = LARGEST_CEILING as usize - 1;

const NO_ROW: &str = "its row is not there";

/// Nothing where something holds, else the words.
pub fn require(holds: bool, words: impl FnOnce() -> String) -> Result<(), String> {
    match holds {
        true => Ok(()),
        false => Err(words()),
    }
}

/// Whether a plan has neither steps nor components, as one whose records are unread.
pub fn is_empty(plan: &StoredPlan) -> bool {
    plan.instruction_steps.is_empty() && plan.component_count == 0
}

/// How many components there are at the start. It is no more than a program can have, and so are
/// the steps.
pub fn first_components(plan: &StoredPlan) -> Result<usize, String> {
    let (steps, promotions) = (plan.instruction_steps.len(), plan.promotions.len());
    let (first, count) = (plan.initial_components, plan.component_count);
    require(steps <= MOST_RECORDS, || {
        let (steps, most) = (
            figures::whole(steps as u64),
            figures::whole(MOST_RECORDS as u64),
        );
        format!("there are {steps} steps, and {most} records are the most")
    })?;
    require(count <= MOST_COMPONENTS, || {
        let count = figures::whole(count as u64);
        format!("there are {count} components, and {MOST_COMPONENTS} are the most")
    })?;
    if is_empty(plan) {
        return Ok(0);
    }
    require(first.checked_add(promotions) == Some(count), || {
        let promoted = figures::count(promotions as u64, "promotion", "promotions");
        let first = figures::whole(first as u64);
        format!("component_count is {count}, and there are {first} at the start and {promoted}")
    })?;
    Ok(first)
}

/// How many rows of each kind, and how many sources, the steps have named so far.
#[derive(Default)]
pub struct Rows {
    rotations: usize,
    promotions: usize,
    measurements: usize,
    merges: usize,
}

impl Rows {
    /// Takes the row that a step names: the next one of its kind, with the next sources.
    pub fn take(&mut self, plan: &StoredPlan, step: &ActiveComponentStepRef) -> Result<(), String> {
        let next = match step.kind {
            Kind::None | Kind::IgnoredGlobalPhase => return Ok(()),
            Kind::Rotation => &mut self.rotations,
            Kind::Promotion => &mut self.promotions,
            Kind::Measurement => &mut self.measurements,
        };
        let (wanted, found) = (*next, step.payload);
        *next += 1;
        require(wanted == found, || {
            format!("its row is number {found} of its kind, and number {wanted} comes next")
        })?;
        let (component, offset, count) = match step.kind {
            Kind::Rotation => {
                let row = plan.rotations.get(found).ok_or(NO_ROW)?;
                (row.component, row.merge_offset, row.merge_count)
            }
            Kind::Measurement => {
                let row = plan.measurements.get(found).ok_or(NO_ROW)?;
                (row.component, row.merge_offset, row.merge_count)
            }
            _ => {
                return plan
                    .promotions
                    .get(found)
                    .map(|_| ())
                    .ok_or(NO_ROW.to_owned())
            }
        };
        self.take_sources(plan, component, offset, count)
    }

    /// Takes a row's sources, of which the first is its component.
    fn take_sources(
        &mut self,
        plan: &StoredPlan,
        component: usize,
        offset: usize,
        count: usize,
    ) -> Result<(), String> {
        let next = self.merges;
        require(offset == next, || {
            format!(
                "its sources begin at word {offset} of the merge list, and word {next} comes next"
            )
        })?;
        let first = plan.sources(offset, count).first();
        require(first == Some(&component), || {
            let first = first.map_or("nothing".to_owned(), usize::to_string);
            format!("its component is {component}, and the first of its sources is {first}")
        })?;
        self.merges += count;
        Ok(())
    }

    /// Whether the steps have named all rows and sources.
    pub fn are_all(&self, plan: &StoredPlan) -> Result<(), String> {
        let counts = [
            ("rotation rows", self.rotations, plan.rotations.len()),
            ("promotion rows", self.promotions, plan.promotions.len()),
            (
                "measurement rows",
                self.measurements,
                plan.measurements.len(),
            ),
            ("sources", self.merges, plan.merge_components.len()),
        ];
        for (name, named, found) in counts {
            require(named == found, || {
                let (named, found) = (figures::whole(named as u64), figures::whole(found as u64));
                format!("there are {found} {name}, and the steps name {named}")
            })?;
        }
        Ok(())
    }
}

/// The component that a promotion makes is the next one.
pub fn promotion(component: usize, next: usize) -> Result<(), String> {
    require(component == next, || {
        format!("it makes component {component}, and {next} is the next")
    })
}

/// A row's size is that of its component, and its masks have no bit above it.
pub fn action(action: &ActivePauliAction, members: usize) -> Result<(), String> {
    let size = action.nqubits;
    require(size == members && members <= MOST_MEMBERS, || {
        let members = figures::count(members as u64, "member", "members");
        let size = figures::whole(size as u64);
        format!(
            "its row is for {size}, its component has {members}, and {MOST_MEMBERS} are the most"
        )
    })?;
    let masks = action.xmask | action.zmask;
    require(masks >> members == 0, || {
        let members = figures::count(members as u64, "member", "members");
        format!("its masks have bits that none of its component's {members} has")
    })
}

/// The pivot is one of so many members, and the row says whether it is the last.
pub fn removal(row: &ActiveComponentMeasurementStep, members: usize) -> Result<(), String> {
    let pivot = row.kernel.pivot;
    let of = figures::count(members as u64, "member", "members");
    require(pivot < members, || {
        format!("its pivot is {pivot}, and its component has {of}")
    })?;
    require(row.deactivate_after == (members == 1), || {
        let word = if row.deactivate_after { "is" } else { "is not" };
        format!("its component {word} said to end there, and has {of}")
    })
}

/// The longest sizes are those that were found.
pub fn sizes(plan: &StoredPlan, longest: &[usize]) -> Result<(), String> {
    for (component, (&said, &found)) in plan.component_max_k.iter().zip(longest).enumerate() {
        require(said == found, || {
            let found = figures::count(found as u64, "member", "members");
            let said = figures::whole(said as u64);
            format!("component {component} has {found} at most, and its longest size is {said}")
        })?;
    }
    Ok(())
}

#[cfg(test)]
pub mod tests {
    use super::*;
    use crate::lives::Replay;
    use midvokt::{plan, Head, Record};

    /// Three coordinates: a join, a promotion, a join, and measurements until one member is left.
    pub fn planned() -> StoredPlan {
        let head = Head {
            initial_k: 3,
            max_k: 8,
            nexpvals: 0,
            ceiling: LARGEST_CEILING,
        };
        let records = [
            Record::rotation(3, 5, 0, 0, 0.5),
            Record::Promotion,
            Record::measurement(4, 0, 6, 0, 2),
            Record::RecordDetector,
            Record::measurement(3, 0, 4, 0, 2),
            Record::rotation(2, 1, 0, 0, 0.5),
        ];
        StoredPlan::from(plan(&head, &records).unwrap())
    }

    /// What is said of the plan with a change.
    pub fn said(change: impl Fn(&mut StoredPlan)) -> String {
        let mut plan = planned();
        change(&mut plan);
        Replay::of(&plan).unwrap_err()
    }

    #[test]
    fn a_plan_of_the_library_is_followed() {
        assert!(Replay::of(&planned()).is_ok());
    }

    #[test]
    fn counts_have_their_bounds() {
        let step = ActiveComponentStepRef::default();
        assert_eq!(
            said(|plan| plan.instruction_steps.resize(1025, step)),
            "there are 1,025 steps, and 1,024 records are the most"
        );
        assert_eq!(
            said(|plan| plan.component_count = 513),
            "there are 513 components, and 512 are the most"
        );
        for first in [4, usize::MAX] {
            let found = said(|plan| plan.initial_components = first);
            let wanted = format!("there are {} at the start", figures::whole(first as u64));
            assert!(found.contains(&wanted), "{found}");
        }
    }

    #[test]
    fn rows_come_in_order_and_all() {
        assert_eq!(
            said(|plan| plan.instruction_steps[5].payload = 0),
            "record 5: its row is number 0 of its kind, and number 1 comes next"
        );
        assert_eq!(
            said(|plan| plan.instruction_steps[5] = ActiveComponentStepRef::default()),
            "there are 2 rotation rows, and the steps name 1"
        );
        let lost = [
            said(|plan| plan.rotations.clear()),
            said(|plan| plan.measurements.clear()),
        ];
        assert_eq!(
            lost,
            [0, 2].map(|record| format!("record {record}: {NO_ROW}"))
        );
        assert_eq!(
            said(|plan| plan.merge_components.push(0)),
            "there are 7 sources, and the steps name 6"
        );
        assert_eq!(
            said(|plan| plan.rotations[1].merge_offset = 0),
            "record 5: its sources begin at word 0 of the merge list, and word 5 comes next"
        );
        assert_eq!(
            said(|plan| plan.promotions[0].component = 2),
            "record 1: it makes component 2, and 3 is the next"
        );
    }

    #[test]
    fn masks_and_pivots_belong_to_members() {
        assert_eq!(
            said(|plan| plan.rotations[0].kernel.action.nqubits = 64),
            "record 0: its row is for 64, its component has 2 members, and 61 are the most"
        );
        assert_eq!(
            said(|plan| plan.rotations[0].kernel.action.zmask = 4),
            "record 0: its masks have bits that none of its component's 2 members has"
        );
        assert_eq!(
            said(|plan| plan.measurements[0].kernel.pivot = 3),
            "record 2: its pivot is 3, and its component has 3 members"
        );
        assert_eq!(
            said(|plan| plan.measurements[1].deactivate_after = false),
            "record 4: its component is not said to end there, and has 1 member"
        );
        assert_eq!(
            said(|plan| plan.component_max_k[0] = 4),
            "component 0 has 3 members at most, and its longest size is 4"
        );
    }
}
