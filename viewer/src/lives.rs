//! Follows the components of a plan from record to record, by the plan's steps, rows and merge
//! list alone: who joins whom, whose coordinate leaves, and where each component ends. A stored plan
//! may come from elsewhere, so that nothing is followed before it is held to what went before.

use midvokt::{ActiveComponentStepKind as Kind, ActivePauliAction, StoredPlan};

use crate::kernel_sense;
use crate::sense::{self, Rows};
use crate::sources;
use crate::tally::Tally;

/// What a record does to its component.
#[derive(Clone, Copy, Debug, PartialEq, Eq)]
pub enum Deed {
    /// It is rotated.
    Rotation,
    /// It is made, with one new coordinate.
    Promotion,
    /// It is measured, and a coordinate leaves.
    Measurement {
        /// The coordinate that leaves.
        leaves: usize,
        /// Whether it was the last one.
        empties: bool,
    },
}

/// A record that concerns a component.
#[derive(Clone, Debug, PartialEq, Eq)]
pub struct Event {
    /// The record's number.
    pub record: usize,
    /// What it does.
    pub deed: Deed,
    /// The row among the rows of its kind.
    pub row: usize,
    /// The component.
    pub component: usize,
    /// The other components that join it, ascending.
    pub joined: Vec<usize>,
    /// Its members in order, after the joins and before a coordinate leaves.
    pub members: Vec<usize>,
}

/// How a component ends.
#[derive(Clone, Copy, Debug, PartialEq, Eq)]
pub enum End {
    /// It lives behind the last record.
    Lives,
    /// It joins another one.
    Joined {
        /// The record.
        at: usize,
        /// The other component.
        into: usize,
    },
    /// Its last coordinate is measured away.
    Emptied {
        /// The record.
        at: usize,
    },
}

impl End {
    /// The record of the end; none for one that lives.
    pub fn record(&self) -> Option<usize> {
        match *self {
            Self::Lives => None,
            Self::Joined { at, .. } | Self::Emptied { at } => Some(at),
        }
    }
}

/// The life of a component.
#[derive(Clone, Debug, PartialEq, Eq)]
pub struct Life {
    /// The record of the promotion; none for a component that is there at the start.
    pub born: Option<usize>,
    /// How it ends.
    pub end: End,
    /// The most members that it has at any time.
    pub longest: usize,
    /// Records behind which its size is another one, with that size.
    pub sizes: Vec<(usize, usize)>,
}

impl Life {
    /// Whether it lives in front of a record.
    pub fn before(&self, record: usize) -> bool {
        self.born.is_none_or(|born| born < record)
            && self.end.record().is_none_or(|end| end >= record)
    }

    /// Whether it lives behind a record.
    pub fn after(&self, record: usize) -> bool {
        self.born.is_none_or(|born| born <= record)
            && self.end.record().is_none_or(|end| end > record)
    }
}

/// The components of a plan from its first record to its last.
#[derive(Clone, Debug, Default, PartialEq, Eq)]
pub struct Replay {
    /// The records that concern a component, in order.
    pub events: Vec<Event>,
    /// The life of each component, by its number.
    pub lives: Vec<Life>,
    /// The members of each component at the end; empty for one that does not live.
    pub members: Vec<Vec<usize>>,
}

impl Replay {
    /// Follows a plan, or says what is senseless about it. One whose records are unread has no
    /// component.
    pub fn of(plan: &StoredPlan) -> Result<Self, String> {
        let mut replay = Self::default();
        let mut rows = Rows::default();
        let first = sense::first_components(plan)?;
        (0..first).for_each(|component| replay.open(None, component));
        let mut tally = Tally::start(first);
        for (record, step) in plan.instruction_steps.iter().enumerate() {
            rows.take(plan, step)
                .and_then(|()| replay.step(plan, record, step.kind, step.payload))
                .and_then(|()| tally.take(step.kind, replay.event(record)))
                .map_err(|what| format!("record {record}: {what}"))?;
        }
        rows.are_all(plan)?;
        let longest: Vec<_> = replay.lives.iter().map(|life| life.longest).collect();
        sense::sizes(plan, &longest)?;
        tally.is_of(plan, &longest)?;
        Ok(replay)
    }

    /// The event of a record, if it concerns a component.
    pub fn event(&self, record: usize) -> Option<&Event> {
        let place = self
            .events
            .binary_search_by_key(&record, |event| event.record);
        place.ok().map(|place| &self.events[place])
    }

    /// A new component that holds the coordinate of its number.
    fn open(&mut self, born: Option<usize>, component: usize) {
        self.members.push(vec![component]);
        self.lives.push(Life {
            born,
            end: End::Lives,
            longest: 1,
            sizes: Vec::new(),
        });
    }

    /// One record's step, with its row.
    fn step(
        &mut self,
        plan: &StoredPlan,
        record: usize,
        kind: Kind,
        row: usize,
    ) -> Result<(), String> {
        match kind {
            Kind::None | Kind::IgnoredGlobalPhase => {}
            Kind::Rotation => {
                let step = &plan.rotations[row];
                let sources = plan.sources(step.merge_offset, step.merge_count);
                self.join(record, row, sources, &step.kernel.action)?;
                kernel_sense::rotation(&step.kernel)?;
            }
            Kind::Promotion => {
                let component = plan.promotions[row].component;
                sense::promotion(component, self.lives.len())?;
                self.open(Some(record), component);
                self.note(record, row, vec![component]);
                self.change_deed(Deed::Promotion);
            }
            Kind::Measurement => {
                let step = &plan.measurements[row];
                let sources = plan.sources(step.merge_offset, step.merge_count);
                self.join(record, row, sources, &step.kernel.action)?;
                let members = self.members[step.component].len();
                sense::removal(step, members)?;
                kernel_sense::measurement(&step.kernel)?;
                self.remove(record, step.component, step.kernel.pivot);
            }
        }
        Ok(())
    }

    /// Joins the sources into the first of them, and notes a rotation of it.
    fn join(
        &mut self,
        record: usize,
        row: usize,
        sources: &[usize],
        action: &ActivePauliAction,
    ) -> Result<(), String> {
        sources::live(sources, &self.members)?;
        let members = sources.iter().map(|&source| self.members[source].len());
        sense::action(action, members.sum())?;
        sources::reach(action, sources, &self.members)?;
        let component = sources[0];
        for &source in &sources[1..] {
            let members = std::mem::take(&mut self.members[source]);
            self.members[component].extend(members);
            self.lives[source].end = End::Joined {
                at: record,
                into: component,
            };
        }
        self.note(record, row, sources.to_vec());
        Ok(())
    }

    /// Notes a rotation of the first of the sources, which the others have joined.
    fn note(&mut self, record: usize, row: usize, sources: Vec<usize>) {
        let component = sources[0];
        let joined = sources[1..].to_vec();
        let members = self.members[component].clone();
        let life = &mut self.lives[component];
        life.longest = life.longest.max(members.len());
        if !joined.is_empty() {
            life.sizes.push((record, members.len()));
        }
        self.events.push(Event {
            record,
            deed: Deed::Rotation,
            row,
            component,
            joined,
            members,
        });
    }

    /// Makes the last event one of another kind.
    fn change_deed(&mut self, deed: Deed) {
        if let Some(event) = self.events.last_mut() {
            event.deed = deed;
        }
    }

    /// Takes the member at a local position away.
    fn remove(&mut self, record: usize, component: usize, pivot: usize) {
        let members = &mut self.members[component];
        let leaves = members.remove(pivot);
        let empties = members.is_empty();
        let life = &mut self.lives[component];
        life.sizes.retain(|&(changed, _)| changed != record);
        life.sizes.push((record, members.len()));
        if empties {
            life.end = End::Emptied { at: record };
        }
        self.change_deed(Deed::Measurement { leaves, empties });
    }

    /// Whether these groups are the components that live at the end, by their numbers.
    pub fn ends_with(&self, groups: &[Vec<usize>]) -> bool {
        let live = self.members.iter().filter(|members| !members.is_empty());
        live.eq(groups)
    }
}

#[cfg(test)]
mod tests {
    use super::*;
    use midvokt::{plan, ActiveComponentPlan, Head, Record, LARGEST_CEILING};

    /// The plan of records from so many coordinates.
    fn plan_of(initial_k: u64, records: &[Record]) -> ActiveComponentPlan {
        let head = Head {
            initial_k,
            max_k: 8,
            nexpvals: 0,
            ceiling: LARGEST_CEILING,
        };
        plan(&head, records).unwrap()
    }

    /// Three coordinates: two joins, a promotion, and measurements until one member is left.
    fn planned() -> ActiveComponentPlan {
        let records = [
            Record::rotation(3, 5, 0, 0, 0.0),
            Record::measurement(3, 0, 6, 0, 2),
            Record::RecordMeasurement,
            Record::Promotion,
            Record::measurement(3, 0, 4, 0, 2),
        ];
        plan_of(3, &records)
    }

    /// The plan followed.
    fn followed() -> Replay {
        Replay::of(&StoredPlan::from(planned())).unwrap()
    }

    #[test]
    fn lives_end_where_the_plan_ends_them() {
        let plan = planned();
        let replay = followed();
        let ends: Vec<_> = replay.lives.iter().map(|life| life.end).collect();
        assert_eq!(
            ends,
            [
                End::Lives,
                End::Joined { at: 1, into: 0 },
                End::Joined { at: 0, into: 0 },
                End::Emptied { at: 4 }
            ]
        );
        assert_eq!(replay.lives[3].born, Some(3));
        assert_eq!(replay.lives[0].sizes, [(0, 2), (1, 2)]);
        assert!(replay.ends_with(&plan.groups));
    }

    #[test]
    fn events_hold_members_in_the_order_of_local_bits() {
        let replay = followed();
        assert_eq!(replay.event(0).unwrap().members, [0, 2]);
        let measured = replay.event(1).unwrap();
        assert_eq!(
            (&measured.members[..], &measured.joined[..]),
            (&[0, 2, 1][..], &[1][..])
        );
        assert_eq!(
            measured.deed,
            Deed::Measurement {
                leaves: 2,
                empties: false
            }
        );
        assert_eq!(replay.event(2), None);
        assert_eq!(
            replay.event(4).unwrap().deed,
            Deed::Measurement {
                leaves: 3,
                empties: true
            }
        );
    }

    #[test]
    fn a_component_lives_between_birth_and_end() {
        let replay = followed();
        let joined = &replay.lives[1];
        assert!(joined.before(0) && joined.after(0) && joined.before(1) && !joined.after(1));
        let promoted = &replay.lives[3];
        assert!(!promoted.before(3) && promoted.after(3) && promoted.before(4));
        assert!(!promoted.after(4));
    }

    #[test]
    fn another_plan_does_not_agree() {
        let mut plan = planned();
        plan.groups[0].swap(0, 1);
        assert!(!followed().ends_with(&plan.groups));
    }

    /// Components 0, 2 and 3 live at the end, and their first members are 4, 2 and 3.
    #[test]
    fn groups_in_another_order_do_not_agree() {
        let records = [
            Record::rotation(6, 0x11, 0, 0, 0.0),
            Record::measurement(6, 0, 1, 0, 0),
            Record::measurement(5, 0, 1, 0, 0),
            Record::rotation(4, 0xa, 0, 0, 0.0),
        ];
        let mut plan = plan_of(6, &records);
        let replay = Replay::of(&StoredPlan::from(plan.clone())).unwrap();
        assert!(replay.ends_with(&plan.groups));
        plan.groups.sort();
        assert!(!replay.ends_with(&plan.groups));
        plan.groups.pop();
        assert!(!replay.ends_with(&plan.groups));
    }

    #[test]
    fn an_unread_plan_has_no_component() {
        let head = Head {
            initial_k: u64::MAX,
            max_k: 7,
            nexpvals: 0,
            ceiling: LARGEST_CEILING,
        };
        let plan = StoredPlan::from(plan(&head, &[]).unwrap());
        assert_eq!(Replay::of(&plan), Ok(Replay::default()));
    }
}
