//! What a plan's records come to: works as floats, summed in the order of the records, and
//! dimensions. They are counted again by the steps and sources alone, and the plan's scalar fields
//! are held to them.

use midvokt::{ActiveComponentStepKind as Kind, StoredPlan, LARGEST_CEILING};

use crate::choice::LEAST_MAX;
use crate::figures;
use crate::lives::Event;
use crate::sense::{self, require};

/// The most active coordinates that a rotation or a measurement is over.
const WIDEST: usize = LARGEST_CEILING as usize;

/// The work of a promotion, and what a row's work is above its component's dimension.
const PROMOTION: f64 = 34.0;
const ROW: f64 = 32.0;

/// The exponents that a dense peak can have, and the least where records are read.
const DENSE_PEAKS: std::ops::RangeInclusive<u32> = 0..=LARGEST_CEILING as u32 - 1;
const LEAST_READ: u32 = LEAST_MAX as u32;

/// The sums up to some record.
pub struct Tally {
    /// How many members each component has; 0 where it does not live.
    sizes: Vec<usize>,
    /// How many coordinates are active.
    width: usize,
    /// The work of one wide register.
    dense: f64,
    /// The work of the components.
    component: f64,
    /// The greatest sum of the live components' dimensions.
    peak: u128,
}

/// A power of two, exactly, for a width that a program can have.
fn power(exponent: usize) -> f64 {
    2f64.powi(exponent as i32)
}

/// The sum of the dimensions of components with so many members.
fn dimensions(sizes: &[usize]) -> u128 {
    let live = sizes.iter().filter(|&&size| size > 0);
    live.map(|&size| 1 << size).sum()
}

/// A dimension is the one that the records make, at most 2^64 - 1.
fn dimension(name: &str, found: usize, wanted: u128) -> Result<(), String> {
    let (found, wanted) = (found as u64, wanted.min(u64::MAX.into()) as u64);
    require(found == wanted, || {
        let (found, wanted) = (figures::whole(found), figures::whole(wanted));
        format!("{name} is {found}, and the records make it {wanted}")
    })
}

/// A work has the bits of the one that the records make.
fn work(name: &str, found: f64, wanted: f64) -> Result<(), String> {
    require(found.to_bits() == wanted.to_bits(), || {
        format!("{name} is {found:e}, and the records make it {wanted:e}")
    })
}

/// The dense peak is a power of two, as large as it has to be where records are read.
fn dense_peak(plan: &StoredPlan) -> Result<(), String> {
    let (found, most) = (plan.dense_peak_dimension, DENSE_PEAKS.end());
    let least = match sense::is_empty(plan) {
        true => *DENSE_PEAKS.start(),
        false => LEAST_READ,
    };
    let is_one = found.is_power_of_two() && (least..=*most).contains(&found.trailing_zeros());
    require(is_one, || {
        let found = figures::whole(found as u64);
        format!(
            "dense_peak_dimension is {found}, and a power of two from 2^{least} to 2^{most} \
             is expected"
        )
    })
}

impl Tally {
    /// The sums in front of the first record, from so many components of one member.
    pub fn start(components: usize) -> Self {
        let sizes = vec![1; components];
        Self {
            width: components,
            dense: 0.0,
            component: 0.0,
            peak: dimensions(&sizes),
            sizes,
        }
    }

    /// Adds a step, with the event that it is, which was followed: its components live.
    pub fn take(&mut self, kind: Kind, event: Option<&Event>) -> Result<(), String> {
        self.can_take(kind)?;
        let dense = power(self.width);
        match (kind, event) {
            (Kind::None, _) => {}
            (Kind::IgnoredGlobalPhase, _) | (_, None) => self.dense += dense,
            (Kind::Rotation, Some(event)) => {
                self.dense += dense;
                let size = self.join(event);
                self.component += power(size) + ROW;
            }
            (Kind::Measurement, Some(event)) => {
                self.dense += 2.0 * dense;
                let size = self.join(event);
                self.component += 2.0 * power(size) + ROW;
                self.sizes[event.component] -= 1;
                self.width -= 1;
            }
            (Kind::Promotion, Some(_)) => {
                self.dense += 2.0 * dense;
                self.component += PROMOTION;
                self.sizes.push(1);
                self.width += 1;
            }
        }
        self.peak = self.peak.max(dimensions(&self.sizes));
        Ok(())
    }

    /// Whether a step of this kind can be where so many coordinates are active.
    fn can_take(&self, kind: Kind) -> Result<(), String> {
        let active = figures::count(self.width as u64, "coordinate is", "coordinates are");
        match kind {
            Kind::IgnoredGlobalPhase => require(self.width == 0, || {
                format!("it is a global phase, for which none may be active, and {active}")
            }),
            Kind::Rotation | Kind::Measurement => require(self.width <= WIDEST, || {
                format!("{active} active there, and for a row {WIDEST} are the most")
            }),
            Kind::None | Kind::Promotion => Ok(()),
        }
    }

    /// Joins an event's sources, adds what that costs, and gives the members that there are then.
    fn join(&mut self, event: &Event) -> usize {
        let mut size = self.sizes[event.component];
        let mut cost = 0.0;
        for &source in &event.joined {
            size += std::mem::take(&mut self.sizes[source]);
            cost += 2.0 * power(size);
        }
        self.sizes[event.component] = size;
        self.component += cost;
        self.peak = self.peak.max(dimensions(&self.sizes));
        size
    }

    /// Whether the plan's scalar fields are what its records come to, with the longest sizes.
    pub fn is_of(&self, plan: &StoredPlan, longest: &[usize]) -> Result<(), String> {
        work(
            "estimated_dense_work",
            plan.estimated_dense_work,
            self.dense,
        )?;
        let found = plan.estimated_component_work;
        work("estimated_component_work", found, self.component)?;
        dense_peak(plan)?;
        let found = plan.component_peak_live_dimension;
        dimension("component_peak_live_dimension", found, self.peak)?;
        let found = plan.component_allocated_dimension;
        dimension("component_allocated_dimension", found, dimensions(longest))
    }
}

#[cfg(test)]
mod tests {
    use super::*;
    use crate::lives::Replay;
    use crate::sense::tests::said;
    use midvokt::{plan, Head, Record, LARGEST_CEILING};

    /// The plan of records from so many coordinates.
    fn plan_of(initial_k: u64, max_k: u64, records: &[Record]) -> StoredPlan {
        let head = Head {
            initial_k,
            max_k,
            nexpvals: 0,
            ceiling: LARGEST_CEILING,
        };
        StoredPlan::from(plan(&head, records).unwrap())
    }

    /// What is said of a plan that can be followed, with a change.
    fn changed(mut plan: StoredPlan, change: impl Fn(&mut StoredPlan)) -> String {
        assert!(Replay::of(&plan).is_ok());
        change(&mut plan);
        Replay::of(&plan).unwrap_err()
    }

    /// Dense: 8 + 16 + 32 + 16 + 4. Components: 8 + 36, 34, 16 + 48, 36 and 36.
    #[test]
    fn works_are_those_of_the_records() {
        let found = [
            said(|plan| plan.estimated_dense_work = 81.0),
            said(|plan| plan.estimated_component_work = f64::INFINITY),
        ];
        let wanted = [
            "estimated_dense_work is 8.1e1, and the records make it 7.6e1",
            "estimated_component_work is inf, and the records make it 2.14e2",
        ];
        assert_eq!(found, wanted);
    }

    #[test]
    fn works_of_no_record_are_not_negative() {
        let unread = |change: fn(&mut StoredPlan)| changed(plan_of(3, 7, &[]), change);
        assert_eq!(
            unread(|plan| plan.estimated_dense_work = -0.0),
            "estimated_dense_work is -0e0, and the records make it 0e0"
        );
        assert_eq!(
            unread(|plan| plan.component_peak_live_dimension = 1),
            "component_peak_live_dimension is 1, and the records make it 0"
        );
        assert_eq!(
            unread(|plan| plan.dense_peak_dimension = 1 << 62),
            "dense_peak_dimension is 4,611,686,018,427,387,904, and a power of two from 2^0 to \
             2^61 is expected"
        );
    }

    #[test]
    fn dimensions_are_those_of_the_records() {
        assert_eq!(
            said(|plan| plan.component_peak_live_dimension = 6),
            "component_peak_live_dimension is 6, and the records make it 10"
        );
        assert_eq!(
            said(|plan| plan.component_allocated_dimension = usize::MAX),
            "component_allocated_dimension is 18,446,744,073,709,551,615, and the records make \
             it 14"
        );
        for peak in [0, 1, 128, 384, 1 << 62, usize::MAX] {
            let found = said(|plan| plan.dense_peak_dimension = peak);
            let wanted = format!(
                "dense_peak_dimension is {}, and a power of two from 2^8 to 2^61 is expected",
                figures::whole(peak as u64)
            );
            assert_eq!(found, wanted);
        }
    }

    #[test]
    fn steps_are_where_they_can_be() {
        let phase = plan_of(0, 8, &[Record::rotation(0, 0, 0, 0, 0.5)]);
        let step = phase.instruction_steps[0];
        assert_eq!(step.kind, Kind::IgnoredGlobalPhase);
        let idle = plan_of(1, 8, &[Record::RecordDetector]);
        assert_eq!(
            changed(idle, |plan| plan.instruction_steps[0] = step),
            "record 0: it is a global phase, for which none may be active, and 1 coordinate is"
        );
        let wide = plan_of(62, 8, &[Record::rotation(62, 1, 0, 0, 0.5)]);
        let wider = |plan: &mut StoredPlan| {
            plan.initial_components = 63;
            plan.component_count = 63;
            plan.component_max_k.push(1);
        };
        assert_eq!(
            changed(wide, wider),
            "record 0: 63 coordinates are active there, and for a row 62 are the most"
        );
    }

    /// The longest sums that a program has: 512 promotions, and members of 61.
    #[test]
    fn the_largest_programs_are_followed() {
        let mut records = vec![Record::Promotion; 512];
        records.extend([Record::RecordDetector; 512]);
        assert!(Replay::of(&plan_of(0, 8, &records)).is_ok());
        let mut records = Vec::new();
        for _ in 0..8 {
            records.push(Record::rotation(61, (1 << 61) - 1, 0, 0, 0.5));
            records.extend((0..61).map(|left| Record::measurement(61 - left, 1, 0, 0, 0)));
            records.extend([Record::Promotion; 61]);
        }
        let plan = plan_of(61, 8, &records[..records.len() - 122]);
        assert_eq!(plan.component_allocated_dimension, usize::MAX);
        assert!(Replay::of(&plan).is_ok());
    }
}
