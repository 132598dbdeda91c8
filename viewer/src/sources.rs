//! What the sources of a row have to be: components that live, those that the row's masks reach,
//! and in front of them the one that the others join.

use std::cmp::Reverse;

use midvokt::ActivePauliAction;

use crate::figures;
use crate::sense::require;

/// The sources of a row: components that live, those behind the first ascending and other ones.
pub fn live(sources: &[usize], members: &[Vec<usize>]) -> Result<(), String> {
    let lives = |&component: &usize| members.get(component).is_some_and(|m| !m.is_empty());
    let dead = sources.iter().find(|component| !lives(component));
    require(dead.is_none(), || {
        let dead = dead.copied().unwrap_or_default();
        format!("component {dead} does not live there")
    })?;
    let (Some(first), Some(joined)) = (sources.first(), sources.get(1..)) else {
        return Err("it has no component".to_owned());
    };
    let is_ascending = joined.windows(2).all(|pair| pair[0] < pair[1]);
    require(is_ascending && !joined.contains(first), || {
        let joined = figures::list(joined);
        format!("component {first} is joined by {joined}, and others join by ascending number")
    })
}

/// The first source is the largest, and of equals the one with the smallest number.
fn target(sources: &[usize], members: &[Vec<usize>]) -> Result<(), String> {
    let rank = |&&source: &&usize| (members[source].len(), Reverse(source));
    let (first, largest) = (sources.first(), sources.iter().max_by_key(rank));
    require(first == largest, || {
        let told = |source: Option<&usize>| {
            let number = source.copied().unwrap_or_default();
            let count = members[number].len() as u64;
            let members = figures::count(count, "member", "members");
            format!("component {number} with {members}")
        };
        let (first, largest) = (told(first), told(largest));
        format!(
            "its sources join {first}, and {largest} is expected: the largest, and of equals \
             the one with the smallest number"
        )
    })
}

/// A row that acts on no member is one of the component with the first active coordinate.
fn idle(sources: &[usize], members: &[Vec<usize>]) -> Result<(), String> {
    let least = members.iter().flatten().min().copied().unwrap_or_default();
    let is_there = |&source: &usize| members[source].contains(&least);
    require(sources.len() == 1 && sources.iter().all(is_there), || {
        let sources = figures::list(sources);
        format!(
            "its masks are 0, and its sources are {sources}: the component of coordinate {least}, \
             the first that is active, is expected alone"
        )
    })
}

/// The sources are those that the masks reach, which have no bit above all members, and the one
/// that the others join is the first of them.
pub fn reach(
    action: &ActivePauliAction,
    sources: &[usize],
    members: &[Vec<usize>],
) -> Result<(), String> {
    let mut masks = action.xmask | action.zmask;
    if masks == 0 {
        return idle(sources, members);
    }
    for &source in sources {
        let size = members[source].len();
        let own = masks & ((1 << size) - 1);
        require(own != 0, || {
            format!("its masks reach no member of component {source}, which is one of its sources")
        })?;
        masks >>= size;
    }
    target(sources, members)
}

#[cfg(test)]
mod tests {
    use crate::lives::Replay;
    use crate::sense::tests::said;
    use midvokt::{plan, Head, Record, StoredPlan, LARGEST_CEILING};

    #[test]
    fn sources_live_and_ascend() {
        assert_eq!(
            said(|plan| plan.rotations[0].merge_count = 0),
            "record 0: its component is 0, and the first of its sources is nothing"
        );
        assert_eq!(
            said(|plan| plan.rotations[0].component = 1),
            "record 0: its component is 1, and the first of its sources is 0"
        );
        assert_eq!(
            said(|plan| plan.merge_components[1] = 3),
            "record 0: component 3 does not live there"
        );
        assert_eq!(
            said(|plan| plan.merge_components[3] = 2),
            "record 2: component 2 does not live there"
        );
        assert_eq!(
            said(|plan| plan.merge_components[1] = 0),
            "record 0: component 0 is joined by 0, and others join by ascending number"
        );
    }

    #[test]
    fn sources_are_those_that_the_masks_reach() {
        assert_eq!(
            said(|plan| plan.rotations[0].kernel.action.xmask = 1),
            "record 0: its masks reach no member of component 2, which is one of its sources"
        );
        assert_eq!(
            said(|plan| plan.measurements[0].kernel.action.zmask = 3),
            "record 2: its masks reach no member of component 1, which is one of its sources"
        );
        assert_eq!(
            said(|plan| plan.rotations[0].kernel.action.xmask = 0),
            "record 0: its masks are 0, and its sources are 0 2: the component of coordinate 0, \
             the first that is active, is expected alone"
        );
        assert_eq!(
            said(|plan| {
                plan.merge_components[..2].reverse();
                plan.rotations[0].component = 2;
            }),
            "record 0: its sources join component 2 with 1 member, and component 0 with 1 member \
             is expected: the largest, and of equals the one with the smallest number"
        );
        assert_eq!(
            said(|plan| {
                plan.merge_components[2..4].reverse();
                plan.measurements[0].component = 1;
                plan.measurements[0].kernel.action.zmask = 7;
            }),
            "record 2: its sources join component 1 with 1 member, and component 0 with 2 members \
             is expected: the largest, and of equals the one with the smallest number"
        );
    }

    /// A rotation about a sign alone joins nothing, and is of the component of coordinate 0.
    #[test]
    fn a_row_without_masks_is_of_the_first_active_coordinate() {
        let head = Head {
            initial_k: 3,
            max_k: 8,
            nexpvals: 0,
            ceiling: LARGEST_CEILING,
        };
        let idle = plan(&head, &[Record::rotation(3, 0, 0, 2, 0.5)]).unwrap();
        let mut idle = StoredPlan::from(idle);
        assert!(Replay::of(&idle).is_ok());
        idle.merge_components[0] = 1;
        idle.rotations[0].component = 1;
        assert_eq!(
            Replay::of(&idle).unwrap_err(),
            "record 0: its masks are 0, and its sources are 1: the component of coordinate 0, \
             the first that is active, is expected alone"
        );
    }
}
