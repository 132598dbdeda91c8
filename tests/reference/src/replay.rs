//! A Rust plan's own steps, rows and merge list played once more over plain lists of members.
//! This shows what the plan does not list: the final groups, and the sizes during each join.

use crate::component_plan::{ActiveComponentPlan, ActiveComponentStepKind, ActiveComponentStepRef};

/// Ordered members by component number; empty once joined away or measured out.
type Components = Vec<Vec<usize>>;

/// The sizes of a row's component during its join: the target's own, then the size after each
/// other source. A step without sources has none.
pub type Sizes = Vec<usize>;

/// A plan played to its end.
pub struct Played {
    components: Components,
    /// One for each step.
    pub sizes: Vec<Sizes>,
}

/// The part of the merge list that a row names.
fn sources(plan: &ActiveComponentPlan, offset: usize, count: usize) -> Result<&[usize], String> {
    plan.merge_components
        .get(offset..offset + count)
        .ok_or_else(|| "a row points past the merge list".to_owned())
}

/// The members of a live component, which has none afterwards.
fn taken(components: &mut Components, number: usize) -> Result<Vec<usize>, String> {
    let members = components
        .get_mut(number)
        .map(std::mem::take)
        .unwrap_or_default();
    if members.is_empty() {
        Err(format!(
            "a row joins component {number}, which is not alive"
        ))
    } else {
        Ok(members)
    }
}

/// Joins the sources into the first, which has to be the row's component and get the row's width.
fn join(
    components: &mut Components,
    sources: &[usize],
    component: usize,
    width: usize,
) -> Result<Sizes, String> {
    let mut members = Vec::new();
    let mut sizes = Vec::new();
    for &source in sources {
        members.extend(taken(components, source)?);
        sizes.push(members.len());
    }
    if sources.first() != Some(&component) || members.len() != width {
        return Err(format!(
            "a row of component {component} and width {width} does not fit its sources"
        ));
    }
    components[component] = members;
    Ok(sizes)
}

/// Opens the next component, with the one member of its own number.
fn promote(components: &mut Components, component: usize) -> Result<(), String> {
    if component != components.len() {
        return Err(format!(
            "a promotion opens component {component} out of turn"
        ));
    }
    components.push(vec![component]);
    Ok(())
}

/// Joins the sources that a row names into its component.
fn join_row(
    plan: &ActiveComponentPlan,
    components: &mut Components,
    component: usize,
    (offset, count): (usize, usize),
    width: usize,
) -> Result<Sizes, String> {
    let sources = sources(plan, offset, count)?;
    join(components, sources, component, width)
}

/// Plays a rotation row.
fn rotate(
    plan: &ActiveComponentPlan,
    components: &mut Components,
    payload: usize,
) -> Result<Sizes, String> {
    let row = plan
        .rotations
        .get(payload)
        .ok_or("a step names no rotation row")?;
    let merge = (row.merge_offset, row.merge_count);
    join_row(
        plan,
        components,
        row.component,
        merge,
        row.kernel.action.nqubits,
    )
}

/// Plays a measurement row.
fn measure(
    plan: &ActiveComponentPlan,
    components: &mut Components,
    payload: usize,
) -> Result<Sizes, String> {
    let row = plan
        .measurements
        .get(payload)
        .ok_or("a step names no measurement row")?;
    let merge = (row.merge_offset, row.merge_count);
    let sizes = join_row(
        plan,
        components,
        row.component,
        merge,
        row.kernel.action.nqubits,
    )?;
    let members = &mut components[row.component];
    if row.kernel.pivot >= members.len() {
        return Err(format!(
            "a measurement's pivot is outside component {}",
            row.component
        ));
    }
    members.remove(row.kernel.pivot);
    if members.is_empty() == row.deactivate_after {
        Ok(sizes)
    } else {
        Err("a deactivation does not fit".to_owned())
    }
}

/// Plays one step.
fn play(
    plan: &ActiveComponentPlan,
    components: &mut Components,
    step: &ActiveComponentStepRef,
) -> Result<Sizes, String> {
    match step.kind {
        ActiveComponentStepKind::None | ActiveComponentStepKind::IgnoredGlobalPhase => {
            Ok(Vec::new())
        }
        ActiveComponentStepKind::Rotation => rotate(plan, components, step.payload),
        ActiveComponentStepKind::Measurement => measure(plan, components, step.payload),
        ActiveComponentStepKind::Promotion => {
            let row = plan
                .promotions
                .get(step.payload)
                .ok_or("a step names no promotion row")?;
            promote(components, row.component)?;
            Ok(Vec::new())
        }
    }
}

/// The components at the start. A plan made of unread records has none, whatever it counts.
fn start(plan: &ActiveComponentPlan) -> Components {
    match plan.component_count {
        0 => Vec::new(),
        _ => (0..plan.initial_components)
            .map(|number| vec![number])
            .collect(),
    }
}

/// Plays all steps.
pub fn played(plan: &ActiveComponentPlan) -> Result<Played, String> {
    let mut components = start(plan);
    let mut sizes = Vec::new();
    for step in &plan.instruction_steps {
        sizes.push(play(plan, &mut components, step)?);
    }
    if components.len() != plan.component_count {
        return Err(format!(
            "{} components replayed, {} counted",
            components.len(),
            plan.component_count
        ));
    }
    Ok(Played { components, sizes })
}

/// The live components in the end, by ascending number.
pub fn groups(plan: &ActiveComponentPlan) -> Result<Vec<Vec<usize>>, String> {
    let mut components = played(plan)?.components;
    components.retain(|members| !members.is_empty());
    Ok(components)
}
