//! The steps and rows of a plan as typed values, with the field names of the Rust simulator, and
//! back as words.

use crate::kernels::{
    PrecomputedActivePauliMeasurementKernel, PrecomputedActivePauliRotationKernel,
};
use crate::words::{Room, Words};

/// Words of a step.
pub const STEP_WORDS: usize = 2;
/// Words of a rotation row.
pub const ROTATION_WORDS: usize = 21;
/// Words of a measurement row.
pub const MEASUREMENT_WORDS: usize = 19;

/// What becomes of a record.
#[derive(Clone, Copy, Debug, Default, PartialEq, Eq)]
pub enum ActiveComponentStepKind {
    /// Nothing that concerns components.
    #[default]
    None,
    /// A rotation with no active coordinate left: a global phase.
    IgnoredGlobalPhase,
    /// A rotation of one component.
    Rotation,
    /// A new component.
    Promotion,
    /// A measurement on one component.
    Measurement,
}

impl ActiveComponentStepKind {
    /// The kind that a step's first word stands for; planning writes no other.
    fn from_word(word: u64) -> Option<Self> {
        match word {
            0 => Some(Self::None),
            1 => Some(Self::IgnoredGlobalPhase),
            2 => Some(Self::Rotation),
            3 => Some(Self::Promotion),
            4 => Some(Self::Measurement),
            _ => None,
        }
    }

    /// The word that stands for it.
    const fn to_word(self) -> u64 {
        match self {
            Self::None => 0,
            Self::IgnoredGlobalPhase => 1,
            Self::Rotation => 2,
            Self::Promotion => 3,
            Self::Measurement => 4,
        }
    }
}

/// A record's step: its kind, and its row among the rows of that kind.
#[derive(Clone, Copy, Debug, Default, PartialEq, Eq)]
pub struct ActiveComponentStepRef {
    /// What becomes of the record.
    pub kind: ActiveComponentStepKind,
    /// The row's number among the rows of its kind; 0 where there is none.
    pub payload: usize,
}

impl ActiveComponentStepRef {
    /// A step from its two words, if the first is a kind.
    pub(crate) fn from_words(row: &[u64]) -> Option<Self> {
        Some(Self {
            kind: ActiveComponentStepKind::from_word(row[0])?,
            payload: row[1] as usize,
        })
    }

    /// The step's two words.
    pub fn to_words(&self) -> [u64; STEP_WORDS] {
        [self.kind.to_word(), self.payload as u64]
    }
}

/// A rotation of one component, after its sources are joined.
#[derive(Clone, Copy, Debug, PartialEq)]
pub struct ActiveComponentRotationStep {
    /// The component that is rotated; the first of the sources.
    pub component: usize,
    /// Where the sources begin in the merge list.
    pub merge_offset: usize,
    /// How many sources there are.
    pub merge_count: usize,
    /// The rotation in the component's own bit order.
    pub kernel: PrecomputedActivePauliRotationKernel,
}

impl ActiveComponentRotationStep {
    /// A rotation row from its 21 words.
    pub(crate) fn from_words(row: &[u64]) -> Self {
        let mut words = Words::new(row);
        Self {
            component: words.size(),
            merge_offset: words.size(),
            merge_count: words.size(),
            kernel: PrecomputedActivePauliRotationKernel::read(&mut words),
        }
    }

    /// The row's 21 words.
    pub fn to_words(&self) -> [u64; ROTATION_WORDS] {
        let mut row = [0; ROTATION_WORDS];
        let mut room = Room::new(&mut row);
        room.size(self.component);
        room.size(self.merge_offset);
        room.size(self.merge_count);
        self.kernel.write(&mut room);
        row
    }
}

/// A new coordinate in a component of its own.
#[derive(Clone, Copy, Debug, PartialEq, Eq)]
pub struct ActiveComponentPromotionStep {
    /// The new component.
    pub component: usize,
}

impl ActiveComponentPromotionStep {
    /// A promotion row from its one word.
    pub(crate) fn from_words(row: &[u64]) -> Self {
        Self {
            component: row[0] as usize,
        }
    }

    /// The row's one word.
    pub fn to_words(&self) -> [u64; 1] {
        [self.component as u64]
    }
}

/// A measurement on one component, after its sources are joined.
#[derive(Clone, Copy, Debug, PartialEq)]
pub struct ActiveComponentMeasurementStep {
    /// The component that is measured; the first of the sources.
    pub component: usize,
    /// Where the sources begin in the merge list.
    pub merge_offset: usize,
    /// How many sources there are.
    pub merge_count: usize,
    /// The measurement in the component's own bit order.
    pub kernel: PrecomputedActivePauliMeasurementKernel,
    /// Whether the component has no member left after it.
    pub deactivate_after: bool,
}

impl ActiveComponentMeasurementStep {
    /// A measurement row from its 19 words.
    pub(crate) fn from_words(row: &[u64]) -> Self {
        let mut words = Words::new(row);
        Self {
            component: words.size(),
            merge_offset: words.size(),
            merge_count: words.size(),
            kernel: PrecomputedActivePauliMeasurementKernel::read(&mut words),
            deactivate_after: words.flag(),
        }
    }

    /// The row's 19 words. A phase bit other than 0 is written as 1, as planning has it.
    pub fn to_words(&self) -> [u64; MEASUREMENT_WORDS] {
        let mut row = [0; MEASUREMENT_WORDS];
        let mut room = Room::new(&mut row);
        room.size(self.component);
        room.size(self.merge_offset);
        room.size(self.merge_count);
        self.kernel.write(&mut room);
        room.flag(self.deactivate_after);
        row
    }
}

/// Row number `number` of rows that have so many words.
fn row(words: &[u64], size: usize, number: usize) -> Option<&[u64]> {
    let start = number.checked_mul(size)?;
    words.get(start..start.checked_add(size)?)
}

/// The step of a record in a list of steps.
pub(crate) fn step_at(words: &[u64], record: usize) -> Option<ActiveComponentStepRef> {
    row(words, STEP_WORDS, record).and_then(ActiveComponentStepRef::from_words)
}

/// A row of a list of rotation rows.
pub(crate) fn rotation_at(words: &[u64], number: usize) -> Option<ActiveComponentRotationStep> {
    row(words, ROTATION_WORDS, number).map(ActiveComponentRotationStep::from_words)
}

/// A row of a list of promotion rows.
pub(crate) fn promotion_at(words: &[u64], number: usize) -> Option<ActiveComponentPromotionStep> {
    row(words, 1, number).map(ActiveComponentPromotionStep::from_words)
}

/// A row of a list of measurement rows.
pub(crate) fn measurement_at(
    words: &[u64],
    number: usize,
) -> Option<ActiveComponentMeasurementStep> {
    row(words, MEASUREMENT_WORDS, number).map(ActiveComponentMeasurementStep::from_words)
}

/// The part of a merge list that a row names; none if it runs past the end.
pub(crate) fn part<T>(merges: &[T], offset: usize, count: usize) -> Option<&[T]> {
    merges.get(offset..offset.checked_add(count)?)
}
