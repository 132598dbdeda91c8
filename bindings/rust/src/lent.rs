//! The memory that a caller lends for a plan's words, and the typed rows that are read from it.

#[cfg(feature = "alloc")]
use alloc::vec;
#[cfg(feature = "alloc")]
use alloc::vec::Vec;
use core::ops::{Deref, DerefMut};

use crate::rows::{
    measurement_at, part, promotion_at, rotation_at, step_at, ActiveComponentMeasurementStep,
    ActiveComponentPromotionStep, ActiveComponentRotationStep, ActiveComponentStepRef,
    MEASUREMENT_WORDS, ROTATION_WORDS, STEP_WORDS,
};

/// The lengths of the seven buffers, in words.
#[derive(Clone, Copy, Debug, PartialEq, Eq)]
pub struct Lengths {
    /// Two words a record.
    pub steps: usize,
    /// A word for each source of each row.
    pub merges: usize,
    /// A word for each component.
    pub sizes: usize,
    /// 21 words a rotation row.
    pub rotations: usize,
    /// A word for each promotion row.
    pub promotions: usize,
    /// 19 words a measurement row.
    pub measurements: usize,
    /// For each live component a count and its members.
    pub groups: usize,
}

impl Lengths {
    /// The least lengths that are enough for so many records. A length that no usize holds is
    /// the greatest one; so many records are refused whatever the buffers.
    pub const fn for_records(records: usize) -> Self {
        Self {
            steps: records.saturating_mul(STEP_WORDS),
            merges: records.saturating_add(512),
            sizes: 512,
            rotations: records.saturating_mul(ROTATION_WORDS),
            promotions: records,
            measurements: records.saturating_mul(MEASUREMENT_WORDS),
            groups: 1024,
        }
    }

    /// The seven lengths in the order of the buffers.
    pub const fn in_order(&self) -> [usize; 7] {
        [
            self.steps,
            self.merges,
            self.sizes,
            self.rotations,
            self.promotions,
            self.measurements,
            self.groups,
        ]
    }
}

/// The six outputs of a plan that are stored, which the caller lends. Each call writes every word
/// of them: words behind those that are used are zero, and after a refusal all are.
///
/// Of a plan that is loaded nothing is judged. The methods read its rows as they read those of
/// planning: a flag other than 0 is set, and a number that its field does not hold loses its upper
/// bits. Where that matters, compare what the row's `to_words` gives with the words.
#[derive(Debug)]
pub struct Sections<'a> {
    /// Kind and payload of each record's step.
    pub steps: &'a mut [u64],
    /// The sources of all rows, one row's after the other's.
    pub merges: &'a mut [u64],
    /// The longest size of each component.
    pub sizes: &'a mut [u64],
    /// Rotation rows.
    pub rotations: &'a mut [u64],
    /// Promotion rows.
    pub promotions: &'a mut [u64],
    /// Measurement rows.
    pub measurements: &'a mut [u64],
}

impl<'a> From<[&'a mut [u64]; 6]> for Sections<'a> {
    /// Six slices in this order: steps, merges, sizes, rotations, promotions, measurements. They
    /// have to be of variables that live as long: a `&mut [0; 2]` written in the call ends with
    /// its statement, while one written in the struct of a `let` does not.
    fn from(words: [&'a mut [u64]; 6]) -> Self {
        let [steps, merges, sizes, rotations, promotions, measurements] = words;
        Self {
            steps,
            merges,
            sizes,
            rotations,
            promotions,
            measurements,
        }
    }
}

impl Sections<'_> {
    /// The step of a record; none past the end, and none where the words are no step's. Zeros
    /// are the step of nothing.
    pub fn step(&self, record: usize) -> Option<ActiveComponentStepRef> {
        step_at(self.steps, record)
    }

    /// A rotation row; none past the end. Go by the steps: behind the last row all is zero.
    pub fn rotation(&self, number: usize) -> Option<ActiveComponentRotationStep> {
        rotation_at(self.rotations, number)
    }

    /// A promotion row; none past the end. Go by the steps: behind the last row all is zero.
    pub fn promotion(&self, number: usize) -> Option<ActiveComponentPromotionStep> {
        promotion_at(self.promotions, number)
    }

    /// A measurement row; none past the end. Go by the steps: behind the last row all is zero.
    pub fn measurement(&self, number: usize) -> Option<ActiveComponentMeasurementStep> {
        measurement_at(self.measurements, number)
    }

    /// The part of the merge list that a row names; empty if it runs past the end.
    /// Of a row that planning wrote: its component, then all others that the record touches, each
    /// once, by strictly ascending number, and nothing else.
    pub fn sources(&self, merge_offset: usize, merge_count: usize) -> &[u64] {
        part(self.merges, merge_offset, merge_count).unwrap_or(&[])
    }
}

/// The seven buffers that the caller lends for planning: the six outputs that are stored, and the
/// groups. Each call writes every word of them. The six and their rows are read as if they were of
/// this struct: `buffers.steps`, `buffers.rotation(0)`.
#[derive(Debug)]
pub struct Buffers<'a> {
    /// The six outputs that are stored.
    pub sections: Sections<'a>,
    /// The components that live at the end, by ascending number.
    pub groups: &'a mut [u64],
}

impl<'a> From<[&'a mut [u64]; 7]> for Buffers<'a> {
    /// Seven slices in this order: steps, merges, sizes, rotations, promotions, measurements,
    /// groups. They have to be of variables that live as long, as those of [`Sections`] have to:
    ///
    /// ```
    /// use midvokt::{Buffers, Lengths};
    ///
    /// const LENGTHS: Lengths = Lengths::for_records(1);
    /// let (mut steps, mut merges) = ([0; LENGTHS.steps], [0; LENGTHS.merges]);
    /// let (mut sizes, mut groups) = ([0; LENGTHS.sizes], [0; LENGTHS.groups]);
    /// let mut rows = [0; LENGTHS.rotations + LENGTHS.promotions + LENGTHS.measurements];
    /// let (rotations, rest) = rows.split_at_mut(LENGTHS.rotations);
    /// let (promotions, measurements) = rest.split_at_mut(LENGTHS.promotions);
    /// let buffers = Buffers::from([
    ///     &mut steps[..],
    ///     &mut merges,
    ///     &mut sizes,
    ///     rotations,
    ///     promotions,
    ///     measurements,
    ///     &mut groups,
    /// ]);
    /// assert_eq!(buffers.step(1), None);
    /// ```
    fn from(words: [&'a mut [u64]; 7]) -> Self {
        let [sections @ .., groups] = words;
        Self {
            sections: Sections::from(sections),
            groups,
        }
    }
}

impl<'a> Deref for Buffers<'a> {
    type Target = Sections<'a>;

    /// The six outputs that are stored.
    fn deref(&self) -> &Sections<'a> {
        &self.sections
    }
}

impl<'a> DerefMut for Buffers<'a> {
    /// The six outputs that are stored.
    fn deref_mut(&mut self) -> &mut Sections<'a> {
        &mut self.sections
    }
}

impl Buffers<'_> {
    /// The members, which are coordinates, of each component that lives at the end, by ascending
    /// component number, each once: the first is the live component with the smallest number, and
    /// so on.
    pub fn groups(&self) -> Groups<'_> {
        Groups { left: self.groups }
    }
}

/// The groups of a plan, one after the other, by ascending component number.
#[derive(Clone, Debug)]
pub struct Groups<'a> {
    left: &'a [u64],
}

impl<'a> Iterator for Groups<'a> {
    type Item = &'a [u64];

    /// A count of 0, or the end of the buffer, ends the groups.
    fn next(&mut self) -> Option<&'a [u64]> {
        let (&count, rest) = self.left.split_first()?;
        if count == 0 || count > rest.len() as u64 {
            return None;
        }
        let (members, left) = rest.split_at(count as usize);
        self.left = left;
        Some(members)
    }
}

/// Memory of the crate's own to lend: so many outputs, each of just its length.
#[cfg(feature = "alloc")]
pub(crate) struct Owned<const OUTPUTS: usize> {
    pub(crate) words: [Vec<u64>; OUTPUTS],
}

#[cfg(feature = "alloc")]
impl<const OUTPUTS: usize> Owned<OUTPUTS> {
    /// Zeroed memory of these lengths.
    pub(crate) fn of_lengths(lengths: [usize; OUTPUTS]) -> Self {
        Self {
            words: lengths.map(|length| vec![0; length]),
        }
    }

    /// The same, lent.
    pub(crate) fn lend<'a, Lent: From<[&'a mut [u64]; OUTPUTS]>>(&'a mut self) -> Lent {
        Lent::from(self.words.each_mut().map(Vec::as_mut_slice))
    }
}

#[cfg(feature = "alloc")]
impl Owned<7> {
    /// Zeroed buffers that are enough for so many records, and no longer.
    pub(crate) fn for_records(records: usize) -> Self {
        Self::of_lengths(Lengths::for_records(records).in_order())
    }
}

/// Calls a function of the library with numbers, a slice that it reads, the sections, and slices
/// that it writes besides, each slice as its pointer and its length.
macro_rules! call_with {
    ($function:ident, [$($number:expr),*], $read:expr, $sections:expr, [$($written:expr),*]) => {
        $function(
            $($number,)*
            $read.as_ptr(), $read.len(),
            $sections.steps.as_mut_ptr(), $sections.steps.len(),
            $sections.merges.as_mut_ptr(), $sections.merges.len(),
            $sections.sizes.as_mut_ptr(), $sections.sizes.len(),
            $sections.rotations.as_mut_ptr(), $sections.rotations.len(),
            $sections.promotions.as_mut_ptr(), $sections.promotions.len(),
            $sections.measurements.as_mut_ptr(), $sections.measurements.len(),
            $($written.as_mut_ptr(), $written.len(),)*
        )
    };
}
pub(crate) use call_with;

#[cfg(test)]
mod tests {
    use super::{Buffers, Lengths, Sections};
    use std::vec;
    use std::vec::Vec;

    #[test]
    fn lengths_grow_with_the_records() {
        let most = Lengths::for_records(1024).in_order();
        assert_eq!(most, [2048, 1536, 512, 21_504, 1024, 19_456, 1024]);
        let none = Lengths::for_records(0).in_order();
        assert_eq!(none, [0, 512, 512, 0, 0, 0, 1024]);
    }

    #[test]
    fn lengths_end_at_the_greatest_size() {
        let all = usize::MAX;
        let found = Lengths::for_records(all).in_order();
        assert_eq!(found, [all, all, 512, all, all, all, 1024]);
        let fits = all / 21;
        assert_eq!(Lengths::for_records(fits).rotations, fits * 21);
        assert_eq!(Lengths::for_records(fits + 1).rotations, all);
        assert_eq!(Lengths::for_records(all - 512).merges, all);
    }

    #[test]
    fn slices_lie_in_the_order_of_the_outputs() {
        let mut words = [1, 2, 3, 4, 5, 6, 7].map(|length| vec![0; length]);
        let mut buffers = Buffers::from(words.each_mut().map(Vec::as_mut_slice));
        assert_eq!(lengths(&buffers.sections), [1, 2, 3, 4, 5, 6]);
        assert_eq!(buffers.groups.len(), 7);
        buffers.steps[0] = 8;
        assert_eq!((buffers.sections.steps[0], buffers.sizes.len()), (8, 3));
        let [six @ .., _] = &mut words;
        let sections = Sections::from(six.each_mut().map(Vec::as_mut_slice));
        assert_eq!(lengths(&sections), [1, 2, 3, 4, 5, 6]);
    }

    /// The lengths of the six outputs.
    fn lengths(sections: &Sections<'_>) -> [usize; 6] {
        [
            sections.steps.len(),
            sections.merges.len(),
            sections.sizes.len(),
            sections.rotations.len(),
            sections.promotions.len(),
            sections.measurements.len(),
        ]
    }
}
