//! A stored plan in memory of its own: typed where its words make a typed plan, else as the words
//! that they are; and the calls that store and load one.

use alloc::vec;
use alloc::vec::Vec;
use core::error::Error;
use core::fmt;

use crate::call::Head;
use crate::lent::Owned;
use crate::plan::{sizes, ActiveComponentPlan};
use crate::record::{encode, Record, MOST_RECORDS, RECORD_WORDS};
use crate::refusal::Refusal;
use crate::rows::{
    part, ActiveComponentMeasurementStep, ActiveComponentPromotionStep,
    ActiveComponentRotationStep, ActiveComponentStepKind, ActiveComponentStepRef,
    MEASUREMENT_WORDS, ROTATION_WORDS,
};
use crate::stored::{file_bytes, load_into, store_into, Scalars, TRAILER_WORDS};

/// What a file keeps of a plan: an [`ActiveComponentPlan`] without its groups and whole works. It
/// does not hold the ceiling that it was planned with; a controller holds its components where each
/// size in `component_max_k` is below the controller's ceiling.
#[derive(Clone, Debug, Default, PartialEq)]
pub struct StoredPlan {
    /// Whether the split pays.
    pub selected: bool,
    /// The components at the start.
    pub initial_components: usize,
    /// All components ever made.
    pub component_count: usize,
    /// The longest size of each component, by its number.
    pub component_max_k: Vec<usize>,
    /// A step for each record; none where the records were left unread.
    pub instruction_steps: Vec<ActiveComponentStepRef>,
    /// The sources of all rows, one row's after the other's.
    pub merge_components: Vec<usize>,
    /// The rotation rows.
    pub rotations: Vec<ActiveComponentRotationStep>,
    /// The promotion rows.
    pub promotions: Vec<ActiveComponentPromotionStep>,
    /// The measurement rows.
    pub measurements: Vec<ActiveComponentMeasurementStep>,
    /// The work of one wide register.
    pub estimated_dense_work: f64,
    /// The work of the components.
    pub estimated_component_work: f64,
    /// The dimension of one wide register.
    pub dense_peak_dimension: usize,
    /// The greatest sum of the live components' dimensions.
    pub component_peak_live_dimension: usize,
    /// The sum of all components' greatest dimensions, at most 2^64 - 1.
    pub component_allocated_dimension: usize,
}

impl From<ActiveComponentPlan> for StoredPlan {
    /// What a file keeps of a plan.
    fn from(plan: ActiveComponentPlan) -> Self {
        Self {
            selected: plan.selected,
            initial_components: plan.initial_components,
            component_count: plan.component_count,
            component_max_k: plan.component_max_k,
            instruction_steps: plan.instruction_steps,
            merge_components: plan.merge_components,
            rotations: plan.rotations,
            promotions: plan.promotions,
            measurements: plan.measurements,
            estimated_dense_work: plan.estimated_dense_work,
            estimated_component_work: plan.estimated_component_work,
            dense_peak_dimension: plan.dense_peak_dimension,
            component_peak_live_dimension: plan.component_peak_live_dimension,
            component_allocated_dimension: plan.component_allocated_dimension,
        }
    }
}

impl StoredPlan {
    /// The part of the merge list that a row names; empty if it runs past the end.
    pub fn sources(&self, merge_offset: usize, merge_count: usize) -> &[usize] {
        part(&self.merge_components, merge_offset, merge_count).unwrap_or(&[])
    }

    /// The scalar fields as words.
    fn scalars(&self) -> Scalars {
        Scalars {
            selected: u64::from(self.selected),
            initial_components: self.initial_components as u64,
            component_count: self.component_count as u64,
            estimated_dense_work: self.estimated_dense_work.to_bits(),
            estimated_component_work: self.estimated_component_work.to_bits(),
            dense_peak_dimension: self.dense_peak_dimension as u64,
            component_peak_live_dimension: self.component_peak_live_dimension as u64,
            component_allocated_dimension: self.component_allocated_dimension as u64,
        }
    }

    /// The plan's words. For a plan that was loaded they are those of its file, every one.
    pub fn to_words(&self) -> StoredWords {
        let words = |sizes: &[usize]| sizes.iter().map(|&size| size as u64).collect();
        StoredWords {
            scalars: self.scalars(),
            steps: rows(&self.instruction_steps, ActiveComponentStepRef::to_words),
            merges: words(&self.merge_components),
            sizes: words(&self.component_max_k),
            rotations: rows(&self.rotations, ActiveComponentRotationStep::to_words),
            promotions: rows(&self.promotions, ActiveComponentPromotionStep::to_words),
            measurements: rows(&self.measurements, ActiveComponentMeasurementStep::to_words),
        }
    }
}

/// The words of all rows, one row after the other.
fn rows<T, const N: usize>(rows: &[T], words: impl Fn(&T) -> [u64; N]) -> Vec<u64> {
    rows.iter().flat_map(words).collect()
}

/// The words of a stored plan as they stand in its file: the scalar fields and the used words of
/// the six other sections. Only the trailer and `component_count` are judged.
#[derive(Clone, Debug, Default, PartialEq, Eq)]
pub struct StoredWords {
    /// The scalar fields.
    pub scalars: Scalars,
    /// Two words a record: kind and payload.
    pub steps: Vec<u64>,
    /// The sources of all rows.
    pub merges: Vec<u64>,
    /// The longest size of each component.
    pub sizes: Vec<u64>,
    /// 21 words a rotation row.
    pub rotations: Vec<u64>,
    /// A word a promotion row.
    pub promotions: Vec<u64>,
    /// 19 words a measurement row.
    pub measurements: Vec<u64>,
}

/// What a file holds.
#[derive(Clone, Debug, PartialEq)]
pub enum Stored {
    /// A plan, by the rule at [`load`].
    Plan(StoredPlan),
    /// Words that make no typed plan.
    Words {
        /// All of them.
        words: StoredWords,
        /// The first that keeps them from being a plan.
        misfit: Misfit,
    },
}

/// Why loaded words make no typed plan: where the first is that does not fit, and what it is.
#[derive(Clone, Copy, Debug, PartialEq, Eq, Hash)]
pub struct Misfit {
    /// Where it stands.
    pub place: Place,
    /// What is wrong there.
    pub fault: Fault,
}

/// Where a word stands that does not fit.
#[non_exhaustive]
#[derive(Clone, Copy, Debug, PartialEq, Eq, Hash)]
pub enum Place {
    /// In the scalar fields: `selected`, or one of the works.
    Scalars,
    /// In the step of this record.
    Step(usize),
    /// At this place of the merge list.
    Merge(usize),
    /// In this rotation row.
    Rotation(usize),
    /// In this promotion row.
    Promotion(usize),
    /// In this measurement row.
    Measurement(usize),
}

/// What is wrong with a word that does not fit.
#[non_exhaustive]
#[derive(Clone, Copy, Debug, PartialEq, Eq, Hash)]
pub enum Fault {
    /// Its field has no such value: a kind above 4, a flag above 1, the row of a step that has none,
    /// a pair bit of more than 32 bits.
    Word,
    /// It is the pattern of a float that is no number.
    NotANumber,
    /// It names a row that is not there.
    Row,
    /// The sources that it names reach past the merge list.
    Sources,
    /// It names a component that is not there.
    Component,
}

impl fmt::Display for Misfit {
    /// The place and what is wrong there.
    fn fmt(&self, formatter: &mut fmt::Formatter<'_>) -> fmt::Result {
        match self.place {
            Place::Scalars if self.fault == Fault::Word => {
                return formatter.write_str("selected is neither 0 nor 1");
            }
            Place::Scalars => write!(formatter, "the works: ")?,
            Place::Step(record) => write!(formatter, "the step of record {record}: ")?,
            Place::Merge(place) => write!(formatter, "word {place} of the merge list: ")?,
            Place::Rotation(row) => write!(formatter, "rotation row {row}: ")?,
            Place::Promotion(row) => write!(formatter, "promotion row {row}: ")?,
            Place::Measurement(row) => write!(formatter, "measurement row {row}: ")?,
        }
        formatter.write_str(match self.fault {
            Fault::Word => "a word is none that its field can have",
            Fault::NotANumber => "a float is no number",
            Fault::Row => "it names a row that is not there",
            Fault::Sources => "its sources reach past the merge list",
            Fault::Component => "it names a component that is not there",
        })
    }
}

impl Error for Misfit {}

impl StoredWords {
    /// As many words for each output as the file's trailer says, and in all no more than the file
    /// has. Where that is less than it says, the file is refused whatever the outputs.
    fn lengths(file: &[u8]) -> [usize; 6] {
        let mut left = file.len() / 8;
        let trailer = file.last_chunk::<{ 8 * TRAILER_WORDS }>();
        core::array::from_fn(|section| {
            let count = trailer.map_or(0, |bytes| {
                let word = bytes[16 * section + 8..].first_chunk();
                word.map_or(0, |word| u64::from_le_bytes(*word))
            });
            let length = count.min(left as u64) as usize;
            left -= length;
            length
        })
    }

    /// Loads a file into memory of just the length that it needs.
    fn load(file: &[u8]) -> Result<Self, Refusal> {
        let mut owned = Owned::of_lengths(Self::lengths(file));
        let loaded = load_into(file, &mut owned.lend())?;
        let [steps, merges, sizes, rotations, promotions, measurements] = owned.words;
        Ok(Self {
            scalars: loaded.scalars,
            steps,
            merges,
            sizes,
            rotations,
            promotions,
            measurements,
        })
    }

    /// Whether a component is one of those that there are.
    fn has_component(&self, component: usize) -> bool {
        component < self.sizes.len()
    }

    /// Rows of so many words as typed values, each of which gives its words back and is followed
    /// by a test of its own.
    fn typed<T: PartialEq, const N: usize>(
        words: &[u64],
        place: fn(usize) -> Place,
        read: impl Fn(&[u64]) -> Option<T>,
        write: impl Fn(&T) -> [u64; N],
        test: impl Fn(&T) -> Result<(), Fault>,
    ) -> Result<Vec<T>, Misfit> {
        let row = |(number, words): (usize, &[u64])| {
            let misfit = |fault| Misfit {
                place: place(number),
                fault,
            };
            let row = read(words).filter(|row| write(row) == words);
            let row = row.ok_or(misfit(Fault::Word))?;
            // A float that is no number is not equal to itself, so neither is a row with one.
            if !row.eq(&row) {
                return Err(misfit(Fault::NotANumber));
            }
            test(&row).map_err(misfit)?;
            Ok(row)
        };
        words.chunks_exact(N).enumerate().map(row).collect()
    }

    /// Tests what both kinds of row begin with: the component, and the sources in the merge list.
    fn test_sources(&self, component: usize, offset: usize, count: usize) -> Result<(), Fault> {
        if !self.has_component(component) {
            return Err(Fault::Component);
        }
        let sources = part(&self.merges, offset, count);
        sources.map(|_| ()).ok_or(Fault::Sources)
    }

    /// The rotation rows.
    fn rotations(&self) -> Result<Vec<ActiveComponentRotationStep>, Misfit> {
        Self::typed(
            &self.rotations,
            Place::Rotation,
            |words| Some(ActiveComponentRotationStep::from_words(words)),
            ActiveComponentRotationStep::to_words,
            |row| self.test_sources(row.component, row.merge_offset, row.merge_count),
        )
    }

    /// The measurement rows.
    fn measurements(&self) -> Result<Vec<ActiveComponentMeasurementStep>, Misfit> {
        Self::typed(
            &self.measurements,
            Place::Measurement,
            |words| Some(ActiveComponentMeasurementStep::from_words(words)),
            ActiveComponentMeasurementStep::to_words,
            |row| self.test_sources(row.component, row.merge_offset, row.merge_count),
        )
    }

    /// The promotion rows.
    fn promotions(&self) -> Result<Vec<ActiveComponentPromotionStep>, Misfit> {
        Self::typed(
            &self.promotions,
            Place::Promotion,
            |words| Some(ActiveComponentPromotionStep::from_words(words)),
            ActiveComponentPromotionStep::to_words,
            |row| match self.has_component(row.component) {
                true => Ok(()),
                false => Err(Fault::Component),
            },
        )
    }

    /// The steps.
    fn steps(&self) -> Result<Vec<ActiveComponentStepRef>, Misfit> {
        let test = |step: &ActiveComponentStepRef| {
            let rows = match step.kind {
                ActiveComponentStepKind::Rotation => self.rotations.len() / ROTATION_WORDS,
                ActiveComponentStepKind::Promotion => self.promotions.len(),
                ActiveComponentStepKind::Measurement => self.measurements.len() / MEASUREMENT_WORDS,
                _ if step.payload == 0 => return Ok(()),
                _ => return Err(Fault::Word),
            };
            match step.payload < rows {
                true => Ok(()),
                false => Err(Fault::Row),
            }
        };
        Self::typed(
            &self.steps,
            Place::Step,
            ActiveComponentStepRef::from_words,
            ActiveComponentStepRef::to_words,
            test,
        )
    }

    /// Tests the scalar fields and the merge list.
    fn test_numbers(&self) -> Result<(), Misfit> {
        let scalars = &self.scalars;
        let works = [
            scalars.estimated_dense_work,
            scalars.estimated_component_work,
        ];
        let of_scalars = |fault| Misfit {
            place: Place::Scalars,
            fault,
        };
        if scalars.selected > 1 {
            return Err(of_scalars(Fault::Word));
        }
        if works.iter().any(|&work| f64::from_bits(work).is_nan()) {
            return Err(of_scalars(Fault::NotANumber));
        }
        let is_strange = |&component: &u64| component >= self.sizes.len() as u64;
        match self.merges.iter().position(is_strange) {
            Some(place) => Err(Misfit {
                place: Place::Merge(place),
                fault: Fault::Component,
            }),
            None => Ok(()),
        }
    }

    /// The typed plan that the words make.
    fn to_plan(&self) -> Result<StoredPlan, Misfit> {
        self.test_numbers()?;
        let scalars = &self.scalars;
        Ok(StoredPlan {
            selected: scalars.selected != 0,
            initial_components: scalars.initial_components as usize,
            component_count: scalars.component_count as usize,
            component_max_k: sizes(&self.sizes),
            merge_components: sizes(&self.merges),
            rotations: self.rotations()?,
            promotions: self.promotions()?,
            measurements: self.measurements()?,
            instruction_steps: self.steps()?,
            estimated_dense_work: f64::from_bits(scalars.estimated_dense_work),
            estimated_component_work: f64::from_bits(scalars.estimated_component_work),
            dense_peak_dimension: scalars.dense_peak_dimension as usize,
            component_peak_live_dimension: scalars.component_peak_live_dimension as usize,
            component_allocated_dimension: scalars.component_allocated_dimension as usize,
        })
    }
}

/// Plans records given as words, eight a record, in buffers of its own, and gives the plan's file.
pub fn store_encoded(head: &Head, records: &[u64]) -> Result<Vec<u8>, Refusal> {
    // More records are refused, or left unread, whatever the buffers.
    let whole = (records.len() / RECORD_WORDS).min(MOST_RECORDS);
    let mut file = vec![0; file_bytes(whole)];
    let mut owned = Owned::for_records(whole);
    let length = store_into(head, records, &mut owned.lend(), &mut file)?;
    file.truncate(length);
    file.shrink_to_fit();
    Ok(file)
}

/// Plans records in buffers of its own, and gives the plan's file.
pub fn store(head: &Head, records: &[Record]) -> Result<Vec<u8>, Refusal> {
    store_encoded(head, &encode(records))
}

/// Loads a file. What [`store`] gave is read back as the plan that was stored. Other bytes that the
/// library reads are a plan too where the typed form says all that the words say and points at
/// nothing that is not there:
///
/// * `selected` and all flags are 0 or 1, each step is of a kind, and no number is larger than its
///   field, so that [`StoredPlan::to_words`] gives every word back;
/// * no float is a NaN, so that the plan is equal to itself;
/// * each step names a row that is there, or 0 where its kind has no rows, and each row's sources
///   lie in the merge list;
/// * components that rows and the merge list name are below `component_count`.
///
/// Else the words themselves are given, with the first that does not fit. More is not judged: rows of
/// a file from elsewhere may still contradict each other. No bytes make it panic, and it allocates no
/// more than a few times the file's length.
pub fn load(file: &[u8]) -> Result<Stored, Refusal> {
    let words = StoredWords::load(file)?;
    Ok(match words.to_plan() {
        Ok(plan) => Stored::Plan(plan),
        Err(misfit) => Stored::Words { words, misfit },
    })
}
