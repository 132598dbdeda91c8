//! Why there is no plan, no file or no optimized list: the reason by name, number and sentence, and
//! the record or operation.

use core::error::Error;
use core::fmt;

/// Why a call was refused, by the names that the C header has for it.
#[non_exhaustive]
#[derive(Clone, Copy, Debug, PartialEq, Eq, Hash)]
pub enum Reason {
    /// Number 1: `max_k` is the ceiling or more.
    MaxK,
    /// Number 2: the record words are no multiple of 8, or more than 8,192.
    RecordWords,
    /// Number 3: one of the seven buffers is too short.
    Buffers,
    /// Number 4: `initial_k` is more than 512.
    InitialK,
    /// Number 5: the kind is none of 0 to 5.
    Kind,
    /// Number 6: the width is more than 62.
    Width,
    /// Number 7: the phase exponent is more than 3.
    Phase,
    /// Number 8: the angle is not finite, or the sine or cosine is not in -1 to 1.
    Floats,
    /// Number 9: the expectation flag is neither 0 nor 1.
    Flag,
    /// Number 10: the promotion would make the 513th coordinate.
    Promotion,
    /// Number 11: a rotation's width is not the number of active coordinates.
    RotationWidth,
    /// Number 12: a measurement's width is not the number of active coordinates.
    MeasurementWidth,
    /// Number 13: a measurement where no coordinate is active.
    NothingActive,
    /// Number 14: a join makes a component of as many members as the ceiling, or more.
    ComponentSize,
    /// Number 15: the pivot is not an active position.
    Pivot,
    /// Number 16: the pivot's coordinate is not in the measured component.
    PivotComponent,
    /// Number 17: the measured x mask is not 0 and has no bit at the pivot.
    PivotX,
    /// Number 18: the measured x mask is 0 and the z mask, not 0, has no bit at the pivot.
    PivotZ,
    /// Number 19: the measured x mask is 0, the z mask is not, and the phase exponent is 1 or 3.
    Eigenvalues,
    /// Number 20: the measured masks are both 0.
    Identity,
    /// Number 21: the file that is loaded is under 128 bytes or no multiple of 8, or its length or
    /// version word is a wrong one.
    File,
    /// Number 22: the sections of the file that is loaded do not follow each other from its first
    /// word to its trailer.
    Sections,
    /// Number 23: the buffer for the file that is stored is too short; or a section of the file
    /// that is loaded has a count that no plan has, or is longer than its output.
    Lengths,
    /// Number 24: the ceiling is not 1 to 62. It is refused before all else.
    Ceiling,
    /// Number 25: the squares of sine and cosine, added as floats, do not sum to 1, give or take
    /// 2^-50. It is looked at right after number 8 of the same record.
    Squares,
    /// Number 26: a list of pending operations, its width, its prefixes or one of its operations is
    /// not of the form, or an output is too short for the list or the map. It is refused before
    /// all else.
    Form,
    /// Number 27: a preserved prefix is more than the list has operations.
    Prefix,
    /// Number 28: the string of a rotation has a phase that less the number of its Y is odd, so
    /// that it is not Hermitian.
    Generator,
    /// A number that this version of the crate has no name for.
    Unnamed(u64),
}

impl Reason {
    /// The number that the library returns for it.
    pub const fn number(self) -> u64 {
        match self {
            Self::MaxK => 1,
            Self::RecordWords => 2,
            Self::Buffers => 3,
            Self::InitialK => 4,
            Self::Kind => 5,
            Self::Width => 6,
            Self::Phase => 7,
            Self::Floats => 8,
            Self::Flag => 9,
            Self::Promotion => 10,
            Self::RotationWidth => 11,
            Self::MeasurementWidth => 12,
            Self::NothingActive => 13,
            Self::ComponentSize => 14,
            Self::Pivot => 15,
            Self::PivotComponent => 16,
            Self::PivotX => 17,
            Self::PivotZ => 18,
            Self::Eigenvalues => 19,
            Self::Identity => 20,
            Self::File => 21,
            Self::Sections => 22,
            Self::Lengths => 23,
            Self::Ceiling => 24,
            Self::Squares => 25,
            Self::Form => 26,
            Self::Prefix => 27,
            Self::Generator => 28,
            Self::Unnamed(number) => number,
        }
    }

    /// The reason that a number of the library stands for.
    pub const fn from_number(number: u64) -> Self {
        match number {
            1 => Self::MaxK,
            2 => Self::RecordWords,
            3 => Self::Buffers,
            4 => Self::InitialK,
            5 => Self::Kind,
            6 => Self::Width,
            7 => Self::Phase,
            8 => Self::Floats,
            9 => Self::Flag,
            10 => Self::Promotion,
            11 => Self::RotationWidth,
            12 => Self::MeasurementWidth,
            13 => Self::NothingActive,
            14 => Self::ComponentSize,
            15 => Self::Pivot,
            16 => Self::PivotComponent,
            17 => Self::PivotX,
            18 => Self::PivotZ,
            19 => Self::Eigenvalues,
            20 => Self::Identity,
            21 => Self::File,
            22 => Self::Sections,
            23 => Self::Lengths,
            24 => Self::Ceiling,
            25 => Self::Squares,
            26 => Self::Form,
            27 => Self::Prefix,
            28 => Self::Generator,
            _ => Self::Unnamed(number),
        }
    }

    /// A sentence in plain words.
    pub const fn sentence(self) -> &'static str {
        match self {
            Self::MaxK => "max_k is the ceiling or more",
            Self::RecordWords => "the record words are no multiple of 8, or more than 8,192",
            Self::Buffers => "one of the seven buffers is too short for this many records",
            Self::InitialK => "initial_k is more than 512",
            Self::Kind => "the kind is none of 0 to 5",
            Self::Width => "the width is more than 62",
            Self::Phase => "the phase exponent is more than 3",
            Self::Floats => "the angle is not finite, or the sine or cosine is not in -1 to 1",
            Self::Flag => "the expectation flag is neither 0 nor 1",
            Self::Promotion => "the promotion would make the 513th coordinate",
            Self::RotationWidth => "the rotation's width is not the number of active coordinates",
            Self::MeasurementWidth => {
                "the measurement's width is not the number of active coordinates"
            }
            Self::NothingActive => "there is no active coordinate to measure",
            Self::ComponentSize => {
                "the join makes a component of as many members as the ceiling, or more"
            }
            Self::Pivot => "the pivot is not an active position",
            Self::PivotComponent => "the pivot's coordinate is not in the measured component",
            Self::PivotX => "the measured x mask is not 0 and has no bit at the pivot",
            Self::PivotZ => {
                "the measured x mask is 0 and the z mask, not 0, has no bit at the pivot"
            }
            Self::Eigenvalues => {
                "the measured x mask is 0, the z mask is not, and the phase exponent is 1 or 3"
            }
            Self::Identity => "the measured masks are both 0",
            Self::File => "the file's length, or the length or version word in it, is wrong",
            Self::Sections => "the file's sections do not follow each other up to its trailer",
            Self::Lengths => "a section has a count that no plan has, or a buffer is too short",
            Self::Ceiling => "the ceiling is not 1 to 62",
            Self::Squares => "the squares of sine and cosine do not sum to 1",
            Self::Form | Self::Prefix | Self::Generator => self.sentence_on_lists(),
            Self::Unnamed(_) => "the number has no name in this version",
        }
    }

    /// The sentence for a list of pending operations.
    const fn sentence_on_lists(self) -> &'static str {
        match self {
            Self::Generator => "the rotation's string is not Hermitian",
            Self::Prefix => "a preserved prefix is more than the list has operations",
            _ => {
                "the list, its width, its prefixes or an operation is not of the form, or an \
                 output is too short"
            }
        }
    }

    /// Whether it is about one record, and not about the head, the buffers, a file or a list of
    /// pending operations.
    pub const fn is_of_record(self) -> bool {
        !matches!(self.number(), 0..=4 | 21..=24 | 26..=28)
    }

    /// Whether it is about one pending operation of a list.
    pub const fn is_of_operation(self) -> bool {
        matches!(self, Self::Generator)
    }
}

/// Why there is no plan, no file or no optimized list, and where it stopped. All buffers are zero
/// after it. Print it with `{}` to have the sentence; a `main` that gives it with `?` prints the
/// Debug form.
#[derive(Clone, Copy, Debug, PartialEq, Eq, Hash)]
pub struct Refusal {
    /// Why the call was refused.
    pub reason: Reason,
    /// The record at which planning stopped, or the pending operation that is refused, from 0; 0
    /// for the head, the buffers, files and whole lists.
    pub index: usize,
}

impl Refusal {
    /// The reason's number, 1 to 28 for a reason that has a name.
    pub const fn number(&self) -> u64 {
        self.reason.number()
    }

    /// The reason in plain words.
    pub const fn sentence(&self) -> &'static str {
        self.reason.sentence()
    }

    /// Whether the refusal is about one record, and not about the head, the buffers, a file or a
    /// list of pending operations.
    pub const fn is_of_record(&self) -> bool {
        self.reason.is_of_record()
    }

    /// Whether the refusal is about one pending operation of a list.
    pub const fn is_of_operation(&self) -> bool {
        self.reason.is_of_operation()
    }
}

impl fmt::Display for Refusal {
    /// The number, the record or operation if there is one, and the sentence.
    fn fmt(&self, formatter: &mut fmt::Formatter<'_>) -> fmt::Result {
        write!(formatter, "refusal {}", self.number())?;
        if self.is_of_record() {
            write!(formatter, " at record {}", self.index)?;
        }
        if self.is_of_operation() {
            write!(formatter, " at operation {}", self.index)?;
        }
        write!(formatter, ": {}", self.sentence())
    }
}

impl Error for Refusal {}

#[cfg(test)]
mod tests {
    use super::{Reason, Refusal};
    use std::collections::HashSet;
    use std::string::{String, ToString};
    use std::vec::Vec;

    /// What is said of a number at record 7.
    fn said(number: u64) -> String {
        let reason = Reason::from_number(number);
        Refusal { reason, index: 7 }.to_string()
    }

    #[test]
    fn every_number_has_its_own_reason_and_sentence() {
        let reasons: Vec<_> = (1..=28).map(Reason::from_number).collect();
        assert!(reasons.iter().map(|reason| reason.number()).eq(1..=28));
        let unnamed = |reason: &Reason| matches!(reason, Reason::Unnamed(_));
        assert!(!reasons.iter().any(unnamed));
        let sentences: HashSet<_> = reasons.iter().map(|reason| reason.sentence()).collect();
        assert_eq!(sentences.len(), 28);
        assert!(!sentences.contains(Reason::Unnamed(29).sentence()));
    }

    #[test]
    fn an_unknown_number_is_kept() {
        for number in [0, 29, u64::MAX] {
            assert_eq!(Reason::from_number(number), Reason::Unnamed(number));
            assert_eq!(Reason::Unnamed(number).number(), number);
        }
        assert_eq!(
            said(29),
            "refusal 29 at record 7: the number has no name in this version"
        );
    }

    #[test]
    fn the_record_is_named_from_5_to_20_and_at_25() {
        assert_eq!(said(4), "refusal 4: initial_k is more than 512");
        assert_eq!(said(5), "refusal 5 at record 7: the kind is none of 0 to 5");
        assert_eq!(
            said(20),
            "refusal 20 at record 7: the measured masks are both 0"
        );
        let of_files = (21..=23).map(said).collect::<Vec<_>>();
        assert!(of_files.iter().all(|said| !said.contains("record 7")));
        assert!(of_files[0].starts_with("refusal 21: the file's length, or the length or "));
        assert_eq!(said(1), "refusal 1: max_k is the ceiling or more");
        assert_eq!(said(24), "refusal 24: the ceiling is not 1 to 62");
        assert_eq!(
            said(25),
            "refusal 25 at record 7: the squares of sine and cosine do not sum to 1"
        );
    }

    #[test]
    fn the_operation_is_named_at_28_alone() {
        assert_eq!(
            said(26),
            "refusal 26: the list, its width, its prefixes or an operation is not of the form, or \
             an output is too short"
        );
        assert_eq!(
            said(27),
            "refusal 27: a preserved prefix is more than the list has operations"
        );
        assert_eq!(
            said(28),
            "refusal 28 at operation 7: the rotation's string is not Hermitian"
        );
    }
}
