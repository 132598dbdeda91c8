//! The works of a plan as whole numbers, and how many times cheaper the split is.

use crate::words::Words;

/// Both works of a plan as whole numbers, and the dense work divided by the component work with
/// its exact remainder. They are given where the number of active coordinates, at the start and
/// after each record, never passes 38. Where they are given, the float works are exactly these
/// numbers: nothing is rounded, since they lie below 2^53.
#[derive(Clone, Copy, Debug, PartialEq, Eq)]
pub enum WholeWorks {
    /// More than 38 coordinates are active at the start or after a record: no whole numbers.
    TooWide,
    /// The component work is 0, so that nothing can be divided by it: the plan has no rows. The
    /// dense work then counts the rotations that are a global phase; it is 0 where no record is
    /// read, whatever `initial_k` is.
    WithoutQuotient {
        /// The work of one wide register.
        dense: u64,
    },
    /// The component work is not 0, and `dense` is `quotient * component + remainder`.
    WithQuotient {
        /// The work of one wide register.
        dense: u64,
        /// The work of the components.
        component: u64,
        /// How many times the component work goes into the dense work; 0 where it is larger.
        quotient: u64,
        /// What is left of the dense work then; less than the component work.
        remainder: u64,
    },
}

impl Default for WholeWorks {
    /// The works of a plan in which no record is read: both are 0.
    fn default() -> Self {
        Self::WithoutQuotient { dense: 0 }
    }
}

impl WholeWorks {
    /// The works from a mark and the four numbers behind it. Planning writes no mark above 2; to
    /// such a one belong no numbers that this version knows.
    pub(crate) fn read(words: &mut Words<'_>) -> Self {
        let mark = words.word();
        let dense = words.word();
        let component = words.word();
        let quotient = words.word();
        let remainder = words.word();
        match mark {
            1 => Self::WithoutQuotient { dense },
            2 => Self::WithQuotient {
                dense,
                component,
                quotient,
                remainder,
            },
            _ => Self::TooWide,
        }
    }
}

#[cfg(test)]
mod tests {
    use super::WholeWorks;
    use crate::words::Words;

    /// The works of this mark, with the four numbers 26, 8, 3 and 2.
    fn of_mark(mark: u64) -> WholeWorks {
        WholeWorks::read(&mut Words::new(&[mark, 26, 8, 3, 2]))
    }

    #[test]
    fn each_mark_has_its_numbers() {
        assert_eq!(of_mark(0), WholeWorks::TooWide);
        assert_eq!(of_mark(1), WholeWorks::WithoutQuotient { dense: 26 });
        let all = WholeWorks::WithQuotient {
            dense: 26,
            component: 8,
            quotient: 3,
            remainder: 2,
        };
        assert_eq!(of_mark(2), all);
    }

    #[test]
    fn a_mark_that_planning_does_not_write_has_no_numbers() {
        for mark in [3, u64::MAX] {
            assert_eq!(of_mark(mark), WholeWorks::TooWide);
        }
    }
}
