//! An answer as everything that a call has to leave behind: the number, the result's words
//! and the used words of the seven outputs.

use crate::answer::Answer;
use crate::rows::{self, Word};

/// Words of a whole result: the refusal's record, then the eight scalar fields, then the five
/// words of the whole works.
pub const RESULT_WORDS: usize = 14;

/// What a call returns and writes. Words behind the used ones are zero.
#[derive(Clone, Debug, PartialEq, Eq)]
pub struct Expected {
    pub number: u64,
    pub result: [u64; RESULT_WORDS],
    pub outputs: [Vec<u64>; 7],
}

/// The words as they stand in a buffer.
fn bits(words: Vec<Word>) -> Vec<u64> {
    words.iter().map(Word::bits).collect()
}

impl Expected {
    /// What an answer asks of a call; nothing for an answer that may not be compared.
    pub fn of(answer: &Answer) -> Result<Option<Self>, String> {
        let mut result = [0; RESULT_WORDS];
        match answer {
            Answer::Incomparable(_) => Ok(None),
            Answer::Refused(refusal) => {
                result[0] = refusal.index as u64;
                Ok(Some(Self {
                    number: refusal.number,
                    result,
                    outputs: Default::default(),
                }))
            }
            Answer::Plan(plan, whole) => {
                result[1..].copy_from_slice(&bits(rows::fields(plan, whole)));
                Ok(Some(Self {
                    number: 0,
                    result,
                    outputs: rows::outputs(plan)?.map(bits),
                }))
            }
        }
    }

    /// The members of each group.
    pub fn groups(&self) -> Vec<&[u64]> {
        let mut words = &self.outputs[6][..];
        let mut groups = Vec::new();
        while let Some((&size, rest)) = words.split_first() {
            let (members, left) = rest.split_at(size as usize);
            groups.push(members);
            words = left;
        }
        groups
    }

    /// Whether the groups come in another order than their first members.
    pub fn is_reordered(&self) -> bool {
        !self.groups().is_sorted_by_key(|members| members[0])
    }
}

#[cfg(test)]
mod tests {
    use super::*;

    /// A plan of these groups, which has nothing else.
    fn with_groups(words: &[u64]) -> Expected {
        let mut outputs: [Vec<u64>; 7] = Default::default();
        outputs[6] = words.to_vec();
        Expected {
            number: 0,
            result: [0; RESULT_WORDS],
            outputs,
        }
    }

    #[test]
    fn groups_are_read_one_after_the_other() {
        let expected = with_groups(&[1, 4, 1, 2, 2, 3, 5]);
        assert_eq!(expected.groups(), [&[4][..], &[2], &[3, 5]]);
        assert!(with_groups(&[]).groups().is_empty());
    }

    #[test]
    fn an_order_tells_where_first_members_do_not_ascend() {
        assert!(with_groups(&[1, 4, 1, 2, 2, 3, 5]).is_reordered());
        assert!(!with_groups(&[1, 2, 2, 3, 5, 1, 4]).is_reordered());
        assert!(!with_groups(&[2, 3, 1]).is_reordered());
        assert!(!with_groups(&[]).is_reordered());
    }
}
