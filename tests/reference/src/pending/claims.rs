//! What 02's CR 6 claims of every optimized list ("Also wanted"), asked of the Rust's own answers:
//! over the places that operations had in the input.

use super::Call;
use super::answer::Answer;
use super::operations::{MEASUREMENT, OPERATION_WORDS, ROTATION};
use super::places::{Pair, Places, commute};

/// A list with what became of it.
struct Optimized<'a> {
    input: Vec<&'a [u64]>,
    left: Vec<&'a [u64]>,
    call: &'a Call,
    answer: &'a Answer,
    places: &'a Places,
}

impl Optimized<'_> {
    /// Two that are left stand in the other order than their places only if the one in front is a
    /// measurement, the other a rotation, and they commute.
    fn is_ordered(&self) -> bool {
        let order = &self.places.order;
        let may_change = |front: &[u64], behind: &[u64]| {
            front[0] == MEASUREMENT && behind[0] == ROTATION && commute(front, behind)
        };
        (0..order.len()).all(|front| {
            (front + 1..order.len()).all(|behind| {
                order[front] < order[behind] || may_change(self.left[front], self.left[behind])
            })
        })
    }

    /// What is left stands before a preserved boundary exactly if its place does, and no pair has
    /// its two on different sides.
    fn is_preserved(&self, prefix: usize) -> bool {
        let boundary = self.answer.map[prefix] as usize;
        let places = self.places.order.iter().enumerate();
        let mut pairs = self.places.pairs.iter();
        places
            .into_iter()
            .all(|(at, &place)| (at < boundary) == (place < prefix))
            && pairs.all(|pair| (pair.earlier < prefix) == (pair.later < prefix))
    }

    /// Between the two of a pair, in the whole input, are only classical records and operations
    /// that commute with the earlier one.
    fn is_legal(&self, pair: &Pair) -> bool {
        let earlier = self.input[pair.earlier];
        let between = pair.earlier + 1..pair.later;
        pair.earlier < pair.later
            && earlier[0] == ROTATION
            && between
                .into_iter()
                .all(|place| commute(earlier, self.input[place]))
    }

    /// An operation that is left is its input's: word for word, or, with a pair fused into it, but
    /// for angle, phase and constant.
    fn is_kept(&self, at: usize) -> bool {
        let place = self.places.order[at];
        let is_fused = self.places.pairs.iter().any(|pair| pair.later == place);
        let changed = [1, 4, 5].map(|word| is_fused.then_some(word));
        (0..OPERATION_WORDS)
            .filter(|&word| !changed.contains(&Some(word)))
            .all(|word| self.left[at][word] == self.input[place][word])
    }

    /// Each place is that of one that is left, or of an earlier one of a pair, or of a later one of
    /// a cancelled pair, once.
    fn is_each_once(&self) -> bool {
        let Places { order, pairs, .. } = self.places;
        let cancelled = pairs.iter().filter(|pair| pair.cancelled);
        let mut all: Vec<usize> = order.clone();
        all.extend(pairs.iter().map(|pair| pair.earlier));
        all.extend(cancelled.map(|pair| pair.later));
        all.sort_unstable();
        all.into_iter().eq(0..self.input.len())
    }

    /// The first claim that does not hold.
    fn broken(&self) -> Option<&'static str> {
        let mut prefixes: Vec<usize> = self.call.prefixes.iter().map(|&p| p as usize).collect();
        prefixes.sort_unstable();
        prefixes.dedup();
        let places = self.places;
        let claims: [(&str, &dyn Fn() -> bool); 5] = [
            ("an order has changed", &|| self.is_ordered()),
            ("a preserved prefix is crossed", &|| {
                prefixes.iter().all(|&prefix| self.is_preserved(prefix))
            }),
            ("something stands between a pair", &|| {
                places.pairs.iter().all(|pair| self.is_legal(pair))
            }),
            ("something else has changed", &|| {
                (0..places.order.len()).all(|at| self.is_kept(at))
            }),
            ("an operation is missing, or twice there", &|| {
                self.is_each_once()
            }),
        ];
        let broken = claims.iter().find(|(_, holds)| !holds());
        broken.map(|(name, _)| *name)
    }
}

/// The first claim that does not hold of a call that is optimized, by these places.
pub fn broken(call: &Call, answer: &Answer, places: &Places) -> Option<&'static str> {
    Optimized {
        input: call.operations().collect(),
        left: answer.list.chunks_exact(OPERATION_WORDS).collect(),
        call,
        answer,
        places,
    }
    .broken()
}

#[cfg(test)]
mod tests {
    use super::broken;
    use crate::pending::answer::{Answer, answer};
    use crate::pending::places::{Pair, Places, places};
    use crate::pending::{Call, lists};

    /// The optimized ones of the known small lists, with their places.
    fn optimized() -> impl Iterator<Item = (Call, Answer, Places)> {
        let answered = lists::circuits().map(|call| {
            let answer = answer(&call).expect("an answer");
            (call, answer)
        });
        let accepted =
            answered.filter(|(call, answer)| answer.number == 0 && !call.has_expectation());
        accepted.map(|(call, answer)| {
            let places = places(&call, &answer).expect("the Rust's answer");
            (call, answer, places)
        })
    }

    /// How many of these lists break this claim first with other places.
    fn breaks(claim: &str, other: impl Fn(&mut Places)) -> usize {
        let lists = optimized().map(|(call, answer, mut places)| {
            other(&mut places);
            broken(&call, &answer, &places)
        });
        lists.filter(|broken| *broken == Some(claim)).count()
    }

    #[test]
    fn the_claims_hold() {
        assert!(optimized().count() > 30);
        let holds = |(call, answer, places)| broken(&call, &answer, &places).is_none();
        assert!(optimized().all(holds));
    }

    #[test]
    fn a_pair_does_not_have_the_earlier_place() {
        let earlier = |places: &mut Places| {
            let Places { order, pairs, .. } = places;
            for pair in pairs {
                let place = order.iter_mut().find(|place| **place == pair.later);
                place.into_iter().for_each(|place| *place = pair.earlier);
            }
        };
        assert!(breaks("an order has changed", earlier) > 0);
        assert!(breaks("a preserved prefix is crossed", earlier) == 0);
    }

    #[test]
    fn rotations_do_not_cross_any_measurement() {
        // The first operation left and the last, as if they had been fused.
        let across = |places: &mut Places| {
            if let [first, .., last] = places.order[..] {
                places.pairs.push(Pair {
                    earlier: first.min(last),
                    later: first.max(last),
                    cancelled: false,
                });
            }
        };
        assert!(breaks("something stands between a pair", across) > 0);
    }
}
