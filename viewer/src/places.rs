//! What became of each pending operation: a replay of what the library does, over the places that
//! operations had in the list. The library tells no places, so that this is worked out here and held
//! to its answer; where the two differ the answer counts, and nothing of this is told.

use std::ops::Range;

use midvokt::{
    Optimized, PauliString, PendingOperation, PendingOptimizationStats, PendingPauliRotation,
};

/// Two rotations that were fused, by their places.
#[derive(Clone, Copy, Debug, PartialEq, Eq)]
pub struct Pair {
    /// The one that went to the other.
    pub earlier: usize,
    /// The one whose place both have then.
    pub later: usize,
    /// Whether none of the two is left.
    pub cancelled: bool,
}

/// A measurement that moved, and the rotations that it went in front of, by their places.
#[derive(Clone, Debug, PartialEq, Eq)]
pub struct Move {
    /// The measurement.
    pub measurement: usize,
    /// The rotations, in the order in which they stand.
    pub passed: Vec<usize>,
}

/// What was done to a list.
#[derive(Clone, Debug, Default, PartialEq)]
pub struct Replay {
    /// The places of what is left, in order: a fused pair has the later one's.
    pub order: Vec<usize>,
    /// The pairs, in the order in which they were fused.
    pub pairs: Vec<Pair>,
    /// The moves, in the order in which they were made.
    pub moves: Vec<Move>,
    /// How many operations stand before each boundary of the list now; -1 where none is kept.
    pub remap: Vec<i32>,
    /// The operation that each place has now.
    operations: Vec<PendingOperation>,
}

/// The string of an operation, if it has one.
fn string(operation: &PendingOperation) -> Option<&PauliString> {
    operation.pauli().map(|signed| &signed.pauli)
}

/// The rotation that an operation is, if it is one.
fn rotation(operation: &PendingOperation) -> Option<&PendingPauliRotation> {
    match operation {
        PendingOperation::PauliRotation(rotation) => Some(rotation),
        _ => None,
    }
}

/// How many qubits have both masks' bits.
fn overlap(x: &[u64], z: &[u64]) -> u32 {
    let words = x.iter().zip(z);
    words.map(|(x, z)| (x & z).count_ones()).sum()
}

/// Whether the strings of two operations commute, or one of them has none.
fn commute(one: &PendingOperation, other: &PendingOperation) -> bool {
    match (string(one), string(other)) {
        (Some(one), Some(other)) => {
            let overlaps = overlap(&one.x, &other.z) + overlap(&one.z, &other.x);
            overlaps.is_multiple_of(2)
        }
        _ => true,
    }
}

/// Whether two operations are about one string, its phase aside.
fn same_string(one: &PendingOperation, other: &PendingOperation) -> bool {
    match (string(one), string(other)) {
        (Some(one), Some(other)) => one.x == other.x && one.z == other.z,
        _ => false,
    }
}

/// A string's phase less the number of its Y, modulo 4.
pub fn coefficient(string: &PauliString) -> i32 {
    (string.phase_exponent() - overlap(&string.x, &string.z) as i32).rem_euclid(4)
}

/// The constant of a rotation's sign, with the sign that the phase says in it.
fn whole_sign(rotation: &PendingPauliRotation) -> bool {
    rotation.pauli.sign.constant != (coefficient(&rotation.pauli.pauli) == 2)
}

/// The later of two rotations with the earlier one in it, where they are about one string and their
/// signs have the same conditions.
fn fused(earlier: &PendingOperation, later: &PendingOperation) -> Option<PendingPauliRotation> {
    let is_same = same_string(earlier, later);
    let (before, after) = (rotation(earlier)?, rotation(later)?);
    if !is_same || before.pauli.sign.conditions != after.pauli.sign.conditions {
        return None;
    }
    let direction = match whole_sign(before) == whole_sign(after) {
        true => 1.0,
        false => -1.0,
    };
    let mut whole = after.clone();
    whole.kernel_angle = after.kernel_angle + direction * before.kernel_angle;
    whole.pauli.sign.constant = whole_sign(after);
    let ys = overlap(&whole.pauli.pauli.x, &whole.pauli.pauli.z);
    whole.pauli.pauli.set_phase(ys as i32);
    Some(whole)
}

impl Replay {
    /// The place in a segment of what the rotation at one fuses with, and what the two are then.
    fn partner(&self, order: &[usize], at: usize) -> Option<(usize, PendingPauliRotation)> {
        let earlier = &self.operations[order[at]];
        for (next, &place) in order.iter().enumerate().skip(at + 1) {
            let other = &self.operations[place];
            if !commute(earlier, other) {
                return None;
            }
            if let Some(whole) = fused(earlier, other) {
                return Some((next, whole));
            }
        }
        None
    }

    /// Carries each rotation of a segment to the right, once.
    fn fuse(&mut self, order: &mut Vec<usize>) {
        let mut at = 0;
        while at < order.len() {
            let Some((next, whole)) = self.partner(order, at) else {
                at += 1;
                continue;
            };
            let (earlier, later) = (order[at], order[next]);
            let cancelled = whole.kernel_angle == 0.0;
            self.operations[later] = PendingOperation::from(whole);
            self.pairs.push(Pair {
                earlier,
                later,
                cancelled,
            });
            if cancelled {
                order.remove(next);
            }
            order.remove(at);
        }
    }

    /// How many of the rotations before it a measurement passes: with slack all that commute with it,
    /// else up to the nearest about its own string.
    fn reach(&self, slack: bool, measurement: &PendingOperation, before: &[usize]) -> usize {
        let before = before.iter().rev().map(|&place| &self.operations[place]);
        let mut passed = before
            .take_while(|other| rotation(other).is_some() && commute(measurement, other))
            .map(|rotation| same_string(measurement, rotation));
        match slack {
            true => passed.count(),
            false => passed.position(|is_same| is_same).map_or(0, |at| at + 1),
        }
    }

    /// Moves each measurement of a segment in front of what it passes.
    fn move_measurements(&mut self, order: &mut [usize], slack: bool) {
        for at in 0..order.len() {
            let operation = &self.operations[order[at]];
            if !matches!(operation, PendingOperation::PauliMeasurement(_)) {
                continue;
            }
            let passed = self.reach(slack, operation, &order[..at]);
            if passed > 0 {
                self.moves.push(Move {
                    measurement: order[at],
                    passed: order[at - passed..at].to_vec(),
                });
                order[at - passed..=at].rotate_right(1);
            }
        }
    }

    /// Optimizes the operations at these places.
    fn segment(&mut self, places: Range<usize>) {
        let mut order: Vec<usize> = places.collect();
        let pairs = self.pairs.len();
        self.fuse(&mut order);
        let slack = self.pairs.len() > pairs;
        self.move_measurements(&mut order, slack);
        self.order.extend(order);
    }

    /// What is done to a list with these preserved prefixes, which lie in it.
    pub fn of(operations: Vec<PendingOperation>, prefixes: &[usize]) -> Self {
        let count = operations.len();
        let mut replay = Self {
            remap: vec![-1; count + 1],
            operations,
            ..Self::default()
        };
        let mut ends: Vec<_> = prefixes
            .iter()
            .copied()
            .filter(|&end| end <= count)
            .collect();
        if replay.operations.iter().any(is_expectation) {
            replay.order = (0..count).collect();
            replay.remap = (0..=count as i32).collect();
            return replay;
        }
        ends.extend([0, count]);
        ends.sort_unstable();
        ends.dedup();
        replay.remap[0] = 0;
        for pair in ends.windows(2) {
            replay.segment(pair[0]..pair[1]);
            replay.remap[pair[1]] = replay.order.len() as i32;
        }
        replay
    }

    /// The counts and the map that follow from the replay.
    fn stats(&self) -> PendingOptimizationStats {
        let passed = self.moves.iter().map(|moved| moved.passed.len());
        PendingOptimizationStats {
            input_operations: self.operations.len(),
            output_operations: self.order.len(),
            fused_rotations: self.pairs.len(),
            cancelled_rotations: self.pairs.iter().filter(|pair| pair.cancelled).count(),
            measurement_left_swaps: passed.sum(),
            prefix_remap: self.remap.clone(),
        }
    }

    /// Whether it comes to the library's answer: every word of what is left, counts and map.
    pub fn agrees(&self, optimized: &Optimized) -> bool {
        let left = self.order.iter().map(|&place| &self.operations[place]);
        let words = left.map(PendingOperation::to_words);
        let answered = optimized.operations.iter().map(PendingOperation::to_words);
        words.eq(answered) && self.stats() == optimized.stats
    }

    /// The places that were fused into the one at a place, first to last.
    pub fn fused_into(&self, place: usize) -> Vec<usize> {
        let mut found = Vec::new();
        let mut open = vec![place];
        while let Some(later) = open.pop() {
            let into = self.pairs.iter().filter(|pair| pair.later == later);
            let earlier: Vec<_> = into.map(|pair| pair.earlier).collect();
            found.extend(&earlier);
            open.extend(earlier);
        }
        found.sort_unstable();
        found
    }
}

/// Whether an operation takes an expectation value.
pub fn is_expectation(operation: &PendingOperation) -> bool {
    match operation {
        PendingOperation::PauliMeasurement(measurement) => measurement.exp_val.is_some(),
        _ => false,
    }
}

#[cfg(test)]
mod tests {
    use super::*;
    use crate::list;
    use midvokt::optimize;

    /// The replay of a list, and the library's answer.
    fn both(text: &str) -> (Replay, Optimized) {
        let list = list::parse(text.as_bytes()).unwrap();
        let operations: Vec<_> = list.operations.into_iter().map(|q| q.operation).collect();
        let prefixes: Vec<_> = list.kept.iter().map(|kept| kept.prefix as usize).collect();
        let answer = optimize(list.width as usize, &operations, &prefixes).unwrap();
        (Replay::of(operations, &prefixes), answer)
    }

    /// A list of so many operations, made of the bits of a number.
    fn made(mut number: u64, count: usize) -> String {
        let mut text = "width 2\n".to_owned();
        for _ in 0..count {
            number = number
                .wrapping_mul(6364136223846793005)
                .wrapping_add(1442695040888963407);
            let line = [
                "rotate X0 0.5",
                "rotate -X0 0.5",
                "rotate X0 0.25 if s1",
                "rotate -X0 0.25 if not s1",
                "rotate Z0 0.5",
                "rotate Y0*Y1 -0.125 if 1",
                "rotate Z1 0",
                "measure Z0*Z1 record 1",
                "measure X0 as s2",
                "record s1 to 2",
                "keep",
                "measure Z1",
            ][(number >> 33) as usize % 12];
            text += &format!("{line}\n");
        }
        text
    }

    #[test]
    fn it_comes_to_the_librarys_answer() {
        let mut seen = [0; 3];
        for number in 0..2000 {
            let text = made(number, 1 + number as usize % 40);
            let (replay, answer) = both(&text);
            assert!(replay.agrees(&answer), "{text}{replay:?}\n{answer:?}");
            let stats = &answer.stats;
            seen[0] += stats.fused_rotations;
            seen[1] += stats.cancelled_rotations;
            seen[2] += stats.measurement_left_swaps;
        }
        assert!(seen.iter().all(|&count| count > 500), "{seen:?}");
    }

    #[test]
    fn another_answer_is_found_out() {
        let text =
            "width 2\nrotate X0 0.5\nrotate Z1 1\nrotate X0 -0.25\nmeasure Z1\nkeep\nrecord 0";
        let (replay, answer) = both(text);
        assert!(replay.agrees(&answer));
        let changes: [fn(&mut Optimized); 6] = [
            |answer| answer.operations.swap(0, 1),
            |answer| answer.operations.truncate(1),
            |answer| answer.stats.fused_rotations += 1,
            |answer| answer.stats.measurement_left_swaps = 0,
            |answer| answer.stats.prefix_remap[4] = 4,
            |answer| {
                for operation in &mut answer.operations {
                    if let PendingOperation::PauliRotation(rotation) = operation {
                        rotation.kernel_angle = -rotation.kernel_angle;
                    }
                }
            },
        ];
        for change in changes {
            let mut other = answer.clone();
            change(&mut other);
            assert!(!replay.agrees(&other), "{other:?}");
        }
    }

    #[test]
    fn a_chain_names_all_its_places() {
        let (replay, _) = both("width 1\nrotate X 1\nrecord 0\nrotate X 1\nrotate X 1\nrotate X 1");
        assert_eq!(replay.order, [1, 4]);
        assert_eq!(replay.fused_into(4), [0, 2, 3]);
        assert_eq!(replay.fused_into(1), []);
    }

    #[test]
    fn an_expectation_leaves_places_as_they_are() {
        let (replay, answer) = both("width 1\nrotate X 1\nrotate X 1\nexpect Z value 1\nkeep 99");
        assert!(replay.agrees(&answer));
        assert_eq!(replay.order, [0, 1, 2]);
    }
}
