//! Where each operation that is left stood in the input, and which pairs were fused, replayed from
//! 02's CR 6 on words. The Rust does not tell this, so a replay counts only where its list, its map
//! and its counts are the Rust's.

use super::Call;
use super::answer::Answer;
use super::operations::{LAYOUTS, MEASUREMENT, OPERATION_WORDS, ROTATION};

/// Words in a sign's count and conditions, behind its constant.
const COUNT_AND_CONDITIONS: usize = 9;

/// Two rotations that were fused, by their places in the input.
#[derive(Clone, Copy, Debug, PartialEq, Eq)]
pub struct Pair {
    pub earlier: usize,
    pub later: usize,
    pub cancelled: bool,
}

/// What is left, by places in the input: a fused pair has the later one's.
#[derive(Clone, Debug, Default)]
pub struct Places {
    pub order: Vec<usize>,
    pub pairs: Vec<Pair>,
    pub swaps: usize,
}

/// The masks of an operation's string, if it has one.
fn masks(operation: &[u64]) -> Option<[u64; 2]> {
    let start = LAYOUTS[operation[0] as usize].string?;
    Some([operation[start], operation[start + 1]])
}

/// Whether two operations have strings that commute, or one has none.
pub fn commute(one: &[u64], other: &[u64]) -> bool {
    match (masks(one), masks(other)) {
        (Some([x, z]), Some([other_x, other_z])) => {
            let overlaps = (x & other_z).count_ones() + (z & other_x).count_ones();
            overlaps.is_multiple_of(2)
        }
        _ => true,
    }
}

/// A rotation's phase less the number of its Y.
fn coefficient(rotation: &[u64]) -> u64 {
    let y_count = u64::from((rotation[2] & rotation[3]).count_ones());
    rotation[4].wrapping_sub(y_count) % 4
}

/// The sign's constant with the string's own sign in it.
fn whole_sign(rotation: &[u64]) -> u64 {
    rotation[5] ^ (coefficient(rotation) / 2)
}

/// Whether a rotation and one behind it are about one string and have the same conditions.
fn can_fuse(earlier: &[u64], later: &[u64]) -> bool {
    let conditions = 6..6 + COUNT_AND_CONDITIONS;
    later[0] == ROTATION
        && masks(earlier) == masks(later)
        && earlier[conditions.clone()] == later[conditions]
}

/// The later rotation with the earlier one in it.
fn fused(earlier: &[u64], later: &[u64]) -> Vec<u64> {
    let direction = match whole_sign(earlier) == whole_sign(later) {
        true => 1.0,
        false => -1.0,
    };
    let [before, after] = [earlier[1], later[1]].map(f64::from_bits);
    let mut words = later.to_vec();
    words[1] = (after + direction * before).to_bits();
    words[4] = u64::from((later[2] & later[3]).count_ones()) % 4;
    words[5] = whole_sign(later);
    words
}

/// A list while it is optimized: the words of the operation that has each place of the input.
struct Replay {
    words: Vec<Vec<u64>>,
    found: Places,
}

impl Replay {
    /// The place in a segment of what the rotation at one place fuses with, if it fuses.
    fn partner(&self, order: &[usize], at: usize) -> Option<usize> {
        let rotation = &self.words[order[at]];
        for (next, &place) in order.iter().enumerate().skip(at + 1) {
            let other = &self.words[place];
            if !commute(rotation, other) {
                return None;
            }
            if can_fuse(rotation, other) {
                return Some(next);
            }
        }
        None
    }

    /// Fuses two rotations of a segment, and takes out the earlier one, or both.
    fn meet(&mut self, order: &mut Vec<usize>, at: usize, next: usize) {
        let (earlier, later) = (order[at], order[next]);
        let words = fused(&self.words[earlier], &self.words[later]);
        let cancelled = f64::from_bits(words[1]) == 0.0;
        self.words[later] = words;
        self.found.pairs.push(Pair {
            earlier,
            later,
            cancelled,
        });
        if cancelled {
            order.remove(next);
        }
        order.remove(at);
    }

    /// Carries each rotation of a segment to the right, once.
    fn fuse(&mut self, order: &mut Vec<usize>) {
        let mut at = 0;
        while at < order.len() {
            let is_rotation = self.words[order[at]][0] == ROTATION;
            match is_rotation.then(|| self.partner(order, at)).flatten() {
                Some(next) => self.meet(order, at, next),
                None => at += 1,
            }
        }
    }

    /// How many rotations a measurement passes of those in front of it.
    fn reach(&self, slack: bool, measurement: &[u64], before: &[usize]) -> usize {
        let before = before.iter().rev().map(|&place| &self.words[place]);
        let passed = before
            .take_while(|other| other[0] == ROTATION && commute(measurement, other))
            .map(|rotation| masks(rotation) == masks(measurement));
        match slack {
            true => passed.count(),
            false => passed
                .enumerate()
                .find(|(_, is_same)| *is_same)
                .map_or(0, |(count, _)| count + 1),
        }
    }

    /// Moves each measurement of a segment in front of what it passes.
    fn move_measurements(&mut self, order: &mut [usize], slack: bool) {
        for at in 0..order.len() {
            let operation = &self.words[order[at]];
            if operation[0] == MEASUREMENT {
                let passed = self.reach(slack, operation, &order[..at]);
                order[at - passed..=at].rotate_right(1);
                self.found.swaps += passed;
            }
        }
    }

    /// Optimizes the operations from one place to another.
    fn segment(&mut self, places: std::ops::Range<usize>) {
        let mut order: Vec<usize> = places.collect();
        let pairs = self.found.pairs.len();
        self.fuse(&mut order);
        self.move_measurements(&mut order, self.found.pairs.len() > pairs);
        self.found.order.extend(order);
    }
}

/// The places of a call that is optimized; an error where the replay is not the Rust's answer.
pub fn places(call: &Call, answer: &Answer) -> Result<Places, String> {
    let mut replay = Replay {
        words: call.operations().map(<[u64]>::to_vec).collect(),
        found: Places::default(),
    };
    let mut ends: Vec<usize> = call
        .prefixes
        .iter()
        .map(|&prefix| prefix as usize)
        .collect();
    ends.extend([0, call.count()]);
    ends.sort_unstable();
    ends.dedup();
    let mut map = vec![u64::MAX; call.count() + 1];
    map[0] = 0;
    for pair in ends.windows(2) {
        replay.segment(pair[0]..pair[1]);
        map[pair[1]] = replay.found.order.len() as u64;
    }
    let Replay { words, found } = replay;
    let left = found.order.iter().flat_map(|&place| &words[place]);
    let cancelled = found.pairs.iter().filter(|pair| pair.cancelled).count();
    let counts = [
        call.count(),
        found.order.len(),
        found.pairs.len(),
        cancelled,
        found.swaps,
    ];
    let is_rusts = left.eq(&answer.list)
        && answer.list.len() == OPERATION_WORDS * found.order.len()
        && map == answer.map
        && answer.result[1..] == counts.map(|count| count as u64);
    match is_rusts {
        true => Ok(found),
        false => Err("the replay is not the Rust's answer".to_owned()),
    }
}
