//! Calls whose form is wrong: in just one thing, chosen or any, and damaged anywhere.

use super::draft::{self, Words};
use super::shape::Shape;
use super::{LISTED, accepted, plain};
use crate::generator::Numbers;
use crate::pending::Call;
use crate::pending::form::{
    Fault, MOST_ANGLE, MOST_NUMBER, MOST_OPERATIONS, MOST_PHASE, MOST_PREFIXES, MOST_WIDTH, Wrong,
    all_faults,
};
use crate::pending::operations::{CLASSICAL, LAYOUTS, OPERATION_WORDS, SIGN_CONDITIONS};

/// How many calls are listed for each fault; in turn they have each of the values that a word
/// may have for it.
const OF_EACH: u64 = 24;

/// The upper half of a word: its lowest bit.
const UPPER: u64 = 1 << 32;

/// The numbers of a call, and which of a fault's values it takes.
struct Damage<'a> {
    random: &'a mut Numbers,
    turn: usize,
}

impl Damage<'_> {
    /// The value whose turn it is.
    fn pick<T: Copy>(&self, values: &[T]) -> T {
        values[self.turn % values.len()]
    }

    /// A word above the most that fits: one or two more, one whose low 32 bits fit, or any.
    fn above(&mut self, most: u64) -> u64 {
        let inside = self.random.between(0, most);
        let any = self.random.between(most + 1, u64::MAX);
        let upper = UPPER | inside;
        self.pick(&[most + 1, upper, most + 2, u64::MAX, 1 << 63 | inside, any])
    }

    /// A length that is too short: by one, by all, or by any.
    fn fewer(&mut self, least: usize) -> usize {
        let any = self.random.below(least as u64) as usize;
        self.pick(&[least - 1, 0, any])
    }

    /// Makes this wrong with a call as a whole, and nothing else.
    fn whole(&mut self, call: &mut Call, wrong: Wrong) {
        let [list, map] = call.least_lengths();
        match wrong {
            Wrong::NoWidth => call.width = 0,
            Wrong::LargeWidth => call.width = self.above(MOST_WIDTH),
            Wrong::CutList => call.words.truncate(list - self.pick(&[1, 31, 16])),
            Wrong::LongList => {
                let more = (MOST_OPERATIONS + 1).div_ceil(call.count());
                call.words = call.words.repeat(more);
                call.words.truncate((MOST_OPERATIONS + 1) * OPERATION_WORDS);
            }
            Wrong::ManyPrefixes => {
                let count = MOST_PREFIXES + self.pick(&[1, 2, 1000]);
                call.prefixes = vec![self.random.between(0, call.count() as u64); count];
            }
            Wrong::ShortList => call.lengths = Some([self.fewer(list), map]),
            Wrong::ShortMap => call.lengths = Some([list, self.fewer(map)]),
            _ => {}
        }
    }

    /// An angle that is not in the range.
    fn angle(&mut self, wrong: Wrong) -> u64 {
        let payload = self.random.between(1, (1 << 52) - 1);
        let above = self.pick(&[
            MOST_ANGLE.next_up(),
            MOST_ANGLE + 1.0,
            2.0 * MOST_ANGLE,
            f64::MAX,
            f64::INFINITY,
        ]);
        match wrong {
            Wrong::NoAngle => {
                self.random.pick(&[0x7ff, 0xfff]) << 52 | self.pick(&[1, 1 << 51, payload])
            }
            Wrong::LowAngle => (-above).to_bits(),
            _ => above.to_bits(),
        }
    }

    /// A sign in which one condition, at this place, is wrong.
    fn sign(&mut self, wrong: Wrong, place: usize) -> draft::Sign {
        let step = self.random.pick(&[2, 2, 100_000_000]);
        let all: Vec<u64> = (1..=SIGN_CONDITIONS as u64)
            .map(|count| 2 + step * count)
            .collect();
        let used = match wrong {
            Wrong::UnusedCondition => self.random.between(0, place as u64) as usize,
            _ => place + 1,
        };
        let mut sign = draft::sign(self.random.below(2), &all[..used]);
        let (before, next) = (sign[1 + place], all[place]);
        let any = self.above(0);
        sign[2 + place] = match wrong {
            Wrong::NoCondition => 0,
            Wrong::SameCondition => before,
            Wrong::LowerCondition => self.pick(&[0, 1, before - 1]),
            Wrong::LargeCondition => self.pick(&[MOST_NUMBER + 1, UPPER | next, u64::MAX]),
            _ => self.pick(&[next, UPPER, any]),
        };
        sign
    }

    /// An Option in which the flag or the value is wrong.
    fn option(&mut self, wrong: Wrong) -> draft::Maybe {
        let value = self.random.between(1, MOST_NUMBER);
        match wrong {
            Wrong::LargeFlag => [self.above(1), self.random.pick(&[0, value])],
            Wrong::ValueOfNone => [0, self.pick(&[1, value, MOST_NUMBER])],
            _ => [1, self.above(MOST_NUMBER)],
        }
    }

    /// Makes just this wrong in an operation of the kind.
    fn operation(&mut self, operation: &mut Words, fault: Fault, width: u64) {
        let Fault { wrong, kind, word } = fault;
        let start = LAYOUTS[kind].sign;
        match wrong {
            Wrong::LowAngle | Wrong::HighAngle | Wrong::NoAngle => {
                operation[word] = self.angle(wrong);
            }
            Wrong::WideMask => {
                let any = self.random.between(width, 63);
                operation[word] |= 1 << self.pick(&[width, 63, any, any]);
            }
            Wrong::LargePhase => operation[word] = self.above(MOST_PHASE),
            Wrong::LargeConstant => operation[word] = self.above(1),
            Wrong::LargeCount => {
                let same = UPPER | operation[word];
                operation[word] = self.pick(&[SIGN_CONDITIONS as u64 + 1, same, u64::MAX]);
            }
            Wrong::LargeFlag => {
                operation[word..word + 2].copy_from_slice(&self.option(wrong));
            }
            Wrong::ValueOfNone | Wrong::LargeValue => {
                operation[word - 1..=word].copy_from_slice(&self.option(wrong));
            }
            Wrong::WordBehind => operation[word] = self.above(0),
            Wrong::LargeKind => operation[0] = self.above(2),
            _ => {
                let sign = self.sign(wrong, word - start - 2);
                operation[start..start + sign.len()].copy_from_slice(&sign);
            }
        }
    }
}

/// The width for a fault: one that is too small for some masks where a mask is wrong.
fn width(random: &mut Numbers, wrong: Wrong) -> u64 {
    let any = random.between(1, MOST_WIDTH - 1);
    match wrong {
        Wrong::WideMask => random.pick(&[1, MOST_WIDTH - 1, 32, any]),
        _ => random.pick(&[MOST_WIDTH, any]),
    }
}

/// A call in which this is wrong, by the value whose turn it is, and nothing else.
fn with_fault(random: &mut Numbers, fault: Fault, turn: usize) -> Call {
    let width = width(random, fault.wrong);
    let shape = Shape::of_width(random, width);
    let most = random.pick(&[1, 3, 8, 8, 100]);
    let size = random.between(1, most);
    let mut call = plain(&shape, random, size);
    if fault.wrong == Wrong::NoWidth {
        let record = shape.operation(random, CLASSICAL);
        call.words = record.repeat(size as usize);
    }
    let mut operation = shape.operation(random, fault.kind as u64);
    let place = random.below(size) as usize * OPERATION_WORDS;
    let mut damage = Damage { random, turn };
    if fault.wrong < Wrong::LargeKind {
        damage.whole(&mut call, fault.wrong);
    } else {
        damage.operation(&mut operation, fault, width);
        call.words[place..place + OPERATION_WORDS].copy_from_slice(&operation);
    }
    call
}

/// How many calls with one fault are listed.
pub fn listed_count() -> u64 {
    all_faults().len() as u64 * OF_EACH
}

/// A call of the list, by number.
pub fn listed(number: u64) -> Call {
    let mut random = Numbers::new(LISTED + 2, number);
    let fault = all_faults()[(number / OF_EACH) as usize];
    with_fault(&mut random, fault, (number % OF_EACH) as usize)
}

/// A call with any one fault.
pub fn one_fault(random: &mut Numbers) -> Call {
    let all = all_faults();
    let (fault, turn) = (random.pick(&all), random.below(OF_EACH) as usize);
    with_fault(random, fault, turn)
}

/// A call that fitted before some words of it, or bits, were changed.
pub fn anywhere(random: &mut Numbers) -> Call {
    let mut call = accepted(random);
    if call.words.is_empty() {
        return call;
    }
    for _ in 0..random.between(1, 2) {
        let place = random.below(call.words.len() as u64) as usize;
        let (word, other) = (call.words[place], random.below(call.words.len() as u64));
        let other = call.words[other as usize];
        let bit = 1 << random.below(64);
        let any = random.below(12);
        let changes = [
            word ^ bit,
            word.wrapping_add(1),
            word.wrapping_sub(1),
            other,
            any,
        ];
        call.words[place] = random.pick(&changes);
    }
    call
}
