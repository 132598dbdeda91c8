//! What was counted, and the first difference.

use std::collections::BTreeMap;

use midvokt_reference::differences::{Differences, add_counts};
use midvokt_reference::pending::Call;
use midvokt_reference::pending::answer::{Answer, NO_FORM, NO_PREFIX, NOT_HERMITIAN};
use midvokt_reference::pending::form::{
    self, Fault, MOST_OPERATIONS, WRONG_ABOVE_32_BITS, WRONGS, Wrong, all_faults,
};

use crate::reached::{REACHED, Seen};

/// How often each thing has to occur at least.
const LEAST: u64 = 10;

/// How often each size has to be optimized at least.
const LEAST_OF_SIZE: u64 = 1;

/// The numbers that a typed call can return.
const TYPED: [u64; 4] = [0, NO_FORM, NO_PREFIX, NOT_HERMITIAN];

pub struct Tally {
    reached: [u64; REACHED.len()],
    /// Calls by the only thing that is wrong with them.
    alone: BTreeMap<Fault, u64>,
    /// Of these, calls that have nothing wrong in the low 32 bits of words.
    above_32_bits: BTreeMap<Wrong, u64>,
    /// Calls with several things wrong.
    several: u64,
    /// Optimized lists by size.
    sizes: Vec<u64>,
    pub calls: u64,
    /// Typed calls by the number that was expected.
    typed: BTreeMap<u64, u64>,
    /// Optimized lists whose places were asked what is claimed of them, and their fused pairs.
    claimed: [u64; 2],
    pub differences: Differences,
}

impl Default for Tally {
    /// Nothing counted.
    fn default() -> Self {
        Self {
            reached: [0; REACHED.len()],
            alone: BTreeMap::new(),
            above_32_bits: BTreeMap::new(),
            several: 0,
            sizes: vec![0; MOST_OPERATIONS + 1],
            calls: 0,
            typed: BTreeMap::new(),
            claimed: [0; 2],
            differences: Differences::default(),
        }
    }
}

impl Tally {
    /// Counts a call with its answer.
    pub fn count(&mut self, call: &Call, answer: &Answer) {
        let seen = Seen::new(call, answer);
        for (count, (_, is_reached)) in self.reached.iter_mut().zip(REACHED) {
            *count += u64::from(is_reached(&seen));
        }
        if seen.is_optimized() {
            self.sizes[call.count()] += 1;
        }
        if answer.number == NO_FORM {
            self.count_faults(call);
        }
    }

    /// Counts a call by what is wrong with its form.
    fn count_faults(&mut self, call: &Call) {
        let [fault] = form::faults(call)[..] else {
            self.several += 1;
            return;
        };
        *self.alone.entry(fault).or_default() += 1;
        if form::is_wrong_above_32_bits(call) {
            *self.above_32_bits.entry(fault.wrong).or_default() += 1;
        }
    }

    /// Counts a typed call by the number that is expected of it.
    pub fn count_typed(&mut self, number: u64) {
        *self.typed.entry(number).or_default() += 1;
    }

    /// Counts a list of which the claims were asked, with its fused pairs.
    pub fn count_claimed(&mut self, pairs: usize) {
        self.claimed[0] += 1;
        self.claimed[1] += pairs as u64;
    }

    /// Adds what another thread has counted.
    pub fn add(&mut self, other: Self) {
        add_counts(&mut self.reached, &other.reached);
        add_counts(&mut self.sizes, &other.sizes);
        for (fault, count) in other.alone {
            *self.alone.entry(fault).or_default() += count;
        }
        for (wrong, count) in other.above_32_bits {
            *self.above_32_bits.entry(wrong).or_default() += count;
        }
        for (number, count) in other.typed {
            *self.typed.entry(number).or_default() += count;
        }
        self.several += other.several;
        self.calls += other.calls;
        add_counts(&mut self.claimed, &other.claimed);
        self.differences.add(other.differences);
    }

    /// How many calls this alone is wrong with.
    fn alone(&self, fault: &Fault) -> u64 {
        self.alone.get(fault).copied().unwrap_or(0)
    }

    /// How many calls this alone is wrong with, in the upper half of a word.
    fn above_32_bits(&self, wrong: Wrong) -> u64 {
        self.above_32_bits.get(&wrong).copied().unwrap_or(0)
    }

    /// How many typed calls there were for a number.
    fn typed(&self, number: u64) -> u64 {
        self.typed.get(&number).copied().unwrap_or(0)
    }

    /// What came too seldom.
    fn missing(&self) -> Vec<String> {
        let faults = all_faults();
        let counted = REACHED.iter().map(|(name, _)| (*name).to_owned());
        let counted = counted.zip(self.reached);
        let faults = faults
            .iter()
            .map(|fault| (fault.to_string(), self.alone(fault)));
        let upper = WRONG_ABOVE_32_BITS.into_iter().map(|wrong| {
            let (_, name) = WRONGS[wrong as usize];
            (format!("{name}, upper half"), self.above_32_bits(wrong))
        });
        let typed = TYPED.map(|number| (format!("typed, {number}"), self.typed(number)));
        let all = counted.chain(faults).chain(upper).chain(typed);
        let seldom = all.filter(|(_, count)| *count < LEAST);
        let seldom = seldom.map(|(name, count)| format!("{name}: {count}"));
        let sizes = self.sizes.iter().enumerate();
        let sizes = sizes.filter(|(_, count)| **count < LEAST_OF_SIZE);
        seldom
            .chain(sizes.map(|(size, count)| format!("size {size}: {count}")))
            .collect()
    }

    /// Whether nothing differs and nothing came too seldom.
    pub fn is_good(&self) -> bool {
        self.differences.count == 0 && self.missing().is_empty()
    }

    /// The calls with this alone; those of the word in which it came least often, where it can
    /// be in several; and those where it is in the upper half of a word.
    fn line_of(&self, wrong: Wrong, name: &str) -> String {
        let faults = all_faults().into_iter();
        let faults = faults.filter(|fault| fault.wrong == wrong);
        let counts: Vec<u64> = faults.map(|fault| self.alone(&fault)).collect();
        let mut line = format!("refused 26 for {name}: {}", counts.iter().sum::<u64>());
        if let [_, _, ..] = counts[..] {
            let least = counts.iter().min().unwrap_or(&0);
            line += &format!(", in each of {} words {least} or more", counts.len());
        }
        if WRONG_ABOVE_32_BITS.contains(&wrong) {
            line += &format!(", in the upper half {}", self.above_32_bits(wrong));
        }
        line
    }

    /// The report.
    pub fn text(&self) -> String {
        let reached = REACHED.iter().zip(self.reached);
        let reached = reached.map(|((name, _), count)| format!("{name}: {count}"));
        let mut lines: Vec<String> = reached.collect();
        lines.push("26 for one thing alone:".to_owned());
        lines.extend(WRONGS.map(|(wrong, name)| self.line_of(wrong, name)));
        lines.push(format!("refused 26 for several things: {}", self.several));
        let fewest = self.sizes.iter().min().unwrap_or(&0);
        lines.push(format!(
            "lists of each size from 0 to {MOST_OPERATIONS} optimized: {fewest} or more"
        ));
        lines.push(format!("calls made {}", self.calls));
        let typed = TYPED.map(|number| format!("{number}: {}", self.typed(number)));
        lines.push(format!(
            "typed calls made, by the number expected: {}",
            typed.join(", ")
        ));
        let [lists, pairs] = self.claimed;
        lines.push(format!(
            "what is claimed asked of the Rust's own answers: lists {lists}, fused pairs {pairs}"
        ));
        let missing = self.missing();
        if !missing.is_empty() {
            lines.push(format!("fewer than {LEAST}: {}", missing.join(", ")));
        }
        lines.extend(self.differences.first("call"));
        lines.push(format!("differences {}", self.differences.count));
        lines.join("\n")
    }
}
