//! Complete lists of programs with up to three faults at once: in the head and the buffers,
//! in one record, and in two records. They show which refusal comes first.

use super::draft::{PROMOTION, low_bits};
use super::edits::{self, Edit, Words};
use super::small::program;
use crate::input::{LARGEST_CEILING, Program};
use crate::refusals::least_lengths;

/// A record that planning passes over.
const CLASSICAL: Words = [3, 0, 0, 0, 0, 0, 0, 0];
const PROMOTED: Words = [PROMOTION, 0, 0, 0, 0, 0, 0, 0];

/// Just long enough buffers; each of them one short, or one longer; all of no length.
fn length_choices(words: usize) -> Vec<Option<[u64; 7]>> {
    let least = least_lengths((words / 8) as u64);
    let mut choices = vec![None, Some([0; 7]), Some(least.map(|length| length + 1))];
    for place in (0..7).filter(|&place| least[place] > 0) {
        let mut short = least;
        short[place] -= 1;
        choices.push(Some(short));
    }
    choices
}

/// Record words: none, one record, too few, as many as may be, and too many.
fn word_choices() -> Vec<Vec<u64>> {
    let mut wrong_kind = CLASSICAL;
    wrong_kind[0] = 6;
    let most = [CLASSICAL; 1024].concat();
    let mut one_more = most.clone();
    one_more.push(0);
    vec![
        Vec::new(),
        CLASSICAL.to_vec(),
        wrong_kind.to_vec(),
        CLASSICAL[..7].to_vec(),
        [CLASSICAL; 1025].concat(),
        most,
        one_more,
    ]
}

/// Heads at their limits: initial_k, max_k, nexpvals. Fewer for programs of many words.
fn head_choices(words: usize) -> Vec<[u64; 3]> {
    if words > 8000 {
        return vec![[0, 8, 0], [513, 8, 0], [0, 62, 0], [0, 7, 0], [0, 8, 1]];
    }
    let mut heads = Vec::new();
    for initial_k in [0, 512, 513, u64::MAX] {
        for max_k in [0, 7, 8, 61, 62, u64::MAX] {
            heads.extend([[initial_k, max_k, 0], [initial_k, max_k, 1]]);
        }
    }
    heads
}

/// Every combination of heads, record words and buffers at their limits.
fn of_heads() -> Vec<Program> {
    let mut programs = Vec::new();
    for words in word_choices() {
        for lengths in length_choices(words.len()) {
            for [initial_k, max_k, nexpvals] in head_choices(words.len()) {
                programs.push(Program {
                    initial_k,
                    max_k,
                    nexpvals,
                    ceiling: LARGEST_CEILING,
                    lengths,
                    words: words.clone(),
                });
            }
        }
    }
    programs
}

/// All choices of at most three edits.
fn choices(edits: &[Edit]) -> Vec<Vec<Edit>> {
    let mut chosen = vec![Vec::new()];
    for most in 0..3 {
        let longer: Vec<Vec<Edit>> = (0..edits.len())
            .flat_map(|place| chosen.iter().map(move |before| (place, before)))
            .filter(|(_, before)| before.len() == most)
            .map(|(place, before)| [&before[..], &[edits[place]]].concat())
            .collect();
        chosen.extend(longer);
    }
    chosen
}

/// One record with up to three faults, first or after a join.
fn of_one_record() -> Vec<Program> {
    let mut programs = Vec::new();
    for is_measurement in [false, true] {
        for chosen in choices(edits::for_kind(is_measurement)) {
            for k in [0, 1, 3, 62] {
                let record = edits::edited(is_measurement, &chosen, k);
                let mut join = edits::fitting(false, k);
                join[2] = low_bits(k.min(3));
                programs.push(program(k, &[record]));
                programs.push(program(k, &[CLASSICAL, join, record]));
            }
        }
    }
    programs
}

/// Every record with one fault, and some that fit, for k active coordinates.
fn singles(k: u64) -> Vec<Words> {
    let mut records = vec![CLASSICAL, PROMOTED];
    for is_measurement in [false, true] {
        let edits = edits::for_kind(is_measurement);
        records.extend(
            edits
                .iter()
                .map(|&edit| edits::edited(is_measurement, &[edit], k)),
        );
        let mut joined = edits::fitting(is_measurement, k);
        joined[2] = u64::MAX;
        records.extend([joined, edits::fitting(is_measurement, k)]);
    }
    records
}

/// Two records with a fault each, in both orders, side by side or apart.
fn of_two_records() -> Vec<Program> {
    let mut programs = Vec::new();
    for k in [0, 2, 61, 62, 511, 512] {
        for first in singles(k) {
            for second in singles(k) {
                programs.push(program(k, &[first, second]));
                programs.push(program(k, &[CLASSICAL, first, CLASSICAL, second]));
            }
        }
    }
    programs
}

/// All of them.
pub fn probes() -> Vec<Program> {
    [of_heads(), of_one_record(), of_two_records()].concat()
}
