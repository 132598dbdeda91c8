//! One call through both: what the Rust expects, what the library gives.

use midvokt_reference::generator::Numbers;
use midvokt_reference::guarded::{Guarded, difference};
use midvokt_reference::pending::answer::{Answer, RESULT_WORDS, answer};
use midvokt_reference::pending::claims::broken;
use midvokt_reference::pending::places::places;
use midvokt_reference::pending::{Call, library};

use crate::tally::Tally;

/// The most words of a result that is lent.
const MOST_RESULT: u64 = 8;

/// What the library writes, in this order.
const OUTPUTS: [&str; 3] = ["list", "map", "result"];

/// A thread's memory and what it has counted.
pub struct Comparison {
    memory: [Guarded<u64>; OUTPUTS.len()],
    random: Numbers,
    spoiled: Option<u64>,
    pub tally: Tally,
}

/// Changes one bit of one expected word, which ones by the call's number.
fn spoil(answer: &mut Answer, index: u64) {
    let Answer {
        number,
        result,
        list,
        map,
    } = answer;
    let mut words: Vec<&mut u64> = std::iter::once(number)
        .chain(result)
        .chain(list)
        .chain(map)
        .collect();
    let place = index as usize % words.len();
    *words[place] ^= 1 << (index % 64);
}

impl Comparison {
    /// Nothing compared yet; the call of this number gets a wrong expectation.
    pub fn new(spoiled: Option<u64>) -> Self {
        Self {
            memory: Default::default(),
            random: Numbers::new(0, 0),
            spoiled,
            tally: Tally::default(),
        }
    }

    /// What differs after a call with a list, a map and a result of these lengths.
    fn made(&mut self, call: &Call, wanted: &Answer, lent: [usize; 3]) -> Option<String> {
        for (part, length) in self.memory.iter_mut().zip(lent) {
            part.prepare(length, self.random.word());
        }
        let [list, map, result] = self.memory.each_mut().map(Guarded::lend);
        let number = library::optimize(call, list, map, result);
        self.tally.calls += 1;
        if number != wanted.number {
            let expected = wanted.number;
            return Some(format!("number: expected {expected}, found {number}"));
        }
        let parts = || self.memory.iter().zip(OUTPUTS);
        if let Some((_, name)) = parts().find(|(part, _)| !part.is_guarded()) {
            return Some(format!("something beside {name} is written"));
        }
        let used = [&wanted.list, &wanted.map, &wanted.result[..]];
        parts()
            .zip(used)
            .zip(lent)
            .find_map(|(((part, name), used), length)| {
                let used = &used[..used.len().min(length)];
                difference((name, "word"), part.read(), used)
            })
    }

    /// Two calls: with the call's own lengths, or just long enough ones, and a whole result; then,
    /// for some, with longer ones and a result of another length.
    fn calls(&mut self, call: &Call, wanted: &Answer) -> Option<String> {
        let [list, map] = call.lent();
        if let Some(found) = self.made(call, wanted, [list, map, RESULT_WORDS]) {
            return Some(found);
        }
        if self.random.chance(40) {
            return None;
        }
        let most = self.random.pick(&[0, 3, 100]);
        let mut more = || self.random.between(0, most) as usize;
        let longer = match call.lengths {
            None => [list + more(), map + more()],
            Some(lengths) => lengths,
        };
        let result = self.random.between(0, MOST_RESULT) as usize;
        let lent = [longer[0], longer[1], result];
        let found = self.made(call, wanted, lent)?;
        Some(format!("{found} (in outputs of {lent:?} words)"))
    }

    /// What is claimed of an optimized list and does not hold of the Rust's own answer.
    fn claims(&mut self, call: &Call, answer: &Answer) -> Result<Option<String>, String> {
        if answer.number != 0 || call.has_expectation() {
            return Ok(None);
        }
        let places = places(call, answer)?;
        self.tally.count_claimed(places.pairs.len());
        let broken = broken(call, answer, &places);
        Ok(broken.map(|claim| format!("the Rust's own answer: {claim}")))
    }

    /// What differs after the crate's typed call, where there is one for this call.
    fn typed(&mut self, call: &Call, wanted: &Answer) -> Result<Option<String>, String> {
        let Some(difference) = library::typed_difference(call, wanted)? else {
            return Ok(None);
        };
        self.tally.count_typed(wanted.number);
        Ok(difference)
    }

    /// Compares one call. An error is something that was not foreseen.
    pub fn compare(&mut self, index: u64, call: &Call) -> Result<(), String> {
        // The same lengths and noise for a call, whichever thread makes it.
        self.random = Numbers::new(index, 0);
        let mut wanted = answer(call)?;
        self.tally.count(call, &wanted);
        let claims = self.claims(call, &wanted)?;
        if self.spoiled == Some(index) {
            spoil(&mut wanted, index);
        }
        let typed = self.typed(call, &wanted)?;
        if let Some(found) = claims.or_else(|| self.calls(call, &wanted)).or(typed) {
            self.tally
                .differences
                .note(index, format!("{found}\n{}", call.text()));
        }
        Ok(())
    }
}
