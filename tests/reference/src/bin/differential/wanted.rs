//! What a call has to leave behind, and the first place where it left something else.

use midvokt_reference::guarded::difference;
use midvokt_reference::input::BUFFERS;

use crate::memory::Memory;

/// The number, and what is used of the result, of each buffer and of the file; all behind that
/// is zero. Buffers that the call does not get have no place here.
pub struct Wanted<'a> {
    pub number: u64,
    pub result: &'a [u64],
    pub outputs: &'a [Vec<u64>],
    pub file: &'a [u8],
}

/// The name of a part of memory.
fn name(place: usize) -> &'static str {
    let others = ["result", "file"];
    BUFFERS.iter().chain(&others).nth(place).unwrap_or(&"?")
}

impl Wanted<'_> {
    /// What differs after a call that returned this number.
    pub fn difference(&self, number: u64, memory: &Memory) -> Option<String> {
        if number != self.number {
            return Some(format!("number: expected {}, found {number}", self.number));
        }
        if let Some(place) = memory.overrun() {
            return Some(format!("something beside {} is written", name(place)));
        }
        let outputs = || {
            self.outputs.iter().enumerate().find_map(|(place, used)| {
                difference((name(place), "word"), memory.output(place), used)
            })
        };
        difference(("result", "word"), memory.result(), self.result)
            .or_else(outputs)
            .or_else(|| difference(("file", "byte"), memory.file(), self.file))
    }
}
