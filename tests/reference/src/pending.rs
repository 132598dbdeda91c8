//! The pending-operation optimizer (02, CR 6): a call as words, the answer that it has to give,
//! made of the unchanged Rust's own, and lists to try it on.

pub mod answer;
pub mod claims;
pub mod form;
#[cfg(feature = "library")]
pub mod library;
pub mod lists;
pub mod operations;
pub mod places;
pub mod vectors;

use operations::{EXPECTATION, MEASUREMENT, OPERATION_WORDS};

/// What a call gets: the width, the list's words, the preserved prefixes, and how many words its
/// list and its map have room for where that is not just enough.
#[derive(Clone, Debug)]
pub struct Call {
    pub width: u64,
    pub words: Vec<u64>,
    pub prefixes: Vec<u64>,
    pub lengths: Option<[usize; 2]>,
}

impl Call {
    /// How many whole operations the list has.
    pub fn count(&self) -> usize {
        self.words.len() / OPERATION_WORDS
    }

    /// The least words that the list and the map need room for.
    pub fn least_lengths(&self) -> [usize; 2] {
        [self.words.len(), self.count() + 1]
    }

    /// How many words the list and the map are lent.
    pub fn lent(&self) -> [usize; 2] {
        self.lengths.unwrap_or(self.least_lengths())
    }

    /// The whole operations.
    pub fn operations(&self) -> impl Iterator<Item = &[u64]> {
        self.words.chunks_exact(OPERATION_WORDS)
    }

    /// Whether a measurement has an expectation value, with which nothing is optimized.
    pub fn has_expectation(&self) -> bool {
        self.operations()
            .any(|operation| operation[0] == MEASUREMENT && operation[EXPECTATION] == 1)
    }

    /// The call as text: an operation a line, without the zeros at its end.
    pub fn text(&self) -> String {
        let [list, map] = self.lent();
        let mut text = format!(
            "width {}, prefixes {:?}, {} words, room for {list} and {map}",
            self.width,
            self.prefixes,
            self.words.len()
        );
        for operation in self.words.chunks(OPERATION_WORDS) {
            let used = operation.iter().rposition(|&word| word != 0).unwrap_or(0);
            let words = operation[..=used].iter();
            let words: Vec<String> = words.map(|word| format!("{word:#x}")).collect();
            text.push('\n');
            text.push_str(&words.join(" "));
        }
        text
    }
}
