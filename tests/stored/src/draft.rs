//! A file that is put together by hand: words in front, and a trailer that may say anything.

/// Words of a trailer.
pub const TRAILER: usize = 16;
/// The trailer's word that has the file's length in bytes.
pub const LENGTH: usize = 14;
/// The trailer's word that has the version.
pub const VERSION: usize = 15;
/// The sections, the scalar fields last.
pub const SECTIONS: usize = 7;
/// The section of the scalar fields.
pub const SCALARS: usize = 6;
/// The scalar field that the sizes are held to.
pub const COMPONENT_COUNT: usize = 2;

#[derive(Clone)]
pub struct Draft {
    pub body: Vec<u64>,
    pub trailer: [u64; TRAILER],
}

/// Words as bytes, little-endian.
pub fn bytes_of(words: &[u64]) -> Vec<u8> {
    words.iter().flat_map(|word| word.to_le_bytes()).collect()
}

impl Draft {
    /// The right file of these sections.
    pub fn of(sections: &[Vec<u64>; SECTIONS]) -> Self {
        let counts = std::array::from_fn(|place| sections[place].len());
        Self::touching(sections.concat(), counts)
    }

    /// These words in sections of these counts that touch from word 0 on.
    pub fn touching(body: Vec<u64>, counts: [usize; SECTIONS]) -> Self {
        let mut draft = Self {
            body,
            trailer: [0; TRAILER],
        };
        let mut start = 0;
        for (section, count) in counts.into_iter().enumerate() {
            draft.point(section, start, count as u64);
            start += count as u64;
        }
        draft.trailer[VERSION] = 1;
        draft.repair_length();
        draft
    }

    /// Has a section begin and go on like this.
    pub fn point(&mut self, section: usize, start: u64, count: u64) {
        self.trailer[2 * section] = start;
        self.trailer[2 * section + 1] = count;
    }

    /// Where a section begins.
    pub fn start(&self, section: usize) -> u64 {
        self.trailer[2 * section]
    }

    /// How many words a section has.
    pub fn count(&self, section: usize) -> u64 {
        self.trailer[2 * section + 1]
    }

    /// Moves the beginning of all later sections, by a number that may wrap.
    pub fn shift_behind(&mut self, section: usize, by: u64) {
        for later in section + 1..SECTIONS {
            let start = self.start(later).wrapping_add(by);
            self.point(later, start, self.count(later));
        }
    }

    /// Where a scalar field stands in front, in a right file.
    pub fn scalar(&mut self, field: usize) -> &mut u64 {
        let place = self.start(SCALARS) as usize + field;
        &mut self.body[place]
    }

    /// Writes the length that the file has.
    pub fn repair_length(&mut self) {
        self.trailer[LENGTH] = 8 * (self.body.len() + TRAILER) as u64;
    }

    /// The file.
    pub fn bytes(&self) -> Vec<u8> {
        [bytes_of(&self.body), bytes_of(&self.trailer)].concat()
    }

    /// The counts that outputs must have, none above the number of words in front.
    pub fn counts(&self) -> [usize; 6] {
        std::array::from_fn(|section| self.count(section).min(self.body.len() as u64) as usize)
    }
}
