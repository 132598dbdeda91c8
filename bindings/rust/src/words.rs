//! Reads the words of a row one after the other as typed values, and writes them.

use core::mem;

use crate::Complex;

/// The words of a row that are still to be read.
pub(crate) struct Words<'a> {
    left: &'a [u64],
}

impl<'a> Words<'a> {
    /// A row from its first word on.
    pub(crate) fn new(row: &'a [u64]) -> Self {
        Self { left: row }
    }

    /// The next word as it stands.
    pub(crate) fn word(&mut self) -> u64 {
        let (first, rest) = self.left.split_first().expect("the row has a word more");
        self.left = rest;
        *first
    }

    /// The next word as a number, index or dimension.
    pub(crate) fn size(&mut self) -> usize {
        self.word() as usize
    }

    /// The next word as a flag.
    pub(crate) fn flag(&mut self) -> bool {
        self.word() != 0
    }

    /// The next word as the float whose bits it has.
    pub(crate) fn float(&mut self) -> f64 {
        f64::from_bits(self.word())
    }

    /// The next two words as real and imaginary part.
    pub(crate) fn complex(&mut self) -> Complex {
        let re = self.float();
        let im = self.float();
        Complex { re, im }
    }
}

/// The words of a row that are still to be written.
pub(crate) struct Room<'a> {
    left: &'a mut [u64],
}

impl<'a> Room<'a> {
    /// A row from its first word on.
    pub(crate) fn new(row: &'a mut [u64]) -> Self {
        Self { left: row }
    }

    /// The next word as it stands.
    pub(crate) fn word(&mut self, word: u64) {
        let left = mem::take(&mut self.left);
        let (first, rest) = left.split_first_mut().expect("the row has a word more");
        *first = word;
        self.left = rest;
    }

    /// The next word from a number, index or dimension.
    pub(crate) fn size(&mut self, size: usize) {
        self.word(size as u64);
    }

    /// The next word from a flag.
    pub(crate) fn flag(&mut self, flag: bool) {
        self.word(u64::from(flag));
    }

    /// The next word from the bits of a float.
    pub(crate) fn float(&mut self, float: f64) {
        self.word(float.to_bits());
    }

    /// The next two words from real and imaginary part.
    pub(crate) fn complex(&mut self, number: Complex) {
        self.float(number.re);
        self.float(number.im);
    }
}
