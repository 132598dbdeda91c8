//! Results of ours beside theirs: how many were compared, and the first that differs.

use std::fmt::Debug;

use num_complex::Complex64;

/// A result that has bits to compare.
pub trait Bits: Copy + Debug {
    /// Two words; the same ones for every NaN.
    fn bits(self) -> [u64; 2];
}

impl Bits for bool {
    /// 1 or 0.
    fn bits(self) -> [u64; 2] {
        [u64::from(self), 0]
    }
}

impl Bits for usize {
    /// The number itself.
    fn bits(self) -> [u64; 2] {
        [self as u64, 0]
    }
}

impl Bits for f64 {
    /// The float's own bits, where it is a number.
    fn bits(self) -> [u64; 2] {
        [if self.is_nan() { f64::NAN } else { self }.to_bits(), 0]
    }
}

impl Bits for Complex64 {
    /// Real and imaginary part.
    fn bits(self) -> [u64; 2] {
        [self.re.bits()[0], self.im.bits()[0]]
    }
}

impl Bits for midvokt::Complex {
    /// Real and imaginary part.
    fn bits(self) -> [u64; 2] {
        [self.re.bits()[0], self.im.bits()[0]]
    }
}

/// What was compared.
#[derive(Default)]
pub struct Results {
    pub count: u64,
    pub first: Option<String>,
}

impl Results {
    /// Counts a result; keeps the first that differs.
    fn count(&mut self, name: &str, same: bool, ours: &dyn Debug, theirs: &dyn Debug) {
        self.count += 1;
        if !same && self.first.is_none() {
            self.first = Some(format!("{name}: expected {theirs:?}, found {ours:?}"));
        }
    }

    /// Compares the bits of two results.
    pub fn same<Ours: Bits, Theirs: Bits>(&mut self, name: &str, ours: Ours, theirs: Theirs) {
        self.count(name, ours.bits() == theirs.bits(), &ours, &theirs);
    }

    /// Compares what two values are written as. Debug text has a field's name and, of a float,
    /// each digit and the sign of a zero.
    pub fn same_text(&mut self, name: &str, ours: &str, theirs: &str) {
        self.count(name, ours == theirs, &ours, &theirs);
    }
}
