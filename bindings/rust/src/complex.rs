//! A complex number with as much arithmetic as a simulator's kernels need. Each result has the
//! bits that num-complex gives, for the same operations in the same order.

use core::fmt;
use core::iter::Sum;
use core::ops::{Add, AddAssign, Div, DivAssign, Mul, MulAssign, Neg, Sub, SubAssign};

/// A complex number. With the feature `num-complex` it is that crate's `Complex64` instead, of
/// which this type has the fields, `new`, `conj`, `norm_sqr`, the operators between two complex
/// numbers, negation, multiplication with a float on either side, division by a float, `From<f64>`,
/// `Sum` and `Display`.
#[derive(Clone, Copy, Debug, Default, PartialEq)]
pub struct Complex {
    /// The real part.
    pub re: f64,
    /// The imaginary part.
    pub im: f64,
}

impl Complex {
    /// The number with these parts.
    #[inline]
    pub const fn new(re: f64, im: f64) -> Self {
        Self { re, im }
    }

    /// The conjugate: the imaginary part negated.
    #[inline]
    pub fn conj(&self) -> Self {
        Self::new(self.re, -self.im)
    }

    /// The square of the absolute value.
    #[inline]
    pub fn norm_sqr(&self) -> f64 {
        self.re * self.re + self.im * self.im
    }
}

/// An operator and its assigning form, both by one expression of the two operands.
macro_rules! operator {
    (
        $name:ident::$method:ident,
        $assign:ident::$change:ident,
        |$left:ident, $right:ident: $other:ty| $result:expr
    ) => {
        impl $name<$other> for Complex {
            type Output = Self;

            #[inline]
            fn $method(self, $right: $other) -> Self {
                let $left = self;
                $result
            }
        }

        impl $assign<$other> for Complex {
            #[inline]
            fn $change(&mut self, other: $other) {
                *self = self.$method(other);
            }
        }
    };
}

operator!(Add::add, AddAssign::add_assign, |a, b: Complex| {
    Self::new(a.re + b.re, a.im + b.im)
});
operator!(Sub::sub, SubAssign::sub_assign, |a, b: Complex| {
    Self::new(a.re - b.re, a.im - b.im)
});
operator!(Mul::mul, MulAssign::mul_assign, |a, b: Complex| {
    Self::new(a.re * b.re - a.im * b.im, a.re * b.im + a.im * b.re)
});
operator!(Div::div, DivAssign::div_assign, |a, b: Complex| {
    // Each part of a times b's conjugate is divided, and nothing is scaled before.
    let (re, im) = (a.re * b.re + a.im * b.im, a.im * b.re - a.re * b.im);
    Self::new(re, im) / b.norm_sqr()
});
operator!(Mul::mul, MulAssign::mul_assign, |a, b: f64| {
    Self::new(a.re * b, a.im * b)
});
operator!(Div::div, DivAssign::div_assign, |a, b: f64| {
    Self::new(a.re / b, a.im / b)
});

impl Mul<Complex> for f64 {
    type Output = Complex;

    /// Both parts times the float.
    #[inline]
    fn mul(self, other: Complex) -> Complex {
        other * self
    }
}

impl Neg for Complex {
    type Output = Self;

    /// Both parts negated, zeros too.
    #[inline]
    fn neg(self) -> Self {
        Self::new(-self.re, -self.im)
    }
}

impl From<f64> for Complex {
    /// The float, with an imaginary part of 0.
    #[inline]
    fn from(re: f64) -> Self {
        Self::new(re, 0.0)
    }
}

impl Sum for Complex {
    /// The sum from the first to the last; 0 where there is none.
    fn sum<I: Iterator<Item = Self>>(numbers: I) -> Self {
        numbers.fold(Self::default(), Self::add)
    }
}

impl<'a> Sum<&'a Self> for Complex {
    /// The sum from the first to the last; 0 where there is none.
    fn sum<I: Iterator<Item = &'a Self>>(numbers: I) -> Self {
        numbers.copied().sum()
    }
}

/// Whether a part is below 0, and the part without that sign; a zero is left as it is.
fn apart(part: f64) -> (bool, f64) {
    let below = part < 0.0;
    (below, if below { -part } else { part })
}

impl fmt::Display for Complex {
    /// As `1-2i`. A precision is for each part, a plus sign is for the first, a width is passed
    /// over.
    fn fmt(&self, formatter: &mut fmt::Formatter<'_>) -> fmt::Result {
        let ((re_below, re), (im_below, im)) = (apart(self.re), apart(self.im));
        let before = match (re_below, formatter.sign_plus()) {
            (true, _) => "-",
            (false, true) => "+",
            (false, false) => "",
        };
        let between = if im_below { "-" } else { "+" };
        match formatter.precision() {
            Some(digits) => write!(formatter, "{before}{re:.digits$}{between}{im:.digits$}i"),
            None => write!(formatter, "{before}{re}{between}{im}i"),
        }
    }
}
