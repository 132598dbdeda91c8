//! The arithmetic of the crate's complex numbers beside that of num-complex.

use std::fmt::Display;
use std::iter::Sum;
use std::ops::{Add, AddAssign, Div, DivAssign, Mul, MulAssign, Neg, Sub, SubAssign};

use midvokt_reference::generator::Numbers;
use num_complex::Complex64;

use crate::results::{Bits, Results};

/// Floats at which rounding or a sign is easily lost.
const SPECIAL: [f64; 12] = [
    0.0,
    -0.0,
    1.0,
    -1.0,
    f64::INFINITY,
    f64::NEG_INFINITY,
    f64::NAN,
    f64::MIN_POSITIVE,
    -f64::MIN_POSITIVE / 4.0,
    f64::MAX,
    f64::MIN,
    f64::EPSILON,
];

/// The operators that both types have.
trait Operators:
    Add<Output = Self>
    + Sub<Output = Self>
    + Mul<Output = Self>
    + Div<Output = Self>
    + Neg<Output = Self>
    + Mul<f64, Output = Self>
    + Div<f64, Output = Self>
    + AddAssign
    + SubAssign
    + MulAssign
    + DivAssign
    + MulAssign<f64>
    + DivAssign<f64>
    + Sized
{
}

impl Operators for midvokt::Complex {}
impl Operators for Complex64 {}

/// All that both types have.
trait Number: Operators + Bits + Display + Sum + for<'a> Sum<&'a Self> + From<f64> {
    /// The conjugate.
    fn conj(&self) -> Self;

    /// The square of the absolute value.
    fn norm_sqr(&self) -> f64;
}

/// The methods of a type, which it has outside of traits.
macro_rules! number {
    ($name:ty) => {
        impl Number for $name {
            /// The type's own.
            fn conj(&self) -> Self {
                <$name>::conj(self)
            }

            /// The type's own.
            fn norm_sqr(&self) -> f64 {
                <$name>::norm_sqr(self)
            }
        }
    };
}

number!(midvokt::Complex);
number!(Complex64);

/// A special float, one of any bits, or one of common size.
fn float(random: &mut Numbers) -> f64 {
    match random.below(4) {
        0 => random.pick(&SPECIAL),
        1 => f64::from_bits(random.word()),
        _ => random.float(-2.0, 2.0),
    }
}

/// A complex number of such floats.
pub fn random(random: &mut Numbers) -> midvokt::Complex {
    midvokt::Complex::new(float(random), float(random))
}

/// A number after a change.
fn changed<N>(mut number: N, change: impl Fn(&mut N)) -> N {
    change(&mut number);
    number
}

/// What all operators give, each by its name.
fn all<N: Number>(a: N, b: N, f: f64) -> [(&'static str, N); 19]
where
    f64: Mul<N, Output = N>,
{
    [
        ("a + b", a + b),
        ("a - b", a - b),
        ("a * b", a * b),
        ("a / b", a / b),
        ("a * f", a * f),
        ("a / f", a / f),
        ("f * a", f * a),
        ("-a", -a),
        ("a += b", changed(a, |c| *c += b)),
        ("a -= b", changed(a, |c| *c -= b)),
        ("a *= b", changed(a, |c| *c *= b)),
        ("a /= b", changed(a, |c| *c /= b)),
        ("a *= f", changed(a, |c| *c *= f)),
        ("a /= f", changed(a, |c| *c /= f)),
        ("conj", a.conj()),
        ("norm_sqr", N::from(a.norm_sqr())),
        ("from", N::from(f)),
        ("sum", [a, b, a].into_iter().sum()),
        ("sum of lent ones", [a, b].iter().sum()),
    ]
}

/// A number's text in four forms.
fn texts(number: impl Display) -> [String; 4] {
    [
        format!("{number}"),
        format!("{number:+}"),
        format!("{number:.3}"),
        format!("{number:+.0}"),
    ]
}

/// Compares all operators on random numbers.
pub fn compare(random: &mut Numbers) -> Results {
    let mut results = Results::default();
    let theirs = |ours: midvokt::Complex| Complex64::new(ours.re, ours.im);
    let (a, b, f) = (self::random(random), self::random(random), float(random));
    let pairs = all(a, b, f).into_iter().zip(all(theirs(a), theirs(b), f));
    for ((name, ours), (_, theirs)) in pairs {
        results.same(
            &format!("{name} for a {a:?}, b {b:?}, f {f:?}"),
            ours,
            theirs,
        );
    }
    for (ours, theirs) in texts(a).iter().zip(&texts(theirs(a))) {
        results.same_text("the text of a complex number", ours, theirs);
    }
    results
}
