//! Complex numbers by the crate's own type, and with the feature `num-complex` by that crate's:
//! the same code compiles and gives the same either way.

use midvokt::Complex;

const A: Complex = Complex { re: 3.0, im: -4.0 };
const B: Complex = Complex::new(0.5, 2.0);

/// The bits of both parts.
fn bits(value: Complex) -> [u64; 2] {
    [value.re.to_bits(), value.im.to_bits()]
}

#[test]
fn operators_give_the_exact_results() {
    assert_eq!(A + B, Complex::new(3.5, -2.0));
    assert_eq!(A - B, Complex::new(2.5, -6.0));
    assert_eq!(A * B, Complex::new(9.5, 4.0));
    assert_eq!(A * B / B, A);
    assert_eq!(A / Complex::new(0.0, 2.0), Complex::new(-2.0, -1.5));
    assert_eq!((A * 0.5, A / 0.5), (0.5 * A, 2.0 * A));
    assert_eq!(A * 0.5, Complex::new(1.5, -2.0));
}

#[test]
fn assigning_forms_give_the_same() {
    let changed = |change: fn(&mut Complex)| {
        let mut value = A;
        change(&mut value);
        value
    };
    assert_eq!(changed(|value| *value += B), A + B);
    assert_eq!(changed(|value| *value -= B), A - B);
    assert_eq!(changed(|value| *value *= B), A * B);
    assert_eq!(changed(|value| *value /= B), A / B);
    assert_eq!(changed(|value| *value *= 3.0), A * 3.0);
    assert_eq!(changed(|value| *value /= 3.0), A / 3.0);
}

#[test]
fn norm_and_conjugate_are_of_both_parts() {
    assert_eq!(A.norm_sqr(), 25.0);
    assert_eq!(A.conj(), Complex::new(3.0, 4.0));
    assert_eq!(A * A.conj(), Complex::from(25.0));
    let Complex { re, im } = A;
    assert_eq!((re, im), (3.0, -4.0));
}

#[test]
fn zeros_keep_their_signs() {
    assert_eq!(bits(-Complex::default()), [1 << 63, 1 << 63]);
    assert_eq!(bits(Complex::from(-0.0)), [1 << 63, 0]);
    assert_eq!(bits(Complex::new(0.0, 0.0).conj()), [0, 1 << 63]);
}

#[test]
fn sums_begin_with_zero() {
    assert_eq!([A, B, A].into_iter().sum::<Complex>(), A + B + A);
    assert_eq!([A, B].iter().sum::<Complex>(), A + B);
    assert_eq!(bits([].iter().sum()), [0, 0]);
}

#[test]
fn a_number_is_written_with_both_signs() {
    assert_eq!(A.to_string(), "3-4i");
    assert_eq!((-A).to_string(), "-3+4i");
    assert_eq!(format!("{B:+.2}"), "+0.50+2.00i");
}
