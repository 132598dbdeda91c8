//! Reads an angle in radians: a number, or a part of pi such as 3pi/8; and a plain number
//! for a sine or cosine. What is nearly one is not read, but told as it has to be written.

use std::f64::consts::PI;

use crate::fields::Fields;
use crate::line::{Fault, Word};

const ANGLE: &str = "an angle in radians, as a number or a part of pi such as pi/8";
/// What is expected in place of a number that is not finite, where a double is all that is asked.
pub const FINITE: &str =
    "a finite angle, at most 1.7976931348623157e308 in magnitude, such as 0.25 or pi/8";

const DEGREES: [&str; 5] = ["°", "º", "deg", "degree", "degrees"];
const RADIANS: [&str; 3] = ["rad", "radian", "radians"];
/// What is often written for pi and for the signs of an angle.
const SIGNS: [(&str, &str); 9] = [
    ("π", "pi"),
    ("numpy.pi", "pi"),
    ("math.pi", "pi"),
    ("np.pi", "pi"),
    ("m_pi", "pi"),
    ("−", "-"),
    ("·", "*"),
    ("×", "*"),
    ("÷", "/"),
];
/// The most words that are taken for one angle.
const MOST_PARTS: usize = 8;

/// A number without a word such as inf or nan in it.
fn plain(text: &str) -> Option<f64> {
    let allowed = |character: char| character.is_ascii_digit() || "+-.eE".contains(character);
    text.chars().all(allowed).then(|| text.parse().ok())?
}

/// A number without a sign.
fn unsigned(text: &str) -> Option<f64> {
    plain(text).filter(|_| !text.starts_with(['+', '-']))
}

/// What stands in front of pi: nothing, a number, or a number and *.
fn factor(text: &str) -> Option<f64> {
    match text {
        "" => Some(1.0),
        _ => unsigned(text.strip_suffix('*').unwrap_or(text)),
    }
}

/// What stands behind pi: nothing, or / and a number.
fn divisor(text: &str) -> Option<f64> {
    match text {
        "" => Some(1.0),
        _ => unsigned(text.strip_prefix('/')?),
    }
}

/// The angle of a text, not finite where a number in it is not; none for other text.
fn value(text: &str) -> Option<f64> {
    let Some(place) = text.find("pi") else {
        return plain(text);
    };
    let (sign, front) = match text.as_bytes()[0] {
        b'-' => (-1.0, 1),
        b'+' => (1.0, 1),
        _ => (1.0, 0),
    };
    let divisor = divisor(&text[place + "pi".len()..])?;
    let part = sign * factor(&text[front..place])? * PI / divisor;
    Some(if divisor.is_finite() { part } else { divisor })
}

/// Whether text is an angle.
fn is_angle(text: &str) -> bool {
    value(text).is_some_and(f64::is_finite)
}

/// Whether text is a number.
fn is_number(text: &str) -> bool {
    plain(text).is_some_and(f64::is_finite)
}

/// Whether text is a word for what is no finite number.
fn is_endless(text: &str) -> bool {
    let word = text.trim_start_matches(['+', '-']).to_ascii_lowercase();
    ["nan", "inf", "infinity", "∞"].contains(&word.as_str())
}

/// A number with a unit behind, in radians.
fn in_radians(text: &str) -> Option<String> {
    let number = |units: &[&str]| {
        let mut numbers = units.iter().filter_map(|unit| text.strip_suffix(unit));
        numbers.find_map(|number| plain(number).filter(|number| number.is_finite()))
    };
    let degrees = number(&DEGREES).map(of_degrees);
    degrees.or_else(|| number(&RADIANS).map(written))
}

/// A part of pi with its factor in front, where that stands behind.
fn factor_first(text: &str) -> Option<String> {
    let (sign, behind) = text.split_once("pi*")?;
    let divisor = behind.find('/').unwrap_or(behind.len());
    let (factor, divisor) = behind.split_at(divisor);
    let is_part = ["", "+", "-"].contains(&sign) && unsigned(factor).is_some();
    is_part.then(|| format!("{sign}{factor}pi{divisor}"))
}

/// What may be meant by text, in the usual signs, and with a point for a comma, and why.
fn respelled(text: &str) -> [(String, &'static str); 2] {
    let small = text.to_ascii_lowercase();
    let replaced = |text: String, (found, meant): &(&str, &str)| text.replace(found, meant);
    let usual = SIGNS.iter().fold(small, replaced);
    let usual = usual.trim_end_matches([',', ';']).to_owned();
    let pointed = usual.replace(',', ".");
    let why = "a point stands in front of a fraction";
    [(usual, ""), (pointed, why)]
}

/// How an angle is written that is nearly one, and why.
fn mended(text: &str) -> Option<(String, &'static str)> {
    let [usual, pointed] = respelled(text);
    let first = factor_first(&usual.0).unwrap_or_default();
    let radians = in_radians(&pointed.0).unwrap_or_default();
    let radians = (radians, "an angle is in radians");
    let mut all = [usual, (first, ""), pointed, radians].into_iter();
    all.find(|(text, _)| is_angle(text))
}

/// Whether two words would be one number with nothing between.
fn are_digits(pair: &[Word<'_>]) -> bool {
    let is_digit = |sign: char| sign.is_ascii_digit() || sign == '.';
    let [first, second] = pair else {
        return false;
    };
    first.text.ends_with(is_digit) && second.text.starts_with(is_digit)
}

/// That words are an angle in several words, if they are.
fn spaced(words: &[Word<'_>]) -> Option<Fault> {
    let parts: Vec<_> = words.iter().map(|word| word.text).collect();
    let joined = parts.concat();
    let (text, why) = match is_angle(&joined) {
        true => (joined, ""),
        false => mended(&joined)?,
    };
    let why = match why {
        "" => "an angle has no spaces",
        why => why,
    };
    let fault = Word::mended_run(words, &text, why)?;
    (!words.windows(2).any(are_digits)).then_some(fault)
}

/// What is wrong with a word that is no angle, where this is expected in place of one that is not
/// finite.
fn fault(word: Word<'_>, finite: &str) -> Fault {
    let place = word.text.find("pi");
    let behind = place.map(|place| word.from(place + "pi".len()));
    let zero = behind.filter(|behind| divisor(behind.text) == Some(0.0));
    match (value(word.text), zero) {
        (Some(_), Some(behind)) => behind.fault("a divisor that is not 0"),
        (Some(_), None) => word.fault(finite),
        _ if is_endless(word.text) => word.fault(finite),
        _ => match mended(word.text) {
            Some((text, why)) => word.mended(&text, why),
            None => word.fault(ANGLE),
        },
    }
}

/// A number.
pub fn number(word: Word<'_>, expected: &str) -> Result<f64, Fault> {
    let number = plain(word.text).filter(|number| number.is_finite());
    let meant = || {
        let mut all = respelled(word.text).into_iter();
        all.find(|(text, _)| is_number(text))
    };
    number.ok_or_else(|| match meant() {
        Some((text, why)) => word.mended(&text, why),
        None => word.fault(expected),
    })
}

/// An angle in radians.
fn parse(word: Word<'_>, finite: &str) -> Result<f64, Fault> {
    let angle = value(word.text).filter(|angle| angle.is_finite());
    angle.ok_or_else(|| fault(word, finite))
}

/// The next word as an angle in radians, where this is expected in place of one that is not
/// finite.
pub fn next(fields: &mut Fields<'_>, finite: &str) -> Result<f64, Fault> {
    let words = fields.ahead(MOST_PARTS);
    let mut runs = (2..=words.len()).rev().map(|count| &words[..count]);
    match runs.find_map(spaced) {
        Some(fault) => Err(fault),
        None => parse(fields.next("an angle such as 0.25 or pi/8")?, finite),
    }
}

/// A number with all digits that it needs to be read as the same, bit for bit.
pub fn written(number: f64) -> String {
    let text = format!("{number:?}");
    text.strip_suffix(".0").unwrap_or(&text).to_owned()
}

/// The divisors of pi that are tried where an angle is written.
const DIVISORS: [u32; 10] = [1, 2, 3, 4, 5, 6, 8, 12, 16, 32];
/// The largest factor of pi that is written.
const MOST_FACTOR: f64 = 64.0;

/// A part of pi that is this very angle, if there is one that is short; half a turn is so much.
fn part_of_pi(number: f64, half_turn: f64) -> Option<String> {
    let part = |&divisor: &u32| {
        let factor = (number.abs() * f64::from(divisor) / half_turn).round();
        let is_part = (1.0..=MOST_FACTOR).contains(&factor)
            && factor * half_turn / f64::from(divisor) == number.abs();
        is_part.then_some((factor, divisor))
    };
    let (factor, divisor) = DIVISORS.iter().find_map(part)?;
    let sign = if number < 0.0 { "-" } else { "" };
    let factor = if factor == 1.0 {
        String::new()
    } else {
        factor.to_string()
    };
    let divisor = if divisor == 1 {
        String::new()
    } else {
        format!("/{divisor}")
    };
    Some(format!("{sign}{factor}pi{divisor}"))
}

/// An angle as a file has it: read again it is the same, bit for bit.
pub fn text(angle: f64) -> String {
    part_of_pi(angle, PI).unwrap_or_else(|| written(angle))
}

/// So many degrees as an angle in radians, as a file has it.
pub fn of_degrees(degrees: f64) -> String {
    part_of_pi(degrees, 180.0).unwrap_or_else(|| written(degrees.to_radians()))
}

#[cfg(test)]
mod tests {
    use super::*;
    use crate::line::Line;

    /// An angle that is read from the first column.
    fn read(text: &str) -> Result<f64, Fault> {
        let word = Word {
            text,
            line: 1,
            column: 1,
        };
        parse(word, FINITE)
    }

    /// What is said of the words behind the first of a line.
    fn told(text: &str) -> String {
        let line = Line::new(1, text);
        let mut fields = Fields::new(&line, &[]).unwrap();
        next(&mut fields, FINITE).unwrap_err().to_string()
    }

    #[test]
    fn numbers_and_parts_of_pi() {
        assert_eq!(read("0.25"), Ok(0.25));
        assert_eq!(read("-1e-3"), Ok(-0.001));
        assert_eq!(read("pi"), Ok(PI));
        assert_eq!(read("pi/8"), Ok(PI / 8.0));
        assert_eq!(read("-pi/2"), Ok(-PI / 2.0));
        assert_eq!(read("3pi/4"), Ok(3.0 * PI / 4.0));
        assert_eq!(read("+0.5*pi"), Ok(0.5 * PI));
    }

    #[test]
    fn other_words_are_none() {
        for bad in [
            "nan", "inf", "1,5", "pi8", "pi/", "pi/-2", "--pi", "xpi", "pipi", "1/2", "e", ".",
        ] {
            assert!(read(bad).is_err(), "{bad}");
        }
        let zero = read("pi/0").unwrap_err();
        assert_eq!(
            (zero.column, zero.expected.as_str()),
            (3, "a divisor that is not 0")
        );
    }

    /// Holds what is said of an angle to this.
    fn tells(text: &str, wanted: &str) {
        let told = told(&format!("_ {text}"));
        assert_eq!(told, format!("1:3: expected {wanted}"));
    }

    #[test]
    fn what_is_nearly_an_angle_is_told_as_it_is_written() {
        for (text, wanted) in [
            ("PI/8", "pi/8"),
            ("-3Pi/4", "-3pi/4"),
            ("π/8", "pi/8"),
            ("pi/8,", "pi/8"),
            ("-pi*3/4", "-3pi/4"),
            ("np.pi*2", "2pi"),
            ("3*M_PI/4", "3*pi/4"),
            ("−2·π", "-2*pi"),
        ] {
            tells(text, &format!("{wanted}, found '{text}'"));
        }
        assert!(read("-2*pi").is_ok());
    }

    #[test]
    fn what_is_wrong_with_an_angle_is_told() {
        for (text, wanted, why) in [
            ("1,5", "1.5", "a point stands in front of a fraction"),
            ("45°", "pi/4", "an angle is in radians"),
            ("-22,5deg", "-pi/8", "an angle is in radians"),
            ("90Degrees", "pi/2", "an angle is in radians"),
            ("0.5rad", "0.5", "an angle is in radians"),
            ("45 deg", "pi/4", "an angle is in radians"),
            ("pi / 8", "pi/8", "an angle has no spaces"),
            ("3 PI/4", "3pi/4", "an angle has no spaces"),
            ("- 0.5", "-0.5", "an angle has no spaces"),
            ("- 3 * pi / 4", "-3*pi/4", "an angle has no spaces"),
        ] {
            tells(text, &format!("{wanted}, found '{text}': {why}"));
        }
        tells("pi /8 if s1", "pi/8, found 'pi /8': an angle has no spaces");
    }

    #[test]
    fn what_is_no_angle_is_not_guessed() {
        for text in [
            "deg", "x°", "1e400deg", "1,5,2", "1/2", "rad", "2pi*3", "pi*", "pi/-2,", "°",
        ] {
            tells(text, &format!("{ANGLE}, found '{text}'"));
        }
    }

    #[test]
    fn two_numbers_are_not_taken_for_one() {
        for text in [
            "0.25 0.5",
            "1 2",
            "1. .5",
            "1 5pi/8",
            "pi/8 if s1",
            "1 if",
            "pi/8 now",
        ] {
            let said = format!("_ {text}");
            let line = Line::new(1, &said);
            let mut fields = Fields::new(&line, &[]).unwrap();
            assert!(next(&mut fields, FINITE).is_ok(), "{text}");
        }
    }

    #[test]
    fn an_angle_is_finite() {
        assert!(FINITE.contains(&format!("{:e} ", f64::MAX)));
        assert_eq!(read(&format!("{:e}", f64::MAX)), Ok(f64::MAX));
        for text in [
            "1e400",
            "-1e309",
            "1e308pi",
            "pi/1e-320",
            "1e400pi",
            "pi/1e400",
            "1e400pi/1e400",
            "nan",
            "NaN",
            "-inf",
            "Infinity",
            "∞",
        ] {
            assert_eq!(read(text).unwrap_err().expected, FINITE, "{text}");
        }
    }

    #[test]
    fn numbers_are_finite_too() {
        let read = |text| number(Line::new(1, text).words[0], "a number");
        assert_eq!(read("-1e-3"), Ok(-0.001));
        assert_eq!(read("0,5").unwrap_err().expected, "0.5");
        assert_eq!(read("−1").unwrap_err().expected, "-1");
        for text in ["1e400", "nan", "pi/8", "7°", "0.5rad", "half"] {
            assert_eq!(read(text).unwrap_err().expected, "a number", "{text}");
        }
    }

    #[test]
    fn degrees_are_told_in_radians() {
        for (degrees, wanted) in [
            (45.0, "pi/4"),
            (-90.0, "-pi/2"),
            (360.0, "2pi"),
            (36.0, "pi/5"),
            (11.25, "pi/16"),
            (67.5, "3pi/8"),
            (105.0, "7pi/12"),
            (337.5, "15pi/8"),
            (7.0, "0.12217304763960307"),
            (1e308, "1.7453292519943295e306"),
        ] {
            assert_eq!(of_degrees(degrees), wanted);
        }
        // One float away from a part of pi is none.
        for part in [45.0_f64, 60.0, 36.0, 15.0] {
            let near = f64::from_bits(part.to_bits() + 1);
            assert!(!of_degrees(near).contains("pi"), "{near}");
        }
    }

    #[test]
    fn angles_are_written_as_they_are_read() {
        for written in [
            "pi", "-pi/2", "3pi/8", "-5pi/32", "0", "-0", "0.1", "-1048576", "5e-324", "1e-7",
            "2pi",
        ] {
            assert_eq!(text(read(written).unwrap()), written);
        }
        assert_eq!(text(PI / 8.0 + PI / 8.0), "pi/4");
        let near = f64::from_bits((PI / 4.0).to_bits() + 1);
        assert_eq!(read(&text(near)), Ok(near));
    }
}
