//! Reads a Pauli: a sign and a letter for each active coordinate, as Stim writes it, or a
//! product of letters with positions. The sign and each Y go into the phase exponent, since a
//! record's masks stand for the product of X and Z at each position.

use std::collections::HashSet;

use crate::line::{Fault, Word};

/// The masks of a record have as many bits.
const MASK_BITS: u64 = u64::BITS as u64;

const LETTERS: &str = "X, Y, Z, I or _";
const CAPITALS: &str = "letters of a Pauli are capitals";

/// A Pauli as a record has it.
#[derive(Clone, Copy, Debug, Default, PartialEq, Eq)]
pub struct Pauli {
    /// The positions with X or Y.
    pub x: u64,
    /// The positions with Z or Y.
    pub z: u64,
    /// The exponent of i, 0 to 3.
    pub phase: u64,
}

impl Pauli {
    /// The same with no mask bit at or above a width.
    pub fn within(self, width: u64) -> Self {
        let low = match width {
            0..MASK_BITS => (1 << width) - 1,
            _ => u64::MAX,
        };
        Self {
            x: self.x & low,
            z: self.z & low,
            ..self
        }
    }

    /// Whether nothing acts.
    pub fn is_identity(&self) -> bool {
        self.x | self.z == 0
    }

    /// Whether it is its own adjoint: the exponent is even but for one for each Y.
    pub fn is_hermitian(&self) -> bool {
        u64::from((self.x & self.z).count_ones()) % 2 == self.phase % 2
    }

    /// Puts a letter at a position where none acts yet; none if it is no letter.
    fn act(&mut self, letter: char, bit: u64) -> Option<()> {
        match letter {
            'I' | '_' => {}
            'X' => self.x |= bit,
            'Z' => self.z |= bit,
            'Y' => {
                self.x |= bit;
                self.z |= bit;
                self.phase = (self.phase + 1) % 4;
            }
            _ => return None,
        }
        Some(())
    }
}

/// The sign that is left of the phase exponent, with 1 for each Y taken off.
fn written_sign(pauli: Pauli) -> &'static str {
    let ys = u64::from((pauli.x & pauli.z).count_ones());
    ["", "i", "-", "-i"][((pauli.phase % 4 + 4 - ys % 4) % 4) as usize]
}

/// The letter at a position.
fn letter(pauli: Pauli, position: usize) -> char {
    match (pauli.x >> position & 1, pauli.z >> position & 1) {
        (0, 0) => '_',
        (1, 0) => 'X',
        (0, _) => 'Z',
        _ => 'Y',
    }
}

/// Letters for local masks with this phase exponent, position 0 first.
pub fn letters(pauli: Pauli, width: usize) -> String {
    let body: String = (0..width).map(|position| letter(pauli, position)).collect();
    format!("{}{body}", written_sign(pauli))
}

/// The same as masks in hexadecimal, with the exponent of i: short at every width.
pub fn masks(pauli: Pauli) -> String {
    let Pauli { x, z, phase } = pauli;
    format!("x={x:#x} z={z:#x} phase={phase}")
}

/// The same as a product of the letters that act; I0 where none does.
pub fn product(pauli: Pauli) -> String {
    let acting = (0..MASK_BITS as usize).filter(|&place| (pauli.x | pauli.z) >> place & 1 == 1);
    let factors = acting.map(|place| format!("{}{place}", letter(pauli, place)));
    let body = factors.collect::<Vec<_>>().join("*");
    let body = if body.is_empty() { "I0" } else { &body };
    format!("{}{body}", written_sign(pauli))
}

/// The exponent of i that a sign stands for, and how many bytes it has.
fn sign(text: &str) -> (u64, usize) {
    let (exponent, bytes) = match text.as_bytes().first() {
        Some(b'+') => (0, 1),
        Some(b'-') => (2, 1),
        _ => (0, 0),
    };
    match text.as_bytes().get(bytes) {
        Some(b'i') => (exponent + 1, bytes + 1),
        _ => (exponent, bytes),
    }
}

/// Whether a word begins as a Pauli does.
pub fn begins(text: &str) -> bool {
    text[sign(text).1..].starts_with(['X', 'Y', 'Z', 'I', '_'])
}

/// What a Pauli's length is held to, in words.
pub type Told = fn(u64) -> String;

/// How many coordinates are active, in words.
pub fn active(width: u64) -> String {
    match width {
        0 => "no coordinate is active".to_owned(),
        1 => "1 coordinate is active".to_owned(),
        _ => format!("{width} coordinates are active"),
    }
}

/// A position among so many, in words.
pub fn position(width: Option<u64>, told: Told) -> String {
    match width {
        None => "a position".to_owned(),
        Some(0) => format!("a position ({})", told(0)),
        Some(width) => format!("a position below {width} ({})", told(width)),
    }
}

/// Whether text is a factor of a product: a letter and digits.
fn is_factor(text: &str) -> bool {
    let digits = text.strip_prefix(['X', 'Y', 'Z', 'I']).unwrap_or("");
    !digits.is_empty() && digits.chars().all(|digit| digit.is_ascii_digit())
}

/// Whether text behind a sign is a Pauli: letters, or a product of factors.
fn is_body(text: &str) -> bool {
    let is_string = text.chars().all(|letter| "XYZI_".contains(letter));
    is_string || text.split('*').all(is_factor)
}

/// A Pauli in which letters are small, with capitals; none for one that is right, and for a word
/// that is none. An i in front may be a letter or the imaginary sign.
fn in_capitals(text: &str, width: Option<u64>) -> Option<String> {
    let rest = text.strip_prefix(['+', '-']).unwrap_or(text);
    let behind = rest.strip_prefix('i').unwrap_or(rest);
    let is_letter =
        behind.starts_with(|next: char| next.is_ascii_digit()) || width == Some(rest.len() as u64);
    let letters = if is_letter { rest } else { behind };
    let capitals = letters.to_ascii_uppercase();
    let front = &text[..text.len() - letters.len()];
    (is_body(&capitals) && capitals != letters).then(|| format!("{front}{capitals}"))
}

/// That a word is a Pauli but for small letters, if it is.
pub fn small(word: Word<'_>, width: Option<u64>) -> Option<Fault> {
    let text = in_capitals(word.text, width)?;
    Some(word.mended(&text, CAPITALS))
}

/// Whether a Pauli that begins with a word goes on with the next: * stands at an end of one, or
/// the first is a sign alone.
pub fn goes_on(word: &str, next: &str) -> bool {
    let is_sign = !word.is_empty() && sign(word).1 == word.len();
    let is_pauli = begins(next) || in_capitals(next, None).is_some();
    is_sign && is_pauli || word.ends_with('*') || next.starts_with('*')
}

/// That words are a Pauli in several words, if they are.
pub fn spaced(words: &[Word<'_>]) -> Option<Fault> {
    let parts: Vec<_> = words.iter().map(|word| word.text).collect();
    let joined = parts.concat();
    let text = in_capitals(&joined, None).unwrap_or(joined);
    let fault = Word::mended_run(words, &text, "a Pauli has no spaces")?;
    is_body(&text[sign(&text).1..]).then_some(fault)
}

/// The bit of a position; a letter that acts needs one.
fn bit(place: Word<'_>, letter: char, position: u64) -> Result<u64, Fault> {
    if position < MASK_BITS {
        return Ok(1 << position);
    }
    match letter {
        'I' | '_' => Ok(0),
        _ => Err(place.fault(format!(
            "nothing to act at position {MASK_BITS} or above, since a mask has {MASK_BITS} bits"
        ))),
    }
}

/// A letter for each active coordinate.
fn read_string(
    body: Word<'_>,
    width: Option<u64>,
    told: Told,
    pauli: &mut Pauli,
) -> Result<(), Fault> {
    let mut length = 0;
    for (byte, letter) in body.text.char_indices() {
        let place = body.at(byte, length as usize);
        let alone = place.front(letter.len_utf8());
        if !"XYZI_".contains(letter) {
            return Err(alone.fault(format!("{LETTERS}, or a product such as X0*X2")));
        }
        if let Some(width) = width.filter(|&width| length >= width) {
            return Err(place.fault(format!("the Pauli to end here ({})", told(width))));
        }
        pauli.act(letter, bit(alone, letter, length)?);
        length += 1;
    }
    match width {
        Some(width) if length < width => Err(body.fault_found(
            format!("{width} letters, one for each position ({})", told(width)),
            format!("{length}"),
        )),
        _ => Ok(()),
    }
}

/// One factor of a product: its letter and its position, of which this is expected.
fn read_factor(factor: Word<'_>, position: &str) -> Result<(char, u64), Fault> {
    match factor.text.chars().next() {
        Some(letter) if "XYZI".contains(letter) => Ok((letter, factor.from(1).whole(position)?)),
        _ => Err(factor.fault("a Pauli factor such as X0 (X, Y, Z or I, then a position)")),
    }
}

/// Factors with * between, each at its own position.
fn read_product(
    body: Word<'_>,
    width: Option<u64>,
    told: Told,
    pauli: &mut Pauli,
) -> Result<(), Fault> {
    let expected = position(width, told);
    let mut seen = HashSet::new();
    let (mut byte, mut column) = (0, 0);
    for text in body.text.split('*') {
        let factor = body.at(byte, column).front(text.len());
        byte += text.len() + 1;
        column += text.chars().count() + 1;
        let (letter, position) = read_factor(factor, &expected)?;
        let place = factor.from(1);
        match width {
            Some(0) => return Err(place.fault(format!("no factor ({})", told(0)))),
            Some(width) if position >= width => return Err(place.fault(expected)),
            _ => {}
        }
        if !seen.insert(position) {
            return Err(place.fault_found("each position once", format!("{position} again")));
        }
        pauli.act(letter, bit(factor, letter, position)?);
    }
    Ok(())
}

/// The Pauli of a word over so many positions, of which a fault tells in these words. Where their
/// number is not known, since an earlier line is bad, the length is held to nothing.
pub fn parse(word: Word<'_>, width: Option<u64>, told: Told) -> Result<Pauli, Fault> {
    let (phase, bytes) = sign(word.text);
    let mut pauli = Pauli {
        phase,
        ..Pauli::default()
    };
    let body = word.from(bytes);
    let is_product = |character: char| character.is_ascii_digit() || character == '*';
    if body.text.contains(is_product) {
        read_product(body, width, told, &mut pauli)?;
    } else {
        read_string(body, width, told, &mut pauli)?;
    }
    Ok(pauli)
}

#[cfg(test)]
mod tests {
    use super::*;
    use crate::line::Line;

    /// A Pauli that is read from the first column.
    fn read(text: &str, width: u64) -> Result<Pauli, Fault> {
        let word = Word {
            text,
            line: 1,
            column: 1,
        };
        parse(word, Some(width), active)
    }

    /// Masks and phase.
    fn pauli(x: u64, z: u64, phase: u64) -> Result<Pauli, Fault> {
        Ok(Pauli { x, z, phase })
    }

    #[test]
    fn strings_begin_at_position_0() {
        assert_eq!(read("+X_X", 3), pauli(5, 0, 0));
        assert_eq!(read("-_ZZ", 3), pauli(0, 6, 2));
        assert_eq!(read("XIZ", 3), pauli(1, 4, 0));
        assert_eq!(read("+", 0), pauli(0, 0, 0));
    }

    #[test]
    fn each_y_and_the_sign_count_in_the_phase() {
        assert_eq!(read("Y", 1), pauli(1, 1, 1));
        assert_eq!(read("-Y", 1), pauli(1, 1, 3));
        assert_eq!(read("YY", 2), pauli(3, 3, 2));
        assert_eq!(read("-YYY", 3), pauli(7, 7, 1));
        assert_eq!(read("iZ", 1), pauli(0, 1, 1));
        assert_eq!(read("-iY", 1), pauli(1, 1, 0));
    }

    #[test]
    fn products_name_their_positions() {
        assert_eq!(read("X0*X2", 3), read("X_X", 3));
        assert_eq!(read("-Z2*Y0", 4), read("-Y_Z_", 4));
        assert_eq!(read("I7", 8), pauli(0, 0, 0));
    }

    #[test]
    fn bad_ones_are_told_with_the_column() {
        let columns = |text, width| read(text, width).unwrap_err().column;
        assert_eq!(columns("-XQ", 2), 3);
        assert_eq!(columns("XXX", 2), 3);
        assert_eq!(columns("-X", 2), 2);
        assert_eq!(columns("X0*Z5", 3), 5);
        assert_eq!(columns("X0*Z0", 3), 5);
        assert_eq!(columns("X0**Z1", 3), 4);
        assert_eq!(columns("X0*Z", 3), 5);
        assert_eq!(columns("X64", 70), 1);
        assert_eq!(columns(&format!("{}X", "_".repeat(64)), 65), 65);
    }

    #[test]
    fn small_letters_are_told_with_capitals() {
        for (text, width, wanted) in [
            ("xiz", 3, "XIZ"),
            ("x0*x1", 2, "X0*X1"),
            ("-z", 1, "-Z"),
            ("XiZ", 3, "XIZ"),
            ("ixz", 3, "IXZ"),
            ("ixz", 2, "iXZ"),
            ("-iXZ", 3, "-IXZ"),
            ("iz", 9, "iZ"),
            ("i0*X1", 2, "I0*X1"),
            ("-iy0*Z1", 2, "-iY0*Z1"),
            ("x7", 2, "X7"),
        ] {
            assert!(read(text, width).is_err(), "{text}");
            let told = small(Line::new(1, text).words[0], Some(width)).unwrap();
            let wanted = format!("1:1: expected {wanted}, found '{text}': {CAPITALS}");
            assert_eq!(told.to_string(), wanted);
        }
    }

    #[test]
    fn an_imaginary_sign_is_no_small_letter() {
        for (text, width) in [("iXZ", 2), ("-iX0", 1), ("i", 0), ("iIZ", 2)] {
            assert!(read(text, width).is_ok(), "{text}");
            assert_eq!(in_capitals(text, Some(width)), None, "{text}");
        }
    }

    #[test]
    fn what_is_no_pauli_has_no_capitals() {
        for text in ["xq", "if", "x0x1", "i", "x0*", "é", ""] {
            assert_eq!(in_capitals(text, None), None, "{text}");
        }
    }

    /// What is said of words as one Pauli, if they go on with each other and are one.
    fn said(text: &str) -> Option<String> {
        let words = Line::new(1, text).words;
        let are_one = words
            .windows(2)
            .all(|pair| goes_on(pair[0].text, pair[1].text));
        let fault = spaced(&words).filter(|_| are_one)?;
        Some(fault.to_string())
    }

    #[test]
    fn a_pauli_has_no_spaces() {
        for (text, wanted) in [
            ("X0 * X2", "X0*X2"),
            ("X0* Y1 *Z2", "X0*Y1*Z2"),
            ("- x0 *z1", "-X0*Z1"),
            ("- X_X", "-X_X"),
            ("-i Z2", "-iZ2"),
        ] {
            let told = format!("1:1: expected {wanted}, found '{text}': a Pauli has no spaces");
            assert_eq!(said(text), Some(told));
        }
    }

    #[test]
    fn words_of_their_own_are_no_pauli_with_spaces() {
        for text in ["X0*X2 *", "X0 X2", "X_X *pi", "X0 5", "- 5", "- X0 0.5"] {
            assert_eq!(said(text), None, "{text}");
        }
    }

    #[test]
    fn positions_have_their_limits() {
        let told = |text, width| read(text, width).unwrap_err().to_string();
        assert_eq!(
            told("X0*Zb", 2),
            "1:5: expected a position below 2 (2 coordinates are active), found 'b'"
        );
        assert_eq!(
            told("X0", 0),
            "1:2: expected no factor (no coordinate is active), found '0'"
        );
        assert_eq!(
            position(Some(0), active),
            "a position (no coordinate is active)"
        );
        assert_eq!(position(None, active), "a position");
    }

    #[test]
    fn far_positions_may_stand_idle() {
        assert_eq!(read(&format!("X{}", "_".repeat(69)), 70), pauli(1, 0, 0));
    }

    #[test]
    fn letters_give_the_string_back() {
        for text in ["X_X", "-_ZZ", "YXZ", "-YY", "iZ", "-iY_", "", "-"] {
            let width = text.trim_start_matches(['-', 'i']).len();
            let read = read(text, width as u64).unwrap();
            assert_eq!(letters(read, width), text);
        }
        // A circuit may have any phase; what a record may not have is refused later.
        let far = |phase| letters(Pauli { x: 1, z: 1, phase }, 1);
        assert_eq!([far(u64::MAX - 2), far(u64::MAX)], ["Y", "-Y"]);
    }
}
