//! Paulis by their text or of a `PauliString`, and the records that they make.

use core::error::Error;
use core::fmt;

#[cfg(feature = "alloc")]
use crate::pending::PauliString;
use crate::record::{Record, Rotation};

/// The bits of a mask.
const MASK_BITS: u64 = u64::BITS as u64;

/// The letters that a factor may have.
const FACTOR_LETTERS: [char; 4] = ['X', 'Y', 'Z', 'I'];

/// The Pauli i^phase X^x Z^z over the active coordinates, as a [`Rotation`] has it, of which
/// records are made.
///
/// ```
/// # fn main() -> Result<(), midvokt::PauliError> {
/// use midvokt::{ActivePauli, Record};
///
/// // Three active coordinates: -Y at position 0, Z at position 2.
/// let pauli = ActivePauli::from_text(3, "-Y0*Z2")?;
/// assert_eq!(pauli, ActivePauli { width: 3, x: 0b001, z: 0b101, phase: 3 });
/// assert_eq!(ActivePauli::from_text(3, "-Y_Z")?, pauli);
/// assert_eq!(pauli.measurement(2), Record::measurement(3, 0b001, 0b101, 3, 2));
/// # #[cfg(feature = "std")]
/// assert_eq!(pauli.rotation(0.25), Record::rotation(3, 0b001, 0b101, 3, 0.25));
///
/// let error = ActivePauli::from_text(3, "-Y0*Z3").unwrap_err();
/// # #[cfg(feature = "std")]
/// assert_eq!(error.to_string(), "byte 5 of the Pauli: expected a position below 3");
/// # Ok(())
/// # }
/// ```
#[derive(Clone, Copy, Debug, Default, PartialEq, Eq, Hash)]
pub struct ActivePauli {
    /// The number of active coordinates.
    pub width: u64,
    /// The positions with an X or a Y, the lowest bit first.
    pub x: u64,
    /// The positions with a Z or a Y, likewise.
    pub z: u64,
    /// The phase exponent, 0 to 3, with 1 for each Y.
    pub phase: u64,
}

impl ActivePauli {
    /// A Pauli over so many active coordinates from its text, as a circuit file has it.
    ///
    /// A sign may stand in front: `+`, `-`, `i`, `+i` or `-i`. Behind it is a letter for each
    /// active coordinate, position 0 first: X, Y, Z, and I or _ where nothing acts. Or it is a
    /// product of letters X, Y, Z and I with positions, `*` between them: each position below the
    /// width and once, decimal, or with `0x` or `0b` in front, so that `X0x1` is X at position 1.
    /// So `X_Z`, `XIZ` and `X0*Z2` are one Pauli over three coordinates. Letters are capitals, and
    /// there is no space.
    ///
    /// In the phase `-` counts 2, `i` 1, and each Y 1. So with an `i` in front the Pauli is not
    /// Hermitian. Planning refuses that only for a measurement without an x bit
    /// ([`Reason::Eigenvalues`](crate::Reason::Eigenvalues), number 19); else it plans it as it
    /// stands. Planning refuses a width above 62 too ([`Reason::Width`](crate::Reason::Width)).
    pub fn from_text(width: u64, text: &str) -> Result<Self, PauliError> {
        let (phase, start) = sign(text);
        let mut pauli = Self {
            width,
            phase,
            ..Self::default()
        };
        let is_of_product = |character: char| character.is_ascii_digit() || character == '*';
        match text[start..].contains(is_of_product) {
            true => pauli.put_product(text, start)?,
            false => pauli.put_letters(text, start)?,
        }
        Ok(pauli)
    }

    /// Puts a letter at a position where none acts yet.
    fn put(&mut self, letter: char, position: u64) -> Result<(), PauliFault> {
        let [x, z] = match letter {
            'I' | '_' => return Ok(()),
            'X' => [1, 0],
            'Y' => [1, 1],
            'Z' => [0, 1],
            _ => return Err(PauliFault::Letter { found: letter }),
        };
        if position >= MASK_BITS {
            return Err(PauliFault::MaskBit);
        }
        self.x |= x << position;
        self.z |= z << position;
        self.phase = (self.phase + x * z) % 4;
        Ok(())
    }

    /// Puts the letters that a text has from a byte on, one at each position.
    fn put_letters(&mut self, text: &str, start: usize) -> Result<(), PauliError> {
        let letters = &text[start..];
        let found = letters.chars().count() as u64;
        let width = self.width;
        let other_length = PauliFault::Letters { width, found };
        for (position, (byte, letter)) in (0..).zip(letters.char_indices()) {
            let put = match position >= width && "XYZI_".contains(letter) {
                true => Err(other_length),
                false => self.put(letter, position),
            };
            put.map_err(|fault| fault.at(start + byte))?;
        }
        match found < width {
            true => Err(other_length.at(text.len())),
            false => Ok(()),
        }
    }

    /// Puts the factors that a text has from a byte on, with * between.
    fn put_product(&mut self, text: &str, start: usize) -> Result<(), PauliError> {
        let mut byte = start;
        for word in text[start..].split('*') {
            let read = factor(word);
            let (letter, position) = read.map_err(|wrong| wrong.fault.at(byte + wrong.byte))?;
            if position >= self.width {
                let width = self.width;
                return Err(PauliFault::Position { width }.at(byte + 1));
            }
            if has_position(&text[start..byte], position) {
                return Err(PauliFault::Repeated.at(byte + 1));
            }
            let put = self.put(letter, position);
            put.map_err(|fault| fault.at(byte))?;
            byte += word.len() + 1;
        }
        Ok(())
    }

    /// The rotation exp(-i angle P), with the sine and cosine that Rust computes from the angle.
    /// It needs the feature `std`; without it [`ActivePauli::rotation_with`] is given them.
    #[cfg(feature = "std")]
    pub fn rotation(self, angle: f64) -> Record {
        Record::rotation(self.width, self.x, self.z, self.phase, angle)
    }

    /// The rotation exp(-i angle P), with this sine and this cosine of the angle.
    pub fn rotation_with(self, angle: f64, sine: f64, cosine: f64) -> Record {
        Record::Rotation(Rotation {
            width: self.width,
            x: self.x,
            z: self.z,
            phase: self.phase,
            angle,
            sine,
            cosine,
        })
    }

    /// A measurement that takes the coordinate at the pivot away.
    pub fn measurement(self, pivot: u64) -> Record {
        Record::measurement(self.width, self.x, self.z, self.phase, pivot)
    }
}

/// The exponent of i that a sign in front of a text stands for, and how many bytes it has.
fn sign(text: &str) -> (u64, usize) {
    let (exponent, bytes) = match text.as_bytes().first() {
        Some(b'+') => (0, 1),
        Some(b'-') => (2, 1),
        _ => (0, 0),
    };
    match text.as_bytes().get(bytes) {
        Some(b'i') => (exponent + 1, bytes + 1),
        _ => (exponent, bytes),
    }
}

/// The whole number that a word is; the greatest of 64 bits for one that has more.
fn whole(word: &str) -> Option<u64> {
    let (digits, radix) = match word.get(..2) {
        Some("0x") => (&word[2..], 16),
        Some("0b") => (&word[2..], 2),
        _ => (word, 10),
    };
    let is_whole = !digits.is_empty() && digits.chars().all(|digit| digit.is_digit(radix));
    is_whole.then(|| u64::from_str_radix(digits, radix).unwrap_or(u64::MAX))
}

/// The letter and the position of a factor.
fn factor(word: &str) -> Result<(char, u64), PauliError> {
    let letter = word.chars().next();
    let letter = letter.filter(|letter| FACTOR_LETTERS.contains(letter));
    let letter = letter.ok_or(PauliFault::Factor.at(0))?;
    let position = whole(&word[1..]).ok_or(PauliFault::Number.at(1))?;
    Ok((letter, position))
}

/// Whether one of these factors has the position.
fn has_position(factors: &str, position: u64) -> bool {
    let factors = factors.split('*').flat_map(factor);
    factors
        .map(|(_, earlier)| earlier)
        .any(|earlier| earlier == position)
}

/// The word of a mask over at most 64 qubits; none where it has another length, or a bit of no
/// qubit.
#[cfg(feature = "alloc")]
fn mask(words: &[u64], nqubits: u64) -> Option<u64> {
    let mask = match *words {
        [] if nqubits == 0 => 0,
        [word] => word,
        _ => return None,
    };
    let above = mask.checked_shr(nqubits as u32).unwrap_or(0);
    (above == 0).then_some(mask)
}

#[cfg(feature = "alloc")]
impl TryFrom<&PauliString> for ActivePauli {
    type Error = PauliError;

    /// The string over as many active coordinates as it has qubits, qubit q at position q. More
    /// than 64, and masks that are not over just its qubits, are an error.
    fn try_from(string: &PauliString) -> Result<Self, PauliError> {
        let width = string.nqubits as u64;
        if width > MASK_BITS {
            return Err(PauliFault::Qubits.at(0));
        }
        match (mask(&string.x, width), mask(&string.z, width)) {
            (Some(x), Some(z)) => Ok(Self {
                width,
                x,
                z,
                phase: string.phase_exponent() as u64,
            }),
            _ => Err(PauliFault::Masks.at(0)),
        }
    }
}

#[cfg(feature = "alloc")]
impl PauliString {
    /// A string of at most 64 qubits from its text, as [`ActivePauli::from_text`] reads it,
    /// position q being qubit q.
    pub fn from_text(nqubits: usize, text: &str) -> Result<Self, PauliError> {
        if nqubits as u64 > MASK_BITS {
            return Err(PauliFault::Qubits.at(0));
        }
        let pauli = ActivePauli::from_text(nqubits as u64, text)?;
        let mut string = Self::new(nqubits);
        string.x.fill(pauli.x);
        string.z.fill(pauli.z);
        string.set_phase(pauli.phase as i32);
        Ok(string)
    }
}

/// What is wrong with a text or a `PauliString` that is no Pauli of a record, and where.
#[derive(Clone, Copy, Debug, PartialEq, Eq, Hash)]
pub struct PauliError {
    /// What is wrong.
    pub fault: PauliFault,
    /// The byte of the text where something else was expected, from 0; the text's length where it
    /// ends too early. 0 where no text is wrong.
    pub byte: usize,
}

/// What is wrong with a Pauli.
#[derive(Clone, Copy, Debug, PartialEq, Eq, Hash)]
#[non_exhaustive]
pub enum PauliFault {
    /// A character where a letter should stand.
    Letter {
        /// The character.
        found: char,
    },
    /// More letters than the width, or fewer.
    Letters {
        /// The width.
        width: u64,
        /// How many there are.
        found: u64,
    },
    /// A part of a product that does not begin with X, Y, Z or I.
    Factor,
    /// A letter of a product without a position, which is a whole number up to the next `*` or the
    /// end. So `X0X1` and `X0 Z1` have this fault, at the byte behind the letter.
    Number,
    /// A position that is not below the width.
    Position {
        /// The width.
        width: u64,
    },
    /// A position that an earlier factor has.
    Repeated,
    /// An X, Y or Z at position 64 or above, for which a mask has no bit.
    MaskBit,
    /// A `PauliString` of more qubits than a mask has bits.
    Qubits,
    /// A `PauliString` with a mask of another length than its qubits need, or with a bit of no
    /// qubit.
    Masks,
}

impl PauliFault {
    /// This fault at a byte of the text.
    fn at(self, byte: usize) -> PauliError {
        PauliError { fault: self, byte }
    }

    /// Whether it is about a place in a text.
    fn is_of_text(self) -> bool {
        !matches!(self, Self::Qubits | Self::Masks)
    }
}

impl fmt::Display for PauliFault {
    /// What was expected.
    fn fmt(&self, formatter: &mut fmt::Formatter<'_>) -> fmt::Result {
        formatter.write_str(match *self {
            Self::Letter { found } => {
                return write!(formatter, "expected X, Y, Z, I or _, found {found:?}");
            }
            Self::Letters { width, found } => {
                return write!(
                    formatter,
                    "expected a letter for each position, {width} in all, found {found}"
                );
            }
            Self::Position { width } => {
                return write!(formatter, "expected a position below {width}");
            }
            Self::Factor => "expected a factor such as X0 (X, Y, Z or I, then a position)",
            Self::Number => "expected a position (a whole number up to the next * or the end)",
            Self::Repeated => "expected each position once",
            Self::MaskBit => {
                "expected nothing to act at position 64 or above, since a mask has 64 bits"
            }
            Self::Qubits => "expected at most 64 qubits, since a mask has 64 bits",
            Self::Masks => "expected masks with a bit for each qubit and no other",
        })
    }
}

impl fmt::Display for PauliError {
    /// The byte, where a text is wrong, and what was expected.
    fn fmt(&self, formatter: &mut fmt::Formatter<'_>) -> fmt::Result {
        if self.fault.is_of_text() {
            write!(formatter, "byte {} of the Pauli: ", self.byte)?;
        }
        self.fault.fmt(formatter)
    }
}

impl Error for PauliError {}

#[cfg(test)]
mod tests {
    use super::*;
    use std::format;
    use std::string::ToString;

    /// Width, masks and phase.
    fn pauli([width, x, z, phase]: [u64; 4]) -> Result<ActivePauli, PauliError> {
        Ok(ActivePauli { width, x, z, phase })
    }

    /// What is wrong with a text, and at which byte.
    fn wrong(width: u64, text: &str) -> (PauliFault, usize) {
        let PauliError { fault, byte } = ActivePauli::from_text(width, text).unwrap_err();
        (fault, byte)
    }

    #[test]
    fn letters_begin_at_position_0() {
        assert_eq!(ActivePauli::from_text(3, "XIZ"), pauli([3, 1, 4, 0]));
        assert_eq!(ActivePauli::from_text(3, "+X_X"), pauli([3, 5, 0, 0]));
        assert_eq!(ActivePauli::from_text(3, "-_ZZ"), pauli([3, 0, 6, 2]));
        assert_eq!(ActivePauli::from_text(0, ""), pauli([0, 0, 0, 0]));
        assert_eq!(ActivePauli::from_text(0, "-"), pauli([0, 0, 0, 2]));
    }

    #[test]
    fn each_y_and_the_sign_count_in_the_phase() {
        let phase = |width, text| ActivePauli::from_text(width, text).unwrap().phase;
        assert_eq!(ActivePauli::from_text(1, "Y"), pauli([1, 1, 1, 1]));
        assert_eq!(ActivePauli::from_text(2, "Y0*Y1"), pauli([2, 3, 3, 2]));
        assert_eq!(
            [phase(1, "-Y"), phase(3, "YYY"), phase(4, "YYYY")],
            [3, 3, 0]
        );
        assert_eq!(
            [phase(1, "iZ"), phase(1, "+iZ"), phase(1, "-iZ")],
            [1, 1, 3]
        );
        assert_eq!(
            [phase(1, "iY"), phase(1, "-iY"), phase(3, "-YYY")],
            [2, 0, 1]
        );
    }

    #[test]
    fn factors_name_their_positions() {
        assert_eq!(
            ActivePauli::from_text(3, "X2*Z0"),
            ActivePauli::from_text(3, "Z_X")
        );
        assert_eq!(
            ActivePauli::from_text(4, "-Z2*Y0"),
            ActivePauli::from_text(4, "-Y_ZI")
        );
        assert_eq!(ActivePauli::from_text(8, "I7"), pauli([8, 0, 0, 0]));
        assert_eq!(
            ActivePauli::from_text(17, "X0x10*Z0b1*Y003"),
            pauli([17, 0x1_0008, 10, 1])
        );
        assert_eq!(
            ActivePauli::from_text(64, "X63"),
            pauli([64, 1 << 63, 0, 0])
        );
    }

    #[test]
    fn bad_letters_are_told_with_their_byte() {
        let letter = |found| PauliFault::Letter { found };
        let letters = |width, found| PauliFault::Letters { width, found };
        assert_eq!(wrong(2, "-Xq"), (letter('q'), 2));
        assert_eq!(wrong(2, "\u{e4}"), (letter('\u{e4}'), 0));
        assert_eq!(wrong(1, "+i\u{200e}X"), (letter('\u{200e}'), 2));
        assert_eq!(wrong(1, "X "), (letter(' '), 1));
        assert_eq!(wrong(1, "--X"), (letter('-'), 1));
        assert_eq!(wrong(3, "-XX"), (letters(3, 2), 3));
        assert_eq!(wrong(3, ""), (letters(3, 0), 0));
        assert_eq!(wrong(2, "iXXXX"), (letters(2, 4), 3));
        assert_eq!(wrong(u64::MAX, "X"), (letters(u64::MAX, 1), 1));
    }

    #[test]
    fn bad_factors_are_told_with_their_byte() {
        for text in [
            "X0*",
            "X0**Z1",
            "X0*Q1",
            "X0*_1",
            "X0*x1",
            "X0*1",
            "X0*\u{e4}1",
        ] {
            assert_eq!(wrong(3, text), (PauliFault::Factor, 3), "{text}");
        }
        for text in [
            "X0*Z",
            "X0*Z+1",
            "X0*Z0x",
            "X0*Z0b2",
            "X0*Z1 ",
            "X0*ZZ1",
            "X0*Z1X2",
            "X0*Z1 * Y2",
            "X0*Z\u{e4}",
        ] {
            assert_eq!(wrong(3, text), (PauliFault::Number, 4), "{text}");
        }
        assert_eq!(wrong(3, "-*"), (PauliFault::Factor, 1));
        assert_eq!(wrong(3, "7"), (PauliFault::Factor, 0));
        let position = PauliFault::Position { width: 3 };
        assert_eq!(wrong(3, "-X0*Z3"), (position, 5));
        assert_eq!(wrong(3, "I99999999999999999999999"), (position, 1));
        let greatest = PauliFault::Position { width: u64::MAX };
        assert_eq!(wrong(u64::MAX, "I0xffffffffffffffff0"), (greatest, 1));
        assert_eq!(wrong(3, "I0*X2*Z02"), (PauliFault::Repeated, 7));
    }

    #[test]
    fn far_positions_may_stand_idle() {
        assert_eq!(wrong(70, "X64"), (PauliFault::MaskBit, 0));
        assert_eq!(wrong(70, "X0*I69*Z64"), (PauliFault::MaskBit, 7));
        assert_eq!(wrong(70, "I69*I69"), (PauliFault::Repeated, 5));
        assert_eq!(ActivePauli::from_text(70, "X0*I69"), pauli([70, 1, 0, 0]));
        let idle = "_".repeat(64);
        assert_eq!(ActivePauli::from_text(64, &idle), pauli([64, 0, 0, 0]));
        assert_eq!(wrong(65, &format!("{idle}Y")), (PauliFault::MaskBit, 64));
        let longer = PauliFault::Letters {
            width: 64,
            found: 65,
        };
        assert_eq!(wrong(64, &format!("{idle}Y")), (longer, 64));
    }

    #[test]
    fn records_have_the_masks_and_the_phase() {
        let pauli = ActivePauli::from_text(3, "-Y0*Z2").unwrap();
        assert_eq!(pauli.measurement(2).encode(), [4, 3, 1, 5, 3, 2, 0, 0]);
        let turn = pauli.rotation_with(0.25, 0.5, 0.75).encode();
        assert_eq!(turn[..5], [0, 3, 1, 5, 3]);
        assert_eq!(turn[5..], [0.25, 0.5, 0.75].map(f64::to_bits));
        #[cfg(feature = "std")]
        assert_eq!(pauli.rotation(0.25), Record::rotation(3, 1, 5, 3, 0.25));
    }

    #[test]
    fn faults_are_told_in_words() {
        let told = |width, text| ActivePauli::from_text(width, text).unwrap_err().to_string();
        let expected = [
            (
                told(2, "X\n"),
                "byte 1 of the Pauli: expected X, Y, Z, I or _, found '\\n'",
            ),
            (
                told(1, "XX"),
                "byte 1 of the Pauli: expected a letter for each position, 1 in all, found 2",
            ),
            (
                told(2, "X0*_1"),
                "byte 3 of the Pauli: expected a factor such as X0 (X, Y, Z or I, then a \
                 position)",
            ),
            (
                told(2, "X0 Z1"),
                "byte 1 of the Pauli: expected a position (a whole number up to the next * or the \
                 end)",
            ),
            (
                told(2, "X2"),
                "byte 1 of the Pauli: expected a position below 2",
            ),
            (
                told(2, "X1*I1"),
                "byte 4 of the Pauli: expected each position once",
            ),
            (
                told(65, "X64"),
                "byte 0 of the Pauli: expected nothing to act at position 64 or above, since a \
                 mask has 64 bits",
            ),
        ];
        for (told, expected) in expected {
            assert_eq!(told, expected);
        }
    }

    #[cfg(feature = "alloc")]
    mod of_strings {
        use super::*;
        use std::vec;
        use std::vec::Vec;

        /// A string with these masks, of whatever length.
        fn string(nqubits: usize, x: Vec<u64>, z: Vec<u64>) -> PauliString {
            let mut string = PauliString::new(0);
            (string.nqubits, string.x, string.z) = (nqubits, x, z);
            string
        }

        #[test]
        fn a_string_keeps_masks_and_phase() {
            let of = |string| ActivePauli::try_from(&string);
            assert_eq!(
                of(PauliString::from_masks(3, 1, 5, -1)),
                pauli([3, 1, 5, 3])
            );
            let all = u64::MAX;
            assert_eq!(
                of(PauliString::from_masks(64, all, all, 64)),
                pauli([64, all, all, 0])
            );
            assert_eq!(of(PauliString::from_masks(0, 0, 0, 2)), pauli([0, 0, 0, 2]));
            assert_eq!(of(PauliString::new(0)), pauli([0, 0, 0, 0]));
        }

        #[test]
        fn no_qubit_is_cut_off() {
            let fault = |string: &PauliString| ActivePauli::try_from(string).unwrap_err().fault;
            assert_eq!(fault(&PauliString::new(65)), PauliFault::Qubits);
            assert_eq!(
                fault(&string(usize::MAX, vec![], vec![])),
                PauliFault::Qubits
            );
            let bad = [
                string(3, vec![], vec![1]),
                string(3, vec![1], vec![]),
                string(3, vec![1, 0], vec![1]),
                string(3, vec![8], vec![0]),
                string(3, vec![0], vec![8]),
                string(0, vec![1], vec![0]),
                string(63, vec![0], vec![1 << 63]),
            ];
            assert!(bad.iter().all(|string| fault(string) == PauliFault::Masks));
            let error = ActivePauli::try_from(&bad[0]).unwrap_err();
            let said = "expected masks with a bit for each qubit and no other";
            assert_eq!(error.to_string(), said);
        }

        #[test]
        fn strings_are_read_as_paulis_are() {
            let expected = PauliString::from_masks(3, 1, 5, 3);
            assert_eq!(PauliString::from_text(3, "-Y0*Z2"), Ok(expected));
            assert_eq!(PauliString::from_text(0, ""), Ok(PauliString::new(0)));
            let full = PauliString::from_text(64, "X63").unwrap();
            assert_eq!((full.x, full.z), (vec![1 << 63], vec![0]));
            let error = PauliString::from_text(65, "X0").unwrap_err();
            assert_eq!(
                error.to_string(),
                "expected at most 64 qubits, since a mask has 64 bits"
            );
            assert_eq!(PauliString::from_text(2, "X2").unwrap_err().byte, 1);
        }
    }
}
