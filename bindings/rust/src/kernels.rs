//! What a row says about its Pauli string: the action and the two kernels, with the names of the
//! fields and methods, and the defaults, that the Rust simulator has.
//!
//! All methods are total: no value of a field or an argument makes them panic.

use crate::words::{Room, Words};
use crate::Complex;

/// Whether a word has an odd number of ones.
#[inline]
fn is_odd(word: u64) -> bool {
    word.count_ones() % 2 == 1
}

/// A value, or where the flag says so both its parts negated.
#[inline]
fn negated_if(negate: bool, value: Complex) -> Complex {
    if negate {
        -value
    } else {
        value
    }
}

/// A word moved up by so many places; 0 where that is the whole word or more.
#[inline]
fn moved_up(word: usize, places: usize) -> usize {
    if places < usize::BITS as usize {
        word << places
    } else {
        0
    }
}

/// The basis index with a bit of 0 put in at a place: the bits from there on move up by one, and
/// a bit that the word has no place for is dropped. From place 64 on nothing moves.
#[inline]
pub fn insert_zero_bit(packed: usize, bit: usize) -> usize {
    let below = moved_up(1, bit).wrapping_sub(1);
    let stay = packed & below;
    stay | ((packed ^ stay) << 1)
}

/// A Pauli string in the bit order of its component: a phase times X^xmask Z^zmask, which takes
/// the basis state of index `b` to that of index `b ^ xmask`, times `even_phase` or `odd_phase`.
#[derive(Clone, Copy, Debug, PartialEq)]
pub struct ActivePauliAction {
    /// The component's size, before a measurement takes a member away.
    pub nqubits: usize,
    /// The x bits; bit j belongs to the component's member j.
    pub xmask: u64,
    /// The z bits; bit j belongs to the component's member j.
    pub zmask: u64,
    /// The phase for a basis index that has an even number of the z bits: i^phase.
    pub even_phase: Complex,
    /// The phase for an odd number of them: both parts of the even one negated.
    pub odd_phase: Complex,
    /// Whether the masks have an odd number of bits in common.
    pub xz_overlap_odd: bool,
}

impl Default for ActivePauliAction {
    /// The identity on no qubit.
    fn default() -> Self {
        Self {
            nqubits: 0,
            xmask: 0,
            zmask: 0,
            even_phase: Complex::new(1.0, 0.0),
            odd_phase: Complex::new(-1.0, 0.0),
            xz_overlap_odd: false,
        }
    }
}

impl ActivePauliAction {
    /// Whether a basis index has an odd number of the z bits, and so takes the odd phase.
    #[inline]
    pub fn phase_odd(&self, basis: usize) -> bool {
        is_odd(basis as u64 & self.zmask)
    }

    /// The eight words that both kinds of row have after their first three.
    pub(crate) fn read(words: &mut Words<'_>) -> Self {
        Self {
            nqubits: words.size(),
            xmask: words.word(),
            zmask: words.word(),
            even_phase: words.complex(),
            odd_phase: words.complex(),
            xz_overlap_odd: words.flag(),
        }
    }

    /// Writes the same words.
    pub(crate) fn write(&self, room: &mut Room<'_>) {
        room.size(self.nqubits);
        room.word(self.xmask);
        room.word(self.zmask);
        room.complex(self.even_phase);
        room.complex(self.odd_phase);
        room.flag(self.xz_overlap_odd);
    }
}

/// What applying the rotation exp(-i angle P) to its component needs.
#[derive(Clone, Copy, Debug, PartialEq)]
pub struct PrecomputedActivePauliRotationKernel {
    /// The string that is rotated about.
    pub action: ActivePauliAction,
    /// Whether the x mask is 0.
    pub is_diagonal: bool,
    /// Whether the x mask is not 0 and the z mask is 0.
    pub uniform_imag_pairs: bool,
    /// Whether both masks are not 0, overlap oddly, and the phase exponent is 1 or 3.
    pub real_pair_flip: bool,
    /// The number of the highest x bit, from 0; 0 where diagonal.
    pub pair_bit: u32,
    /// Half the component's dimension; 0 where diagonal.
    pub pair_count: usize,
    /// The angle, as the record has it.
    pub kernel_angle: f64,
    /// The cosine, as the record has it.
    pub cos_kernel_angle: f64,
    /// The sine, as the record has it.
    pub sin_kernel_angle: f64,
    /// The even phase times minus i times the sine.
    pub minus_even_coefficient: Complex,
}

impl Default for PrecomputedActivePauliRotationKernel {
    /// A rotation by 0 about the identity.
    fn default() -> Self {
        Self {
            action: ActivePauliAction::default(),
            is_diagonal: true,
            uniform_imag_pairs: false,
            real_pair_flip: false,
            pair_bit: 0,
            pair_count: 0,
            kernel_angle: 0.0,
            cos_kernel_angle: 1.0,
            sin_kernel_angle: 0.0,
            minus_even_coefficient: Complex::new(0.0, 0.0),
        }
    }
}

impl PrecomputedActivePauliRotationKernel {
    /// What the amplitude at a basis index adds to the one at `source ^ xmask`: minus i times the
    /// sine times the index's phase. A rotation gives index `b ^ xmask` the amplitude
    /// `state[b ^ xmask] * cos_kernel_angle + coefficient(b, false) * state[b]`. A sign of true
    /// stands for the negated angle.
    #[inline]
    pub fn coefficient(&self, source: usize, sign: bool) -> Complex {
        let negate = self.action.phase_odd(source) != sign;
        negated_if(negate, self.minus_even_coefficient)
    }

    /// The words of a rotation row after its first three.
    pub(crate) fn read(words: &mut Words<'_>) -> Self {
        Self {
            action: ActivePauliAction::read(words),
            is_diagonal: words.flag(),
            uniform_imag_pairs: words.flag(),
            real_pair_flip: words.flag(),
            pair_bit: words.word() as u32,
            pair_count: words.size(),
            kernel_angle: words.float(),
            cos_kernel_angle: words.float(),
            sin_kernel_angle: words.float(),
            minus_even_coefficient: words.complex(),
        }
    }

    /// Writes the same words.
    pub(crate) fn write(&self, room: &mut Room<'_>) {
        self.action.write(room);
        room.flag(self.is_diagonal);
        room.flag(self.uniform_imag_pairs);
        room.flag(self.real_pair_flip);
        room.word(u64::from(self.pair_bit));
        room.size(self.pair_count);
        room.float(self.kernel_angle);
        room.float(self.cos_kernel_angle);
        room.float(self.sin_kernel_angle);
        room.complex(self.minus_even_coefficient);
    }
}

/// What measuring a string on its component needs.
#[derive(Clone, Copy, Debug, PartialEq)]
pub struct PrecomputedActivePauliMeasurementKernel {
    /// The string that is measured.
    pub action: ActivePauliAction,
    /// The local position of the member that leaves.
    pub pivot: usize,
    /// Whether the x mask is 0.
    pub is_diagonal: bool,
    /// 1 where diagonal with phase exponent 2, else 0.
    pub diagonal_phase_bit: i32,
    /// The z mask without the pivot's bit where diagonal, else 0.
    pub z_without_pivot: u64,
    /// Half the component's dimension.
    pub out_dim: usize,
    /// The even phase, conjugated, times the root of one half.
    pub nondiagonal_coefficient1_even: Complex,
}

impl Default for PrecomputedActivePauliMeasurementKernel {
    /// The identity on no qubit, with nothing to write.
    fn default() -> Self {
        Self {
            action: ActivePauliAction::default(),
            pivot: 0,
            is_diagonal: true,
            diagonal_phase_bit: 0,
            z_without_pivot: 0,
            out_dim: 0,
            nondiagonal_coefficient1_even: Complex::new(0.0, 0.0),
        }
    }
}

impl PrecomputedActivePauliMeasurementKernel {
    /// Where diagonal: the basis index that is kept as index `packed` of the branch, which is false
    /// for the outcome +1 and true for -1. Planning writes pivots below 62; a bit at a pivot of 64
    /// or more is dropped.
    #[inline]
    pub fn diagonal_source(&self, packed: usize, branch: bool) -> usize {
        let others = insert_zero_bit(packed, self.pivot);
        let odd = is_odd(others as u64 & self.z_without_pivot);
        let bit = self.diagonal_phase_bit ^ i32::from(odd != branch);
        others | moved_up(bit as usize, self.pivot)
    }

    /// Where not diagonal: the first of the two basis indices that index `packed` is made of, the
    /// one with no bit at the pivot. For a pivot of 64 or more it is `packed` itself.
    #[inline]
    pub fn nondiagonal_source0(&self, packed: usize) -> usize {
        insert_zero_bit(packed, self.pivot)
    }

    /// Where not diagonal: the second of the two, which the string takes the first to.
    #[inline]
    pub fn nondiagonal_source1(&self, packed: usize) -> usize {
        let first = self.nondiagonal_source0(packed);
        first ^ self.action.xmask as usize
    }

    /// Where not diagonal: what the amplitude at the second index is multiplied with in the
    /// branch, false for the outcome +1 and true for -1; the one at the first is multiplied with
    /// the root of one half.
    #[inline]
    pub fn nondiagonal_coefficient1(&self, packed: usize, branch: bool) -> Complex {
        let first = self.nondiagonal_source0(packed);
        let negate = self.action.phase_odd(first) != branch;
        negated_if(negate, self.nondiagonal_coefficient1_even)
    }

    /// The words of a measurement row after its first three, without the last.
    pub(crate) fn read(words: &mut Words<'_>) -> Self {
        Self {
            action: ActivePauliAction::read(words),
            pivot: words.size(),
            is_diagonal: words.flag(),
            diagonal_phase_bit: i32::from(words.flag()),
            z_without_pivot: words.word(),
            out_dim: words.size(),
            nondiagonal_coefficient1_even: words.complex(),
        }
    }

    /// Writes the same words; a phase bit other than 0 as 1.
    pub(crate) fn write(&self, room: &mut Room<'_>) {
        self.action.write(room);
        room.size(self.pivot);
        room.flag(self.is_diagonal);
        room.flag(self.diagonal_phase_bit != 0);
        room.word(self.z_without_pivot);
        room.size(self.out_dim);
        room.complex(self.nondiagonal_coefficient1_even);
    }
}

#[cfg(test)]
mod tests {
    use super::*;

    /// Places inside a word, at its end and past it, with one that 32 bits would cut to 0.
    const PLACES: [usize; 7] = [0, 1, 62, 63, 64, 65, 1 << 32];

    /// A measurement kernel with this pivot.
    fn measurement(pivot: usize) -> PrecomputedActivePauliMeasurementKernel {
        PrecomputedActivePauliMeasurementKernel {
            pivot,
            ..Default::default()
        }
    }

    #[test]
    fn a_zero_bit_is_put_in_at_its_place() {
        assert_eq!(insert_zero_bit(0b1011, 0), 0b10110);
        assert_eq!(insert_zero_bit(0b1011, 2), 0b10011);
        assert_eq!(insert_zero_bit(0b1011, 4), 0b1011);
        let found = PLACES.map(|place| insert_zero_bit(usize::MAX, place));
        let all = usize::MAX;
        let wanted = [all - 1, all - 2, all - (1 << 62), all >> 1, all, all, all];
        assert_eq!(found, wanted);
    }

    #[test]
    fn a_pivot_past_the_word_has_no_bit() {
        for pivot in [64, 65, 1 << 32, usize::MAX] {
            let kernel = measurement(pivot);
            assert_eq!(kernel.diagonal_source(5, true), 5);
            assert_eq!(kernel.nondiagonal_source0(5), 5);
        }
        let found = PLACES.map(|place| measurement(place).diagonal_source(0, true));
        assert_eq!(found, [1, 2, 1 << 62, 1 << 63, 0, 0, 0]);
    }

    #[test]
    fn a_phase_bit_of_any_value_is_taken() {
        for diagonal_phase_bit in [i32::MIN, -1, 2, i32::MAX] {
            for pivot in PLACES {
                let kernel = PrecomputedActivePauliMeasurementKernel {
                    diagonal_phase_bit,
                    z_without_pivot: u64::MAX,
                    ..measurement(pivot)
                };
                let low = kernel.diagonal_source(0, false);
                let shift = u32::try_from(pivot).unwrap_or(u32::MAX);
                let wanted = (diagonal_phase_bit as usize).checked_shl(shift);
                assert_eq!(low, wanted.unwrap_or(0));
            }
        }
    }

    #[test]
    fn a_diagonal_branch_has_its_parity() {
        let kernel = PrecomputedActivePauliMeasurementKernel {
            diagonal_phase_bit: 1,
            z_without_pivot: 0b100,
            ..measurement(1)
        };
        let found = [0b00, 0b01, 0b10].map(|packed| kernel.diagonal_source(packed, false));
        assert_eq!(found, [0b010, 0b011, 0b100]);
        assert_eq!(kernel.diagonal_source(0b10, true), 0b110);
    }

    #[test]
    fn signs_and_parities_negate_both_parts() {
        let kernel = PrecomputedActivePauliRotationKernel {
            action: ActivePauliAction {
                zmask: 0b110,
                ..Default::default()
            },
            minus_even_coefficient: Complex::new(0.0, -0.5),
            ..Default::default()
        };
        let bits = |value: Complex| [value.re.to_bits(), value.im.to_bits()];
        let (even, odd) = (Complex::new(0.0, -0.5), Complex::new(-0.0, 0.5));
        assert_eq!(bits(kernel.coefficient(0b111, false)), bits(even));
        assert_eq!(bits(kernel.coefficient(0b111, true)), bits(odd));
        assert_eq!(bits(kernel.coefficient(0b011, false)), bits(odd));
        assert_eq!(bits(kernel.coefficient(0b011, true)), bits(even));
    }

    #[test]
    fn a_pair_is_joined_by_the_x_mask() {
        let kernel = PrecomputedActivePauliMeasurementKernel {
            action: ActivePauliAction {
                xmask: 0b110,
                zmask: 0b001,
                ..Default::default()
            },
            is_diagonal: false,
            nondiagonal_coefficient1_even: Complex::new(0.5, 0.0),
            ..measurement(1)
        };
        assert_eq!(kernel.nondiagonal_source0(0b11), 0b101);
        assert_eq!(kernel.nondiagonal_source1(0b11), 0b011);
        assert_eq!(kernel.nondiagonal_coefficient1(0b11, false).re, -0.5);
        assert_eq!(kernel.nondiagonal_coefficient1(0b11, true).re, 0.5);
        assert_eq!(kernel.nondiagonal_coefficient1(0b10, false).re, 0.5);
    }

    #[test]
    fn a_default_rotation_does_nothing() {
        let kernel = PrecomputedActivePauliRotationKernel::default();
        assert!(kernel.is_diagonal && kernel.cos_kernel_angle == 1.0);
        assert_eq!(kernel.action.odd_phase, -kernel.action.even_phase);
        assert!(PrecomputedActivePauliMeasurementKernel::default().is_diagonal);
    }
}
