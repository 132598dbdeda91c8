//! The records of a program: six kinds, each encoded as eight words.

#[cfg(feature = "alloc")]
use alloc::vec::Vec;

/// Words in a record.
pub const RECORD_WORDS: usize = 8;

/// The most records that a program may have.
pub const MOST_RECORDS: usize = 1024;

/// The rotation exp(-i angle P) about a Pauli string over the active coordinates.
///
/// P is i^phase X^x Z^z, X in front of Z at each position. A bit in both masks is XZ = -iY, so
/// each Y needs 1 more in the phase: Y0 is x = 1, z = 1, phase = 1. A gate that turns by theta
/// has the angle theta/2.
///
/// `sine * sine + cosine * cosine` has to be from 1 - 2^-50 to 1 + 2^-50, which it is for the sine
/// and the cosine that are computed of one angle; else the record is refused. They are not
/// compared with the angle.
#[derive(Clone, Copy, Debug, PartialEq)]
pub struct Rotation {
    /// The number of coordinates that are active before it: one more after a promotion, one less
    /// after a measurement. Another is refused.
    pub width: u64,
    /// The x mask; bits at or above the width count for nothing.
    pub x: u64,
    /// The z mask; bits at or above the width count for nothing.
    pub z: u64,
    /// The phase exponent, 0 to 3, with 1 for each Y.
    pub phase: u64,
    /// The angle of exp(-i angle P): half of what a gate turns by.
    pub angle: f64,
    /// sin(angle), which planning carries and does not compute.
    pub sine: f64,
    /// cos(angle), which planning carries and does not compute.
    pub cosine: f64,
}

/// A measurement of a Pauli string over the active coordinates, with a phase as a [`Rotation`]
/// has it: Y0 is x = 1, z = 1, phase = 1.
#[derive(Clone, Copy, Debug, PartialEq, Eq)]
pub struct ActiveMeasurement {
    /// The number of coordinates that are active before it: one more after a promotion, one less
    /// after a measurement. Another is refused.
    pub width: u64,
    /// The x mask; bits at or above the width count for nothing.
    pub x: u64,
    /// The z mask; bits at or above the width count for nothing.
    pub z: u64,
    /// The phase exponent, 0 to 3, with 1 for each Y.
    pub phase: u64,
    /// The active position whose coordinate leaves.
    pub pivot: u64,
    /// Whether it is an expectation, of which planning reads nothing else.
    pub expectation: bool,
}

/// One instruction of a program. An [`ActivePauli`](crate::ActivePauli), which is read from text,
/// makes rotations and measurements too.
#[derive(Clone, Copy, Debug, PartialEq)]
pub enum Record {
    /// Kind 0.
    Rotation(Rotation),
    /// Kind 1: a new active coordinate.
    Promotion,
    /// Kind 2: a classical record, which planning passes over.
    RecordMeasurement,
    /// Kind 3: a classical record, which planning passes over.
    RecordDetector,
    /// Kind 4.
    ActiveMeasurement(ActiveMeasurement),
    /// Kind 5: a branch on a coordinate that is not active, which planning passes over.
    DormantBranch,
}

impl Record {
    /// A [`Rotation`], with the sine and cosine that Rust computes from the angle. It needs the
    /// feature `std`; without it the caller gives them in the struct.
    #[cfg(feature = "std")]
    pub fn rotation(width: u64, x: u64, z: u64, phase: u64, angle: f64) -> Self {
        Self::Rotation(Rotation {
            width,
            x,
            z,
            phase,
            angle,
            sine: angle.sin(),
            cosine: angle.cos(),
        })
    }

    /// A measurement that takes the coordinate at the pivot away.
    pub fn measurement(width: u64, x: u64, z: u64, phase: u64, pivot: u64) -> Self {
        Self::ActiveMeasurement(ActiveMeasurement {
            width,
            x,
            z,
            phase,
            pivot,
            expectation: false,
        })
    }

    /// An expectation, which leaves the register as it is. It is passed over while the head's
    /// `nexpvals` is 0; where that is more no record is read
    /// ([`Head::leaves_unread`](crate::Head::leaves_unread)).
    pub fn expectation() -> Self {
        Self::ActiveMeasurement(ActiveMeasurement {
            width: 0,
            x: 0,
            z: 0,
            phase: 0,
            pivot: 0,
            expectation: true,
        })
    }

    /// The record's eight words: kind, width, x mask, z mask, phase, then three by kind.
    pub fn encode(&self) -> [u64; RECORD_WORDS] {
        match *self {
            Self::Rotation(r) => [
                0,
                r.width,
                r.x,
                r.z,
                r.phase,
                r.angle.to_bits(),
                r.sine.to_bits(),
                r.cosine.to_bits(),
            ],
            Self::Promotion => alone(1),
            Self::RecordMeasurement => alone(2),
            Self::RecordDetector => alone(3),
            Self::ActiveMeasurement(m) => [
                4,
                m.width,
                m.x,
                m.z,
                m.phase,
                m.pivot,
                u64::from(m.expectation),
                0,
            ],
            Self::DormantBranch => alone(5),
        }
    }
}

/// A record of which only the kind is read.
fn alone(kind: u64) -> [u64; RECORD_WORDS] {
    [kind, 0, 0, 0, 0, 0, 0, 0]
}

/// The words of all records, one record after the other.
#[cfg(feature = "alloc")]
pub fn encode(records: &[Record]) -> Vec<u64> {
    records.iter().flat_map(Record::encode).collect()
}

#[cfg(test)]
mod tests {
    use super::*;

    /// A rotation of which each word is another.
    const TURN: Rotation = Rotation {
        width: 3,
        x: 5,
        z: 1,
        phase: 2,
        angle: 0.25,
        sine: 0.5,
        cosine: 0.75,
    };

    #[test]
    fn a_rotation_ends_with_angle_sine_cosine() {
        let words = Record::Rotation(TURN).encode();
        assert_eq!(words[..5], [0, 3, 5, 1, 2]);
        assert_eq!(words[5..], [0.25, 0.5, 0.75].map(f64::to_bits));
    }

    #[cfg(feature = "std")]
    #[test]
    fn sine_and_cosine_are_the_angles() {
        let turn = Rotation {
            sine: 0.25f64.sin(),
            cosine: 0.25f64.cos(),
            ..TURN
        };
        assert_eq!(Record::rotation(3, 5, 1, 2, 0.25), Record::Rotation(turn));
    }

    #[test]
    fn a_measurement_ends_with_pivot_and_flag() {
        assert_eq!(
            Record::measurement(3, 0, 6, 1, 2).encode(),
            [4, 3, 0, 6, 1, 2, 0, 0]
        );
        assert_eq!(Record::expectation().encode()[6], 1);
    }

    /// One record of each kind.
    const KINDS: [Record; 6] = [
        Record::Rotation(TURN),
        Record::Promotion,
        Record::RecordMeasurement,
        Record::RecordDetector,
        Record::ActiveMeasurement(ActiveMeasurement {
            width: 1,
            x: 1,
            z: 0,
            phase: 0,
            pivot: 0,
            expectation: false,
        }),
        Record::DormantBranch,
    ];

    #[test]
    fn kinds_are_numbered_in_order() {
        assert!(KINDS.iter().map(|record| record.encode()[0]).eq(0..6));
    }

    #[cfg(feature = "alloc")]
    #[test]
    fn records_follow_each_other() {
        let words = encode(&KINDS);
        assert_eq!(words.len(), KINDS.len() * RECORD_WORDS);
        for (eight, record) in words.chunks(RECORD_WORDS).zip(&KINDS) {
            assert_eq!(eight, record.encode());
        }
    }
}
