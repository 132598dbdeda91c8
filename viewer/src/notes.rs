//! What may be meant otherwise than it is written: a max that is not the widest register, or that
//! leaves the records unread; a Pauli that is not Hermitian, masks that reach nothing, a sine and
//! a cosine of another angle, an angle past 2 pi. Each is said in a line; the plan stays.

use std::cmp::Ordering;
use std::f64::consts::TAU;

use midvokt::{Record, Rotation, LARGEST_CEILING};

use crate::angle;
use crate::choice::LEAST_MAX;
use crate::circuit::{Circuit, Placed};
use crate::figures;
use crate::kernel_sense::are_of_one_angle;
use crate::pauli::{self, Pauli};
use crate::planning::selected_with;
use crate::sense::MOST_COMPONENTS;
use crate::text;

/// The most characters of a Pauli that a note shows.
const MOST_OF_PAULI: usize = 24;
/// How far a sine or a cosine may be from the angle's, 2^-40: an angle that was written with
/// twelve decimals is nearer.
const NEAR: f64 = 1.0 / (1_u64 << 40) as f64;
/// The most degrees that an angle past 2 pi is taken for: ten turns.
const MOST_DEGREES: f64 = 3600.0;

/// What a record does and with which Pauli, if it is one that acts on the register.
fn acting(record: &Record) -> Option<(&'static str, Pauli)> {
    let pauli = |x, z, phase| Pauli { x, z, phase };
    match *record {
        Record::Rotation(r) => Some(("rotation", pauli(r.x, r.z, r.phase))),
        Record::ActiveMeasurement(m) if !m.expectation => {
            Some(("measurement", pauli(m.x, m.z, m.phase)))
        }
        _ => None,
    }
}

/// What is said of a record's Pauli, if anything is.
fn of_pauli(placed: &Placed) -> Option<String> {
    let (deed, pauli) = acting(&placed.record)?;
    let within = pauli.within(placed.width);
    if pauli.is_identity() || !within.is_identity() {
        let letters = pauli::letters(within, placed.width.min(u64::from(u64::BITS)) as usize);
        return (!within.is_hermitian()).then(|| {
            format!(
                "the {deed}'s Pauli {} is not Hermitian (phase {}; each Y counts 1)",
                figures::cut(&letters, MOST_OF_PAULI),
                pauli.phase
            )
        });
    }
    Some(format!(
        "all mask bits of the {deed} lie above the width {}, so it acts on nothing",
        placed.width
    ))
}

/// That a rotation's sine and cosine are those of another angle than its own, if they are.
fn of_another_angle(rotation: &Rotation) -> Option<String> {
    let (sine, cosine) = (rotation.sine, rotation.cosine);
    let (own_sine, own_cosine) = rotation.angle.sin_cos();
    let is_far = (sine - own_sine).abs() > NEAR || (cosine - own_cosine).abs() > NEAR;
    (are_of_one_angle(sine, cosine) && is_far).then(|| {
        let own = angle::text(rotation.angle);
        let [sine, cosine, own_sine, own_cosine] =
            [sine, cosine, own_sine, own_cosine].map(angle::written);
        format!(
            "the rotation has sin {sine} and cos {cosine}, which count, and its angle {own} has \
             sin {own_sine} and cos {own_cosine}"
        )
    })
}

/// That an angle is past 2 pi, and what it is if degrees are meant; nothing of another angle.
pub fn past_two_pi(angle: f64) -> Option<String> {
    if !angle.is_finite() || angle.abs() <= TAU {
        return None;
    }
    let said = angle::text(angle);
    let past = format!("the angle {said} is past 2 pi");
    match said.contains("pi") || angle.abs() > MOST_DEGREES {
        true => Some(past),
        false => {
            let radians = angle::of_degrees(angle);
            let meant = format!("angles are in radians, and {said} degrees are {radians}");
            Some(format!("{past}; {meant}"))
        }
    }
}

/// The notes on a record.
fn of_record(number: usize, placed: &Placed) -> impl Iterator<Item = String> {
    let [of_another_angle, past_two_pi] = match &placed.record {
        Record::Rotation(rotation) => [of_another_angle(rotation), past_two_pi(rotation.angle)],
        _ => [None, None],
    };
    let found = [of_pauli(placed), of_another_angle, past_two_pi];
    let first = format!("record {number}, line {}", placed.line);
    let found = found.into_iter().flatten();
    found.map(move |words| format!("{first}: {words}"))
}

/// Whether a circuit is selected with another max too, as far as it is planned with both.
fn otherwise(circuit: &Circuit, other: u64) -> Option<String> {
    let now = selected_with(circuit, circuit.head.max_k).ok()?;
    let words = match (now, selected_with(circuit, other).ok()?) {
        (true, true) => "it would be selected too",
        (true, false) => "it would not be selected",
        (false, true) => "it would be selected",
        (false, false) => "it would not be selected either",
    };
    Some(format!("; with max {other} {words}"))
}

/// The note on a max with which records are read, if the register grows beyond it or not up to it;
/// nothing of a circuit that is refused since it grows beyond any register.
fn of_choice(circuit: &Circuit) -> Option<String> {
    let (max, widest) = (circuit.head.max_k, circuit.widest());
    if widest > MOST_COMPONENTS as u64 {
        return None;
    }
    let other = widest.max(LEAST_MAX);
    let place = match max.cmp(&other) {
        Ordering::Less => "below",
        Ordering::Equal => return None,
        Ordering::Greater => "above",
    };
    let widest = figures::count(widest, "coordinate", "coordinates");
    let otherwise = otherwise(circuit, other).unwrap_or_default();
    Some(format!(
        "max {max} is {place} the widest register, {widest}: the choice counts with \
         2^{max}{otherwise}"
    ))
}

/// The note on a max with which no record is read, if that is all that keeps the circuit from
/// being planned.
fn of_unread(circuit: &Circuit) -> Option<String> {
    let head = &circuit.head;
    selected_with(circuit, head.max_k).ok()?;
    if head.ceiling <= LEAST_MAX {
        return Some(format!(
            "no record is read: that needs max {LEAST_MAX} at the least, which would be refused \
             under the ceiling {}",
            head.ceiling
        ));
    }
    let other = circuit.widest().clamp(LEAST_MAX, head.ceiling - 1);
    Some(match selected_with(circuit, other) {
        Ok(_) => format!("no record is read: write max {other} to have it planned"),
        Err(refusal) => {
            let place = text::place(circuit, &refusal);
            let number = refusal.number();
            format!(
                "no record is read; with max {other} the circuit would be refused: refusal \
                 {number}{place}"
            )
        }
    })
}

/// The note on max, if it may be and no expectation value leaves the records unread.
fn of_max(circuit: &Circuit) -> Option<String> {
    let head = &circuit.head;
    let may_be = (1..=LARGEST_CEILING).contains(&head.ceiling) && head.max_k < head.ceiling;
    if !may_be || head.nexpvals != 0 {
        return None;
    }
    match head.max_k < LEAST_MAX {
        true => of_unread(circuit),
        false => of_choice(circuit),
    }
}

/// All notes on a circuit: on its head, then on its records in their order.
pub fn of(circuit: &Circuit) -> Vec<String> {
    let records = circuit.records.iter().enumerate();
    let of_records = records.flat_map(|(number, placed)| of_record(number, placed));
    of_max(circuit).into_iter().chain(of_records).collect()
}

#[cfg(test)]
mod tests {
    use super::*;
    use crate::circuit;

    /// The notes on a circuit of three coordinates with these records.
    fn notes(head: &str, records: &str) -> Vec<String> {
        of(&circuit::parse(format!("{head}\n{records}").as_bytes()).unwrap())
    }

    #[test]
    fn a_pauli_is_hermitian_where_each_y_counts_one() {
        let good = "rotate Y__ 1\nrotate -YY_ 1\nrotate x=1 z=1 phase=3 1\nmeasure XYZ pivot 0";
        assert!(notes("initial 3\nmax 8", good).is_empty());
        assert_eq!(
            notes(
                "initial 3\nmax 8",
                "promote\nrotate x=1 z=1 1\nrotate iX___ 1"
            ),
            [
                "record 1, line 4: the rotation's Pauli -iY___ is not Hermitian (phase 0; each Y \
                 counts 1)",
                "record 2, line 5: the rotation's Pauli iX___ is not Hermitian (phase 1; each Y \
                 counts 1)"
            ]
        );
        let measured = notes("initial 3\nmax 8", "measure iX__ pivot 0\nexpect iX_");
        assert_eq!(measured.len(), 1, "{measured:?}");
    }

    #[test]
    fn masks_above_the_width_are_told_and_do_not_count() {
        assert_eq!(
            notes("initial 3\nmax 8", "rotate x=8 z=16 1"),
            ["record 0, line 3: all mask bits of the rotation lie above the width 3, so it acts on nothing"]
        );
        assert!(notes("initial 3\nmax 8", "rotate x=9 z=8 1\nrotate x=0 1").is_empty());
        assert!(
            notes("initial 64\nmax 8", "promote\nmeasure x=1 z=2 pivot 0")[0].starts_with("max")
        );
    }

    #[test]
    fn max_is_held_to_the_widest_register() {
        assert!(notes("initial 7\nmax 8", "promote").is_empty());
        assert!(notes("initial 3\nmax 8", "promote").is_empty());
        assert!(notes("initial 8\nmax 9", "promote").is_empty());
        let told = |max, records: &str| notes(&format!("initial 8\nmax {max}"), records);
        let below = "max 8 is below the widest register, 9 coordinates: the choice counts with \
                     2^8";
        assert_eq!(
            told(8, "promote\nmeasure Z0 pivot 0"),
            [format!(
                "{below}; with max 9 it would not be selected either"
            )]
        );
        // Nothing is chosen where the circuit is refused.
        assert_eq!(told(8, "promote\nmeasure Z0 pivot 99"), [below]);
        assert_eq!(
            told(10, "promote\nmeasure Z0 pivot 99"),
            ["max 10 is above the widest register, 9 coordinates: the choice counts with 2^10"]
        );
        let grown = |initial| notes(&format!("initial {initial}\nmax 8"), "promote").len();
        assert_eq!([511, 512, u64::MAX].map(grown), [1, 0, 0]);
        // Nor does a max count that is refused, or that a bad ceiling would judge.
        for head in [
            "max 62",
            "max 61\nceiling 61",
            "max 61\nceiling 63",
            "max 61\nceiling 0",
        ] {
            assert!(
                notes(&format!("initial 3\n{head}"), "").is_empty(),
                "{head}"
            );
        }
    }

    #[test]
    fn the_other_choice_is_told() {
        // Ten rotations of one coordinate beside a component of so many members.
        let turns = "rotate X11 0.1\n".repeat(10);
        let said = |max: u64, members: u64| {
            let mask = (1_u64 << members) - 1;
            let records = format!("rotate x={mask} 0.1\n{turns}");
            let told = notes(&format!("initial 12\nmax {max}"), &records);
            told[0].split_once("; ").unwrap().1.to_owned()
        };
        assert_eq!(said(8, 3), "with max 12 it would be selected too");
        assert_eq!(said(13, 3), "with max 12 it would be selected too");
        assert_eq!(said(8, 9), "with max 12 it would be selected");
        assert_eq!(said(8, 12), "with max 12 it would not be selected either");
    }

    #[test]
    fn what_has_the_records_read_is_told() {
        let said = |head: &str| notes(head, "promote").join("; ");
        for (head, wanted) in [
            (
                "initial 3\nmax 3",
                "no record is read: write max 8 to have it planned",
            ),
            (
                "initial 9\nmax 0",
                "no record is read: write max 10 to have it planned",
            ),
            (
                "initial 9\nmax 0\nceiling 10",
                "no record is read: write max 9 to have it planned",
            ),
            (
                "initial 3\nmax 3\nceiling 9",
                "no record is read: write max 8 to have it planned",
            ),
            (
                "initial 3\nmax 3\nceiling 8",
                "no record is read: that needs max 8 at the least, which would be refused under \
                 the ceiling 8",
            ),
            (
                "max 7\ninitial 18446744073709551615",
                "no record is read; with max 61 the circuit would be refused: refusal 4 of the \
                 head, on line 2",
            ),
            ("initial 3\nmax 3\nexpvals 1", ""),
            ("initial 3\nmax 9\nexpvals 1", ""),
        ] {
            assert_eq!(said(head), wanted, "{head}");
        }
    }

    #[test]
    fn a_sine_and_a_cosine_of_another_angle_are_told() {
        let said = |record: &str| notes("initial 1\nmax 8", record);
        assert_eq!(
            said("rotate X 0 sin=1 cos=0"),
            [
                "record 0, line 3: the rotation has sin 1 and cos 0, which count, and its angle 0 \
                 has sin 0 and cos 1"
            ]
        );
        assert!(said(&format!("rotate X 0 sin={NEAR:e}")).is_empty());
        assert_eq!(said("rotate X 0 sin=1e-12").len(), 1);
        assert_eq!(said("rotate X pi sin=0 cos=1").len(), 1);
        assert!(said("rotate X pi sin=0 cos=-1").is_empty());
        // Pairs of no angle are refused.
        for refused in ["0 sin=0.5", "0 sin=2 cos=0", "0 cos=-2"] {
            assert!(said(&format!("rotate X {refused}")).is_empty(), "{refused}");
        }
    }

    #[test]
    fn an_angle_past_two_pi_is_told() {
        assert_eq!(past_two_pi(TAU), None);
        assert_eq!(past_two_pi(-TAU), None);
        assert_eq!(past_two_pi(f64::INFINITY), None);
        assert_eq!(past_two_pi(f64::NAN), None);
        let said = |angle| past_two_pi(angle).unwrap();
        assert_eq!(
            said(45.0),
            "the angle 45 is past 2 pi; angles are in radians, and 45 degrees are pi/4"
        );
        assert_eq!(
            said(-7.0),
            "the angle -7 is past 2 pi; angles are in radians, and -7 degrees are \
             -0.12217304763960307"
        );
        assert_eq!(said(1.25 * TAU), "the angle 5pi/2 is past 2 pi");
        assert!(said(3600.0).contains(" is past 2 pi; "));
        assert!(said(3601.0).ends_with(" is past 2 pi"));
        assert!(said(-f64::MAX).ends_with(" is past 2 pi"));
    }
}
