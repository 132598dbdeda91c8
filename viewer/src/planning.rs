//! Plans a circuit through the proved library, or takes a stored plan, and gathers what all views of
//! the plan need.

use std::mem;

use midvokt::{
    ActivePauliAction, Head, Reason, Record, Refusal, StoredPlan, WholeWorks, LARGEST_CEILING,
};

use crate::checksum::Checksum;
use crate::choice::Choice;
use crate::circuit::Circuit;
use crate::lives::{Deed, Event, Replay};
use crate::pauli::{self, Pauli};

/// What only a plan that was made now has, and no stored one.
pub struct Planned<'a> {
    /// The circuit.
    pub circuit: &'a Circuit,
    /// The works as whole numbers.
    pub whole_works: WholeWorks,
    /// The members of each component that lives at the end, by ascending number.
    pub groups: Vec<Vec<usize>>,
}

/// A plan and what is shown of it.
pub struct View<'a> {
    /// The name of the circuit, or of the stored plan.
    pub name: &'a str,
    /// The library's plan, as far as a file keeps it.
    pub plan: StoredPlan,
    /// The circuit and what else only planning gives; none for a stored plan.
    pub planned: Option<Planned<'a>>,
    /// The checksum of the stored plan that is read, or of the one that is written besides.
    pub checksum: Option<Checksum>,
    /// Why it is selected or not.
    pub choice: Choice,
    /// The components from record to record.
    pub replay: Replay,
    /// Whether what the plan itself says of its components is what was followed.
    pub agrees: bool,
}

/// A circuit's records.
fn records(circuit: &Circuit) -> Vec<Record> {
    circuit.records.iter().map(|placed| placed.record).collect()
}

/// Whether a circuit is selected with this max, or why it is refused with it.
pub fn selected_with(circuit: &Circuit, max_k: u64) -> Result<bool, Refusal> {
    let head = Head {
        max_k,
        ..circuit.head
    };
    let plan = midvokt::plan(&head, &records(circuit))?;
    Ok(plan.selected)
}

/// Plans a circuit, and gives the plan's file.
pub fn stored(circuit: &Circuit) -> Result<Vec<u8>, Refusal> {
    midvokt::store(&circuit.head, &records(circuit))
}

/// The rotation by the angle 0 about the Pauli of a record, which joins the same components.
fn turn(record: &Record) -> Option<Record> {
    let (width, x, z, phase) = match *record {
        Record::Rotation(r) => (r.width, r.x, r.z, r.phase),
        Record::ActiveMeasurement(m) => (m.width, m.x, m.z, m.phase),
        _ => return None,
    };
    Some(Record::rotation(width, x, z, phase, 0.0))
}

/// How many members a refused join makes: as many as its row has at the largest ceiling, or, where
/// that refuses it too, the 62 that a record may be wide.
pub fn joined(circuit: &Circuit, record: usize) -> Option<u64> {
    let mut records = records(circuit);
    let last = turn(records.get(record)?)?;
    records.truncate(record);
    records.push(last);
    let head = Head {
        ceiling: LARGEST_CEILING,
        ..circuit.head
    };
    match midvokt::plan(&head, &records) {
        Ok(plan) => Some(plan.rotations.last()?.kernel.action.nqubits as u64),
        Err(refusal) if refusal.reason == Reason::ComponentSize => Some(LARGEST_CEILING),
        Err(_) => None,
    }
}

impl<'a> View<'a> {
    /// Plans a circuit.
    pub fn of(name: &'a str, circuit: &'a Circuit) -> Result<Self, Refusal> {
        let mut plan = midvokt::plan(&circuit.head, &records(circuit))?;
        let planned = Planned {
            circuit,
            whole_works: plan.whole_works,
            groups: mem::take(&mut plan.groups),
        };
        let plan = StoredPlan::from(plan);
        let followed = Replay::of(&plan);
        let agrees = matches!(&followed, Ok(replay) if replay.ends_with(&planned.groups));
        Ok(Self {
            name,
            checksum: None,
            choice: Choice::of(&circuit.head, &plan),
            replay: followed.unwrap_or_default(),
            plan,
            planned: Some(planned),
            agrees,
        })
    }

    /// Takes a stored plan, or says what is senseless about it.
    pub fn of_stored(name: &'a str, plan: StoredPlan) -> Result<Self, String> {
        let choice = Choice::of_stored(&plan);
        let replay = Replay::of(&plan)?;
        choice.is_sound(&plan)?;
        Ok(Self {
            name,
            checksum: None,
            choice,
            replay,
            plan,
            planned: None,
            agrees: true,
        })
    }

    /// The works as whole numbers; none for a stored plan.
    pub fn whole_works(&self) -> Option<WholeWorks> {
        self.planned.as_ref().map(|planned| planned.whole_works)
    }

    /// Whether the records were read, as far as the plan tells.
    pub fn is_read(&self) -> bool {
        matches!(self.choice, Choice::Tested { .. })
    }

    /// The Pauli that an event applies, in its component's own order; none for a promotion.
    pub fn action(&self, event: &Event) -> Option<&ActivePauliAction> {
        match event.deed {
            Deed::Promotion => None,
            Deed::Rotation => Some(&self.plan.rotations[event.row].kernel.action),
            Deed::Measurement { .. } => Some(&self.plan.measurements[event.row].kernel.action),
        }
    }

    /// The same in letters, or as masks where the letters are more than so many, so that two that
    /// differ are told differently.
    pub fn local_text(&self, event: &Event, most: usize) -> String {
        match self.action(event) {
            Some(action) if action.nqubits > most => pauli::masks(local(action)),
            Some(action) => pauli::letters(local(action), action.nqubits),
            None => String::new(),
        }
    }
}

/// The Pauli of a row, with the phase exponent that its even phase stands for.
fn local(action: &ActivePauliAction) -> Pauli {
    let phase = match (action.even_phase.re, action.even_phase.im) {
        (re, _) if re > 0.0 => 0,
        (_, im) if im > 0.0 => 1,
        (re, _) if re < 0.0 => 2,
        _ => 3,
    };
    Pauli {
        x: action.xmask,
        z: action.zmask,
        phase,
    }
}

#[cfg(test)]
mod tests {
    use super::*;
    use crate::circuit;

    #[test]
    fn an_event_tells_its_pauli_in_local_order() {
        let text = "initial 3\nmax 8\nrotate -X_Y 0.5\nmeasure _ZZ pivot 2\npromote";
        let circuit = circuit::parse(text.as_bytes()).unwrap();
        let view = View::of("-", &circuit).unwrap();
        let letters: Vec<_> = view
            .replay
            .events
            .iter()
            .map(|event| view.local_text(event, 3))
            .collect();
        assert_eq!(letters, ["-XY", "_ZZ", ""]);
        let masked = view.local_text(&view.replay.events[1], 2);
        assert_eq!(masked, "x=0x0 z=0x6 phase=0");
    }

    /// What the library says of a circuit, and how many members its refused record joins.
    fn refused(head: &str, records: &str) -> (Refusal, Option<u64>) {
        let text = format!("max 8\n{head}\n{records}");
        let circuit = circuit::parse(text.as_bytes()).unwrap();
        let refusal = View::of("-", &circuit).err().unwrap();
        (refusal, joined(&circuit, refusal.index))
    }

    #[test]
    fn a_refused_join_is_counted() {
        let all = "rotate x=0x3fffffffffffffff 1";
        let cases = [
            ("initial 9\nceiling 9", "rotate XXXXXXXXX 1", 0, 9),
            (
                "initial 40\nceiling 9",
                "rotate x=0xff 1\nrotate x=0xffff0 1",
                1,
                20,
            ),
            (
                "initial 12\nceiling 9",
                "promote\nmeasure z=0x1fff pivot 99",
                1,
                13,
            ),
            ("initial 62\nceiling 9", all, 0, 62),
            ("initial 62", all, 0, 62),
            (
                "initial 62\nceiling 61",
                "rotate x=0x1fffffffffffffff 1",
                0,
                61,
            ),
        ];
        for (head, records, index, members) in cases {
            let (refusal, found) = refused(head, records);
            assert_eq!(
                (refusal.reason, refusal.index),
                (Reason::ComponentSize, index)
            );
            assert_eq!(found, Some(members), "{head}: {records}");
        }
    }
}
