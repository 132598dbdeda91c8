//! Plans and refusals through the public calls, on circuits whose answers the scope
//! document gives.

#![cfg(feature = "alloc")]

use midvokt::{
    encode, plan, plan_encoded, plan_into, plan_words, ActiveComponentStepKind, Buffers, Complex,
    Head, Lengths, Reason, Record, Rotation, LARGEST_CEILING, RESULT_WORDS,
};

/// A head with so many coordinates at the start, and max_k 8.
fn head(initial_k: u64) -> Head {
    Head {
        initial_k,
        max_k: 8,
        nexpvals: 0,
        ceiling: LARGEST_CEILING,
    }
}

/// A rotation about X by an angle, with this sine and cosine.
fn turned(width: u64, x: u64, [angle, sine, cosine]: [f64; 3]) -> Record {
    Record::Rotation(Rotation {
        width,
        x,
        z: 0,
        phase: 0,
        angle,
        sine,
        cosine,
    })
}

/// A rotation about X by an angle.
fn rotation(width: u64, x: u64, angle: f64) -> Record {
    turned(width, x, [angle, angle.sin(), angle.cos()])
}

/// Three coordinates: a rotation with x = 5, then a measurement with z = 6 and pivot 2.
fn circuit() -> Vec<Record> {
    vec![rotation(3, 5, 0.0), Record::measurement(3, 0, 6, 0, 2)]
}

/// Seven buffers and a result, all of noise.
struct Noise {
    words: [Vec<u64>; 7],
    result: [u64; RESULT_WORDS],
}

impl Noise {
    /// Buffers of just these lengths.
    fn of(lengths: Lengths) -> Self {
        Self {
            words: lengths.in_order().map(|length| vec![0x5a5a; length]),
            result: [0x5a5a; RESULT_WORDS],
        }
    }

    /// The same, lent, and the result.
    fn lend(&mut self) -> (Buffers<'_>, &mut [u64]) {
        let buffers = Buffers::from(self.words.each_mut().map(Vec::as_mut_slice));
        (buffers, &mut self.result)
    }
}

#[test]
fn a_rotation_and_a_measurement_are_planned() {
    let plan = plan(&head(3), &circuit()).unwrap();
    let kinds: Vec<_> = plan
        .instruction_steps
        .iter()
        .map(|step| step.kind)
        .collect();
    assert_eq!(
        kinds,
        [
            ActiveComponentStepKind::Rotation,
            ActiveComponentStepKind::Measurement
        ]
    );
    assert_eq!(plan.merge_components, [0, 2, 0, 1]);
    assert_eq!(plan.component_max_k, [3, 1, 1]);
    assert_eq!(
        (plan.estimated_dense_work, plan.estimated_component_work),
        (24.0, 108.0)
    );
    assert_eq!(plan.dense_peak_dimension, 256);
    assert_eq!(plan.component_peak_live_dimension, 8);
    assert_eq!(plan.component_allocated_dimension, 12);
    assert_eq!(plan.groups, [[0, 1]]);
    assert!(!plan.selected);
}

#[test]
fn rows_have_their_fields() {
    let plan = plan(&head(3), &circuit()).unwrap();
    let rotation = &plan.rotations[0];
    assert_eq!(
        plan.sources(rotation.merge_offset, rotation.merge_count),
        [0, 2]
    );
    assert_eq!(
        (rotation.kernel.action.nqubits, rotation.kernel.action.xmask),
        (2, 3)
    );
    assert_eq!(
        (rotation.kernel.pair_bit, rotation.kernel.pair_count),
        (1, 2)
    );
    assert_eq!(
        rotation.kernel.action.even_phase,
        Complex { re: 1.0, im: 0.0 }
    );
    let measurement = &plan.measurements[0];
    assert_eq!(
        plan.sources(measurement.merge_offset, measurement.merge_count),
        [0, 1]
    );
    assert_eq!(
        (measurement.kernel.action.zmask, measurement.kernel.pivot),
        (6, 1)
    );
    assert_eq!(
        (
            measurement.kernel.z_without_pivot,
            measurement.kernel.out_dim
        ),
        (4, 4)
    );
    assert!(measurement.kernel.is_diagonal && !measurement.deactivate_after);
}

#[test]
fn lent_buffers_give_the_same_plan() {
    let words = encode(&circuit());
    let owned = plan_encoded(&head(3), &words).unwrap();
    let mut noise = Noise::of(Lengths::for_records(2));
    let (mut buffers, _) = noise.lend();
    let summary = plan_into(&head(3), &words, &mut buffers).unwrap();
    assert_eq!(summary.component_count, owned.component_count);
    assert_eq!(buffers.step(1), Some(owned.instruction_steps[1]));
    assert_eq!(buffers.step(2), None);
    assert_eq!(buffers.rotation(0), Some(owned.rotations[0]));
    assert_eq!(buffers.measurement(0), Some(owned.measurements[0]));
    assert_eq!(buffers.promotion(0).map(|row| row.component), Some(0));
    assert_eq!(buffers.sources(2, 2), [0, 1]);
    assert!(buffers.sources(600, 1).is_empty() && buffers.sources(usize::MAX, 2).is_empty());
    assert!(buffers.groups().eq([[0, 1]]));
}

#[test]
fn groups_come_by_component_number() {
    let records = [
        rotation(6, 0x11, 0.0),
        Record::measurement(6, 0, 1, 0, 0),
        Record::measurement(5, 0, 1, 0, 0),
        rotation(4, 0xa, 0.0),
    ];
    // Components 0, 2 and 3; the first member of component 0 was measured away.
    let wanted = [vec![4], vec![2], vec![3, 5]];
    assert_eq!(plan(&head(6), &records).unwrap().groups, wanted);
    let mut noise = Noise::of(Lengths::for_records(4));
    let (mut buffers, _) = noise.lend();
    plan_into(&head(6), &encode(&records), &mut buffers).unwrap();
    assert_eq!(buffers.groups[..8], [1, 4, 1, 2, 2, 3, 5, 0]);
    assert!(buffers.groups().eq([&[4][..], &[2], &[3, 5]]));
}

#[test]
fn refusals_have_reason_and_record() {
    let refused = |initial_k, records: &[Record]| plan(&head(initial_k), records).unwrap_err();
    let found = refused(2, &[Record::Promotion, Record::measurement(3, 0, 0, 0, 0)]);
    assert_eq!((found.reason, found.index), (Reason::Identity, 1));
    assert_eq!(
        found.to_string(),
        "refusal 20 at record 1: the measured masks are both 0"
    );
    let found = refused(2, &[Record::measurement(2, 0, 0, 0, 1)]);
    assert_eq!((found.number(), found.is_of_record()), (16, true));
    assert_eq!(found.sentence(), found.reason.sentence());
    let found = refused(0, &[Record::measurement(0, 0, 0, 0, 0)]);
    assert_eq!(found.reason, Reason::NothingActive);
    assert_eq!(
        refused(513, &[]).to_string(),
        "refusal 4: initial_k is more than 512"
    );
    let found = refused(0, &vec![Record::RecordDetector; 1025]);
    assert_eq!(
        (found.reason, found.is_of_record()),
        (Reason::RecordWords, false)
    );
}

#[test]
fn a_refusal_leaves_all_words_zero() {
    let mut lengths = Lengths::for_records(2);
    lengths.groups -= 1;
    let mut noise = Noise::of(lengths);
    let (mut buffers, result) = noise.lend();
    assert_eq!(
        plan_words(&head(3), &encode(&circuit()), &mut buffers, result),
        3
    );
    assert_eq!(noise.result, [0; RESULT_WORDS]);
    assert!(noise.words.iter().flatten().all(|&word| word == 0));
}

#[test]
fn an_unread_program_has_no_steps() {
    let unread = Head {
        nexpvals: 1,
        ..head(600)
    };
    let plan = plan(&unread, &vec![Record::DormantBranch; 2000]).unwrap();
    assert_eq!((plan.initial_components, plan.component_count), (600, 0));
    assert!(plan.instruction_steps.is_empty() && plan.groups.is_empty());
}

#[test]
fn a_new_head_reads_what_a_default_one_leaves_unread() {
    let read = plan(&Head::new(3), &circuit()).unwrap();
    assert_eq!(read, plan(&head(3), &circuit()).unwrap());
    let default = Head {
        initial_k: 3,
        ..Head::default()
    };
    let unread = plan(&default, &circuit()).unwrap();
    assert!(unread.instruction_steps.is_empty());
    assert_ne!(read, unread);
}

#[test]
fn a_new_head_is_planned_below_62_coordinates() {
    assert!(plan(&Head::new(61), &[]).is_ok());
    assert_eq!(plan(&Head::new(62), &[]).unwrap_err().reason, Reason::MaxK);
    let given = Head {
        max_k: 12,
        ..Head::new(62)
    };
    assert!(plan(&given, &[]).is_ok());
}

#[test]
fn a_full_program_fits_a_small_stack() {
    let promoted = vec![Record::Promotion; 61];
    let records: Vec<_> = promoted
        .into_iter()
        .chain(vec![rotation(61, (1 << 61) - 1, 0.5); 963])
        .collect();
    let words = encode(&records);
    let mut noise = Noise::of(Lengths::for_records(records.len()));
    let planned = std::thread::Builder::new()
        .stack_size(64 * 1024)
        .spawn(move || {
            plan_into(&head(0), &words, &mut noise.lend().0).map(|plan| plan.component_count)
        })
        .unwrap()
        .join()
        .unwrap();
    assert_eq!(planned, Ok(61));
}

#[test]
fn words_that_no_planning_wrote_are_no_step() {
    let mut noise = Noise::of(Lengths::for_records(1));
    let (buffers, _) = noise.lend();
    assert_eq!(buffers.step(0), None);
    assert_eq!(buffers.step(1), None);
}

#[test]
fn a_sine_and_a_cosine_are_of_one_angle() {
    let least = (1.0 - 2f64.powi(-51), 0.0);
    let most = (1.0, 2f64.powi(-25));
    for (sine, cosine) in [least, most, (0.6, 0.8), (1.0, 0.0), (-1.0, -0.0)] {
        let plan = plan(&head(1), &[turned(1, 1, [0.0, sine, cosine])]).unwrap();
        let kernel = &plan.rotations[0].kernel;
        assert_eq!(kernel.sin_kernel_angle.to_bits(), sine.to_bits());
        assert_eq!(kernel.cos_kernel_angle.to_bits(), cosine.to_bits());
    }
    let below = (0.6, f64::from_bits(0.8f64.to_bits() - 6));
    let above = (0.6, f64::from_bits(0.8f64.to_bits() + 6));
    for (sine, cosine) in [below, above, (0.0, 0.0), (-0.0, 0.0), (1.0, 1.0)] {
        let pairs = [[0.0, 0.0, 1.0], [0.0, sine, cosine], [0.0, 2.0, 0.0]];
        let records = pairs.map(|floats| turned(1, 1, floats));
        let refusal = plan(&head(1), &records).unwrap_err();
        assert_eq!((refusal.reason, refusal.index), (Reason::Squares, 1));
    }
    let endless = turned(1, 1, [f64::INFINITY, 0.0, 0.0]);
    let refusal = plan(&head(1), &[endless]).unwrap_err();
    assert_eq!((refusal.reason, refusal.index), (Reason::Floats, 0));
}
