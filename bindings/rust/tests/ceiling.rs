//! The ceiling of a head: which ones are refused and before what, that it bounds `max_k` and every
//! component, that below it the plan is that of the largest ceiling, and that storing refuses alike.

#![cfg(feature = "alloc")]

use midvokt::{
    encode, file_bytes, load, plan, plan_words, store, store_words, ActiveComponentPlan, Buffers,
    Head, Lengths, Reason, Record, Refusal, Rotation, Stored, StoredPlan, LARGEST_CEILING,
    RESULT_WORDS, STORE_RESULT_WORDS,
};

/// Ceilings under which records are read.
const READING: [u64; 9] = [9, 10, 12, 20, 31, 32, 40, 61, LARGEST_CEILING];

/// Ceilings that there are not.
const STRANGE: [u64; 4] = [0, 63, 64, u64::MAX];

/// A head with so many coordinates at the start and this ceiling, and max_k 8.
fn head(initial_k: u64, ceiling: u64) -> Head {
    Head {
        initial_k,
        max_k: 8,
        nexpvals: 0,
        ceiling,
    }
}

/// The same head at the largest ceiling.
fn large(head: &Head) -> Head {
    Head {
        ceiling: LARGEST_CEILING,
        ..*head
    }
}

/// The mask of so many positions from this one on.
fn mask(first: u64, count: u64) -> u64 {
    ((1 << count) - 1) << first
}

/// A rotation by the angle 0 about X at these positions.
fn rotation(width: u64, x: u64) -> Record {
    Record::Rotation(Rotation {
        width,
        x,
        z: 0,
        phase: 0,
        angle: 0.0,
        sine: 0.0,
        cosine: 1.0,
    })
}

/// A measurement of Z at these positions, of which the one at the pivot leaves.
fn measurement(width: u64, z: u64, pivot: u64) -> Record {
    Record::measurement(width, 0, z, 0, pivot)
}

/// The refusal of a program, which storing has to give as well.
fn refused(head: &Head, records: &[Record]) -> Refusal {
    let refusal = plan(head, records).unwrap_err();
    assert_eq!(store(head, records), Err(refusal));
    refusal
}

/// Reason and record of a refusal.
fn told(head: &Head, records: &[Record]) -> (Reason, usize) {
    let refusal = refused(head, records);
    (refusal.reason, refusal.index)
}

/// The plan of a program, which has to be that of the largest ceiling, as has its file.
fn accepted(head: &Head, records: &[Record]) -> ActiveComponentPlan {
    let found = plan(head, records).unwrap();
    assert_eq!(plan(&large(head), records).unwrap(), found);
    let file = store(head, records).unwrap();
    assert_eq!(store(&large(head), records).unwrap(), file);
    let kept = StoredPlan::from(found.clone());
    assert_eq!(load(&file), Ok(Stored::Plan(kept)));
    found
}

/// What both calls give over noise in buffers of these lengths, in which no noise may be left.
fn numbers(head: &Head, records: &[u64], lengths: [usize; 7]) -> [u64; 2] {
    let mut words = lengths.map(|length| vec![0x5a5a; length]);
    let mut buffers = Buffers::from(words.each_mut().map(Vec::as_mut_slice));
    let mut result = [0x5a5a; RESULT_WORDS];
    let planned = plan_words(head, records, &mut buffers, &mut result);
    assert_eq!(result, [0; RESULT_WORDS]);
    assert!(words.iter().flatten().all(|&word| word == 0));
    let mut words = lengths.map(|length| vec![0x5a5a; length]);
    let mut buffers = Buffers::from(words.each_mut().map(Vec::as_mut_slice));
    let mut result = [0x5a5a; STORE_RESULT_WORDS];
    let mut file = vec![0x5a; file_bytes(1)];
    let stored = store_words(head, records, &mut buffers, &mut file, &mut result);
    assert_eq!(result, [0; STORE_RESULT_WORDS]);
    assert!(words.iter().flatten().all(|&word| word == 0));
    assert!(file.iter().all(|&byte| byte == 0));
    [planned, stored]
}

#[test]
fn a_strange_ceiling_is_refused_before_all_else() {
    let good = rotation(3, 5).encode().to_vec();
    let bad = vec![u64::MAX; 8];
    let programs = [vec![], good, bad, vec![0; 7], vec![0; 8200]];
    let all = Lengths::for_records(1).in_order();
    for ceiling in STRANGE {
        for max_k in [0, 7, 8, 61, 62, 63, u64::MAX] {
            for (initial_k, nexpvals) in [(3, 0), (3, 1), (513, 0), (u64::MAX, 0), (u64::MAX, 9)] {
                let head = Head {
                    initial_k,
                    max_k,
                    nexpvals,
                    ceiling,
                };
                for records in &programs {
                    assert_eq!(numbers(&head, records, all), [24; 2], "{head:?}");
                    assert_eq!(numbers(&head, records, [0; 7]), [24; 2], "{head:?}");
                }
            }
        }
    }
}

#[test]
fn a_strange_ceiling_is_told_of_the_head() {
    for ceiling in STRANGE {
        let refusal = refused(&head(3, ceiling), &[Record::Promotion]);
        assert_eq!((refusal.reason, refusal.index), (Reason::Ceiling, 0));
        assert!(!refusal.is_of_record());
        let sentence = "refusal 24: the ceiling is not 1 to 62";
        assert_eq!(refusal.to_string(), sentence);
    }
}

#[test]
fn max_k_is_below_the_ceiling() {
    let records = [Record::Promotion, rotation(4, 0b1011)];
    for ceiling in 1..=LARGEST_CEILING {
        for nexpvals in [0, 1] {
            let with = |max_k| Head {
                max_k,
                nexpvals,
                ..head(3, ceiling)
            };
            for max_k in [ceiling, ceiling + 1, 62, u64::MAX] {
                assert_eq!(told(&with(max_k), &records), (Reason::MaxK, 0));
            }
            let plan = accepted(&with(ceiling - 1), &records);
            assert_eq!(plan.dense_peak_dimension, 1 << (ceiling - 1));
            let is_read = ceiling > 8 && nexpvals == 0;
            assert_eq!(plan.instruction_steps.is_empty(), !is_read);
        }
    }
}

#[test]
fn max_k_is_refused_before_records_and_buffers() {
    for ceiling in [1, 8, 9, 40, LARGEST_CEILING] {
        let head = Head {
            max_k: ceiling,
            ..head(u64::MAX, ceiling)
        };
        for records in [vec![0; 7], vec![u64::MAX; 8], vec![0; 8200]] {
            assert_eq!(numbers(&head, &records, [0; 7]), [1; 2]);
        }
    }
}

/// A record that joins so many of 62 coordinates, behind one that plans nothing, has a plan just
/// below each ceiling, and none from there on.
fn joins_fewer_than_the_ceiling(join: impl Fn(u64) -> [Record; 2]) {
    for ceiling in READING {
        let head = head(62, ceiling);
        let plan = accepted(&head, &join(ceiling - 1));
        assert_eq!(plan.component_max_k[0], ceiling as usize - 1);
        for count in ceiling..=62 {
            assert_eq!(told(&head, &join(count)), (Reason::ComponentSize, 1));
        }
    }
}

#[test]
fn a_rotation_joins_fewer_than_the_ceiling() {
    joins_fewer_than_the_ceiling(|count| [Record::DormantBranch, rotation(62, mask(0, count))]);
}

#[test]
fn a_measurement_joins_fewer_than_the_ceiling() {
    joins_fewer_than_the_ceiling(|count| {
        [Record::RecordDetector, measurement(62, mask(0, count), 1)]
    });
}

#[test]
fn the_size_is_refused_before_the_pivot() {
    let cases = [
        (Record::measurement(62, 0, mask(0, 9), 0, 99), Reason::Pivot),
        (
            Record::measurement(62, 0, mask(0, 9), 0, 61),
            Reason::PivotComponent,
        ),
        (Record::measurement(62, 1, mask(0, 9), 0, 1), Reason::PivotX),
        (
            Record::measurement(62, 0, mask(0, 9), 1, 1),
            Reason::Eigenvalues,
        ),
    ];
    for (record, other) in cases {
        for ceiling in [10, LARGEST_CEILING] {
            assert_eq!(told(&head(62, ceiling), &[record]), (other, 0));
        }
        let found = told(&head(62, 9), &[record]);
        assert_eq!(found, (Reason::ComponentSize, 0));
    }
    let second = [
        rotation(62, mask(0, 8)),
        measurement(62, mask(0, 1) | 1 << 8, 3),
    ];
    assert_eq!(told(&head(62, 10), &second), (Reason::PivotZ, 1));
    assert_eq!(told(&head(62, 9), &second), (Reason::ComponentSize, 1));
}

#[test]
fn a_component_grows_until_the_ceiling() {
    for ceiling in READING {
        let pairs = (0..61).map(|first| rotation(62, mask(first, 2)));
        let pairs: Vec<_> = pairs.collect();
        let last = ceiling as usize - 2;
        assert_eq!(
            told(&head(62, ceiling), &pairs),
            (Reason::ComponentSize, last)
        );
        let plan = accepted(&head(62, ceiling), &pairs[..last]);
        assert_eq!(plan.component_max_k[0], last + 1);
    }
}

#[test]
fn promoted_members_count() {
    for ceiling in READING {
        let promoted = vec![Record::Promotion; ceiling as usize];
        let join = |count| [&promoted[..], &[rotation(ceiling, mask(0, count))]].concat();
        let head = head(0, ceiling);
        accepted(&head, &join(ceiling - 1));
        let found = told(&head, &join(ceiling));
        assert_eq!(found, (Reason::ComponentSize, ceiling as usize));
    }
}

#[test]
fn a_member_that_left_makes_room() {
    for ceiling in READING {
        let full = [
            rotation(62, mask(0, ceiling - 1)),
            measurement(62, 1, 0),
            rotation(61, mask(0, ceiling - 1)),
        ];
        let plan = accepted(&head(62, ceiling), &full);
        assert_eq!(plan.component_max_k[0], ceiling as usize - 1);
        let more = [full[0], full[1], rotation(61, mask(0, ceiling))];
        if ceiling < LARGEST_CEILING {
            let found = told(&head(62, ceiling), &more);
            assert_eq!(found, (Reason::ComponentSize, 2));
        }
    }
}

#[test]
fn the_first_refused_record_counts() {
    let join = rotation(62, mask(0, 9));
    let head = head(62, 9);
    let nothing = Record::measurement(62, 0, 0, 0, 0);
    assert_eq!(told(&head, &[join, nothing]), (Reason::ComponentSize, 0));
    assert_eq!(told(&head, &[nothing, join]), (Reason::Identity, 0));
    assert_eq!(told(&head, &[join, rotation(63, 1)]), (Reason::Width, 1));
}

#[test]
fn a_record_may_be_wider_than_the_ceiling() {
    for width in 9..=62 {
        let pairs = (0..width / 2).map(|pair| rotation(width, mask(2 * pair, 2)));
        let plan = accepted(&head(width, 9), &pairs.collect::<Vec<_>>());
        assert_eq!(plan.component_max_k.iter().max(), Some(&2));
        let alone = [rotation(width, 1 << (width - 1)), measurement(width, 1, 0)];
        accepted(&head(width, 9), &alone);
    }
    let records = vec![Record::Promotion; 100];
    assert_eq!(accepted(&head(412, 9), &records).component_count, 512);
}

#[test]
fn a_refused_join_leaves_all_words_zero() {
    let records = encode(&[rotation(12, mask(0, 9))]);
    let all = Lengths::for_records(1).in_order();
    assert_eq!(numbers(&head(12, 9), &records, all), [14; 2]);
}

#[test]
fn a_default_head_is_accepted() {
    let unread = accepted(&Head::default(), &[Record::Promotion]);
    assert_eq!(unread.dense_peak_dimension, 1);
    let full = Head {
        max_k: 61,
        ..Head::default()
    };
    let read = accepted(&full, &[Record::Promotion]);
    assert_eq!(read.instruction_steps.len(), 1);
}
