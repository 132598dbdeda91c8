//! The works as whole numbers: when they are given, that they divide with their remainder, and that
//! the float works are the same numbers.

#![cfg(feature = "alloc")]

use midvokt::{
    encode, plan, plan_into, plan_words, ActiveComponentPlan, Buffers, Head, Lengths, Record,
    Rotation, Summary, WholeWorks, LARGEST_CEILING, RESULT_WORDS,
};

/// A head with so many coordinates at the start, and max_k 12.
fn head(initial_k: u64) -> Head {
    Head {
        initial_k,
        max_k: 12,
        nexpvals: 0,
        ceiling: LARGEST_CEILING,
    }
}

/// A rotation about X by the angle 0.
fn rotation(width: u64, x: u64) -> Record {
    Record::Rotation(Rotation {
        width,
        x,
        z: 0,
        phase: 0,
        angle: 0.0,
        sine: 0.0,
        cosine: 1.0,
    })
}

/// A measurement that takes the last of so many coordinates away.
fn measurement(width: u64) -> Record {
    let last = width - 1;
    Record::measurement(width, 0, 1 << last, 0, last)
}

/// The plan's whole works, from so many coordinates at the start.
fn works(initial_k: u64, records: &[Record]) -> WholeWorks {
    plan(&head(initial_k), records).unwrap().whole_works
}

/// Number and result of the library's own call, with a result of this many words, all noise before.
fn result(head: &Head, records: &[Record], length: usize) -> (u64, Vec<u64>) {
    let lengths = Lengths::for_records(records.len()).in_order();
    let mut words = lengths.map(|length| vec![0x5a5a; length]);
    let mut buffers = Buffers::from(words.each_mut().map(Vec::as_mut_slice));
    let mut result = vec![0x5a5a; length];
    let number = plan_words(head, &encode(records), &mut buffers, &mut result);
    (number, result)
}

/// Eleven coordinates, of which four are joined two by two.
fn cheaper() -> [Record; 2] {
    [rotation(11, 0b11), rotation(11, 0b1100)]
}

#[test]
fn a_quotient_has_its_exact_remainder() {
    let found = works(11, &cheaper());
    let expected = WholeWorks::WithQuotient {
        dense: 4096,
        component: 88,
        quotient: 46,
        remainder: 48,
    };
    assert_eq!(found, expected);
}

#[test]
fn a_dearer_split_has_the_quotient_0() {
    let found = works(3, &[rotation(3, 5), Record::measurement(3, 0, 6, 0, 2)]);
    let expected = WholeWorks::WithQuotient {
        dense: 24,
        component: 108,
        quotient: 0,
        remainder: 24,
    };
    assert_eq!(found, expected);
}

#[test]
fn without_component_work_there_is_no_quotient() {
    let ignored = [rotation(0, 0), Record::RecordDetector, rotation(0, 1)];
    assert_eq!(works(0, &ignored), WholeWorks::WithoutQuotient { dense: 2 });
    let nothing = [Record::DormantBranch, Record::expectation()];
    assert_eq!(works(5, &nothing), WholeWorks::WithoutQuotient { dense: 0 });
    assert_eq!(works(38, &[]), WholeWorks::WithoutQuotient { dense: 0 });
}

#[test]
fn more_than_38_are_too_wide_wherever_they_are() {
    let passing = [Record::Promotion, measurement(39), rotation(38, 1)];
    assert_eq!(works(39, &[]), WholeWorks::TooWide);
    assert_eq!(works(512, &[]), WholeWorks::TooWide);
    assert_eq!(works(39, &[measurement(39)]), WholeWorks::TooWide);
    assert_eq!(works(38, &[Record::Promotion]), WholeWorks::TooWide);
    assert_eq!(works(38, &passing), WholeWorks::TooWide);
}

#[test]
fn up_to_38_the_works_are_given() {
    let below = [measurement(38), Record::Promotion, rotation(38, 1)];
    let (measured, promoted, rotated) = (1 << 39, 1 << 38, 1 << 38);
    let WholeWorks::WithQuotient { dense, .. } = works(38, &below) else {
        panic!("38 coordinates are not too wide");
    };
    assert_eq!(dense, measured + promoted + rotated);
}

/// Whether the float works are the whole ones, and the quotient is theirs.
fn agrees(plan: &ActiveComponentPlan) -> bool {
    let floats = (plan.estimated_dense_work, plan.estimated_component_work);
    match plan.whole_works {
        WholeWorks::TooWide => true,
        WholeWorks::WithoutQuotient { dense } => floats == (dense as f64, 0.0),
        WholeWorks::WithQuotient {
            dense,
            component,
            quotient,
            remainder,
        } => {
            floats == (dense as f64, component as f64)
                && dense == quotient * component + remainder
                && remainder < component
        }
    }
}

#[test]
fn the_float_works_are_the_whole_ones() {
    for width in 0..=60 {
        let all = (1 << width) - 1;
        for records in [
            vec![],
            vec![rotation(width, all); 3],
            vec![Record::Promotion, rotation(width + 1, all)],
            (1..=width).rev().map(measurement).collect(),
        ] {
            let plan = plan(&head(width), &records).unwrap();
            assert!(agrees(&plan), "{width}: {records:?}");
        }
    }
}

#[test]
fn an_unread_plan_has_both_works_0() {
    let small = Head {
        max_k: 7,
        ..head(u64::MAX)
    };
    let expecting = Head {
        nexpvals: 1,
        ..head(u64::MAX)
    };
    for unread in [small, expecting] {
        let plan = plan(&unread, &[Record::Promotion]).unwrap();
        assert_eq!(plan.initial_components, usize::MAX);
        assert_eq!(plan.whole_works, WholeWorks::WithoutQuotient { dense: 0 });
        assert!(agrees(&plan));
        let (number, result) = result(&unread, &[], RESULT_WORDS);
        assert_eq!((number, &result[9..]), (0, &[1, 0, 0, 0, 0][..]));
    }
}

#[test]
fn an_empty_plan_has_the_works_of_an_unread_one() {
    let expected = WholeWorks::WithoutQuotient { dense: 0 };
    assert_eq!(ActiveComponentPlan::default().whole_works, expected);
    assert_eq!(Summary::default().whole_works, expected);
    assert_eq!(WholeWorks::default(), expected);
}

#[test]
fn lent_buffers_give_the_same_works() {
    let words = encode(&cheaper());
    let mut lent = Lengths::for_records(2).in_order().map(|n| vec![0; n]);
    let mut buffers = Buffers::from(lent.each_mut().map(Vec::as_mut_slice));
    let summary = plan_into(&head(11), &words, &mut buffers).unwrap();
    assert_eq!(summary.whole_works, works(11, &cheaper()));
}

#[test]
fn the_words_stand_behind_the_ninth() {
    let (number, whole) = result(&head(11), &cheaper(), RESULT_WORDS);
    assert_eq!((number, whole.len()), (0, 14));
    assert_eq!(whole[9..], [2, 4096, 88, 46, 48]);
    let (_, wide) = result(&head(39), &[], RESULT_WORDS);
    assert_eq!(wide[9..], [0; 5]);
}

#[test]
fn a_result_of_another_length_has_the_same_words() {
    let whole = result(&head(11), &cheaper(), RESULT_WORDS);
    for length in 0..RESULT_WORDS {
        let short = result(&head(11), &cheaper(), length);
        assert_eq!(short, (0, whole.1[..length].to_vec()));
    }
    let (number, long) = result(&head(11), &cheaper(), 20);
    assert_eq!((number, &long[..RESULT_WORDS]), (0, &whole.1[..]));
    assert_eq!(long[RESULT_WORDS..], [0; 6]);
}

#[test]
fn a_refusal_has_no_works() {
    let records = [rotation(11, 0b11), Record::measurement(11, 0, 0, 0, 0)];
    let (number, words) = result(&head(11), &records, RESULT_WORDS);
    assert_eq!((number, words[0]), (20, 1));
    assert_eq!(words[1..], [0; RESULT_WORDS - 1]);
}
