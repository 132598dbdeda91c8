//! The names and numbers that the crate has are those of the C header: the reasons, the largest
//! ceiling, the length of the results, their words, the marks of the whole works, the words of a
//! stored plan, and the limits of a list of pending operations.

use midvokt::{
    file_bytes, plan_into, plan_words, Buffers, Head, Lengths, Reason, Record, Scalars, Summary,
    WholeWorks, FILE_VERSION, LARGEST_CEILING, LOAD_RESULT_WORDS, MOST_OPERATIONS, MOST_PREFIXES,
    MOST_QUBITS, NO_BOUNDARY, OPERATION_WORDS, OPTIMIZE_RESULT_WORDS, RESULT_WORDS, SCALAR_WORDS,
    SIGN_CONDITIONS, STORE_RESULT_WORDS, TRAILER_WORDS,
};

const HEADER: &str = include_str!("../../../include/midvokt.h");
const STORED: &str = include_str!("../../../tests/c/store.expected");

/// `PIVOT_X` as `PivotX`.
fn camel(name: &str) -> String {
    name.split('_')
        .map(|word| format!("{}{}", &word[..1], word[1..].to_lowercase()))
        .collect()
}

/// The name behind a prefix, and its number, that a line of an enum gives.
fn named<'a>(line: &'a str, prefix: &str) -> Option<(&'a str, u64)> {
    let rest = line.trim().strip_prefix(prefix)?;
    let (name, rest) = rest.split_once(" = ")?;
    let digits = rest.find(|c: char| !c.is_ascii_digit());
    let number = &rest[..digits.unwrap_or(rest.len())];
    Some((name, number.parse().expect("a number follows the name")))
}

/// All names behind a prefix, with their numbers, as the header lists them.
fn all(prefix: &str) -> Vec<(&'static str, u64)> {
    HEADER
        .lines()
        .filter_map(|line| named(line, prefix))
        .collect()
}

/// The place of a word of the result, by its name.
fn place_of_result(name: &str) -> usize {
    let words = all("MIDVOKT_RESULT_");
    let found = words.iter().find(|word| word.0 == name);
    found.expect("the header has the name").1 as usize
}

/// The result's words and the summary of a plan with so many promotions from so many coordinates.
fn planned(initial_k: u64, promotions: usize) -> ([u64; RESULT_WORDS], Summary) {
    let head = Head {
        initial_k,
        max_k: 8,
        nexpvals: 0,
        ceiling: LARGEST_CEILING,
    };
    let records = vec![Record::Promotion.encode(); promotions].concat();
    let lengths = Lengths::for_records(promotions).in_order();
    let mut words = lengths.map(|length| vec![0; length]);
    let mut buffers = Buffers::from(words.each_mut().map(Vec::as_mut_slice));
    let mut result = [0; RESULT_WORDS];
    assert_eq!(plan_words(&head, &records, &mut buffers, &mut result), 0);
    (result, plan_into(&head, &records, &mut buffers).unwrap())
}

#[test]
fn the_reasons_have_the_names_of_the_header() {
    let mut numbers = Vec::new();
    for (name, number) in all("MIDVOKT_REFUSED_") {
        let reason = Reason::from_number(number);
        assert_eq!(format!("{reason:?}"), camel(name), "number {number}");
        numbers.push(number);
    }
    assert!(numbers.into_iter().eq(1..=28));
}

#[test]
fn the_result_has_the_length_of_the_header() {
    assert!(HEADER.contains(&format!("#define MIDVOKT_RESULT_WORDS {RESULT_WORDS}\n")));
    let places = all("MIDVOKT_RESULT_").into_iter().map(|word| word.1);
    assert!(places.eq(0..RESULT_WORDS as u64));
}

#[test]
fn the_largest_ceiling_is_that_of_the_header() {
    let line = format!("#define MIDVOKT_LARGEST_CEILING {LARGEST_CEILING}\n");
    assert!(HEADER.contains(&line));
}

#[test]
fn the_results_of_files_have_the_lengths_of_the_header() {
    for (name, number) in [
        ("STORE_RESULT_WORDS", STORE_RESULT_WORDS),
        ("LOAD_RESULT_WORDS", LOAD_RESULT_WORDS),
        ("FILE_VERSION", FILE_VERSION as usize),
    ] {
        assert!(HEADER.contains(&format!("#define MIDVOKT_{name} {number}\n")));
    }
    let places = |prefix| all(prefix).into_iter().map(|word| word.1);
    assert!(places("MIDVOKT_STORE_RESULT_").eq(0..STORE_RESULT_WORDS as u64));
    assert!(places("MIDVOKT_LOAD_RESULT_").eq(9..LOAD_RESULT_WORDS as u64));
}

#[test]
fn lists_have_the_limits_of_the_header() {
    for (name, number) in [
        ("OPERATION_WORDS", OPERATION_WORDS),
        ("MOST_OPERATIONS", MOST_OPERATIONS),
        ("MOST_PREFIXES", MOST_PREFIXES),
        ("MOST_QUBITS", MOST_QUBITS),
        ("OPTIMIZE_RESULT_WORDS", OPTIMIZE_RESULT_WORDS),
    ] {
        assert!(HEADER.contains(&format!("#define MIDVOKT_{name} {number}\n")));
    }
    assert_eq!(NO_BOUNDARY, u64::MAX);
    assert!(HEADER.contains("#define MIDVOKT_NO_BOUNDARY UINT64_MAX\n"));
    let places = all("MIDVOKT_OPTIMIZE_RESULT_").into_iter();
    assert!(places
        .map(|word| word.1)
        .eq(0..OPTIMIZE_RESULT_WORDS as u64));
    let signs = all("MIDVOKT_SIGN_");
    assert_eq!(signs[2], ("CONDITIONS", 2));
    assert_eq!(signs[3], ("WORDS", 2 + SIGN_CONDITIONS as u64));
}

/// The place of a word of an operation, by its name.
#[cfg(feature = "alloc")]
fn place_of(name: &str) -> usize {
    let (prefix, name) = name.split_once('_').expect("a name has two parts");
    let words = all(&format!("MIDVOKT_{prefix}_"));
    let found = words.iter().find(|word| word.0 == name);
    found.expect("the header has the name").1 as usize
}

/// Ten words of a sign with the constant 1 and the symbols 11 and 12.
#[cfg(feature = "alloc")]
fn sign_words() -> Vec<u64> {
    let mut words = vec![0; place_of("SIGN_WORDS")];
    words[place_of("SIGN_CONSTANT")] = 1;
    words[place_of("SIGN_COUNT")] = 2;
    let conditions = place_of("SIGN_CONDITIONS");
    words[conditions..conditions + 2].copy_from_slice(&[11, 12]);
    words
}

/// The words of an operation of a kind, in which these begin at these places.
#[cfg(feature = "alloc")]
fn laid_out(kind: &str, parts: &[(&str, &[u64])]) -> Option<[u64; OPERATION_WORDS]> {
    let mut words = [0; OPERATION_WORDS];
    words[place_of("OPERATION_KIND")] = place_of(kind) as u64;
    for (name, part) in parts {
        let place = place_of(name);
        words[place..place + part.len()].copy_from_slice(part);
    }
    Some(words)
}

/// The same sign.
#[cfg(feature = "alloc")]
fn sign() -> midvokt::SymbolicBool {
    midvokt::SymbolicBool {
        constant: true,
        conditions: vec![11, 12],
    }
}

/// A string of x = 5, z = 6 and phase 3, with that sign.
#[cfg(feature = "alloc")]
fn signed() -> midvokt::SymbolicPauliString {
    let string = midvokt::PauliString::from_masks(4, 5, 6, 3);
    midvokt::SymbolicPauliString::with_sign(string, sign())
}

#[cfg(feature = "alloc")]
#[test]
fn a_pending_rotation_is_laid_out_as_the_header_says() {
    let rotation = midvokt::PendingOperation::from(midvokt::PendingPauliRotation {
        kernel_angle: 0.25,
        pauli: signed(),
    });
    let expected = [
        ("TURN_ANGLE", &[0.25f64.to_bits()][..]),
        ("TURN_X", &[5]),
        ("TURN_Z", &[6]),
        ("TURN_PHASE", &[3]),
        ("TURN_SIGN", &sign_words()),
    ];
    let expected = laid_out("OPERATION_ROTATION", &expected);
    assert_eq!(rotation.to_words(), expected);
}

#[cfg(feature = "alloc")]
#[test]
fn a_pending_measurement_is_laid_out_as_the_header_says() {
    let measurement = midvokt::PendingOperation::from(midvokt::PendingPauliMeasurement {
        pauli: signed(),
        record: Some(7),
        record_condition: None,
        exp_val: Some(8),
    });
    let expected = [
        ("MEASURED_X", &[5][..]),
        ("MEASURED_Z", &[6]),
        ("MEASURED_PHASE", &[3]),
        ("MEASURED_SIGN", &sign_words()),
        ("MEASURED_RECORD", &[1, 7]),
        ("MEASURED_CONDITION", &[0, 0]),
        ("MEASURED_EXPECTATION", &[1, 8]),
    ];
    let expected = laid_out("OPERATION_MEASUREMENT", &expected);
    assert_eq!(measurement.to_words(), expected);
}

#[cfg(feature = "alloc")]
#[test]
fn a_classical_record_is_laid_out_as_the_header_says() {
    let record = midvokt::PendingOperation::from(midvokt::PendingClassicalRecord {
        outcome: sign(),
        record: Some(7),
        record_condition: Some(9),
    });
    let expected = [
        ("WRITTEN_OUTCOME", &sign_words()[..]),
        ("WRITTEN_RECORD", &[1, 7]),
        ("WRITTEN_CONDITION", &[1, 9]),
    ];
    let expected = laid_out("OPERATION_CLASSICAL_RECORD", &expected);
    assert_eq!(record.to_words(), expected);
}

#[test]
fn a_file_is_laid_out_as_the_header_says() {
    let trailer = all("MIDVOKT_TRAILER_");
    assert!(trailer
        .iter()
        .map(|word| word.1)
        .eq(0..=TRAILER_WORDS as u64));
    assert_eq!(trailer[TRAILER_WORDS].0, "WORDS");
    let scalars = all("MIDVOKT_SCALAR_");
    assert_eq!(scalars[SCALAR_WORDS], ("WORDS", SCALAR_WORDS as u64));
    let place = |name| scalars.iter().find(|word| word.0 == name).unwrap().1;
    let found = Scalars::from([0, 1, 2, 3, 4, 5, 6, 7]);
    assert_eq!(found.selected, place("SELECTED"));
    assert_eq!(found.initial_components, place("INITIAL_COMPONENTS"));
    assert_eq!(found.component_count, place("COMPONENT_COUNT"));
    assert_eq!(found.estimated_dense_work, place("DENSE_WORK"));
    assert_eq!(found.estimated_component_work, place("COMPONENT_WORK"));
    assert_eq!(found.dense_peak_dimension, place("DENSE_PEAK"));
    assert_eq!(found.component_peak_live_dimension, place("PEAK"));
    assert_eq!(found.component_allocated_dimension, place("ALLOCATED"));
    for (name, number) in &scalars[..SCALAR_WORDS] {
        assert_eq!(place_of_result(name), *number as usize + 1);
    }
}

#[test]
fn a_file_is_as_long_as_the_header_says() {
    let first = STORED.lines().next().unwrap();
    let wanted = format!("file for 5 records: {} bytes are enough", file_bytes(5));
    assert_eq!(first, wanted);
}

#[test]
fn the_marks_have_the_names_of_the_header() {
    let marks = all("MIDVOKT_WHOLE_");
    assert!(marks.iter().map(|mark| mark.1).eq(0..3));
    for (initial_k, promotions, expected) in [(39, 0, 0), (38, 0, 1), (9, 5, 2)] {
        let (result, summary) = planned(initial_k, promotions);
        let (name, number) = marks[expected];
        assert_eq!(result[place_of_result("WHOLE_MARK")], number);
        let found = format!("{:?}", summary.whole_works);
        assert_eq!(found.split(' ').next(), Some(camel(name).as_str()));
    }
}

#[test]
fn the_whole_works_stand_where_the_header_says() {
    let (result, summary) = planned(9, 5);
    let expected = WholeWorks::WithQuotient {
        dense: result[place_of_result("WHOLE_DENSE")],
        component: result[place_of_result("WHOLE_COMPONENT")],
        quotient: result[place_of_result("QUOTIENT")],
        remainder: result[place_of_result("REMAINDER")],
    };
    assert_eq!(summary.whole_works, expected);
    let numbers = [31_744, 170, 186, 124];
    assert_eq!(result[place_of_result("WHOLE_DENSE")..], numbers);
    let float = |name| f64::from_bits(result[place_of_result(name)]);
    assert_eq!(float("DENSE_WORK"), 31_744.0);
    assert_eq!(float("COMPONENT_WORK"), 170.0);
}
