//! A circuit as words for other programs: initial_k, max_k, nexpvals and ceiling, then eight words
//! a record, each of 64 bits and little-endian.

use crate::circuit::Circuit;

/// The bytes of a circuit.
pub fn encode(circuit: &Circuit) -> Vec<u8> {
    let head = &circuit.head;
    let records = circuit.records.iter();
    let words = [head.initial_k, head.max_k, head.nexpvals, head.ceiling]
        .into_iter()
        .chain(records.flat_map(|placed| placed.record.encode()));
    words.flat_map(u64::to_le_bytes).collect()
}

#[cfg(test)]
mod tests {
    use super::*;
    use crate::circuit;

    /// The words of a circuit.
    fn words(text: &str) -> Vec<u64> {
        let bytes = encode(&circuit::parse(text.as_bytes()).unwrap());
        let word = |bytes: &[u8]| u64::from_le_bytes(bytes.try_into().unwrap());
        bytes.chunks(8).map(word).collect()
    }

    #[test]
    fn head_and_records_follow_each_other() {
        let found = words("initial 3\nmax 9\nmeasure -_ZZ pivot 2");
        assert_eq!(found, [3, 9, 0, 62, 4, 3, 0, 6, 2, 2, 0, 0]);
        let found = words("ceiling 10\ninitial 3\nmax 9\nexpvals 2");
        assert_eq!(found, [3, 9, 2, 10]);
    }
}
