//! Holds what the crate reads as a Pauli to what the viewer reads, on all texts of up to five of a
//! few characters and on products of two factors: the same masks and phase, or a fault at the same
//! place. Where letters are missing the crate's place is the end and the viewer's the beginning.

#[allow(dead_code)]
#[path = "../../../../viewer/src/line.rs"]
mod line;
#[allow(dead_code)]
#[path = "../../../../viewer/src/pauli.rs"]
mod pauli;

use midvokt::{ActivePauli, PauliError, PauliFault};

const CHARACTERS: [char; 12] = ['+', '-', 'i', 'X', 'Y', 'I', '_', '1', '2', '*', 'x', 'ä'];
const MOST_CHARACTERS: u32 = 5;
const LETTERS: [&str; 6] = ["X", "Y", "Z", "I", "_", ""];
const POSITIONS: [&str; 9] = [
    "0",
    "01",
    "0b1",
    "0x3f",
    "63",
    "64",
    "69",
    "70",
    "18446744073709551616",
];
const WIDTHS: [u64; 7] = [0, 1, 2, 3, 5, 64, 70];

/// Whether this is told of letters that are missing.
fn is_of_missing(fault: PauliFault) -> bool {
    matches!(fault, PauliFault::Letters { width, found } if found < width)
}

/// Whether both faults are at one place.
fn is_at_one_place(text: &str, wrong: PauliError, column: usize) -> bool {
    is_of_missing(wrong.fault) || text[..wrong.byte].chars().count() + 1 == column
}

/// Ends with a panic where the two differ.
fn compare(text: &str, width: u64) {
    let word = line::Word {
        text,
        line: 1,
        column: 1,
    };
    let viewers = pauli::parse(word, Some(width), pauli::active);
    let ours = ActivePauli::from_text(width, text);
    let is_same = match (&viewers, ours) {
        (Ok(theirs), Ok(ours)) => {
            (ours.width, ours.x, ours.z, ours.phase) == (width, theirs.x, theirs.z, theirs.phase)
        }
        (Err(theirs), Err(ours)) => is_at_one_place(text, ours, theirs.column),
        _ => false,
    };
    assert!(
        is_same,
        "'{text}' over {width}: {ours:?}, and in the viewer {viewers:?}"
    );
}

/// Compares a text over each width.
fn compare_all(text: &str) {
    WIDTHS.iter().for_each(|&width| compare(text, width));
}

/// The text of a number, written with the characters as digits, the lowest first.
fn text_of(length: u32, number: usize) -> String {
    let digit = |place| number / CHARACTERS.len().pow(place) % CHARACTERS.len();
    (0..length).map(|place| CHARACTERS[digit(place)]).collect()
}

/// Factors, and parts of a product that are none.
fn factors() -> impl Iterator<Item = String> + Clone {
    let of_letter = |letter| {
        POSITIONS
            .iter()
            .map(move |place| format!("{letter}{place}"))
    };
    LETTERS.iter().flat_map(of_letter)
}

fn main() {
    let numbers = |length| 0..CHARACTERS.len().pow(length);
    let texts = |length| numbers(length).map(move |number| text_of(length, number));
    (0..=MOST_CHARACTERS)
        .flat_map(texts)
        .for_each(|text| compare_all(&text));
    let pairs = |first| factors().map(move |second| format!("-{first}*{second}"));
    factors()
        .flat_map(pairs)
        .for_each(|text| compare_all(&text));
}
