//! Prints each Pauli that the viewer reads among all texts of up to five of a few characters, as
//! `paulis.c` prints those that the C header reads: `check` compares the two.

#[allow(dead_code)]
#[path = "../../viewer/src/line.rs"]
mod line;
#[allow(dead_code)]
#[path = "../../viewer/src/pauli.rs"]
mod pauli;

const CHARACTERS: &[u8] = b"+-iXYI_012*x";
const MOST_CHARACTERS: u32 = 5;
const WIDTHS: [u64; 5] = [0, 1, 2, 3, 20];

/// The text of a number, written with the characters as digits, the lowest first.
fn text_of(length: u32, number: usize) -> String {
    let digit = |place| number / CHARACTERS.len().pow(place) % CHARACTERS.len();
    (0..length)
        .map(|place| char::from(CHARACTERS[digit(place)]))
        .collect()
}

/// Prints what a text is over each width.
fn print_of(text: &str) {
    for width in WIDTHS {
        let word = line::Word {
            text,
            line: 1,
            column: 1,
        };
        if let Ok(read) = pauli::parse(word, Some(width), pauli::active) {
            println!("{text} {width} {} {} {}", read.x, read.z, read.phase);
        }
    }
}

fn main() {
    for length in 0..=MOST_CHARACTERS {
        let texts = (0..CHARACTERS.len().pow(length)).map(|number| text_of(length, number));
        texts.for_each(|text| print_of(&text));
    }
}
