//! Prints the sentence that the Rust crate has for each number, and for the one behind the last,
//! as `buffers.c` prints those of the C header: `check` compares the two.

#[allow(dead_code)]
#[path = "../../bindings/rust/src/refusal.rs"]
mod refusal;

fn main() {
    for number in 1..=29 {
        let sentence = refusal::Reason::from_number(number).sentence();
        println!("sentence {number}: {sentence}");
    }
}
