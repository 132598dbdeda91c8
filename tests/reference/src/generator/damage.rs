//! Copies of programs that fit, damaged in a word, a bit, a record or the head.

use super::random::Random;
use super::shapes;
use crate::input::{Program, RECORD_WORDS, fill};
use crate::refusals::least_lengths;

/// A damaged copy of a program that fits.
pub fn damaged(mut random: Random) -> Program {
    let good = shapes::plan(Random::new(random.word(), 0));
    damage(good, random)
}

/// A damaged copy of a long program that fits.
pub fn damaged_long(mut random: Random) -> Program {
    let good = shapes::long_plan(Random::new(random.word(), 0));
    damage(good, random)
}

/// The program with one to three damages. Rotations carry Rust's own sine and cosine again.
fn damage(mut program: Program, mut random: Random) -> Program {
    for _ in 0..random.between(1, 3) {
        match random.below(10) {
            0 => change_head(&mut program, &mut random),
            1 => change_length(&mut program, &mut random),
            2 => cut(&mut program, &mut random),
            place if program.words.len() >= RECORD_WORDS => match place {
                3..=5 => change_word(&mut program, &mut random),
                6 | 7 => flip_bit(&mut program, &mut random),
                _ => move_record(&mut program, &mut random),
            },
            _ => {}
        }
    }
    fill(&mut program.words);
    program
}

/// One more or one fewer, or another value altogether, in the head.
fn change_head(program: &mut Program, random: &mut Random) {
    let other = random.below(64);
    match random.below(4) {
        0 => program.initial_k = program.initial_k.wrapping_add(1),
        1 => program.initial_k = program.initial_k.saturating_sub(1),
        2 => program.max_k = other,
        _ => program.nexpvals = random.pick(&[0, 0, 1]),
    }
}

/// A buffer that has a word more or less than it needs, or one of no length.
fn change_length(program: &mut Program, random: &mut Random) {
    let least = least_lengths((program.words.len() / RECORD_WORDS) as u64);
    let mut lengths = program.lengths.unwrap_or(least);
    let place = random.below(7) as usize;
    lengths[place] = random.pick(&[
        least[place] + 1,
        least[place],
        least[place].saturating_sub(1),
        0,
    ]);
    program.lengths = Some(lengths);
}

/// The end of the records is missing.
fn cut(program: &mut Program, random: &mut Random) {
    let left = random.between(0, program.words.len() as u64) as usize;
    let whole = left / RECORD_WORDS * RECORD_WORDS;
    program.words.truncate(random.pick(&[left, whole, whole]));
}

/// Another value for a word.
fn change_word(program: &mut Program, random: &mut Random) {
    let place = random.below(program.words.len() as u64) as usize;
    let (word, any, small) = (program.words[place], random.word(), random.below(70));
    let changed = [
        any,
        small,
        small,
        0,
        word.wrapping_add(1),
        word.wrapping_sub(1),
        !word,
    ];
    program.words[place] = random.pick(&changed);
}

/// One bit the other way round.
fn flip_bit(program: &mut Program, random: &mut Random) {
    let place = random.below(program.words.len() as u64) as usize;
    program.words[place] ^= 1 << random.below(64);
}

/// A record that is missing, there twice, or in another's place.
fn move_record(program: &mut Program, random: &mut Random) {
    let count = (program.words.len() / RECORD_WORDS) as u64;
    let start = random.below(count) as usize * RECORD_WORDS;
    let other = random.below(count) as usize * RECORD_WORDS;
    let record: Vec<u64> = program.words[start..start + RECORD_WORDS].to_vec();
    match random.below(3) {
        0 => drop(program.words.drain(start..start + RECORD_WORDS)),
        1 => drop(program.words.splice(other..other, record)),
        _ => {
            program
                .words
                .copy_within(other..other + RECORD_WORDS, start);
            program.words[other..other + RECORD_WORDS].copy_from_slice(&record);
        }
    }
}
