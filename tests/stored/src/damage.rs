//! Files damaged at random, by seed and number: every answer has to come often.

use crate::draft::{bytes_of, Draft, COMPONENT_COUNT, LENGTH, SCALARS, SECTIONS, TRAILER, VERSION};
use crate::hostile::Base;
use crate::random::Random;
use crate::reading::RESULT_WORDS;
use crate::trial::{Answers, Trial, NUMBERS};

/// How often each answer has to come at least, in as many files as are tried unless asked.
const LEAST: u64 = 1000;
/// The number of files that are tried unless asked.
pub const COUNT: u64 = 100_000;

/// A way to damage a file.
type Way = fn(&mut Random, &Draft) -> Vec<u8>;

const WAYS: [Way; 6] = [
    bytes_changed,
    words_changed,
    words_swapped,
    cut_or_lengthened,
    other_trailer,
    other_trailer_damaged,
];

/// A place in a file of so many, mostly among the last ones.
fn place(random: &mut Random, all: usize, last: usize) -> usize {
    if random.chance(60) {
        all - 1 - random.below(last.min(all))
    } else {
        random.below(all)
    }
}

/// Up to four bytes changed.
fn bytes_changed(random: &mut Random, right: &Draft) -> Vec<u8> {
    let mut bytes = right.bytes();
    for _ in 0..=random.below(4) {
        let place = place(random, bytes.len(), 8 * TRAILER);
        bytes[place] = match random.below(3) {
            0 => bytes[place] ^ (1 << random.below(8)),
            1 => random.word() as u8,
            _ => random.pick(&[0, 1, 2, 0x7f, 0x80, 0xff]),
        };
    }
    bytes
}

/// A word that readers easily get wrong.
fn favourite(random: &mut Random, words: &[u64], old: u64) -> u64 {
    let small = random.below(30) as u64;
    let other = random.pick(words);
    let choices = [
        0,
        1,
        u64::MAX,
        small,
        other,
        old.wrapping_add(small),
        old.wrapping_sub(small),
        other.wrapping_neg(),
        other.wrapping_neg().wrapping_add(small),
        (1 << 63) + other / 2,
        1 << random.below(64),
        random.word(),
    ];
    random.pick(&choices)
}

/// All words of a draft, the trailer last.
fn words_of(draft: &Draft) -> Vec<u64> {
    [&draft.body[..], &draft.trailer].concat()
}

/// Up to three words changed.
fn words_changed(random: &mut Random, right: &Draft) -> Vec<u8> {
    let mut words = words_of(right);
    for _ in 0..=random.below(3) {
        let place = place(random, words.len(), TRAILER);
        words[place] = favourite(random, &words, words[place]);
    }
    bytes_of(&words)
}

/// Two or four words exchanged two by two.
fn words_swapped(random: &mut Random, right: &Draft) -> Vec<u8> {
    let mut words = words_of(right);
    for _ in 0..=random.below(2) {
        let [one, other] = [(); 2].map(|()| place(random, words.len(), TRAILER));
        words.swap(one, other);
    }
    bytes_of(&words)
}

/// Bytes at the end, or words in front of the trailer, taken away or added; the length word is
/// repaired or not.
fn cut_or_lengthened(random: &mut Random, right: &Draft) -> Vec<u8> {
    if random.chance(20) {
        let mut bytes = right.bytes();
        let more = random.below(300);
        bytes.resize(bytes.len() + more, random.word() as u8);
        bytes.drain(..random.below(more + 1));
        bytes.truncate(bytes.len() - random.below(bytes.len()));
        return bytes;
    }
    let mut draft = right.clone();
    let length = draft.body.len() + random.below(40);
    let fill = favourite(random, &right.body, length as u64);
    draft.body.resize(length, fill);
    let gone = random.below(1 + length.min(60));
    draft.body.drain(..gone);
    if random.chance(80) {
        draft.repair_length();
    }
    if random.chance(60) {
        let count = draft.count(SCALARS);
        let start = (draft.body.len() as u64).wrapping_sub(count);
        draft.point(SCALARS, start, count);
        let before = SCALARS - 1;
        let start_before = draft.start(before);
        draft.point(before, start_before, start.wrapping_sub(start_before));
    }
    draft.bytes()
}

/// Counts of sections that mostly fit together.
fn counts(random: &mut Random) -> [usize; SECTIONS] {
    let mut counts = [
        2 * random.below(20),
        random.below(20),
        random.below(20),
        21 * random.below(4),
        random.below(5),
        19 * random.below(4),
        8,
    ];
    for count in &mut counts {
        if random.chance(4) {
            *count = (*count + random.below(4)).saturating_sub(random.below(4));
        }
    }
    counts
}

/// A trailer drawn at random over the words of a real file, as many as it needs.
fn drawn(random: &mut Random, right: &Draft) -> Draft {
    let counts = counts(random);
    let whole = counts.iter().sum();
    let from = random.below(right.body.len());
    let words = right.body[from..].iter().chain(right.body.iter().cycle());
    let mut draft = Draft::touching(words.take(whole).copied().collect(), counts);
    if counts[SCALARS] > COMPONENT_COUNT && random.chance(90) {
        *draft.scalar(COMPONENT_COUNT) = counts[2] as u64;
    }
    draft
}

/// A file with such a trailer.
fn other_trailer(random: &mut Random, right: &Draft) -> Vec<u8> {
    drawn(random, right).bytes()
}

/// The same with some of its words made wrong in ways that hang together.
fn other_trailer_damaged(random: &mut Random, right: &Draft) -> Vec<u8> {
    let mut draft = drawn(random, right);
    let section = random.below(SECTIONS);
    let (start, count) = (draft.start(section), draft.count(section));
    let any = random.word();
    let by = random.pick(&[1, u64::MAX, 2, 1 << 63, any]);
    match random.below(6) {
        0 => draft.shift_behind(section, by),
        1 => draft.point(section, start.wrapping_add(by), count.wrapping_sub(by)),
        2 => {
            draft.point(section, start, count.wrapping_add(by));
            draft.shift_behind(section, by);
        }
        3 => {
            draft.point(section, start, count.wrapping_add(by));
            let next = (section + 1) % SECTIONS;
            draft.point(
                next,
                draft.start(next).wrapping_add(by),
                draft.count(next).wrapping_sub(by),
            );
        }
        4 => draft.trailer[VERSION] = random.pick(&[0, 1, 2, 1 << 32 | 1, 256]),
        _ => draft.trailer[LENGTH] = draft.trailer[LENGTH].wrapping_add(by),
    }
    draft.bytes()
}

/// The counts that a file's trailer gives the outputs, where it has one, none above a limit.
fn trailer_counts(file: &[u8]) -> [usize; 6] {
    let Some(start) = file.len().checked_sub(8 * TRAILER) else {
        return [0; 6];
    };
    let limit = file.len() as u64 / 8;
    std::array::from_fn(|output| {
        let place = start + 16 * output + 8;
        let word = file[place..place + 8].try_into().expect("eight bytes");
        u64::from_le_bytes(word).min(limit) as usize
    })
}

/// Lengths for the outputs: enough, just enough, one short, or any.
fn lengths(random: &mut Random, file: &[u8]) -> [usize; 6] {
    let counts = trailer_counts(file);
    match random.below(8) {
        0..=2 => counts,
        3 | 4 => counts.map(|count| count + random.below(9)),
        5 => {
            let mut short = counts;
            let output = random.below(6);
            short[output] = short[output].saturating_sub(1 + random.below(3));
            short
        }
        6 => counts.map(|_| random.below(150)),
        _ => [random.below(2) * 600; 6],
    }
}

/// The file of a number, and the lengths of outputs and result.
fn file_of(seed: u64, number: u64, bases: &[Draft]) -> (Vec<u8>, [usize; 6], usize) {
    let mut random = Random::new(seed, number);
    let base = &bases[random.below(bases.len())];
    let file = random.pick(&WAYS)(&mut random, base);
    let lengths = lengths(&mut random, &file);
    let result = match random.below(4) {
        0 => random.below(2 * RESULT_WORDS),
        _ => RESULT_WORDS,
    };
    (file, lengths, result)
}

/// Tries so many files of a seed, and says how often each answer came.
pub fn check(trial: &mut Trial, bases: &[Base], seed: u64, count: u64) -> Result<String, String> {
    let bases: Vec<Draft> = bases.iter().map(|base| Draft::of(&base.sections)).collect();
    let mut answers = Answers::default();
    for number in 0..count {
        let (file, lengths, result) = file_of(seed, number, &bases);
        let what = format!("damaged file {number} of seed {seed}");
        answers.count(trial.load(&what, &file, (lengths, result), None)?);
    }
    let least = LEAST.min(count / (COUNT / LEAST));
    for (number, came) in NUMBERS.iter().zip(answers.counts) {
        if came < least {
            return Err(format!(
                "damaged files of seed {seed}: answer {number} came {came} times and not {least}"
            ));
        }
    }
    let text = answers.text();
    Ok(format!("damaged files {count} of seed {seed}: {text}"))
}
