//! Hostile files, each named and with the number that it must get: made by hand from the files of
//! some plans.

use crate::draft::{Draft, COMPONENT_COUNT, LENGTH, SCALARS, SECTIONS, TRAILER, VERSION};
use crate::reading::{OUTPUTS, RESULT_WORDS};
use crate::trial::{Answers, Trial};

/// The file of a plan that hostile ones are made of.
pub struct Base {
    pub name: String,
    pub sections: [Vec<u64>; SECTIONS],
}

/// A file, what it is, and the number that it must get. Where lengths are given, the outputs
/// have them; else they have as many words as they need, and more.
struct Case {
    what: String,
    file: Vec<u8>,
    number: u64,
    lengths: Option<[usize; 6]>,
}

/// The length of a result changes from case to case.
const RESULTS: [usize; 7] = [RESULT_WORDS, 0, 1, 9, 14, 16, 33];
/// Words that an output has to spare.
const SPARE: usize = 70;
/// The longest file that is cut at every byte.
const CUT_AT_EVERY_BYTE: usize = 1500;

/// The names of the sections.
fn name(section: usize) -> &'static str {
    OUTPUTS.get(section).unwrap_or(&"scalars")
}

/// The words of the trailer by name.
fn word_name(word: usize) -> String {
    match word {
        LENGTH => "the length".to_owned(),
        VERSION => "the version".to_owned(),
        _ if word % 2 == 0 => format!("the start of {}", name(word / 2)),
        _ => format!("the count of {}", name(word / 2)),
    }
}

impl Case {
    /// A case whose outputs are long enough.
    fn new(what: impl Into<String>, draft: &Draft, number: u64) -> Self {
        Self {
            what: what.into(),
            file: draft.bytes(),
            number,
            lengths: None,
        }
    }

    /// A case of bytes.
    fn of_bytes(what: impl Into<String>, file: Vec<u8>, number: u64) -> Self {
        Self {
            what: what.into(),
            file,
            number,
            lengths: None,
        }
    }
}

/// Each word of the trailer changed by itself: 21 for the last two, else 22.
fn single_words(right: &Draft) -> Vec<Case> {
    let mut cases = Vec::new();
    for word in 0..TRAILER {
        let old = right.trailer[word];
        let others = [old.wrapping_add(1), old.wrapping_sub(1), 0, u64::MAX];
        let bits = [63, 62, 61, 32, 8].map(|bit| old ^ (1 << bit));
        for new in others.into_iter().chain(bits) {
            let mut draft = right.clone();
            draft.trailer[word] = new;
            let number = match word {
                _ if new == old => 0,
                LENGTH | VERSION => 21,
                _ => 22,
            };
            cases.push(Case::new(
                format!("{} is {new:#x} and not {old:#x}", word_name(word)),
                &draft,
                number,
            ));
        }
    }
    cases
}

/// Versions and lengths that are not this file's.
fn versions_and_lengths(right: &Draft) -> Vec<Case> {
    let bytes = 8 * (right.body.len() + TRAILER) as u64;
    let versions = [0, 2, 1 << 32 | 1, 1 << 56, u64::MAX];
    let lengths = [bytes / 8, bytes - 8, bytes + 8, bytes - 128, bytes << 32];
    let mut cases = Vec::new();
    for version in versions {
        let mut draft = right.clone();
        draft.trailer[VERSION] = version;
        cases.push(Case::new(format!("version {version:#x}"), &draft, 21));
    }
    for length in lengths {
        let mut draft = right.clone();
        draft.trailer[LENGTH] = length;
        cases.push(Case::new(format!("length {length:#x}"), &draft, 21));
    }
    cases
}

/// A section whose end wraps to before its start, and the next begins there: 22.
fn wraps(right: &Draft) -> Vec<Case> {
    let mut cases = Vec::new();
    for section in 0..SECTIONS - 1 {
        let start = right.start(section);
        let end = right.start(section + 1) + right.count(section + 1);
        for next in [0, 1, start / 2].into_iter().filter(|&next| next < start) {
            let mut draft = right.clone();
            let count = next.wrapping_sub(start);
            draft.point(section, start, count);
            draft.point(section + 1, next, end - next);
            let what = format!("{} wrap to word {next}, count {count:#x}", name(section));
            cases.push(Case::new(what, &draft, 22));
        }
    }
    cases.extend(wraps_over_two(right));
    cases
}

/// Two sections of which only both together wrap, and a last one that wraps to the trailer: 22.
fn wraps_over_two(right: &Draft) -> Vec<Case> {
    let mut cases = Vec::new();
    let half = 1 << 63;
    for section in 0..SECTIONS - 2 {
        let mut draft = right.clone();
        let start = right.start(section);
        draft.point(section, start, half);
        let count = right.start(section + 2).wrapping_sub(start + half);
        draft.point(section + 1, start + half, count);
        let what = format!("{} end at 2^63 and the next ones wrap back", name(section));
        cases.push(Case::new(what, &draft, 22));
    }
    let mut draft = right.clone();
    let before = SCALARS - 1;
    let body = right.body.len() as u64;
    draft.point(before, right.start(before), u64::MAX - right.start(before));
    draft.point(SCALARS, u64::MAX, body + 1);
    cases.push(Case::new(
        "the scalars begin at 2^64 - 1 and wrap",
        &draft,
        22,
    ));
    cases
}

/// A section that is longer, and all behind it farther on, by words whose bytes are a multiple of
/// 2^64, or of 2^35: 22.
fn far_sections(right: &Draft) -> Vec<Case> {
    let mut cases = Vec::new();
    for section in 0..SECTIONS {
        for bit in [63, 62, 61, 32] {
            let mut draft = right.clone();
            let (start, count) = (right.start(section), right.count(section));
            draft.shift_behind(section, 1 << bit);
            draft.point(section, start, count + (1 << bit));
            let what = format!("{} are 2^{bit} words longer", name(section));
            cases.push(Case::new(what, &draft, 22));
        }
    }
    cases
}

/// Files cut at every byte, and files that are longer than they say: 21.
fn lengths_of_files(right: &Draft) -> Vec<Case> {
    let file = right.bytes();
    let cuts = if file.len() <= CUT_AT_EVERY_BYTE {
        0
    } else {
        file.len() - 300
    };
    let mut cases: Vec<Case> = (cuts..file.len())
        .map(|length| Case::of_bytes(format!("cut at byte {length}"), file[..length].to_vec(), 21))
        .collect();
    for more in [1, 7, 8, 16, 128] {
        let longer = [&file[..], &vec![0; more]].concat();
        cases.push(Case::of_bytes(format!("{more} bytes too long"), longer, 21));
        let longer = [&vec![0; more], &file[..]].concat();
        cases.push(Case::of_bytes(format!("{more} bytes in front"), longer, 21));
    }
    cases
}

/// A word that no section has, before each of them and before the trailer, and with all later
/// starts one on: 22.
fn holes(right: &Draft) -> Vec<Case> {
    let mut cases = Vec::new();
    for section in 0..=SECTIONS {
        let place = match section {
            SECTIONS => right.body.len(),
            _ => right.start(section) as usize,
        };
        let mut draft = right.clone();
        draft.body.insert(place, 0);
        draft.repair_length();
        if section < SECTIONS {
            let (start, count) = (right.start(section), right.count(section));
            draft.shift_behind(section, 1);
            draft.point(section, start + 1, count);
        }
        let before = if section < SECTIONS {
            name(section)
        } else {
            "the trailer"
        };
        cases.push(Case::new(format!("a hole before {before}"), &draft, 22));
    }
    cases
}

/// Sections that begin a word before the end of the one before, with all later starts one back
/// and the file a word shorter, or with a last section a word longer: 22.
fn overlaps(right: &Draft) -> Vec<Case> {
    let mut cases = Vec::new();
    for section in (0..SECTIONS - 1).filter(|&section| right.count(section) > 0) {
        let mut draft = right.clone();
        draft.shift_behind(section, u64::MAX);
        draft.body.remove(right.start(section) as usize);
        draft.repair_length();
        let what = format!("{} and the next share a word", name(section));
        cases.push(Case::new(what, &draft, 22));
        let mut draft = right.clone();
        let next = section + 1;
        draft.point(next, right.start(next) - 1, right.count(next) + 1);
        let what = format!("{} begin a word early and end where they did", name(next));
        cases.push(Case::new(what, &draft, 22));
    }
    cases
}

/// The pointers of two sections exchanged: 22, unless they are the same.
fn exchanged(right: &Draft) -> Vec<Case> {
    let mut cases = Vec::new();
    for one in 0..SECTIONS {
        for other in one + 1..SECTIONS {
            let mut draft = right.clone();
            let pointers = [one, other].map(|section| (right.start(section), right.count(section)));
            draft.point(one, pointers[1].0, pointers[1].1);
            draft.point(other, pointers[0].0, pointers[0].1);
            let number = if pointers[0] == pointers[1] { 0 } else { 22 };
            let what = format!(
                "the pointers of {} and {} exchanged",
                name(one),
                name(other)
            );
            cases.push(Case::new(what, &draft, number));
        }
    }
    cases
}

/// A file whose section gives so many words to the next one, or takes them where the number is
/// negative; none where there are not so many.
fn moved(right: &Draft, section: usize, words: i64) -> Option<Draft> {
    let change = |count: u64, by: i64| count.checked_add_signed(by);
    let count = change(right.count(section), -words)?;
    let next = change(right.count(section + 1), words)?;
    let mut draft = right.clone();
    draft.point(section, right.start(section), count);
    draft.point(section + 1, right.start(section) + count, next);
    Some(draft)
}

/// Words moved from a section to the next, so that all touch: 23 where a count does not fit.
fn moves(right: &Draft) -> Vec<Case> {
    let moves = [
        (0, 1, 23, "odd steps, a word to the merges"),
        (0, -1, 23, "odd steps, a word from the merges"),
        (0, 2, 0, "a step to the merges"),
        (0, -2, 0, "two merges to the steps"),
        (1, 1, 23, "a merge to the sizes"),
        (1, -1, 23, "a size to the merges"),
        (2, 21, 23, "21 sizes to the rotations"),
        (3, 1, 23, "a word of the rotations to the promotions"),
        (3, 20, 23, "20 words of the rotations to the promotions"),
        (3, 21, 0, "a rotation row to the promotions"),
        (3, 22, 23, "22 words of the rotations to the promotions"),
        (3, -1, 23, "a promotion to the rotations"),
        (3, -19, 23, "19 promotions to the rotations"),
        (4, 1, 23, "a promotion to the measurements"),
        (4, 2, 23, "two promotions to the measurements"),
        (4, -1, 23, "a word of the measurements to the promotions"),
        (4, -18, 23, "18 words of the measurements to the promotions"),
        (4, -19, 0, "a measurement row to the promotions"),
        (4, -21, 23, "21 words of the measurements to the promotions"),
        (5, 19, 23, "a measurement row to the scalars"),
        (5, 1, 23, "a word of the measurements to the scalars"),
        (5, -1, 23, "a scalar to the measurements"),
        (5, -8, 23, "all scalars to the measurements"),
    ];
    let case = |&(section, words, number, what): &(usize, i64, u64, &str)| {
        Some(Case::new(what, &moved(right, section, words)?, number))
    };
    moves.iter().filter_map(case).collect()
}

/// Words of a section put in, at its end, or taken from it, with all later starts moved.
fn resized(right: &Draft, section: usize, words: i64) -> Option<Draft> {
    let count = right.count(section).checked_add_signed(words)?;
    let mut draft = right.clone();
    let start = right.start(section) as usize;
    let end = start + right.count(section) as usize;
    let fitted = draft.body[start..end]
        .iter()
        .copied()
        .chain(std::iter::repeat(7));
    let fitted: Vec<u64> = fitted.take(count as usize).collect();
    draft.body.splice(start..end, fitted);
    draft.point(section, right.start(section), count);
    draft.shift_behind(section, words as u64);
    draft.repair_length();
    Some(draft)
}

/// One section of a right file longer or shorter by up to two rows: 23 where it has no whole
/// rows, is not component_count or not eight fields, else 0.
fn resizes(right: &Draft) -> Vec<Case> {
    let mut cases = Vec::new();
    for section in 0..SECTIONS {
        for words in (-43..=43).filter(|&words| words != 0) {
            let number = match section {
                0 if words % 2 == 0 => 0,
                3 if words % 21 == 0 => 0,
                5 if words % 19 == 0 => 0,
                1 | 4 => 0,
                _ => 23,
            };
            let what = format!("{} of {words:+} words", name(section));
            let draft = resized(right, section, words);
            cases.extend(draft.map(|draft| Case::new(what, &draft, number)));
        }
    }
    cases
}

/// A component_count that is not the count of the sizes: 23; and both changed alike: 0.
fn component_counts(right: &Draft) -> Vec<Case> {
    let old = right.count(2);
    let near = [
        old.wrapping_add(1),
        old.wrapping_sub(1),
        old ^ (1 << 32),
        old ^ (1 << 63),
    ];
    let mut cases = Vec::new();
    for new in near.into_iter().chain([u64::MAX]) {
        let mut draft = right.clone();
        *draft.scalar(COMPONENT_COUNT) = new;
        let what = format!("component_count {new:#x} and not {old:#x}");
        cases.push(Case::new(what, &draft, 23));
    }
    if let Some(mut draft) = resized(right, 2, 5) {
        *draft.scalar(COMPONENT_COUNT) = old + 5;
        cases.push(Case::new(
            "five components more, and so many sizes",
            &draft,
            0,
        ));
    }
    cases
}

/// Files with two faults: the first in 02's order decides.
fn two_faults(right: &Draft) -> Vec<Case> {
    let mut cases = Vec::new();
    let faulty = resizes(right).into_iter().chain(component_counts(right));
    let faulty = faulty.filter(|case| case.number == 23);
    for case in faulty.step_by(5) {
        let mut hole = case.file.clone();
        let place = hole.len() - 8 * TRAILER + 8 * 13;
        hole[place] ^= 1;
        let what = format!("{}, and a wrong count of scalars", case.what);
        cases.push(Case::of_bytes(what, hole.clone(), 22));
        let version = hole.len() - 8;
        hole[version] = 2;
        let what = format!("{}, a wrong count of scalars, and version 2", case.what);
        cases.push(Case::of_bytes(what, hole, 21));
    }
    cases
}

/// Outputs of which one is a word short: 23; and just long enough: 0.
fn outputs(right: &Draft) -> Vec<Case> {
    let counts = right.counts();
    let case = |what: String, lengths: [usize; 6], number| Case {
        what,
        file: right.bytes(),
        number,
        lengths: Some(lengths),
    };
    let mut cases = vec![case("outputs just long enough".to_owned(), counts, 0)];
    for output in (0..6).filter(|&output| counts[output] > 0) {
        let mut short = counts.map(|count| count + SPARE);
        short[output] = counts[output] - 1;
        cases.push(case(format!("{} a word short", name(output)), short, 23));
        short[output] = 0;
        cases.push(case(format!("{} of no words", name(output)), short, 23));
        let mut exact = counts.map(|count| count + SPARE);
        exact[output] = counts[output];
        cases.push(case(
            format!("only {} just long enough", name(output)),
            exact,
            0,
        ));
    }
    let number = if counts == [0; 6] { 0 } else { 23 };
    cases.push(case("no output has a word".to_owned(), [0; 6], number));
    cases
}

/// Scalar fields that no plan has come back as they are: 0.
fn senseless_scalars(right: &Draft) -> Vec<Case> {
    let scalars = [
        (0, 7),
        (0, u64::MAX),
        (1, 1 << 40),
        (3, 0x7ff8_0000_dead_beef),
        (3, 0xfff0_0000_0000_0001),
        (4, 0x7ff0_0000_0000_0001),
        (4, 0xffff_ffff_ffff_ffff),
        (4, 0x8000_0000_0000_0000),
        (5, 3),
        (6, u64::MAX),
        (7, 0),
    ];
    let case = |(field, word)| {
        let mut draft = right.clone();
        *draft.scalar(field) = word;
        Case::new(format!("scalar {field} is {word:#x}"), &draft, 0)
    };
    scalars.map(case).into()
}

/// Rows that no plan has come back as they are: 0.
fn senseless_rows(right: &Draft) -> Vec<Case> {
    let scalars = right.start(SCALARS) as usize;
    let mut cases = Vec::new();
    for word in [u64::MAX, 0, 0x7ff0_0000_0000_0001, 0x7ff8_1234_5678_9abc] {
        let mut draft = right.clone();
        draft.body[..scalars].fill(word);
        cases.push(Case::new(format!("all rows are {word:#x}"), &draft, 0));
        draft.body.fill(word);
        *draft.scalar(COMPONENT_COUNT) = right.count(2);
        let what = format!("all but the trailer is {word:#x}");
        cases.push(Case::new(what, &draft, 0));
    }
    let mut draft = right.clone();
    for (place, word) in draft.body[..scalars].iter_mut().enumerate() {
        *word = 0x7ff0_0000_0000_0001 + 0x0123_4567_89ab * place as u64;
    }
    let what = "each row's word is a pattern of its own";
    cases.push(Case::new(what, &draft, 0));
    cases
}

/// Files that are no plan's: nothing at all, zeros, ones, a bare trailer.
fn shapeless() -> Vec<Case> {
    let mut cases = Vec::new();
    for length in [0, 1, 7, 8, 64, 120, 127, 128, 129, 136, 192, 4096] {
        for byte in [0, 1, 0xff] {
            let what = format!("{length} bytes of {byte:#x}");
            cases.push(Case::of_bytes(what, vec![byte; length], 21));
        }
    }
    let bare = Draft::touching(Vec::new(), [0; SECTIONS]);
    cases.push(Case::new("a trailer alone", &bare, 23));
    let scalars = Draft::touching(vec![0; 8], [0, 0, 0, 0, 0, 0, 8]);
    cases.push(Case::new("nothing but scalars, all zero", &scalars, 0));
    for section in 0..SCALARS {
        let mut counts = [0; SECTIONS];
        counts[section] = 8;
        let draft = Draft::touching(vec![0; 8], counts);
        let what = format!("eight words, all in {}", name(section));
        cases.push(Case::new(what, &draft, 23));
    }
    cases
}

/// All cases of a base.
fn cases_of(base: &Base) -> Vec<Case> {
    let right = Draft::of(&base.sections);
    let mut cases = vec![Case::new("the right file", &right, 0)];
    for group in [
        single_words,
        versions_and_lengths,
        wraps,
        far_sections,
        lengths_of_files,
        holes,
        overlaps,
        exchanged,
        moves,
        resizes,
        component_counts,
        two_faults,
        outputs,
        senseless_scalars,
        senseless_rows,
    ] {
        cases.extend(group(&right));
    }
    cases
}

/// The lengths of the outputs that a case is tried with: those that it gives, or enough and more,
/// just enough, and none where the file is refused before the outputs count.
fn lengths_for(case: &Case) -> Vec<[usize; 6]> {
    if let Some(lengths) = case.lengths {
        return vec![lengths];
    }
    let most = case.file.len() / 8;
    let mut all = vec![[most + SPARE; 6]];
    if case.file.len() >= 8 * TRAILER && case.file.len() % 8 == 0 {
        let trailer = &case.file[case.file.len() - 8 * TRAILER..];
        let count = |output: usize| {
            let word = &trailer[16 * output + 8..16 * output + 16];
            u64::from_le_bytes(word.try_into().expect("eight bytes")).min(most as u64) as usize
        };
        all.push(std::array::from_fn(count));
    }
    if matches!(case.number, 21 | 22) {
        all.push([0; 6]);
    }
    all
}

/// Tries a list of cases.
fn try_cases(
    trial: &mut Trial,
    answers: &mut Answers,
    base: &str,
    cases: Vec<Case>,
) -> Result<u64, String> {
    let mut number = 0;
    for case in &cases {
        let what = format!("{base}: {}", case.what);
        for lengths in lengths_for(case) {
            let result = RESULTS[number % RESULTS.len()];
            for result in [RESULT_WORDS, result] {
                trial.load(&what, &case.file, (lengths, result), Some(case.number))?;
            }
            number += 1;
        }
        answers.count(case.number);
    }
    Ok(cases.len() as u64)
}

/// Tries all hostile files, and says how many there were.
pub fn check(trial: &mut Trial, bases: &[Base]) -> Result<String, String> {
    let mut answers = Answers::default();
    let mut count = try_cases(trial, &mut answers, "no plan", shapeless())?;
    for base in bases {
        count += try_cases(trial, &mut answers, &base.name, cases_of(base))?;
    }
    Ok(format!(
        "hostile files {count}, from {} plans: {}",
        bases.len(),
        answers.text()
    ))
}
