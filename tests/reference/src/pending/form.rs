//! Refusal 26 (02, CR 6) read from the request's own words: everything that can be wrong with the
//! form of a call. The Rust does not judge it.

use std::fmt;

use super::Call;
use super::operations::{LAYOUTS, Layout, OPERATION_WORDS, SIGN_CONDITIONS};

pub const MOST_WIDTH: u64 = 64;
pub const MOST_OPERATIONS: usize = 1024;
pub const MOST_PREFIXES: usize = 1024;
pub const MOST_PHASE: u64 = 3;
pub const MOST_ANGLE: f64 = 1_048_576.0;
/// What a number of the Rust's has room for.
pub const MOST_NUMBER: u64 = i32::MAX as u64;

/// What can be wrong, in the order of the names below.
#[derive(Clone, Copy, Debug, PartialEq, Eq, PartialOrd, Ord)]
pub enum Wrong {
    NoWidth,
    LargeWidth,
    CutList,
    LongList,
    ManyPrefixes,
    ShortList,
    ShortMap,
    LargeKind,
    LowAngle,
    HighAngle,
    NoAngle,
    WideMask,
    LargePhase,
    LargeConstant,
    LargeCount,
    NoCondition,
    SameCondition,
    LowerCondition,
    LargeCondition,
    UnusedCondition,
    LargeFlag,
    ValueOfNone,
    LargeValue,
    WordBehind,
}

use Wrong::{
    CutList, HighAngle, LargeCondition, LargeConstant, LargeCount, LargeFlag, LargeKind,
    LargePhase, LargeValue, LargeWidth, LongList, LowAngle, LowerCondition, ManyPrefixes, NoAngle,
    NoCondition, NoWidth, SameCondition, ShortList, ShortMap, UnusedCondition, ValueOfNone,
    WideMask, WordBehind,
};

/// All of these, with their names.
pub const WRONGS: [(Wrong, &str); 24] = [
    (NoWidth, "width 0"),
    (LargeWidth, "width over 64"),
    (CutList, "list words no multiple of 32"),
    (LongList, "list words over 32,768"),
    (ManyPrefixes, "over 1,024 prefixes"),
    (ShortList, "output shorter than the list"),
    (ShortMap, "map too short"),
    (LargeKind, "kind over 2"),
    (LowAngle, "angle below -2^20"),
    (HighAngle, "angle above 2^20"),
    (NoAngle, "angle not a number"),
    (WideMask, "mask bit at or above the width"),
    (LargePhase, "phase over 3"),
    (LargeConstant, "constant over 1"),
    (LargeCount, "count over 8"),
    (NoCondition, "first condition 0"),
    (SameCondition, "condition equal to the one before"),
    (LowerCondition, "condition below the one before"),
    (LargeCondition, "condition over 2^31 - 1"),
    (UnusedCondition, "unused condition not 0"),
    (LargeFlag, "flag over 1"),
    (ValueOfNone, "flag 0 with a value"),
    (LargeValue, "value over 2^31 - 1"),
    (WordBehind, "word behind the last field not 0"),
];

/// What the upper half of a word alone can be wrong by.
pub const WRONG_ABOVE_32_BITS: [Wrong; 14] = [
    LargeWidth,
    LargeKind,
    LowAngle,
    HighAngle,
    NoAngle,
    WideMask,
    LargePhase,
    LargeConstant,
    LargeCount,
    LargeCondition,
    UnusedCondition,
    LargeFlag,
    LargeValue,
    WordBehind,
];

/// What is wrong, and in which word of an operation of which kind; both are 0 for what is wrong
/// with a call as a whole.
#[derive(Clone, Copy, Debug, PartialEq, Eq, PartialOrd, Ord)]
pub struct Fault {
    pub wrong: Wrong,
    pub kind: usize,
    pub word: usize,
}

impl fmt::Display for Fault {
    /// As a report names it.
    fn fmt(&self, formatter: &mut fmt::Formatter<'_>) -> fmt::Result {
        let Self { wrong, kind, word } = self;
        let (_, name) = WRONGS[*wrong as usize];
        write!(formatter, "{name} (kind {kind}, word {word})")
    }
}

/// What is wrong with a call as a whole.
fn whole(wrong: Wrong) -> Fault {
    Fault {
        wrong,
        kind: 0,
        word: 0,
    }
}

/// What is wrong with the width, the lengths and the numbers of words.
fn of_lengths(call: &Call) -> impl Iterator<Item = Fault> {
    let [list, map] = call.lent();
    let [least_list, least_map] = call.least_lengths();
    let words = call.words.len();
    let tests = [
        (call.width == 0, NoWidth),
        (call.width > MOST_WIDTH, LargeWidth),
        (!words.is_multiple_of(OPERATION_WORDS), CutList),
        (words > MOST_OPERATIONS * OPERATION_WORDS, LongList),
        (call.prefixes.len() > MOST_PREFIXES, ManyPrefixes),
        (list < least_list, ShortList),
        (map < least_map, ShortMap),
    ];
    let found = tests.into_iter().filter(|(is_wrong, _)| *is_wrong);
    found.map(|(_, wrong)| whole(wrong))
}

/// An operation that is judged, and what is wrong with it.
struct Judged<'a> {
    width: u64,
    kind: usize,
    words: &'a [u64],
    found: &'a mut Vec<Fault>,
}

impl Judged<'_> {
    /// Notes this at a word, where it is so.
    fn note(&mut self, is_wrong: bool, wrong: Wrong, word: usize) {
        if is_wrong {
            let kind = self.kind;
            self.found.push(Fault { wrong, kind, word });
        }
    }

    /// Angles lie from -2^20 to 2^20, both included.
    fn angle(&mut self, word: usize) {
        let angle = f64::from_bits(self.words[word]);
        self.note(angle < -MOST_ANGLE, LowAngle, word);
        self.note(angle > MOST_ANGLE, HighAngle, word);
        self.note(angle.is_nan(), NoAngle, word);
    }

    /// Masks have no bit at or above the width, and a phase is 0 to 3.
    fn string(&mut self, start: usize) {
        for word in [start, start + 1] {
            let is_wide = self.width < MOST_WIDTH && self.words[word] >> self.width != 0;
            self.note(is_wide, WideMask, word);
        }
        self.note(self.words[start + 2] > MOST_PHASE, LargePhase, start + 2);
    }

    /// A sign's constant and count. With a count that is none, no condition is used or unused.
    fn sign(&mut self, start: usize) {
        let used = self.words[start + 1];
        self.note(self.words[start] > 1, LargeConstant, start);
        self.note(used > SIGN_CONDITIONS as u64, LargeCount, start + 1);
        if used <= SIGN_CONDITIONS as u64 {
            self.conditions(start + 2, used as usize);
        }
    }

    /// Used conditions are positive and strictly ascending, unused ones 0.
    fn conditions(&mut self, start: usize, used: usize) {
        for place in 0..SIGN_CONDITIONS {
            let word = start + place;
            let condition = self.words[word];
            if place >= used {
                self.note(condition != 0, UnusedCondition, word);
                continue;
            }
            self.note(condition > MOST_NUMBER, LargeCondition, word);
            if place == 0 {
                self.note(condition == 0, NoCondition, word);
            } else {
                let before = self.words[word - 1];
                self.note(condition == before, SameCondition, word);
                self.note(condition < before, LowerCondition, word);
            }
        }
    }

    /// An Option is 0, 0 or 1, value.
    fn option(&mut self, start: usize) {
        let (flag, value) = (self.words[start], self.words[start + 1]);
        self.note(flag > 1, LargeFlag, start);
        self.note(flag == 0 && value != 0, ValueOfNone, start + 1);
        self.note(value > MOST_NUMBER, LargeValue, start + 1);
    }

    /// Every field, and the words behind the last.
    fn fields(&mut self, layout: &Layout) {
        if let Some(word) = layout.angle {
            self.angle(word);
        }
        if let Some(start) = layout.string {
            self.string(start);
        }
        self.sign(layout.sign);
        for &start in layout.options {
            self.option(start);
        }
        for word in layout.end..OPERATION_WORDS {
            self.note(self.words[word] != 0, WordBehind, word);
        }
    }
}

/// Adds what is wrong with an operation. One of a kind that there is not has no fields.
fn of_operation(width: u64, words: &[u64], found: &mut Vec<Fault>) {
    match LAYOUTS.get(words[0] as usize) {
        None => found.push(whole(LargeKind)),
        Some(layout) => Judged {
            width,
            kind: words[0] as usize,
            words,
            found,
        }
        .fields(layout),
    }
}

/// Everything that is wrong with the form of a call; nothing where 26 does not come.
pub fn faults(call: &Call) -> Vec<Fault> {
    let mut found: Vec<Fault> = of_lengths(call).collect();
    for operation in call.operations() {
        of_operation(call.width, operation, &mut found);
    }
    found
}

/// Whether a call with something wrong would have nothing wrong with the low 32 bits of its width
/// and of each word.
pub fn is_wrong_above_32_bits(call: &Call) -> bool {
    let low = |word: &u64| word & u64::from(u32::MAX);
    let halved = Call {
        width: low(&call.width),
        words: call.words.iter().map(low).collect(),
        ..call.clone()
    };
    faults(&halved).is_empty()
}

/// What can be wrong in the fields of a kind.
fn faults_of_kind(kind: usize) -> Vec<Fault> {
    let layout = &LAYOUTS[kind];
    let mut found = Vec::new();
    let mut add = |wrongs: &[Wrong], word: usize| {
        found.extend(wrongs.iter().map(|&wrong| Fault { wrong, kind, word }));
    };
    if let Some(word) = layout.angle {
        add(&[LowAngle, HighAngle, NoAngle], word);
    }
    if let Some(start) = layout.string {
        add(&[WideMask], start);
        add(&[WideMask], start + 1);
        add(&[LargePhase], start + 2);
    }
    add(&[LargeConstant], layout.sign);
    add(&[LargeCount], layout.sign + 1);
    let conditions = layout.sign + 2;
    add(&[NoCondition, LargeCondition, UnusedCondition], conditions);
    for word in conditions + 1..conditions + SIGN_CONDITIONS {
        let wrongs = [SameCondition, LowerCondition, LargeCondition];
        add(&wrongs, word);
        add(&[UnusedCondition], word);
    }
    for &start in layout.options {
        add(&[LargeFlag], start);
        add(&[ValueOfNone, LargeValue], start + 1);
    }
    (layout.end..OPERATION_WORDS).for_each(|word| add(&[WordBehind], word));
    found
}

/// Everything that can be wrong with a call, each word by itself.
pub fn all_faults() -> Vec<Fault> {
    let of_whole = WRONGS.iter().map(|&(wrong, _)| wrong);
    let of_whole = of_whole.take_while(|&wrong| wrong <= LargeKind).map(whole);
    of_whole
        .chain((0..LAYOUTS.len()).flat_map(faults_of_kind))
        .collect()
}
