//! What was counted, and the first difference.

use midvokt_reference::differences::{Differences, add_counts};
use midvokt_reference::expected::Expected;
use midvokt_reference::input::Program;
use midvokt_reference::whole;

use crate::ceilings::Ceilings;
use crate::results::Results;

/// 01's refusals have the numbers up to this one.
const LAST_REFUSAL: usize = 20;
/// 02's number for a sine and a cosine whose squares do not sum to 1.
const SQUARES: usize = 25;
/// 02's number for a ceiling outside 1 to 62.
const NO_CEILING: usize = 24;
/// 02's number for a file or an output that is too short.
pub const TOO_SHORT: u64 = 23;

/// What plans have reached, each with the number of plans that did.
const REACHED: [&str; 12] = [
    "100 records or more",
    "1,024 records",
    "more than 62 coordinates at the end",
    "none at the end, after some",
    "a component of 30 members or more",
    "two such components or more at the end",
    "a component of 61 members",
    "a row of ten sources or more",
    "2^64 - 1 allocated",
    "just 38 coordinates at their widest",
    "just 39 coordinates at their widest",
    "39 coordinates or more in between, fewer at the start and the end",
];

/// What at least one plan has to have, so that the order of groups is compared where it tells.
const REORDERED: &str = "groups in another order than their first members";

/// What the marks of the whole works say.
const MARKS: [&str; 3] = [
    "too wide for whole works",
    "with whole works and no quotient",
    "with whole works and a quotient",
];

/// Calls that store or load, by what they have to return.
#[derive(Default)]
pub struct Stored {
    done: u64,
    /// Refused because something lent is too short.
    short: u64,
    refused: u64,
}

impl Stored {
    /// Counts a call that has to return this number.
    pub fn count(&mut self, number: u64) {
        match number {
            0 => self.done += 1,
            TOO_SHORT => self.short += 1,
            _ => self.refused += 1,
        }
    }

    /// Adds what another thread has counted.
    fn add(&mut self, other: &Self) {
        self.done += other.done;
        self.short += other.short;
        self.refused += other.refused;
    }
}

#[derive(Default)]
pub struct Tally {
    /// Place 0 counts plans, the others refusals.
    answers: [u64; SQUARES + 1],
    selected: u64,
    /// Plans by the mark of their whole works.
    marks: [u64; MARKS.len()],
    reached: [u64; REACHED.len()],
    /// Plans whose groups come in another order than their first members.
    reordered: u64,
    pub ceilings: Ceilings,
    pub incomparable: u64,
    pub calls: u64,
    pub typed: u64,
    /// Calls that store.
    pub stores: Stored,
    /// Calls that load.
    pub loads: Stored,
    /// The defaults of the types, which are the same for all programs.
    pub defaults: Results,
    /// Results of the kernels' methods.
    pub methods: u64,
    /// Results of complex numbers.
    pub numbers: u64,
    pub differences: Differences,
}

/// The numbers that a call at the ceiling 62 can return for a refusal.
fn refusals() -> impl Iterator<Item = usize> {
    (1..=LAST_REFUSAL).chain([SQUARES])
}

/// The greatest number of sources that a row names.
fn most_sources(expected: &Expected) -> u64 {
    let rotations = expected.outputs[3].chunks_exact(21);
    let measurements = expected.outputs[5].chunks_exact(19);
    rotations
        .chain(measurements)
        .map(|row| row[2])
        .max()
        .unwrap_or(0)
}

impl Tally {
    /// Counts a program with its answer.
    pub fn count(&mut self, program: &Program, expected: &Expected) {
        self.answers[expected.number as usize] += 1;
        if expected.number != 0 {
            return;
        }
        self.selected += expected.result[1];
        self.marks[expected.result[9] as usize] += 1;
        self.reordered += u64::from(expected.is_reordered());
        let groups = expected.groups();
        let sizes: Vec<_> = groups.iter().map(|members| members.len()).collect();
        let longest = expected.outputs[2].iter().max().copied().unwrap_or(0);
        let widths = whole::widths(program);
        let widest = widths.iter().max().copied().unwrap_or(0);
        let ends = widths.first().max(widths.last()).copied().unwrap_or(0);
        let reached = [
            expected.outputs[0].len() >= 2 * 100,
            expected.outputs[0].len() == 2 * 1024,
            sizes.iter().sum::<usize>() > 62,
            sizes.is_empty() && expected.result[3] > 0 && !program.words.is_empty(),
            longest >= 30,
            sizes.iter().filter(|&&size| size >= 30).count() >= 2,
            longest == 61,
            most_sources(expected) >= 10,
            expected.result[8] == u64::MAX,
            widest == 38,
            widest == 39,
            widest > 38 && ends <= 38,
        ];
        for (count, reached) in self.reached.iter_mut().zip(reached) {
            *count += u64::from(reached);
        }
    }

    /// Adds what another thread has counted.
    pub fn add(&mut self, other: Self) {
        add_counts(&mut self.answers, &other.answers);
        add_counts(&mut self.marks, &other.marks);
        add_counts(&mut self.reached, &other.reached);
        self.reordered += other.reordered;
        self.ceilings.add(&other.ceilings);
        self.selected += other.selected;
        self.incomparable += other.incomparable;
        self.calls += other.calls;
        self.typed += other.typed;
        self.stores.add(&other.stores);
        self.loads.add(&other.loads);
        self.methods += other.methods;
        self.numbers += other.numbers;
        self.differences.add(other.differences);
    }

    /// The refusals that never occurred.
    fn missing(&self) -> Vec<String> {
        let never = |&number: &usize| self.answers[number] == 0;
        refusals()
            .filter(never)
            .map(|number| number.to_string())
            .collect()
    }

    /// How many programs differ, and one more where a default does.
    fn all_differences(&self) -> u64 {
        self.differences.count + u64::from(self.defaults.first.is_some())
    }

    /// Whether nothing differs, every refusal occurred, and so did groups in another order than
    /// their first members.
    pub fn is_good(&self) -> bool {
        self.all_differences() == 0 && self.missing().is_empty() && self.reordered > 0
    }

    /// What programs under ceilings never came to.
    fn missing_under_ceilings(&self) -> Vec<&'static str> {
        let counts = self.under_ceilings().into_iter();
        let never = counts.filter(|(_, count)| *count == 0);
        never.map(|(name, _)| name).collect()
    }

    /// Whether nothing differs under ceilings and all that they can come to occurred.
    pub fn is_good_under_ceilings(&self) -> bool {
        self.all_differences() == 0 && self.missing_under_ceilings().is_empty()
    }

    /// How many results of methods were compared.
    fn compared_methods(&self) -> String {
        format!(
            "kernel methods compared {}, complex results compared {}",
            self.methods, self.numbers
        )
    }

    /// How many files were compared.
    fn compared_files(&self) -> [String; 2] {
        let Self { stores, loads, .. } = self;
        [
            format!(
                "stored files compared {}, refused 23 for a short file: {}, refused as planning is: {}",
                stores.done, stores.short, stores.refused
            ),
            format!(
                "loaded files compared {}, refused 23 for a short output: {}",
                loads.done, loads.short
            ),
        ]
    }

    /// How many programs there were of each answer.
    fn answered(&self) -> [String; 2] {
        [
            format!(
                "plans {}, of them selected {}",
                self.answers[0], self.selected
            ),
            format!("incomparable {}", self.incomparable),
        ]
    }

    /// How many calls were compared.
    fn compared_calls(&self) -> String {
        format!("calls compared {}, typed calls {}", self.calls, self.typed)
    }

    /// What programs under ceilings came to, by name.
    fn under_ceilings(&self) -> Vec<(&'static str, u64)> {
        let others = refusals().filter(|number| ![1, 14].contains(number));
        let mut counts = vec![
            ("refused 24", self.answers[NO_CEILING]),
            ("refused 1", self.answers[1]),
            ("refused 14", self.answers[14]),
        ];
        counts.extend(self.ceilings.counts());
        counts.push((
            "refused otherwise",
            others.map(|number| self.answers[number]).sum(),
        ));
        counts
    }

    /// The report of a run under ceilings.
    pub fn text_under_ceilings(&self) -> String {
        let counts = self.under_ceilings().into_iter();
        let mut lines = self.answered().to_vec();
        lines.extend(counts.map(|(name, count)| format!("{name}: {count}")));
        lines.extend([self.compared_calls(), self.compared_methods()]);
        lines.extend(self.compared_files());
        let missing = self.missing_under_ceilings();
        if !missing.is_empty() {
            lines.push(format!("never occurred: {}", missing.join(", ")));
        }
        lines.extend(self.found());
        lines.join("\n")
    }

    /// What differs, and how many programs do.
    fn found(&self) -> Vec<String> {
        let mut lines = Vec::new();
        lines.extend(self.differences.first("program"));
        if let Some(found) = &self.defaults.first {
            lines.push(format!("a default differs: {found}"));
        }
        lines.push(format!("differences {}", self.all_differences()));
        lines
    }

    /// The report.
    pub fn text(&self) -> String {
        let mut lines = self.answered().to_vec();
        lines.extend(refusals().map(|n| format!("refused {n}: {}", self.answers[n])));
        let marks = MARKS.iter().zip(self.marks);
        lines.extend(marks.map(|(name, count)| format!("plans {name}: {count}")));
        let reached = REACHED.iter().zip(self.reached);
        lines.extend(reached.map(|(name, count)| format!("plans with {name}: {count}")));
        lines.push(format!("plans with {REORDERED}: {}", self.reordered));
        let (defaults, methods) = (self.defaults.count, self.compared_methods());
        lines.push(self.compared_calls());
        lines.push(format!("defaults compared {defaults}, {methods}"));
        lines.extend(self.compared_files());
        if !self.missing().is_empty() {
            lines.push(format!("never refused: {}", self.missing().join(", ")));
        }
        if self.reordered == 0 {
            lines.push(format!("never occurred: {REORDERED}"));
        }
        lines.extend(self.found());
        lines.join("\n")
    }
}
