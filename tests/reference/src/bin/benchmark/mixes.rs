//! The mixes of programs: prepared for both, and found to have the Rust's answer.

use midvokt::{Buffers, Head, RESULT_WORDS, plan_words};
use midvokt_reference::answer::answer;
use midvokt_reference::expected::Expected;
use midvokt_reference::factored::FactoredInstructionProgram;
use midvokt_reference::generator::{Numbers, check_circuit, steady};
use midvokt_reference::input::{Program, RECORD_WORDS, Record};
use midvokt_reference::instructions::rust_program;
use midvokt_reference::refusals::least_lengths;

/// How many coordinates are about active.
#[derive(Clone, Copy, PartialEq, Eq)]
pub enum Width {
    Narrow,
    Wide,
}

/// How many components there about are.
#[derive(Clone, Copy, PartialEq, Eq)]
pub enum Components {
    Few,
    Many,
}

/// Where the one to three positions of a record lie.
#[derive(Clone, Copy, PartialEq, Eq)]
pub enum Positions {
    Near,
    Anywhere,
}

/// What the programs of a mix are like.
#[derive(Clone, Copy, PartialEq, Eq)]
pub enum Sort {
    /// Supports of any size in blocks that stay apart, and few records classical.
    Steady(Components),
    /// Supports of one to three positions, and half of the records classical.
    Check(Positions),
}

use Components::{Few, Many};
use Positions::{Anywhere, Near};
use Sort::{Check, Steady};
use Width::{Narrow, Wide};

/// The sorts in blocks.
pub const STEADY: [Sort; 2] = [Steady(Few), Steady(Many)];
/// The sorts that are like check circuits.
pub const CHECKS: [Sort; 2] = [Check(Near), Check(Anywhere)];

const RECORDS: [usize; 5] = [8, 32, 128, 512, 1024];

/// Records, width and sort of each mix of two sorts.
pub fn mixes_of(sorts: [Sort; 2]) -> impl Iterator<Item = (usize, Width, Sort)> {
    RECORDS.into_iter().flat_map(move |records| {
        let widths = [Narrow, Wide].into_iter();
        widths.flat_map(move |width| sorts.map(|sort| (records, width, sort)))
    })
}

/// Different programs in a mix.
const PROGRAMS: u64 = 32;
const SEED: u64 = 7;

/// A program for both.
pub struct Prepared {
    pub head: Head,
    pub words: Vec<u64>,
    pub rust: FactoredInstructionProgram,
    /// Components that live at the end.
    live: usize,
}

/// The programs of a mix, and buffers that are just long enough for them.
pub struct Mix {
    pub records: usize,
    width: Width,
    sort: Sort,
    pub programs: Vec<Prepared>,
    pub buffers: Room,
}

/// The seven buffers and the result.
pub struct Room {
    words: [Vec<u64>; 7],
    result: [u64; RESULT_WORDS],
}

impl Room {
    /// Buffers just long enough for so many records.
    pub fn new(records: usize) -> Self {
        Self {
            words: least_lengths(records as u64).map(|length| vec![0; length as usize]),
            result: [0; RESULT_WORDS],
        }
    }

    /// Noise in every word.
    pub fn make_noise(&mut self, noise: u64) {
        for buffer in &mut self.words {
            buffer.fill(noise | 1);
        }
        self.result.fill(noise | 1);
    }

    /// The library's call on these buffers.
    #[inline]
    pub fn plan(&mut self, program: &Prepared) -> u64 {
        let (mut buffers, result) = self.lend();
        plan_words(&program.head, &program.words, &mut buffers, result)
    }

    /// The buffers and the result, to write.
    pub fn lend(&mut self) -> (Buffers<'_>, &mut [u64]) {
        let buffers = Buffers::from(self.words.each_mut().map(Vec::as_mut_slice));
        (buffers, &mut self.result)
    }

    /// The seven buffers as they stand.
    pub fn words(&self) -> &[Vec<u64>; 7] {
        &self.words
    }

    /// The result as it stands.
    pub fn result(&self) -> &[u64] {
        &self.result
    }

    /// Whether the words are the expected ones with zeros behind them.
    fn holds(&self, expected: &Expected) -> bool {
        let is_held = |(found, used): (&Vec<u64>, &Vec<u64>)| {
            found.starts_with(used) && found[used.len()..].iter().all(|&word| word == 0)
        };
        self.result == expected.result && self.words.iter().zip(&expected.outputs).all(is_held)
    }
}

/// The program for both, once the library has given the Rust's answer in these buffers.
fn prepared(program: Program, room: &mut Room) -> Result<Prepared, String> {
    let expected = Expected::of(&answer(&program)?)?.ok_or("a program may not be compared")?;
    let prepared = Prepared {
        head: Head {
            initial_k: program.initial_k,
            max_k: program.max_k,
            nexpvals: program.nexpvals,
            ceiling: program.ceiling,
        },
        rust: rust_program(&program, &program.records())?,
        live: expected.groups().len(),
        words: program.words.clone(),
    };
    room.make_noise(SEED);
    let number = room.plan(&prepared);
    if expected.number == 0 && number == 0 && room.holds(&expected) {
        Ok(prepared)
    } else {
        Err(format!(
            "a program has no plan, or another: {}",
            program.text()
        ))
    }
}

/// The positions that a record touches, where planning reads them.
fn support(record: &Record) -> Option<u32> {
    let is_read = record.is_rotation() || record.is_measurement() && record.flag() == 0;
    is_read.then(|| ((record.x | record.z) & !(u64::MAX << record.width)).count_ones())
}

/// The mean of some numbers, 0 where there are none.
fn mean(numbers: impl Iterator<Item = f64>) -> f64 {
    let (count, sum) = numbers.fold((0, 0.0), |(count, sum), number| (count + 1, sum + number));
    sum / f64::from(count.max(1))
}

/// Program number `index` of a mix.
fn program(records: usize, width: Width, sort: Sort, index: u64) -> Program {
    let numbers = Numbers::new(SEED, index);
    let coordinates = match width {
        Narrow => 10,
        Wide => 50,
    };
    match sort {
        Steady(Few) => steady(numbers, records, coordinates, 2, true),
        Steady(Many) => steady(numbers, records, coordinates, coordinates / 2, false),
        Check(positions) => check_circuit(numbers, records, coordinates, positions == Near),
    }
}

impl Mix {
    /// The mix's programs, each tried once.
    pub fn new(records: usize, width: Width, sort: Sort) -> Result<Self, String> {
        let mut buffers = Room::new(records);
        let programs = (0..PROGRAMS)
            .map(|index| prepared(program(records, width, sort, index), &mut buffers))
            .collect::<Result<_, String>>()?;
        Ok(Self {
            records,
            width,
            sort,
            programs,
            buffers,
        })
    }

    /// The width in words.
    pub fn width_name(&self) -> &'static str {
        match self.width {
            Narrow => "narrow, 10",
            Wide => "wide, 50",
        }
    }

    /// The sort in a word.
    pub fn sort_name(&self) -> &'static str {
        match self.sort {
            Steady(Few) => "few",
            Steady(Many) => "many",
            Check(Near) => "near",
            Check(Anywhere) => "anywhere",
        }
    }

    /// The sort of the programs in words.
    pub fn programs_name(&self) -> &'static str {
        match self.sort {
            Steady(_) => "programs in blocks",
            Check(_) => "check circuits",
        }
    }

    /// The mix in words.
    pub fn name(&self) -> String {
        let programs = self.programs_name();
        let (records, width, sort) = (self.records, self.width_name(), self.sort_name());
        format!("{programs}, {records} records, {width}, {sort}")
    }

    /// Whether another mix differs in the number of records at most.
    pub fn is_like(&self, other: &Self) -> bool {
        self.width == other.width && self.sort == other.sort
    }

    /// All records of all programs.
    fn all_records(&self) -> impl Iterator<Item = Record> {
        let words = self.programs.iter().map(|program| &program.words);
        words.flat_map(|words| words.chunks(RECORD_WORDS).map(Record::from_words))
    }

    /// The share of records of kinds 2, 3 and 5.
    pub fn classical_share(&self) -> f64 {
        mean(
            self.all_records()
                .map(|record| f64::from(u8::from(matches!(record.kind, 2 | 3 | 5)))),
        )
    }

    /// How many positions a rotation or a measurement touches, on average.
    pub fn mean_support(&self) -> f64 {
        mean(
            self.all_records()
                .filter_map(|record| support(&record).map(f64::from)),
        )
    }

    /// How many components live at the end, on average.
    pub fn live_components(&self) -> f64 {
        mean(self.programs.iter().map(|program| program.live as f64))
    }
}
