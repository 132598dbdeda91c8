//! One call, tried: every word and byte that it leaves is compared with what it has to leave.

use std::fmt::LowerHex;

use crate::library::{self, Program};
use crate::memory::{Area, Pages, Place, PLACES};
use crate::note;
use crate::reading::{self, Reading, OUTPUTS};

/// How many calls of each answer there were.
#[derive(Default)]
pub struct Answers {
    pub counts: [u64; 4],
}

/// The answers of loading, in the order of `Answers`.
pub const NUMBERS: [u64; 4] = [0, 21, 22, 23];

impl Answers {
    /// Counts an answer.
    pub fn count(&mut self, number: u64) {
        if let Some(place) = NUMBERS.iter().position(|&known| known == number) {
            self.counts[place] += 1;
        }
    }

    /// How many of each.
    pub fn text(&self) -> String {
        let each = NUMBERS.iter().zip(self.counts);
        each.map(|(number, count)| match number {
            0 => format!("read {count}"),
            _ => format!("refused {number}: {count}"),
        })
        .collect::<Vec<_>>()
        .join(", ")
    }
}

/// What storing has to return and to leave.
pub struct Stored<'a> {
    pub number: u64,
    pub result: &'a [u64],
    pub outputs: &'a [Vec<u64>; 7],
    pub file: &'a [u8],
}

/// The memory of all calls, and how many there were.
pub struct Trial {
    pages: Pages,
    area: Area,
    noise: u64,
    pub stores: u64,
    pub loads: u64,
}

/// The first place where something is not what is used of it with zeros behind.
fn difference<T: Copy + Default + PartialEq + LowerHex>(
    name: &str,
    found: &[T],
    used: &[T],
) -> Result<(), String> {
    let wanted = |place: usize| used.get(place).copied().unwrap_or_default();
    let places = 0..found.len();
    match places
        .into_iter()
        .find(|&place| found[place] != wanted(place))
    {
        None => Ok(()),
        Some(place) => Err(format!(
            "{name} {place} is {:#x} and not {:#x}",
            found[place],
            wanted(place)
        )),
    }
}

/// What differs, with all that was lent.
fn told(
    what: &str,
    found: &str,
    (bytes, place): (usize, Place),
    (lengths, result): (&[usize], usize),
) -> String {
    format!(
        "{what}: {found}\n  file of {bytes} bytes at the {} of the pages, outputs of {lengths:?} \
         words, result of {result} words",
        place.name()
    )
}

/// Whether a number is the wanted one.
fn same_number(found: u64, wanted: u64) -> Result<(), String> {
    if found == wanted {
        return Ok(());
    }
    Err(format!("returns {found} and not {wanted}"))
}

impl Trial {
    /// Nothing tried yet.
    pub fn new() -> Result<Self, String> {
        Ok(Self {
            pages: Pages::new()?,
            area: Area::default(),
            noise: 1,
            stores: 0,
            loads: 0,
        })
    }

    /// Another pattern for each call.
    fn next_noise(&mut self) -> u64 {
        self.noise = self.noise.wrapping_mul(6_364_136_223_846_793_005) | 1;
        self.noise ^ (self.noise >> 29)
    }

    /// Compares outputs and result with their used words.
    fn words_are(&self, outputs: &[Vec<u64>], result: &[u64]) -> Result<(), String> {
        if let Some(number) = self.area.overrun() {
            return Err(format!("a word before part {number} is written"));
        }
        for (place, used) in outputs.iter().enumerate() {
            let name = OUTPUTS.get(place).unwrap_or(&"groups");
            difference(&format!("{name}, word"), self.area.part(place), used)?;
        }
        difference("result, word", self.area.part(outputs.len()), result)
    }

    /// Loads a file that lies at a place.
    fn load_at(
        &mut self,
        file: &[u8],
        lengths: [usize; 6],
        result: usize,
        wanted: &Reading,
        place: Place,
    ) -> Result<(), String> {
        let noise = self.next_noise();
        self.area
            .prepare(&[&lengths[..], &[result]].concat(), noise);
        let lent = self.pages.placed(file, place);
        let number = library::load(lent, self.area.lend());
        self.loads += 1;
        same_number(number, wanted.number)?;
        if self.pages.read(file.len(), place) != file {
            return Err("the file is written".to_owned());
        }
        self.words_are(&wanted.outputs, &wanted.result)
    }

    /// Loads a file into outputs of these lengths, from each place in the pages, and compares all
    /// with the second reading. Gives the number, which has to be the known one where it is.
    pub fn load(
        &mut self,
        what: &str,
        file: &[u8],
        (lengths, result): ([usize; 6], usize),
        known: Option<u64>,
    ) -> Result<u64, String> {
        let wanted = reading::read(file, lengths);
        if let Some(number) = known.filter(|&number| number != wanted.number) {
            let found = wanted.number;
            return Err(format!(
                "{what}: the second reading gives {found} and not {number}"
            ));
        }
        note::set(what);
        for place in PLACES {
            self.load_at(file, lengths, result, &wanted, place)
                .map_err(|found| told(what, &found, (file.len(), place), (&lengths, result)))?;
        }
        Ok(wanted.number)
    }

    /// Stores a program with so many words of each output and of the result and so many bytes
    /// of the file, at a place.
    fn store_at(
        &mut self,
        program: &Program,
        (lengths, result, bytes): ([usize; 7], usize, usize),
        wanted: &Stored,
        place: Place,
    ) -> Result<(), String> {
        let noise = self.next_noise();
        self.area
            .prepare(&[&lengths[..], &[result]].concat(), noise);
        let byte = (noise >> 56) as u8 | 1;
        let file = self.pages.filled(bytes, place, byte);
        let number = library::store(program, file, self.area.lend());
        self.stores += 1;
        same_number(number, wanted.number)?;
        self.words_are(wanted.outputs, wanted.result)?;
        difference("file, byte", self.pages.read(bytes, place), wanted.file)?;
        if self.pages.others_are(bytes, place, byte) {
            return Ok(());
        }
        Err("a byte beside the file is written".to_owned())
    }

    /// Stores a program, the file at each place in the pages.
    pub fn store(
        &mut self,
        what: &str,
        program: &Program,
        lent: ([usize; 7], usize, usize),
        wanted: &Stored,
    ) -> Result<(), String> {
        note::set(what);
        for place in PLACES {
            self.store_at(program, lent, wanted, place)
                .map_err(|found| told(what, &found, (lent.2, place), (&lent.0, lent.1)))?;
        }
        Ok(())
    }
}
