//! The fixed vectors: programs with the answers of the published Rust, or of the oracle under
//! ceilings below 62, and the files of their plans, stored and loaded.

use crate::draft::{Draft, SECTIONS};
use crate::library::Program;
use crate::reading::RESULT_WORDS;
use crate::trial::{Stored, Trial};

/// Words of a result in a vector: those of planning.
const PLAN_RESULT: usize = 14;
/// 02's number for a file that is too short.
const TOO_SHORT: u64 = 23;
/// Planning reads no record below this max_k.
const LEAST_READ: u64 = 8;
/// The largest ceiling.
const MOST: u64 = 62;
/// Bytes of the file in which a refused program is stored.
const REFUSED_FILES: [usize; 4] = [0, 1, 192, 1000];

/// A program, the lengths of its buffers and the Rust's answer.
pub struct Vector {
    program: Program,
    lengths: [usize; 7],
    pub number: u64,
    result: Vec<u64>,
    outputs: [Vec<u64>; 7],
}

/// What the list of files has for a vector.
pub enum Listed {
    Refused(u64),
    Plan {
        length: usize,
        checksum: u64,
        bytes: Option<Vec<u8>>,
    },
}

/// The words of the vectors, from the first on.
struct Words<'a> {
    left: &'a [u64],
}

impl Words<'_> {
    /// The next word.
    fn one(&mut self) -> Result<u64, String> {
        Ok(self.some(1)?[0])
    }

    /// The next words.
    fn some(&mut self, count: u64) -> Result<Vec<u64>, String> {
        if count > self.left.len() as u64 {
            return Err("the vectors are cut short".to_owned());
        }
        let (taken, left) = self.left.split_at(count as usize);
        self.left = left;
        Ok(taken.to_vec())
    }

    /// The next words behind their number.
    fn counted(&mut self) -> Result<Vec<u64>, String> {
        let count = self.one()?;
        self.some(count)
    }

    /// The next vector.
    fn vector(&mut self) -> Result<Vector, String> {
        let [initial_k, max_k, nexpvals] = [self.one()?, self.one()?, self.one()?];
        let [ceiling, records] = [self.one()?, self.one()?];
        let lengths = self.some(7)?;
        let program = Program {
            initial_k,
            max_k,
            nexpvals,
            ceiling,
            records: self.some(records)?,
        };
        let number = self.one()?;
        let result = self.some(PLAN_RESULT as u64)?;
        let mut outputs: [Vec<u64>; 7] = Default::default();
        for output in &mut outputs {
            *output = self.counted()?;
        }
        Ok(Vector {
            program,
            lengths: std::array::from_fn(|place| lengths[place] as usize),
            number,
            result,
            outputs,
        })
    }
}

/// All vectors of a list as tests/vectors/make describes it.
pub fn parse(bytes: &[u8]) -> Result<Vec<Vector>, String> {
    let words: Vec<u64> = bytes
        .chunks_exact(8)
        .map(|word| u64::from_le_bytes(word.try_into().expect("eight bytes")))
        .collect();
    let mut words = Words { left: &words };
    let vectors = (0..words.one()?)
        .map(|_| words.vector())
        .collect::<Result<Vec<_>, _>>()?;
    if words.left.is_empty() && bytes.len() % 8 == 0 {
        Ok(vectors)
    } else {
        Err("the vectors have words too many".to_owned())
    }
}

/// The bytes of two digits each.
fn from_digits(text: &str) -> Option<Vec<u8>> {
    let pairs = text.as_bytes().chunks(2);
    pairs
        .map(|pair| u8::from_str_radix(std::str::from_utf8(pair).ok()?, 16).ok())
        .collect()
}

/// A line of the list of files.
fn listed(line: &str) -> Option<Listed> {
    let words: Vec<&str> = line.split(' ').collect();
    match words[..] {
        ["refused", number] => Some(Listed::Refused(number.parse().ok()?)),
        ["plan", length, checksum, ref bytes @ ..] => Some(Listed::Plan {
            length: length.parse().ok()?,
            checksum: u64::from_str_radix(checksum, 16).ok()?,
            bytes: match bytes {
                [] => None,
                words => Some(from_digits(&words.concat())?),
            },
        }),
        _ => None,
    }
}

/// The list of files, a line for each vector.
pub fn parse_files(text: &str) -> Result<Vec<Listed>, String> {
    let lines = text.lines().filter(|line| !line.starts_with('#'));
    lines
        .map(|line| listed(line).ok_or_else(|| format!("{line:?} is no line of the list")))
        .collect()
}

/// A checksum of some bytes, FNV-1a of 64 bits.
fn checksum(bytes: &[u8]) -> u64 {
    let mut sum = 0xcbf2_9ce4_8422_2325;
    for &byte in bytes {
        sum = (sum ^ u64::from(byte)).wrapping_mul(0x0100_0000_01b3);
    }
    sum
}

impl Vector {
    /// The seven sections of the plan's file.
    pub fn sections(&self) -> [Vec<u64>; SECTIONS] {
        std::array::from_fn(|place| match place {
            6 => self.result[1..9].to_vec(),
            _ => self.outputs[place].clone(),
        })
    }

    /// How many words of each of the six stored outputs are used.
    pub fn counts(&self) -> [usize; 6] {
        std::array::from_fn(|place| self.outputs[place].len())
    }

    /// The plan's file, held to what the list says of the Rust's.
    fn file(&self, listed: &Listed) -> Result<Vec<u8>, String> {
        let Listed::Plan {
            length,
            checksum: sum,
            bytes,
        } = listed
        else {
            return Err("the list of files has a refusal for a plan".to_owned());
        };
        let file = Draft::of(&self.sections()).bytes();
        let is_listed = file.len() == *length
            && checksum(&file) == *sum
            && bytes.as_ref().is_none_or(|bytes| *bytes == file);
        is_listed
            .then_some(file)
            .ok_or_else(|| "the list of files has another file".to_owned())
    }

    /// Stores a plan: just long enough, a byte too short, and longer.
    fn store_plan(&self, trial: &mut Trial, what: &str, file: &[u8]) -> Result<(), String> {
        let stored = Stored {
            number: 0,
            result: &[0, file.len() as u64],
            outputs: &self.outputs,
            file,
        };
        let short = Stored {
            number: TOO_SHORT,
            result: &[],
            outputs: &Default::default(),
            file: &[],
        };
        for result in [2, 0, 1, 5] {
            for more in [0, 1, 8, 700] {
                let lent = (self.lengths, result, file.len() + more);
                trial.store(what, &self.program, lent, &stored)?;
            }
            for bytes in [file.len() - 1, file.len() - 8, 127, 0] {
                let lent = (self.lengths, result, bytes);
                trial.store(what, &self.program, lent, &short)?;
            }
        }
        Ok(())
    }

    /// Loads a plan's file into outputs that are just long enough, longer, and one too short.
    fn load_plan(&self, trial: &mut Trial, what: &str, file: &[u8]) -> Result<(), String> {
        let counts = self.counts();
        for result in [RESULT_WORDS, 0, 1, 9, 14, 16, 40] {
            trial.load(what, file, (counts, result), Some(0))?;
            let longer = counts.map(|count| count + 11);
            trial.load(what, file, (longer, result), Some(0))?;
            for output in (0..6).filter(|&output| counts[output] > 0) {
                let mut short = longer;
                short[output] = counts[output] - 1;
                trial.load(what, file, (short, result), Some(TOO_SHORT))?;
            }
        }
        Ok(())
    }

    /// Stores a program that planning refuses, whatever the file's length.
    fn store_refused(&self, trial: &mut Trial, what: &str) -> Result<(), String> {
        let refused = Stored {
            number: self.number,
            result: &self.result[..1],
            outputs: &Default::default(),
            file: &[],
        };
        for bytes in REFUSED_FILES {
            for result in [2, 0, 5] {
                let lent = (self.lengths, result, bytes);
                trial.store(what, &self.program, lent, &refused)?;
            }
        }
        Ok(())
    }

    /// The program's ceiling, or the largest where it has none that may be.
    fn ceiling(&self) -> u64 {
        match self.program.ceiling {
            ceiling @ 1..=MOST => ceiling,
            _ => MOST,
        }
    }

    /// The same records under a head with which planning reads none of them: the plan has
    /// initial_k and 2 to the power of max_k, and zeros else.
    fn unread(&self, max_k: u64, nexpvals: u64) -> Self {
        let Program {
            initial_k,
            ref records,
            ..
        } = self.program;
        let mut result = vec![0; PLAN_RESULT];
        (result[2], result[6]) = (initial_k, 1 << max_k);
        Self {
            program: Program {
                initial_k,
                max_k,
                nexpvals,
                ceiling: self.ceiling(),
                records: records.clone(),
            },
            lengths: self.lengths,
            number: 0,
            result,
            outputs: Default::default(),
        }
    }

    /// Stores the vector's records unread, and loads the file.
    fn check_unread(&self, trial: &mut Trial, what: &str) -> Result<(), String> {
        let max_k = self.program.max_k % self.ceiling();
        for (max_k, nexpvals) in [(max_k % LEAST_READ, 0), (max_k, 1), (max_k, u64::MAX)] {
            let what = format!("{what} with max_k {max_k} and nexpvals {nexpvals}");
            let unread = self.unread(max_k, nexpvals);
            let file = Draft::of(&unread.sections()).bytes();
            unread.store_plan(trial, &what, &file)?;
            unread.load_plan(trial, &what, &file)?;
        }
        Ok(())
    }

    /// Stores the vector, and loads the file that it gets.
    fn check(&self, trial: &mut Trial, what: &str, listed: &Listed) -> Result<(), String> {
        if self.number == 0 {
            let file = self.file(listed)?;
            self.store_plan(trial, what, &file)?;
            return self.load_plan(trial, what, &file);
        }
        match listed {
            Listed::Refused(number) if *number == self.number => self.store_refused(trial, what),
            _ => Err("the list of files has no such refusal".to_owned()),
        }
    }
}

/// Tries all vectors, and says how many there were.
pub fn check(trial: &mut Trial, vectors: &[Vector], files: &[Listed]) -> Result<String, String> {
    if vectors.len() != files.len() {
        return Err("the list of files is not that of the vectors".to_owned());
    }
    for (number, (vector, listed)) in vectors.iter().zip(files).enumerate() {
        let what = format!("vector {number}");
        let checked = vector.check(trial, &what, listed);
        let checked = checked.and_then(|()| vector.check_unread(trial, &what));
        checked.map_err(|found| match found.starts_with(&what) {
            true => found,
            false => format!("{what}: {found}"),
        })?;
    }
    let plans = vectors.iter().filter(|vector| vector.number == 0).count();
    let whole = files.iter();
    let whole = whole.filter(|listed| matches!(listed, Listed::Plan { bytes: Some(_), .. }));
    Ok(format!(
        "vectors {0}: files of the Rust {plans}, of them whole in the list {1}, refusals {2}; \
         stored unread {0}",
        vectors.len(),
        whole.count(),
        vectors.len() - plans
    ))
}
