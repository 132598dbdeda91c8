//! A program as one line of text: reading it, filling it, writing it back.

/// Words in a record.
pub const RECORD_WORDS: usize = 8;

/// The largest ceiling, with which planning is as the Rust has it.
pub const LARGEST_CEILING: u64 = 62;

/// The seven lent buffers, in the order of their lengths.
pub const BUFFERS: [&str; 7] = [
    "steps",
    "merges",
    "sizes",
    "rotations",
    "promotions",
    "measurements",
    "groups",
];

/// The head, the lengths of the lent buffers if they are given, and the record words.
#[derive(Clone, Debug)]
pub struct Program {
    pub initial_k: u64,
    pub max_k: u64,
    pub nexpvals: u64,
    pub ceiling: u64,
    pub lengths: Option<[u64; 7]>,
    pub words: Vec<u64>,
}

/// The eight words of a record, by 01's names. What the last three mean goes by kind.
#[derive(Clone, Copy)]
pub struct Record {
    pub kind: u64,
    pub width: u64,
    pub x: u64,
    pub z: u64,
    pub phase: u64,
    pub last: [u64; 3],
}

impl Record {
    /// The record of eight words.
    pub fn from_words(words: &[u64]) -> Self {
        Self {
            kind: words[0],
            width: words[1],
            x: words[2],
            z: words[3],
            phase: words[4],
            last: [words[5], words[6], words[7]],
        }
    }

    /// Whether it is of kind 0.
    pub fn is_rotation(&self) -> bool {
        self.kind == 0
    }

    /// Whether it is of kind 1.
    pub fn is_promotion(&self) -> bool {
        self.kind == 1
    }

    /// Whether it is of kind 4.
    pub fn is_measurement(&self) -> bool {
        self.kind == 4
    }

    /// A rotation's angle.
    pub fn angle(&self) -> f64 {
        f64::from_bits(self.last[0])
    }

    /// A measurement's expectation flag.
    pub fn flag(&self) -> u64 {
        self.last[1]
    }

    /// The active coordinates after the record, if it fits where there are so many before it.
    pub fn width_after(&self, width: u64) -> u64 {
        match (self.kind, self.flag()) {
            (1, _) => width + 1,
            (4, 0) => width.saturating_sub(1),
            _ => width,
        }
    }

    /// The words that Rust's own sine and cosine of the angle have.
    pub fn own_sine_and_cosine(&self) -> [u64; 2] {
        [self.angle().sin().to_bits(), self.angle().cos().to_bits()]
    }

    /// Whether a rotation carries the Rust's own sine and cosine, so that it may be compared.
    pub fn is_comparable(&self) -> bool {
        !self.is_rotation() || self.last[1..] == self.own_sine_and_cosine()
    }
}

/// Whether a line holds no program.
pub fn is_skipped(line: &str) -> bool {
    line.starts_with('#') || line.trim().is_empty()
}

/// A decimal or hexadecimal number.
fn parse_number(text: &str) -> Result<u64, String> {
    let (digits, radix) = match text.strip_prefix("0x") {
        Some(digits) => (digits, 16),
        None => (text, 10),
    };
    if digits.starts_with('+') {
        return Err(format!("{text:?} is not a number"));
    }
    u64::from_str_radix(digits, radix).map_err(|error| format!("{text:?} is not a number: {error}"))
}

/// Numbers with spaces between.
fn parse_numbers(part: &str) -> Result<Vec<u64>, String> {
    part.split_whitespace().map(parse_number).collect()
}

/// Seven buffer lengths, or none.
fn parse_lengths(part: &str) -> Result<Option<[u64; 7]>, String> {
    let numbers = parse_numbers(part)?;
    match numbers.len() {
        0 => Ok(None),
        7 => Ok(numbers.try_into().ok()),
        count => Err(format!("{count} buffer lengths instead of seven or none")),
    }
}

/// The three or four numbers of a head. Where the last is missing, it is the largest ceiling.
fn parse_head(part: &str) -> Result<[u64; 4], String> {
    match parse_numbers(part)?[..] {
        [initial_k, max_k, nexpvals] => Ok([initial_k, max_k, nexpvals, LARGEST_CEILING]),
        [initial_k, max_k, nexpvals, ceiling] => Ok([initial_k, max_k, nexpvals, ceiling]),
        ref head => Err(format!(
            "{} numbers in the head instead of three or four",
            head.len()
        )),
    }
}

impl Program {
    /// The program of a line.
    pub fn parse(line: &str) -> Result<Self, String> {
        let parts: Vec<&str> = line.split(';').collect();
        let [head, lengths, words] = parts[..] else {
            return Err(format!(
                "{} parts instead of three, between semicolons",
                parts.len()
            ));
        };
        let [initial_k, max_k, nexpvals, ceiling] = parse_head(head)?;
        Ok(Self {
            initial_k,
            max_k,
            nexpvals,
            ceiling,
            lengths: parse_lengths(lengths)?,
            words: parse_numbers(words)?,
        })
    }

    /// The whole records; words left over at the end belong to none.
    pub fn records(&self) -> Vec<Record> {
        self.words
            .chunks_exact(RECORD_WORDS)
            .map(Record::from_words)
            .collect()
    }

    /// The same program with Rust's own sine and cosine in every rotation.
    pub fn filled(&self) -> Self {
        let mut filled = self.clone();
        fill(&mut filled.words);
        filled
    }

    /// The same program under another ceiling.
    pub fn under(&self, ceiling: u64) -> Self {
        Self {
            ceiling,
            ..self.clone()
        }
    }

    /// The head's numbers, without the ceiling where it is the largest.
    fn head_text(&self) -> Vec<String> {
        let head = [self.initial_k, self.max_k, self.nexpvals, self.ceiling];
        let count = if self.ceiling == LARGEST_CEILING {
            3
        } else {
            4
        };
        head[..count].iter().map(u64::to_string).collect()
    }

    /// The program as a line. Masks and floats are in hexadecimal.
    pub fn text(&self) -> String {
        let lengths = self.lengths.iter().flatten().map(u64::to_string);
        let words = self.words.chunks(RECORD_WORDS).flat_map(record_text);
        let semicolon = || std::iter::once(";".to_owned());
        let head = self.head_text().into_iter().chain(semicolon());
        let line = head.chain(lengths).chain(semicolon()).chain(words);
        line.collect::<Vec<_>>().join(" ")
    }
}

/// Puts Rust's own sine and cosine into every rotation.
pub fn fill(words: &mut [u64]) {
    for words in words.chunks_exact_mut(RECORD_WORDS) {
        let record = Record::from_words(words);
        if record.is_rotation() {
            words[6..].copy_from_slice(&record.own_sine_and_cosine());
        }
    }
}

/// A record's words, masks and floats in hexadecimal.
fn record_text(words: &[u64]) -> Vec<String> {
    let floats_from = if words[0] == 0 { 5 } else { RECORD_WORDS };
    let word_text = |(place, word): (usize, &u64)| match place {
        2 | 3 => format!("{word:#x}"),
        _ if place >= floats_from => format!("{word:#018x}"),
        _ => word.to_string(),
    };
    words.iter().enumerate().map(word_text).collect()
}
