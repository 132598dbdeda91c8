//! A program that grows record by record. Every record fits until one is spoiled.

use super::random::Random;
use crate::input::{LARGEST_CEILING, Program, RECORD_WORDS};
use crate::refusals::{MOST_COORDINATES, MOST_WIDTH, least_lengths};

pub const ROTATION: u64 = 0;
pub const PROMOTION: u64 = 1;
pub const MEASUREMENT: u64 = 4;
const CLASSICAL: [u64; 3] = [2, 3, 5];

/// The most records of a program that is not too long.
pub const MOST_RECORDS: usize = 1024;

/// How often rotations, promotions, measurements and records without effect are made.
pub type Weights = [u64; 4];

const MIXTURES: [Weights; 5] = [
    [4, 2, 2, 1],
    [8, 1, 1, 1],
    [2, 4, 1, 0],
    [3, 1, 4, 1],
    [1, 1, 1, 1],
];

/// The lowest so many bits.
pub fn low_bits(count: u64) -> u64 {
    match count {
        0 => 0,
        _ => u64::MAX >> (64 - count),
    }
}

/// A rotation's last three words.
pub fn floats(angle: f64) -> [u64; 3] {
    [angle, angle.sin(), angle.cos()].map(f64::to_bits)
}

pub struct Draft {
    pub random: Random,
    pub initial_k: u64,
    /// Active coordinates.
    pub width: u64,
    /// Coordinates ever made.
    pub made: u64,
    peak: u64,
    /// The block of each active position; a record touches positions of one block only.
    blocks: Vec<u8>,
    block_count: u64,
    /// Chosen by `finish` where it is not given.
    pub max_k: Option<u64>,
    pub nexpvals: u64,
    pub lengths: Option<[u64; 7]>,
    pub words: Vec<u64>,
    /// Whether all angles are ordinary ones.
    pub plain_angles: bool,
}

impl Draft {
    /// A program without records.
    pub fn new(random: Random, initial_k: u64) -> Self {
        Self {
            random,
            initial_k,
            width: initial_k,
            made: initial_k,
            peak: initial_k,
            blocks: vec![0; initial_k as usize],
            block_count: 1,
            max_k: None,
            nexpvals: 0,
            lengths: None,
            words: Vec::new(),
            plain_angles: false,
        }
    }

    /// A program without records, with initial_k from the least to the most.
    pub fn within(mut random: Random, least: u64, most: u64) -> Self {
        let initial_k = random.between(least, most);
        Self::new(random, initial_k)
    }

    /// Puts every active coordinate, and each to come, into one of so many blocks.
    pub fn divide(&mut self, blocks: u64) {
        self.block_count = blocks;
        for place in 0..self.blocks.len() {
            self.blocks[place] = self.random.below(blocks) as u8;
        }
    }

    /// Puts the active coordinates at a mask's bits into block 1, all others into block 0.
    pub fn divide_by(&mut self, mask: u64) {
        self.block_count = 2;
        for (place, block) in self.blocks.iter_mut().enumerate() {
            *block = u8::from(place < 64 && mask >> place & 1 == 1);
        }
    }

    /// How many records there are.
    pub fn count(&self) -> usize {
        self.words.len() / RECORD_WORDS
    }

    /// The positions of a block that a mask can reach.
    pub fn positions(&self, block: u64) -> u64 {
        let reached = self.blocks.iter().take(MOST_WIDTH as usize).enumerate();
        reached
            .filter(|&(_, &found)| u64::from(found) == block)
            .fold(0, |mask, (place, _)| mask | 1 << place)
    }

    /// The positions that one record may touch.
    fn reachable(&mut self) -> u64 {
        let most = self.width.min(MOST_WIDTH);
        if self.block_count == 1 || most == 0 {
            return low_bits(most);
        }
        let place = self.random.below(most) as usize;
        self.positions(u64::from(self.blocks[place]))
    }

    /// Some positions of these: often none or one, seldom many.
    fn mask_in(&mut self, reach: u64) -> u64 {
        let most = self.random.pick(&[0, 1, 1, 2, 2, 3, 5, 64]);
        self.random.bits_of(reach, most)
    }

    /// Some active positions.
    pub fn mask(&mut self) -> u64 {
        let reach = self.reachable();
        self.mask_in(reach)
    }

    /// A word that nobody may read, or that is wrong by being anything.
    pub fn wild(&mut self) -> u64 {
        let (any, small) = (self.random.word(), self.random.below(100));
        self.random.pick(&[0, 1, u64::MAX, any, small])
    }

    /// A number greater than the most that is allowed.
    pub fn above(&mut self, most: u64) -> u64 {
        let any = self.random.between(most + 1, u64::MAX);
        self.random
            .pick(&[most + 1, most + 1, most + 2, u64::MAX, any])
    }

    /// Bits at or above the width, which count for nothing.
    pub fn stray(&mut self) -> u64 {
        if self.width >= 64 || self.random.chance(80) {
            return 0;
        }
        self.random.word() & !low_bits(self.width)
    }

    /// An angle, with the values among them that are easily treated wrongly.
    pub fn angle(&mut self) -> f64 {
        use std::f64::consts::PI;
        let special = [0.0, -0.0, PI / 8.0, -PI / 4.0, PI, 5e-324, 1e-300, 1e300];
        match self.random.chance(50) {
            true if !self.plain_angles => self.random.pick(&special),
            _ => self.random.float(-7.0, 7.0),
        }
    }

    /// A phase exponent.
    pub fn phase(&mut self) -> u64 {
        self.random.below(4)
    }

    /// Adds a record's words as they are.
    pub fn add(&mut self, first: [u64; 5], last: [u64; 3]) {
        self.words.extend(first);
        self.words.extend(last);
    }

    /// Adds a record of which only the kind is read.
    pub fn add_unread(&mut self, kind: u64) {
        self.words.push(kind);
        for _ in 1..RECORD_WORDS {
            let word = self.wild();
            self.words.push(word);
        }
    }

    /// A rotation about some string.
    pub fn rotation(&mut self) {
        let reach = self.reachable();
        let x = self.mask_in(reach) | self.stray();
        let z = self.mask_in(reach) | self.stray();
        self.rotate(x, z);
    }

    /// A rotation about this string.
    pub fn rotate(&mut self, x: u64, z: u64) {
        let phase = self.phase();
        let angle = self.angle();
        self.add([ROTATION, self.width, x, z, phase], floats(angle));
    }

    /// A new coordinate, in any of the blocks.
    pub fn promotion(&mut self) {
        self.add_unread(PROMOTION);
        self.width += 1;
        self.made += 1;
        self.peak = self.peak.max(self.width);
        let block = self.random.below(self.block_count) as u8;
        self.blocks.push(block);
    }

    /// A record that planning passes over.
    pub fn classical(&mut self) {
        let kind = self.random.pick(&CLASSICAL);
        self.add_unread(kind);
    }

    /// A measurement with flag 1.
    pub fn expectation(&mut self) {
        self.add_unread(MEASUREMENT);
        let flag = self.words.len() - 2;
        self.words[flag] = 1;
    }

    /// A measurement: pivot on an x bit, or on a z bit with no x bit at all and a real phase.
    pub fn measurement(&mut self) {
        let reach = self.reachable();
        let bit = self.random.bit_of(reach);
        let (x, z) = (self.mask_in(reach), self.mask_in(reach));
        let (x, z, phase) = if self.random.chance(50) {
            (x | bit, z, self.phase())
        } else {
            (0, z | bit, self.random.pick(&[0, 2]))
        };
        let (x, z) = (x | self.stray(), z | self.stray());
        self.measure(x, z, phase, u64::from(bit.trailing_zeros()));
    }

    /// A measurement of this string, whether it fits or not.
    pub fn measure(&mut self, x: u64, z: u64, phase: u64, pivot: u64) {
        let unread = self.wild();
        self.add([MEASUREMENT, self.width, x, z, phase], [pivot, 0, unread]);
        self.width = self.width.saturating_sub(1);
        let place = usize::try_from(pivot).unwrap_or(usize::MAX);
        if !self.blocks.is_empty() {
            self.blocks.remove(place.min(self.blocks.len() - 1));
        }
    }

    /// One to three positions of a register of at most 62 that is not empty. Those that are
    /// near are neighbours, or half of the time the newest position and neighbours.
    pub fn few_positions(&mut self, near: bool) -> u64 {
        let count = self.random.between(1, 3).min(self.width);
        if !near {
            return self.random.bits_of(low_bits(self.width), count);
        }
        let first = self.random.between(0, self.width - count);
        match self.random.chance(50) {
            true => low_bits(count) << first,
            false => low_bits(count - 1) << first | 1 << (self.width - 1),
        }
    }

    /// The masks of a string with a letter at each of these positions: half are Z.
    fn letters(&mut self, support: u64) -> (u64, u64) {
        let x = self.random.word() & support;
        let y = self.random.word() & x;
        (x, support & !x | y)
    }

    /// A rotation about a string with this support.
    pub fn rotate_on(&mut self, support: u64) {
        let (x, z) = self.letters(support);
        self.rotate(x, z);
    }

    /// A measurement of a string with this support, half of the time of Z alone. The pivot is
    /// any of the positions.
    pub fn measure_on(&mut self, support: u64) {
        let bit = self.random.bit_of(support);
        let (x, z) = self.letters(support);
        let (x, z, phase) = match self.random.chance(50) {
            true => (x | bit, z, self.phase()),
            false => (0, support, self.random.pick(&[0, 2])),
        };
        self.measure(x, z, phase, u64::from(bit.trailing_zeros()));
    }

    /// One more record that fits, its kind chosen by weight; none where none can be.
    pub fn record(&mut self, weights: Weights) {
        let fits = self.width <= MOST_WIDTH;
        let kinds = [
            weights[0] * u64::from(fits),
            weights[1] * u64::from(self.made < MOST_COORDINATES),
            weights[2] * u64::from(fits && self.width > 0),
            weights[3],
            weights[3],
        ];
        if self.count() >= MOST_RECORDS || kinds.iter().sum::<u64>() == 0 {
            return;
        }
        match self.random.weighted(&kinds) {
            0 => self.rotation(),
            1 => self.promotion(),
            2 => self.measurement(),
            3 => self.classical(),
            _ => self.expectation(),
        }
    }

    /// Some records that fit, in a mixture of their own.
    pub fn some(&mut self, least: u64, most: u64) {
        let weights = self.random.pick(&MIXTURES);
        for _ in 0..self.random.between(least, most) {
            self.record(weights);
        }
    }

    /// Promotes until there are so many active coordinates.
    pub fn room(&mut self, least: u64) {
        while self.width < least {
            self.promotion();
        }
    }

    /// Buffers that are long enough, by a little or by much.
    pub fn long_lengths(&mut self) -> [u64; 7] {
        let more = self.random.pick(&[0, 1, 1000]);
        least_lengths(self.count() as u64).map(|least| least + self.random.between(0, more))
    }

    /// The program, with a max_k that lets planning read it, mostly near the widest moment.
    pub fn finish(mut self) -> Program {
        let near = self.peak.clamp(8, 61);
        let any = self.random.between(8, 61);
        let chosen = self.random.pick(&[near, near, near, 8, 61, any]);
        let lengths = match self.lengths {
            None if self.random.chance(10) => Some(self.long_lengths()),
            lengths => lengths,
        };
        Program {
            initial_k: self.initial_k,
            max_k: self.max_k.unwrap_or(chosen),
            nexpvals: self.nexpvals,
            ceiling: LARGEST_CEILING,
            lengths,
            words: self.words,
        }
    }
}
