//! Memory in which a step beside what is lent is found: a file between pages that cannot be read,
//! and outputs among words that must stay.

use std::ffi::{c_int, c_long, c_void};
use std::ops::Range;
use std::ptr::null_mut;
use std::slice;

extern "C" {
    /// A figure of the system.
    fn sysconf(name: c_int) -> c_long;
    /// New memory.
    fn mmap(
        address: *mut c_void,
        length: usize,
        protection: c_int,
        flags: c_int,
        file: c_int,
        offset: c_long,
    ) -> *mut c_void;
    /// Says what memory may be used for.
    fn mprotect(address: *mut c_void, length: usize, protection: c_int) -> c_int;
}

// As the headers of Linux on x86-64 have them.
const PAGE_SIZE: c_int = 30;
const NOT_AT_ALL: c_int = 0;
const READ_AND_WRITE: c_int = 1 | 2;
const PRIVATE_ANONYMOUS: c_int = 0x2 | 0x20;

/// Pages that can be read between which files lie.
const PAGES: usize = 8;
/// Guard words on each side of an output.
const GUARD: usize = 8;

/// Bytes before a file in the middle, an odd number.
const BEFORE_MIDDLE: usize = 4099;

/// Where a file lies between the two pages that cannot be read. In the middle its first byte has
/// an odd address.
#[derive(Clone, Copy)]
pub enum Place {
    Start,
    Middle,
    End,
}

impl Place {
    /// The place in a word.
    pub fn name(self) -> &'static str {
        match self {
            Self::Start => "start",
            Self::Middle => "middle",
            Self::End => "end",
        }
    }
}

pub const PLACES: [Place; 3] = [Place::Start, Place::Middle, Place::End];

/// Readable pages between two that are not.
pub struct Pages {
    first: *mut u8,
    length: usize,
}

impl Pages {
    /// The pages, never given back.
    pub fn new() -> Result<Self, String> {
        // SAFETY: new memory is asked for, and the protection is that of its first and last page.
        unsafe {
            let page = sysconf(PAGE_SIZE) as usize;
            let length = PAGES * page;
            let whole = length + 2 * page;
            let all = mmap(null_mut(), whole, READ_AND_WRITE, PRIVATE_ANONYMOUS, -1, 0);
            if all as isize == -1 {
                return Err("no memory for the pages".to_owned());
            }
            let first = all.cast::<u8>().add(page);
            let last = first.add(length).cast();
            if mprotect(all, page, NOT_AT_ALL) != 0 || mprotect(last, page, NOT_AT_ALL) != 0 {
                return Err("the outer pages stay readable".to_owned());
            }
            Ok(Self { first, length })
        }
    }

    /// All bytes that can be read.
    fn all(&mut self) -> &mut [u8] {
        // SAFETY: the memory is there for good, can be written, and is lent with self alone.
        unsafe { slice::from_raw_parts_mut(self.first, self.length) }
    }

    /// Where so many bytes lie at a place.
    fn range(&self, length: usize, place: Place) -> Range<usize> {
        let most = self.length - BEFORE_MIDDLE;
        assert!(length <= most, "a file of {length} bytes is too long");
        match place {
            Place::Start => 0..length,
            Place::Middle => BEFORE_MIDDLE..BEFORE_MIDDLE + length,
            Place::End => self.length - length..self.length,
        }
    }

    /// So many bytes at a place, with this byte in all pages.
    pub fn filled(&mut self, length: usize, place: Place, byte: u8) -> &mut [u8] {
        let range = self.range(length, place);
        self.all().fill(byte);
        &mut self.all()[range]
    }

    /// These bytes at a place.
    pub fn placed(&mut self, bytes: &[u8], place: Place) -> &[u8] {
        let range = self.range(bytes.len(), place);
        let lent = &mut self.all()[range];
        lent.copy_from_slice(bytes);
        lent
    }

    /// The bytes that were lent at a place.
    pub fn read(&mut self, length: usize, place: Place) -> &[u8] {
        let range = self.range(length, place);
        &self.all()[range]
    }

    /// Whether all other bytes are this one.
    pub fn others_are(&mut self, length: usize, place: Place, byte: u8) -> bool {
        let range = self.range(length, place);
        let all = self.all();
        let (before, after) = (&all[..range.start], &all[range.end..]);
        before.iter().chain(after).all(|&found| found == byte)
    }
}

/// Outputs in one area, with guard words before, between and behind them.
#[derive(Default)]
pub struct Area {
    words: Vec<u64>,
    parts: Vec<Range<usize>>,
    noise: u64,
}

impl Area {
    /// The pattern at a place, which is never zero.
    fn pattern(&self, place: usize) -> u64 {
        self.noise.wrapping_mul(place as u64 + 1) | 1
    }

    /// The pattern in outputs of these lengths and around them.
    pub fn prepare(&mut self, lengths: &[usize], noise: u64) {
        self.noise = noise;
        self.parts.clear();
        let mut place = GUARD;
        for length in lengths {
            self.parts.push(place..place + length);
            place += length + GUARD;
        }
        self.words.clear();
        let pattern = (0..place).map(|place| noise.wrapping_mul(place as u64 + 1) | 1);
        self.words.extend(pattern);
    }

    /// The outputs, to write.
    pub fn lend<const N: usize>(&mut self) -> [&mut [u64]; N] {
        let mut rest = &mut self.words[..];
        let mut gone = 0;
        let mut parts = self.parts.iter();
        std::array::from_fn(|_| {
            let part = parts.next().expect("as many as were prepared");
            let (_, after) = std::mem::take(&mut rest).split_at_mut(part.start - gone);
            let (lent, after) = after.split_at_mut(part.len());
            (rest, gone) = (after, part.end);
            lent
        })
    }

    /// An output as it stands.
    pub fn part(&self, number: usize) -> &[u64] {
        &self.words[self.parts[number].clone()]
    }

    /// The first guard word that has changed, by the number of the output behind it.
    pub fn overrun(&self) -> Option<usize> {
        let ends = self.parts.iter().map(|part| part.end);
        let starts = self.parts.iter().map(|part| part.start);
        let gaps = [0].into_iter().chain(ends);
        gaps.zip(starts.chain([self.words.len()]))
            .position(|(start, end)| {
                (start..end).any(|place| self.words[place] != self.pattern(place))
            })
    }
}
