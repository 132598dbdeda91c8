//! Memory that a call is lent, for the comparisons: noise, with guards on both sides of what is
//! lent, and the first place where it holds something else than it should.

use std::fmt::LowerHex;

/// Guard words or bytes on each side.
const GUARD: usize = 8;

/// What memory is made of.
pub trait Cell: Copy + Default + PartialEq {
    /// Noise at a place, from a random word; never zero.
    fn noise(word: u64, place: usize) -> Self;
}

impl Cell for u64 {
    /// Odd words that go up by two.
    fn noise(word: u64, place: usize) -> Self {
        word.wrapping_add(2 * place as u64) | 1
    }
}

impl Cell for u8 {
    /// Odd bytes that go up by two.
    fn noise(word: u64, place: usize) -> Self {
        (word as u8).wrapping_add((2 * place) as u8) | 1
    }
}

/// One part of memory, of which the middle is lent.
#[derive(Default)]
pub struct Guarded<T> {
    words: Vec<T>,
    lent: usize,
    noise: u64,
}

impl<T: Cell> Guarded<T> {
    /// The noise at a place, which is never zero.
    fn noise_at(&self, place: usize) -> T {
        T::noise(self.noise, place)
    }

    /// Noise in what is lent and in the guards.
    pub fn prepare(&mut self, lent: usize, noise: u64) {
        (self.lent, self.noise) = (lent, noise);
        let whole = lent + 2 * GUARD;
        if self.words.len() < whole {
            self.words.resize(whole, T::default());
        }
        let places = self.words[..whole].iter_mut().enumerate();
        places.for_each(|(place, word)| *word = T::noise(noise, place));
    }

    /// The random word of the noise.
    pub fn noise(&self) -> u64 {
        self.noise
    }

    /// What is lent, to write.
    pub fn lend(&mut self) -> &mut [T] {
        &mut self.words[GUARD..GUARD + self.lent]
    }

    /// What was lent.
    pub fn read(&self) -> &[T] {
        &self.words[GUARD..GUARD + self.lent]
    }

    /// Whether the guards are as they were.
    pub fn is_guarded(&self) -> bool {
        let end = GUARD + self.lent;
        (0..GUARD)
            .chain(end..end + GUARD)
            .all(|place| self.words[place] == self.noise_at(place))
    }
}

/// The first place where something, of words or of bytes, is not what is used of it with zeros
/// behind.
pub fn difference<T: Copy + Default + PartialEq + LowerHex>(
    (name, unit): (&str, &str),
    found: &[T],
    used: &[T],
) -> Option<String> {
    let is_zero = |word: &T| *word == T::default();
    if let Some((first, behind)) = found.split_at_checked(used.len())
        && first == used
        && behind.iter().all(is_zero)
    {
        return None;
    }
    let wanted = used.iter().copied().chain(std::iter::repeat(T::default()));
    let place = found
        .iter()
        .zip(wanted.clone())
        .position(|(&found, wanted)| found != wanted)?;
    Some(format!(
        "{name}, {unit} {place}: expected {:#x}, found {:#x}",
        wanted.clone().nth(place).unwrap_or_default(),
        found[place]
    ))
}
