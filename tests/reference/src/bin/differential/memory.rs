//! Memory for the lent buffers, the result and a file.

use midvokt::{Buffers, Head, Sections, load_words, plan_words, store_words};
use midvokt_reference::generator::Numbers;
use midvokt_reference::guarded::Guarded;

/// How much is lent: words of the seven buffers, bytes of the file, words of the result.
#[derive(Clone, Copy)]
pub struct Lent {
    pub buffers: [u64; 7],
    pub file: usize,
    pub result: usize,
}

/// The seven buffers and, in the last place, the result; and the file.
#[derive(Default)]
pub struct Memory {
    parts: [Guarded<u64>; 8],
    file: Guarded<u8>,
}

impl Memory {
    /// Noise in as much as is lent.
    fn prepare(&mut self, lent: &Lent, noise: &mut Numbers) {
        let all = lent.buffers.iter().map(|&length| length as usize);
        for (part, length) in self.parts.iter_mut().zip(all.chain([lent.result])) {
            part.prepare(length, noise.word());
        }
        self.file.prepare(lent.file, self.parts[7].noise());
    }

    /// Plans, and gives the number that the library returns.
    pub fn plan(
        &mut self,
        (head, words): (&Head, &[u64]),
        lent: &Lent,
        noise: &mut Numbers,
    ) -> u64 {
        self.prepare(lent, noise);
        let [outputs @ .., result] = &mut self.parts;
        let mut buffers = Buffers::from(outputs.each_mut().map(Guarded::lend));
        plan_words(head, words, &mut buffers, result.lend())
    }

    /// Plans and stores, and gives the number that the library returns.
    pub fn store(
        &mut self,
        (head, words): (&Head, &[u64]),
        lent: &Lent,
        noise: &mut Numbers,
    ) -> u64 {
        self.prepare(lent, noise);
        let [outputs @ .., result] = &mut self.parts;
        let mut buffers = Buffers::from(outputs.each_mut().map(Guarded::lend));
        let file = self.file.lend();
        store_words(head, words, &mut buffers, file, result.lend())
    }

    /// Loads a file, and gives the number that the library returns. The groups, which no file
    /// has, and the file's own memory stay as they are.
    pub fn load(&mut self, file: &[u8], lent: &Lent, noise: &mut Numbers) -> u64 {
        self.prepare(lent, noise);
        let [outputs @ .., _, result] = &mut self.parts;
        let outputs = outputs.each_mut().map(Guarded::lend);
        load_words(file, &mut Sections::from(outputs), result.lend())
    }

    /// What a buffer holds after the call.
    pub fn output(&self, place: usize) -> &[u64] {
        self.parts[place].read()
    }

    /// What the result holds after the call.
    pub fn result(&self) -> &[u64] {
        self.parts[7].read()
    }

    /// What the file holds after the call.
    pub fn file(&self) -> &[u8] {
        self.file.read()
    }

    /// The first part beside which something has changed: a buffer by its place, or the result
    /// behind them, or the file behind that.
    pub fn overrun(&self) -> Option<usize> {
        let words = self.parts.iter().map(Guarded::is_guarded);
        words
            .chain([self.file.is_guarded()])
            .position(|is_guarded| !is_guarded)
    }
}
