//! The words behind a line's first: those with a name (x=5), and the others in their order.

use std::collections::VecDeque;

use crate::line::{quoted, Fault, Line, Word};

/// What is still to be read of a line.
pub struct Fields<'a> {
    line: &'a Line<'a>,
    named: Vec<(&'a str, Word<'a>)>,
    others: VecDeque<Word<'a>>,
}

impl<'a> Fields<'a> {
    /// The words of a line in which these names may stand, each once.
    pub fn new(line: &'a Line<'a>, names: &[&str]) -> Result<Self, Fault> {
        let mut fields = Self {
            line,
            named: Vec::new(),
            others: VecDeque::new(),
        };
        for &word in &line.words[1..] {
            match word.text.find('=') {
                Some(place) => fields.name(word, place, names)?,
                None => fields.others.push_back(word),
            }
        }
        Ok(fields)
    }

    /// Notes a word with a name.
    fn name(&mut self, word: Word<'a>, place: usize, names: &[&str]) -> Result<(), Fault> {
        let name = &word.text[..place];
        if let Some(known) = word.front(place).meant(names) {
            return Err(word.in_small_letters(&format!("{known}{}", &word.text[place..])));
        }
        if !names.contains(&name) {
            let expected = match names {
                [] => format!("no word with '=' behind '{}'", self.line.words[0].text),
                _ => format!("a name among {}", names.join(", ")),
            };
            return Err(word.fault(expected));
        }
        if self.named.iter().any(|(known, _)| *known == name) {
            let found = format!("{} again", quoted(word.text));
            return Err(word.fault_found(format!("'{name}=' once"), found));
        }
        self.named.push((name, word.from(place + 1)));
        Ok(())
    }

    /// Whether nothing is left.
    pub fn is_empty(&self) -> bool {
        self.named.is_empty() && self.others.is_empty()
    }

    /// The value of a name, if it is given, which is left there.
    pub fn named(&self, name: &str) -> Option<Word<'a>> {
        let mut named = self.named.iter();
        named
            .find(|(known, _)| *known == name)
            .map(|&(_, word)| word)
    }

    /// The value of a name, if it is given.
    pub fn take(&mut self, name: &str) -> Option<Word<'a>> {
        let place = self.named.iter().position(|(known, _)| *known == name)?;
        Some(self.named.remove(place).1)
    }

    /// The next word without a name, if there is one.
    pub fn peek(&self) -> Option<Word<'a>> {
        self.others.front().copied()
    }

    /// The next word without a name, which has to be there.
    pub fn next(&mut self, expected: &str) -> Result<Word<'a>, Fault> {
        let line = self.line;
        self.others.pop_front().ok_or_else(|| line.ended(expected))
    }

    /// The next words without a name, at most so many.
    pub fn ahead(&self, most: usize) -> Vec<Word<'a>> {
        self.others.iter().take(most).copied().collect()
    }

    /// The next word without a name, and those behind it as long as one goes on with the next;
    /// none where it does not.
    pub fn run(&self, goes_on: fn(&str, &str) -> bool) -> Option<Vec<Word<'a>>> {
        let next = self.others.iter().zip(self.others.iter().skip(1));
        let more = next.take_while(|(word, next)| goes_on(word.text, next.text));
        let more = more.count();
        (more > 0).then(|| self.ahead(more + 1))
    }

    /// Nothing more may stand on the line.
    pub fn finish(&mut self) -> Result<(), Fault> {
        match self.others.pop_front() {
            Some(word) => Err(word.fault("the end of the line")),
            None => Ok(()),
        }
    }
}
