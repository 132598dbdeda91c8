//! A line of a circuit file as words, each with its place, and what is said of a bad one.

use std::fmt;

/// The most characters of a file that a message repeats.
const MOST_REPEATED: usize = 40;
/// The most bad lines that are told.
const MOST_TOLD: usize = 20;
/// What is said of a word that is known but for its letters.
const SMALL_LETTERS: &str = "words are in small letters";

/// A place in the file at which something else was expected.
#[derive(Clone, Debug, PartialEq, Eq)]
pub struct Fault {
    /// The line, from 1.
    pub line: usize,
    /// The column in characters, from 1.
    pub column: usize,
    /// What should stand there.
    pub expected: String,
    /// What stands there.
    pub found: String,
}

impl fmt::Display for Fault {
    /// Line, column, what was expected and what was found.
    fn fmt(&self, formatter: &mut fmt::Formatter<'_>) -> fmt::Result {
        let Self {
            line,
            column,
            expected,
            found,
        } = self;
        write!(
            formatter,
            "{line}:{column}: expected {expected}, found {found}"
        )
    }
}

/// All that is bad in a file: the first places, in order, and how many there are.
#[derive(Clone, Debug, Default, PartialEq, Eq)]
pub struct Faults {
    told: Vec<Fault>,
    count: usize,
}

impl Faults {
    /// Adds a place behind the others.
    pub fn push(&mut self, fault: Fault) {
        self.count += 1;
        if self.told.len() < MOST_TOLD {
            self.told.push(fault);
        }
    }

    /// Adds a place in front of the others.
    pub fn put_first(&mut self, fault: Fault) {
        self.count += 1;
        self.told.insert(0, fault);
        self.told.truncate(MOST_TOLD);
    }

    /// Whether nothing is bad.
    pub fn is_empty(&self) -> bool {
        self.count == 0
    }

    /// What is said of the file of this name: a line each, and how many more there are.
    pub fn text(&self, name: &str) -> String {
        let told = self.told.iter().map(|fault| format!("{name}:{fault}\n"));
        let more = match self.count - self.told.len() {
            0 => String::new(),
            1 => format!("{name}: 1 more bad line\n"),
            more => format!("{name}: {more} more bad lines\n"),
        };
        told.chain([more]).collect()
    }
}

impl From<Fault> for Faults {
    /// A file in which one place is bad.
    fn from(fault: Fault) -> Self {
        let mut faults = Self::default();
        faults.push(fault);
        faults
    }
}

/// Text of the file, cut if it is long, with nothing that moves a cursor.
fn repeated(text: &str) -> String {
    let shown: String = text.chars().take(MOST_REPEATED).collect();
    let more = if shown.len() < text.len() { "..." } else { "" };
    format!("{}{more}", shown.escape_debug())
}

/// The same between quotes.
pub fn quoted(text: &str) -> String {
    format!("'{}'", repeated(text))
}

/// Words of which one is expected.
pub fn one_of(words: &[&str]) -> String {
    match words {
        [others @ .., last] if !others.is_empty() => format!("{} or {last}", others.join(", ")),
        _ => words.concat(),
    }
}

/// A file's name with nothing in it that moves a cursor or turns the text around.
pub fn visible(name: &str) -> String {
    let turns = |character: char| matches!(character, '\u{61c}' | '\u{200e}' | '\u{200f}' | '\u{2028}'..='\u{202e}' | '\u{2066}'..='\u{2069}');
    let shown = |character: char| match character.is_control() || turns(character) {
        true => character.escape_unicode().to_string(),
        false => character.to_string(),
    };
    name.chars().map(shown).collect()
}

/// A word of a line, or a part of one, and where it begins.
#[derive(Clone, Copy, Debug, PartialEq, Eq)]
pub struct Word<'a> {
    /// The word itself.
    pub text: &'a str,
    /// The line, from 1.
    pub line: usize,
    /// The column of its first character, from 1.
    pub column: usize,
}

impl<'a> Word<'a> {
    /// The part from a byte on, which begins a character.
    pub fn from(&self, byte: usize) -> Word<'a> {
        self.at(byte, self.text[..byte].chars().count())
    }

    /// The part from a byte on that has so many characters in front of it.
    pub fn at(&self, byte: usize, characters: usize) -> Word<'a> {
        Word {
            text: &self.text[byte..],
            line: self.line,
            column: self.column + characters,
        }
    }

    /// The part of so many bytes at the front.
    pub fn front(&self, bytes: usize) -> Word<'a> {
        Word {
            text: &self.text[..bytes],
            ..*self
        }
    }

    /// A fault at the first character, with the word as what was found.
    pub fn fault(&self, expected: impl Into<String>) -> Fault {
        let found = match self.text {
            "" => "nothing".to_owned(),
            text => quoted(text),
        };
        self.fault_found(expected, found)
    }

    /// A fault at the first character.
    pub fn fault_found(&self, expected: impl Into<String>, found: impl Into<String>) -> Fault {
        Fault {
            line: self.line,
            column: self.column,
            expected: expected.into(),
            found: found.into(),
        }
    }

    /// A fault at the first character that tells what to write there, and why.
    pub fn mended(&self, text: &str, why: &str) -> Fault {
        let found = match why {
            "" => quoted(self.text),
            _ => format!("{}: {why}", quoted(self.text)),
        };
        self.fault_found(repeated(text), found)
    }

    /// A fault at the first of several words that tells how to write them as one, and why.
    pub fn mended_run(words: &[Word<'_>], text: &str, why: &str) -> Option<Fault> {
        let parts: Vec<_> = words.iter().map(|word| word.text).collect();
        let run = Word {
            text: &parts.join(" "),
            ..*words.first()?
        };
        Some(run.mended(text, why))
    }

    /// A fault that tells the word to write in small letters.
    pub fn in_small_letters(&self, text: &str) -> Fault {
        self.mended(text, SMALL_LETTERS)
    }

    /// The one of these words that this is but for capitals.
    pub fn meant<'w>(&self, words: &[&'w str]) -> Option<&'w str> {
        let mut words = words.iter().copied();
        words.find(|word| word.eq_ignore_ascii_case(self.text) && *word != self.text)
    }

    /// The whole number that the word is: decimal, or with 0x or 0b in front. What is expected
    /// names the numbers that may stand there.
    pub fn whole(&self, expected: &str) -> Result<u64, Fault> {
        let (digits, radix) = match self.text.get(..2) {
            Some("0x") => (&self.text[2..], 16),
            Some("0b") => (&self.text[2..], 2),
            _ => (self.text, 10),
        };
        let is_plain = digits.chars().all(|digit| digit.is_digit(radix));
        let number = u64::from_str_radix(digits, radix).ok();
        number
            .filter(|_| is_plain)
            .ok_or_else(|| self.fault(expected))
    }
}

/// A line without its comment.
#[derive(Clone, Debug)]
pub struct Line<'a> {
    /// Its number, from 1.
    pub number: usize,
    /// Its words; none for a line that says nothing.
    pub words: Vec<Word<'a>>,
    /// The column behind its last word.
    end: usize,
}

impl<'a> Line<'a> {
    /// The words of a line in front of a comment.
    pub fn new(number: usize, text: &'a str) -> Self {
        let said = text.split('#').next().unwrap_or("");
        let whole = Word {
            text: said,
            line: number,
            column: 1,
        };
        let starts_word = |&(_, (byte, character)): &(usize, (usize, char))| {
            let before = said[..byte].chars().next_back();
            !character.is_whitespace() && before.is_none_or(char::is_whitespace)
        };
        let word = |(place, (byte, _)): (usize, (usize, char))| {
            let rest = whole.at(byte, place);
            let length = rest.text.find(char::is_whitespace);
            rest.front(length.unwrap_or(rest.text.len()))
        };
        let characters = said.char_indices().enumerate();
        let words: Vec<_> = characters.filter(starts_word).map(word).collect();
        let end = words
            .last()
            .map_or(1, |word| word.column + word.text.chars().count());
        Self { number, words, end }
    }

    /// The same line with another first word, if it has one.
    fn beginning(&self, word: &'a str) -> Self {
        let mut line = self.clone();
        if let Some(first) = line.words.first_mut() {
            first.text = word;
        }
        line
    }

    /// Reads the line in a way that goes by its first word. A word that is one of these but for
    /// capitals is told, and the line is read as what is meant, so that lines behind it are held
    /// to that. A line that says nothing is passed over.
    pub fn read(
        &self,
        words: &[&'a str],
        mut read: impl FnMut(&Self) -> Result<(), Fault>,
    ) -> Result<(), Fault> {
        let Some(first) = self.words.first() else {
            return Ok(());
        };
        match first.meant(words) {
            Some(word) => {
                let _ = read(&self.beginning(word));
                Err(first.in_small_letters(word))
            }
            None => read(self),
        }
    }

    /// The words with one space between.
    pub fn text(&self) -> String {
        let words: Vec<_> = self.words.iter().map(|word| word.text).collect();
        words.join(" ")
    }

    /// A fault behind the last word.
    pub fn ended(&self, expected: impl Into<String>) -> Fault {
        Fault {
            line: self.number,
            column: self.end,
            expected: expected.into(),
            found: "the end of the line".to_owned(),
        }
    }
}

#[cfg(test)]
mod tests {
    use super::*;

    #[test]
    fn words_have_their_columns_and_comments_are_cut() {
        let line = Line::new(3, "  rotate\tX_X  0.25 # why");
        let found: Vec<_> = line
            .words
            .iter()
            .map(|word| (word.text, word.column))
            .collect();
        assert_eq!(found, [("rotate", 3), ("X_X", 10), ("0.25", 15)]);
        assert_eq!(line.text(), "rotate X_X 0.25");
        assert_eq!(line.ended("more").column, 19);
        assert!(Line::new(1, "   # nothing").words.is_empty());
    }

    #[test]
    fn columns_count_characters() {
        let line = Line::new(1, "ä ö x");
        assert_eq!(line.words[2].column, 5);
        assert_eq!(line.words[2].from(0).text, "x");
    }

    #[test]
    fn whole_numbers_are_decimal_hexadecimal_or_binary() {
        let read = |text| Line::new(1, text).words[0].whole("a number");
        assert_eq!(read("17"), Ok(17));
        assert_eq!(read("0x1f"), Ok(31));
        assert_eq!(read("0b101"), Ok(5));
        assert_eq!(read("18446744073709551615"), Ok(u64::MAX));
        for bad in [
            "18446744073709551616",
            "+1",
            "-1",
            "1.0",
            "0x",
            "0b2",
            "x",
            "0x+1",
        ] {
            assert_eq!(read(bad).unwrap_err().expected, "a number", "{bad}");
        }
    }

    #[test]
    fn the_first_bad_lines_are_told_and_the_others_counted() {
        let word = |number| Line::new(number, "x").words[0];
        let mut faults = Faults::default();
        assert!(faults.is_empty());
        for number in 2..22 {
            faults.push(word(number).fault("y"));
        }
        let told = faults.text("f");
        assert_eq!(told.lines().count(), 20);
        assert!(told.ends_with("f:21:1: expected y, found 'x'\n"), "{told}");
        faults.put_first(word(1).fault("y"));
        let told = faults.text("f");
        assert!(told.starts_with("f:1:1: expected y, found 'x'\nf:2:1:"));
        assert!(told.ends_with("f:20:1: expected y, found 'x'\nf: 1 more bad line\n"));
        faults.push(word(22).fault("y"));
        assert!(faults.text("f").ends_with("\nf: 2 more bad lines\n"));
    }

    #[test]
    fn capitals_are_told_with_the_word_that_is_meant() {
        let word = |text| Line::new(1, text).words[0];
        let known = ["rotate", "if"];
        assert_eq!(word("Rotate").meant(&known), Some("rotate"));
        assert_eq!(word("IF").meant(&known), Some("if"));
        assert_eq!(word("if").meant(&known), None);
        assert_eq!(word("iff").meant(&known), None);
        assert_eq!(
            word("IF").in_small_letters("if").to_string(),
            "1:1: expected if, found 'IF': words are in small letters"
        );
        assert_eq!(word("IF").mended("if", "").found, "'IF'");
        let line = Line::new(1, "Rotate X");
        assert_eq!(line.beginning("rotate").text(), "rotate X");
    }

    #[test]
    fn choices_are_listed() {
        assert_eq!(one_of(&[]), "");
        assert_eq!(one_of(&["a"]), "a");
        assert_eq!(one_of(&["a", "b", "c"]), "a, b or c");
    }

    #[test]
    fn what_was_found_is_cut_and_moves_no_cursor() {
        assert_eq!(quoted("a\u{1b}[2J"), "'a\\u{1b}[2J'");
        assert_eq!(
            visible("a\u{1b}[2J\u{202e}é\"b"),
            "a\\u{1b}[2J\\u{202e}é\"b"
        );
        assert_eq!(quoted(&"x".repeat(50)), format!("'{}...'", "x".repeat(40)));
    }
}
