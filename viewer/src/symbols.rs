//! Reads and writes what depends on symbols: s1^s3, not s1^s3, 0 or 1. Symbols stand for bits that are
//! not known yet, and ^ for the exclusive or.

use midvokt::{SymbolicBool, SIGN_CONDITIONS};

use crate::fields::Fields;
use crate::line::{Fault, Word};

const SIGN: &str = "s1^s3, not s1^s3, 0 or 1";
const TERM: &str = "a symbol such as s7 (s1 to s2147483647), 0 or 1";
const SYMBOL: &str = "a symbol such as s7 (s0 to s2147483647)";

/// A number that a field of an operation holds.
fn held(word: Word<'_>, expected: &str) -> Result<i32, Fault> {
    let number = word.whole(expected)?;
    i32::try_from(number).map_err(|_| word.fault(expected))
}

/// The next word as a number that a field of an operation holds.
pub fn number(fields: &mut Fields<'_>, expected: &str) -> Result<i32, Fault> {
    held(fields.next(expected)?, expected)
}

/// A symbol's number behind its s.
fn symbol(word: Word<'_>, expected: &str) -> Result<i32, Fault> {
    let number = |first: char| match word.text.starts_with(first) {
        true => held(word.from(1), expected).ok(),
        false => None,
    };
    match (number('s'), number('S')) {
        (Some(number), _) => Ok(number),
        (None, Some(_)) => Err(word.in_small_letters(&word.text.to_ascii_lowercase())),
        (None, None) => Err(word.fault(expected)),
    }
}

/// The next word as a symbol.
pub fn next(fields: &mut Fields<'_>) -> Result<i32, Fault> {
    symbol(fields.next(SYMBOL)?, SYMBOL)
}

/// Adds one term of an exclusive or.
fn add(sign: &mut SymbolicBool, term: Word<'_>) -> Result<(), Fault> {
    match term.text {
        "0" => return Ok(()),
        "1" => {
            sign.constant = !sign.constant;
            return Ok(());
        }
        _ => {}
    }
    let condition = symbol(term, TERM)?;
    if condition == 0 {
        return Err(term.fault("a symbol from s1 on"));
    }
    if sign.conditions.contains(&condition) {
        return Err(term.fault_found("each symbol once", format!("s{condition} again")));
    }
    if sign.conditions.len() == SIGN_CONDITIONS {
        return Err(term.fault(format!("no more than {SIGN_CONDITIONS} symbols")));
    }
    sign.conditions.push(condition);
    Ok(())
}

/// Whether the next word is 'not', which then is behind.
fn negation(fields: &mut Fields<'_>) -> Result<bool, Fault> {
    let Some(word) = fields.peek() else {
        return Ok(false);
    };
    match word.meant(&["not"]) {
        Some(known) => Err(word.in_small_letters(known)),
        None if word.text == "not" => fields.next(SIGN).map(|_| true),
        None => Ok(false),
    }
}

/// That the next words are an exclusive or in several words, if they are.
fn spaced(fields: &Fields<'_>) -> Option<Fault> {
    let words = fields.run(|word, next| word.ends_with('^') || next.starts_with('^'))?;
    let parts: Vec<_> = words.iter().map(|word| word.text).collect();
    let joined = parts.concat().to_ascii_lowercase();
    let is_symbol = |text: &str| text.starts_with('s') && text.len() > 1;
    let is_sign = joined
        .split('^')
        .all(|text| is_symbol(text) || matches!(text, "0" | "1"));
    let fault = Word::mended_run(&words, &joined, "an exclusive or has no spaces")?;
    is_sign.then_some(fault)
}

/// The next word, or two with 'not' in front, as a sign. Its symbols may come in any order.
pub fn parse(fields: &mut Fields<'_>) -> Result<SymbolicBool, Fault> {
    let is_negated = negation(fields)?;
    if let Some(fault) = spaced(fields) {
        return Err(fault);
    }
    let word = fields.next(SIGN)?;
    let mut sign = SymbolicBool::from(is_negated);
    let (mut byte, mut column) = (0, 0);
    for text in word.text.split('^') {
        add(&mut sign, word.at(byte, column).front(text.len()))?;
        byte += text.len() + 1;
        column += text.chars().count() + 1;
    }
    sign.conditions.sort_unstable();
    Ok(sign)
}

/// A sign as a file has it.
pub fn text(sign: &SymbolicBool) -> String {
    let symbols = sign.conditions.iter().map(|number| format!("s{number}"));
    let symbols = symbols.collect::<Vec<_>>().join("^");
    match (sign.constant, symbols.is_empty()) {
        (false, true) => "0".to_owned(),
        (true, true) => "1".to_owned(),
        (false, false) => symbols,
        (true, false) => format!("not {symbols}"),
    }
}

#[cfg(test)]
mod tests {
    use super::*;
    use crate::line::Line;

    /// What stands behind the first word of a line.
    fn read(text: &str) -> Result<SymbolicBool, Fault> {
        let line = Line::new(1, text);
        parse(&mut Fields::new(&line, &[])?)
    }

    #[test]
    fn signs_are_read_and_written() {
        for (said, constant, conditions) in [
            ("s1^s3", false, &[1, 3][..]),
            ("not s1^s3", true, &[1, 3]),
            ("0", false, &[]),
            ("1", true, &[]),
            ("s2147483647", false, &[i32::MAX]),
        ] {
            let sign = read(&format!("if {said}")).unwrap();
            assert_eq!(
                (sign.constant, &sign.conditions[..]),
                (constant, conditions)
            );
            assert_eq!(text(&sign), said);
        }
        let other = read("if not s9^1^s2").unwrap();
        assert_eq!(text(&other), "s2^s9");
    }

    #[test]
    fn an_exclusive_or_has_no_spaces() {
        for (text, column, wanted) in [
            ("s1 ^ s2", 4, "s1^s2"),
            ("s1 ^S2^ 1", 4, "s1^s2^1"),
            ("not s1 ^ s2", 8, "s1^s2"),
        ] {
            let found = text.trim_start_matches("not ");
            let why = "an exclusive or has no spaces";
            assert_eq!(
                read(&format!("if {text} now")).unwrap_err().to_string(),
                format!("1:{column}: expected {wanted}, found '{found}': {why}")
            );
        }
    }

    #[test]
    fn words_of_their_own_are_no_exclusive_or() {
        assert_eq!(read("if s1 s2").unwrap(), read("if s1").unwrap());
        for text in ["s1 ^", "s1 ^ t2", "s ^ s1", "^ s1"] {
            let line = format!("if {text}");
            let line = Line::new(1, &line);
            assert_eq!(spaced(&Fields::new(&line, &[]).unwrap()), None, "{text}");
        }
    }

    #[test]
    fn bad_terms_have_their_places() {
        let told = |text: &str| read(text).unwrap_err().to_string();
        assert_eq!(
            told("if"),
            format!("1:3: expected {SIGN}, found the end of the line")
        );
        assert_eq!(
            told("if not"),
            format!("1:7: expected {SIGN}, found the end of the line")
        );
        assert_eq!(told("if s1^x"), format!("1:7: expected {TERM}, found 'x'"));
        assert_eq!(
            told("if s1^"),
            format!("1:7: expected {TERM}, found nothing")
        );
        assert_eq!(told("if s"), format!("1:4: expected {TERM}, found 's'"));
        assert_eq!(
            told("if s0"),
            "1:4: expected a symbol from s1 on, found 's0'"
        );
        assert_eq!(
            told("if s1^s2^s1"),
            "1:10: expected each symbol once, found s1 again"
        );
        assert_eq!(
            told("if s2147483648"),
            format!("1:4: expected {TERM}, found 's2147483648'")
        );
        assert_eq!(
            told("if s1^s2^s3^s4^s5^s6^s7^s8^s9"),
            "1:28: expected no more than 8 symbols, found 's9'"
        );
    }
}
