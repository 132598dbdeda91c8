//! Numbers and lists as a person reads them: digits in threes, powers of two, short lists.

/// Above this, a float is written with an exponent.
const MOST_WRITTEN_OUT: f64 = 1e21;

/// The most members that a list shows.
const MOST_LISTED: usize = 8;

/// Digits in groups of three.
fn grouped(digits: &str) -> String {
    let mut text = String::new();
    for (place, digit) in digits.chars().enumerate() {
        if place > 0 && (digits.len() - place).is_multiple_of(3) {
            text.push(',');
        }
        text.push(digit);
    }
    text
}

/// A whole number.
pub fn whole(number: u64) -> String {
    grouped(&number.to_string())
}

/// A float: every digit in front of the point, and one behind it if it has any.
pub fn float(number: f64) -> String {
    if number.abs() >= MOST_WRITTEN_OUT {
        return format!("{number:.4e}");
    }
    let decimals = usize::from(number.fract() != 0.0);
    let text = format!("{:.decimals$}", number.abs());
    let (digits, rest) = text.split_at(text.find('.').unwrap_or(text.len()));
    let sign = if number < 0.0 { "-" } else { "" };
    format!("{sign}{}{rest}", grouped(digits))
}

/// A dimension, with the power of two that it is, if it is one.
pub fn dimension(number: u64) -> String {
    match number.is_power_of_two() {
        true => format!("{} = 2^{}", whole(number), number.trailing_zeros()),
        false => whole(number),
    }
}

/// Coordinates or components with spaces between; a long list is cut in the middle.
pub fn list(numbers: &[usize]) -> String {
    let texts: Vec<_> = numbers.iter().map(usize::to_string).collect();
    match texts.len() {
        length if length <= MOST_LISTED => texts.join(" "),
        length => format!(
            "{} ... {} ({length} in all)",
            texts[..MOST_LISTED - 2].join(" "),
            texts[length - 1]
        ),
    }
}

/// A text of at most so many characters, with three dots where it was cut.
pub fn cut(text: &str, most: usize) -> String {
    if text.chars().count() <= most {
        return text.to_owned();
    }
    let kept: String = text.chars().take(most.saturating_sub(3)).collect();
    format!("{kept}...")
}

/// Words behind a first part, in lines of at most so many characters; further lines begin
/// below the first word. A word that is longer than a line stands alone.
pub fn wrapped(first: &str, words: &str, columns: usize) -> String {
    let indent = first.chars().count();
    let mut text = first.to_owned();
    let mut length = indent;
    let mut is_first = true;
    for word in words.split(' ') {
        let more = word.chars().count();
        if !is_first && length + 1 + more > columns {
            text.push('\n');
            text.extend(std::iter::repeat_n(' ', indent));
            length = indent;
        } else if !is_first {
            text.push(' ');
            length += 1;
        }
        text.push_str(word);
        length += more;
        is_first = false;
    }
    text + "\n"
}

/// Ascending numbers as ranges.
pub fn ranges(numbers: &[usize]) -> String {
    let mut parts: Vec<(usize, usize)> = Vec::new();
    for &number in numbers {
        match parts.last_mut() {
            Some((_, last)) if *last + 1 == number => *last = number,
            _ => parts.push((number, number)),
        }
    }
    let text = |&(first, last): &(usize, usize)| match last - first {
        0 => first.to_string(),
        _ => format!("{first}-{last}"),
    };
    parts.iter().map(text).collect::<Vec<_>>().join(" ")
}

/// A count and its noun.
pub fn count(number: u64, one: &str, more: &str) -> String {
    format!("{} {}", whole(number), if number == 1 { one } else { more })
}

#[cfg(test)]
mod tests {
    use super::*;

    #[test]
    fn numbers_are_grouped() {
        assert_eq!(whole(0), "0");
        assert_eq!(whole(999), "999");
        assert_eq!(whole(1_234_567), "1,234,567");
        assert_eq!(float(1024.0), "1,024");
        assert_eq!(float(79.2), "79.2");
        assert_eq!(float(-8192.5), "-8,192.5");
        assert_eq!(float(2f64.powi(512)), "1.3408e154");
        assert_eq!(float(2f64.powi(61)), "2,305,843,009,213,693,952");
        assert_eq!(dimension(256), "256 = 2^8");
        assert_eq!(dimension(6), "6");
        assert_eq!(dimension(0), "0");
    }

    #[test]
    fn lists_are_cut() {
        assert_eq!(list(&[3, 1, 2]), "3 1 2");
        let long: Vec<_> = (0..61).collect();
        assert_eq!(list(&long), "0 1 2 3 4 5 ... 60 (61 in all)");
        assert_eq!(ranges(&[0, 1, 2, 5, 7, 8]), "0-2 5 7-8");
        assert_eq!(cut("abcdefgh", 6), "abc...");
        assert_eq!(cut("abcdef", 6), "abcdef");
    }

    #[test]
    fn words_go_on_below_the_first() {
        assert_eq!(wrapped("  a: ", "one two", 12), "  a: one two\n");
        assert_eq!(wrapped("  a: ", "one two", 11), "  a: one\n     two\n");
        assert_eq!(wrapped("", "longer than so", 6), "longer\nthan\nso\n");
        assert_eq!(wrapped("- ", "", 6), "- \n");
    }
}
