//! What a file is, told from its bytes: a picture, a stored plan, a circuit, a list of pending
//! operations, other text, or none of these; and what is said of one that is not what was asked
//! for. Nothing in here judges whether a file is a good one of its kind.

use midvokt::{FILE_VERSION, TRAILER_WORDS};

use crate::kept::MOST_BYTES;

/// The bytes of a word.
const WORD: usize = 8;
/// The least bytes that are told as text in UTF-16 without a mark: fewer say too little.
const LEAST_UTF16: usize = 8;

/// What a file is.
#[derive(Clone, Copy, Debug, PartialEq, Eq)]
pub enum Kind {
    /// It has no byte.
    Empty,
    /// An SVG picture.
    Picture,
    /// Bytes whose last words say their own length and a version, as those of a stored plan, and
    /// no more of them than one has.
    StoredPlan,
    /// Text with a line of a circuit's head.
    Circuit,
    /// Text with a line of a list's width.
    List,
    /// Other text in UTF-8.
    Text,
    /// Text in UTF-16, as its first two bytes say, or as all of it is read.
    Utf16,
    /// None of these.
    Binary,
}

impl Kind {
    /// The kind in words.
    pub fn name(self) -> &'static str {
        match self {
            Self::Empty => "an empty file",
            Self::Picture => "a picture",
            Self::StoredPlan => "a stored plan",
            Self::Circuit => "a circuit",
            Self::List => "a list of pending operations",
            Self::Text => "text",
            Self::Utf16 => "text in UTF-16",
            Self::Binary => "binary data",
        }
    }

    /// What to do with a file of this kind where another was asked for by an option, or by none.
    fn way(self, option: &str) -> String {
        match self {
            Self::StoredPlan => "; --stored shows it".to_owned(),
            Self::List => "; --optimize shows it".to_owned(),
            Self::Circuit => format!("; it is shown without {option}"),
            Self::Utf16 => "; save it as UTF-8".to_owned(),
            _ => String::new(),
        }
    }
}

/// The word of a file that ends so many bytes before its end.
fn word_before_end(bytes: &[u8], behind: usize) -> Option<u64> {
    let end = bytes.len().checked_sub(behind)?;
    let word = bytes.get(end.checked_sub(WORD)?..end)?;
    Some(u64::from_le_bytes(word.try_into().ok()?))
}

/// Whether bytes end with their own length and with a version, as a stored plan does; neither
/// where there are more than one has, or fewer.
fn ends(bytes: &[u8]) -> [bool; 2] {
    let has_length = (TRAILER_WORDS * WORD..=MOST_BYTES).contains(&bytes.len());
    let has_words = has_length && bytes.len().is_multiple_of(WORD);
    let says_length = word_before_end(bytes, WORD) == Some(bytes.len() as u64);
    let says_version = word_before_end(bytes, 0) == Some(FILE_VERSION);
    [says_length, says_version].map(|says| has_words && says)
}

/// Whether bytes end as a stored plan does.
fn is_stored_plan(bytes: &[u8]) -> bool {
    ends(bytes) == [true; 2]
}

/// Whether bytes may be a stored plan with a damaged end: one of its last two words is right.
pub fn may_be_stored_plan(bytes: &[u8]) -> bool {
    ends(bytes) != [false; 2]
}

/// Whether bytes begin as text in UTF-16 does, and no unit of them is 0.
fn is_utf16(bytes: &[u8]) -> bool {
    let begins = bytes.starts_with(&[0xff, 0xfe]) || bytes.starts_with(&[0xfe, 0xff]);
    begins && bytes.chunks_exact(2).all(|unit| unit != [0, 0])
}

/// What stands behind a declaration, a comment or a document type in front of XML; none where it
/// does not end.
fn behind_markup(text: &str) -> Option<&str> {
    let has_list = |text: &str| {
        let place = text.find(['[', '>']);
        place.is_some_and(|place| text[place..].starts_with('['))
    };
    let (_, rest) = match text {
        _ if text.starts_with("<?") => text.split_once("?>"),
        _ if text.starts_with("<!--") => text.split_once("-->"),
        _ if has_list(text) => text.split_once(']')?.1.split_once('>'),
        _ => text.split_once('>'),
    }?;
    Some(rest.trim_start())
}

/// Whether text begins as an SVG picture does, behind a declaration, comments or a document type.
fn is_picture(text: &str) -> bool {
    let mut rest = text.trim_start();
    while rest.starts_with("<?") || rest.starts_with("<!") {
        rest = behind_markup(rest).unwrap_or("");
    }
    let behind_name = rest.strip_prefix("<svg").unwrap_or("");
    behind_name.starts_with(|c: char| c.is_whitespace() || c == '>' || c == '/')
}

/// Whether a line of text has one of these words in front and a number behind it, comments aside,
/// in whatever case.
fn has_line(text: &str, words: &[&str]) -> bool {
    let is_one = |line: &str| {
        let mut said = line.split('#').next().unwrap_or("").split_whitespace();
        let first = said.next().unwrap_or("");
        let is_known = words.iter().any(|known| first.eq_ignore_ascii_case(known));
        is_known
            && said
                .next()
                .is_some_and(|word| word.starts_with(|c: char| c.is_ascii_digit()))
    };
    text.lines().any(is_one)
}

/// What text is.
fn of_text(text: &str) -> Kind {
    match text {
        _ if is_picture(text) => Kind::Picture,
        _ if has_line(text, &["initial", "max"]) => Kind::Circuit,
        _ if has_line(text, &["width"]) => Kind::List,
        _ => Kind::Text,
    }
}

/// Whether bytes are read as UTF-16 of this order without an odd sign, in words that are mostly
/// of ASCII.
fn reads_as_utf16(bytes: &[u8], unit: fn([u8; 2]) -> u16) -> bool {
    let units = || bytes.chunks_exact(2).map(|two| unit([two[0], two[1]]));
    let is_odd = |sign: char| sign.is_control() && !sign.is_whitespace();
    let mut signs = char::decode_utf16(units());
    let of_ascii = units().filter(|unit| *unit < 0x80).count();
    4 * of_ascii > bytes.len() && signs.all(|sign| sign.is_ok_and(|sign| !is_odd(sign)))
}

/// Whether bytes are text in UTF-16 without a mark in front.
fn is_unmarked_utf16(bytes: &[u8]) -> bool {
    let has_pairs = bytes.len().is_multiple_of(2) && bytes.contains(&0);
    let reads = |unit| reads_as_utf16(bytes, unit);
    let is_long = bytes.len() >= LEAST_UTF16;
    is_long && has_pairs && (reads(u16::from_le_bytes) || reads(u16::from_be_bytes))
}

/// The text that bytes are, without a mark in front; none where they are something else.
fn text_of(bytes: &[u8]) -> Option<&str> {
    let text = std::str::from_utf8(bytes).ok()?;
    (!text.contains('\0')).then(|| text.trim_start_matches('\u{feff}'))
}

/// What bytes are that are no stored plan.
fn of_other(bytes: &[u8]) -> Kind {
    match text_of(bytes) {
        Some(text) => of_text(text),
        None if is_utf16(bytes) || is_unmarked_utf16(bytes) => Kind::Utf16,
        None => Kind::Binary,
    }
}

/// Whether binary data may be text in another encoding: no byte is a control character but white
/// space and the escape character.
pub fn may_be_text(bytes: &[u8]) -> bool {
    let may_be = |&byte: &u8| !byte.is_ascii_control() || matches!(byte, 0x09..=0x0d | 0x1b);
    bytes.iter().all(may_be)
}

/// Whether bytes may be the words of a circuit: a head of four, of which the ceiling is below
/// 2^32, and records of eight, of which the first is a kind.
pub fn may_be_words(bytes: &[u8]) -> bool {
    let below = |word: &[u8], limit: u64| {
        let word = word
            .iter()
            .rev()
            .fold(0, |word, &byte| word << 8 | u64::from(byte));
        word < limit
    };
    let Some((head, records)) = bytes.split_at_checked(4 * WORD) else {
        return false;
    };
    let mut records = records.chunks(8 * WORD);
    below(&head[3 * WORD..], 1 << 32)
        && records.all(|record| record.len() == 8 * WORD && below(&record[..WORD], 6))
}

/// Whether binary data may be text with zero bytes in it, as text in UTF-32 is: of the others none
/// is a control character, and they are more than a fifth.
pub fn may_hold_text(bytes: &[u8]) -> bool {
    let others: Vec<_> = bytes.iter().copied().filter(|&byte| byte != 0).collect();
    5 * others.len() > bytes.len() && may_be_text(&others)
}

/// What a file with these bytes is.
pub fn of(bytes: &[u8]) -> Kind {
    match bytes {
        [] => Kind::Empty,
        _ if is_stored_plan(bytes) => Kind::StoredPlan,
        _ => of_other(bytes),
    }
}

/// What a file is that begins with these bytes and has more than a stored plan: what it is so far,
/// a character that is cut at the end aside.
pub fn of_opening(bytes: &[u8]) -> Kind {
    let end = match std::str::from_utf8(bytes) {
        Err(error) if error.error_len().is_none() => error.valid_up_to(),
        _ => bytes.len(),
    };
    of_other(&bytes[..end])
}

/// What is said of a file that is something else than the circuit or the list that was asked for;
/// nothing of one that may be it, or that is text with an odd byte.
pub fn other(bytes: &[u8], wanted: Kind) -> Option<String> {
    let found = of(bytes);
    let has_width = || text_of(bytes).is_some_and(|text| has_line(text, &["width"]));
    let is_other = match found {
        Kind::Circuit | Kind::List if found == wanted => false,
        Kind::Circuit => !has_width(),
        Kind::Binary => !may_be_text(bytes),
        Kind::Empty | Kind::Text => false,
        _ => true,
    };
    let (wanted, way) = (wanted.name(), found.way("--optimize"));
    is_other.then(|| format!("expected {wanted}, found {}{way}", found.name()))
}

/// What is said of a file of this kind that is no stored plan; nothing where its bytes say more.
pub fn unstored(found: Kind) -> Option<String> {
    let is_told = !matches!(found, Kind::Empty | Kind::StoredPlan | Kind::Binary);
    let way = match found {
        Kind::Circuit | Kind::List => found.way("--stored"),
        _ => String::new(),
    };
    is_told.then(|| format!("it is {} and no stored plan{way}", found.name()))
}

#[cfg(test)]
mod tests {
    use super::*;
    use crate::{circuit, planning, svg, words};

    #[test]
    fn what_is_written_here_is_told_as_what_it_is() {
        let text = "initial 3\nmax 8\nrotate X_X 0.5\n";
        let circuit = circuit::parse(text.as_bytes()).unwrap();
        let view = planning::View::of("-", &circuit).unwrap();
        assert_eq!(of(svg::picture(&view).as_bytes()), Kind::Picture);
        assert_eq!(of(&planning::stored(&circuit).unwrap()), Kind::StoredPlan);
        assert_eq!(of(&words::encode(&circuit)), Kind::Binary);
        assert_eq!(of(text.as_bytes()), Kind::Circuit);
        assert_eq!(of(b"# a list\n WIDTH 3\nrecord 1"), Kind::List);
        assert_eq!(
            of(b"Max will come\non Monday\nwidth of the door"),
            Kind::Text
        );
    }

    #[test]
    fn other_files_are_told_apart() {
        let xml = "<?xml version=\"1.0\"?>\n<!-- made elsewhere -->\n<svg width=\"1\"/>";
        assert_eq!(of(xml.as_bytes()), Kind::Picture);
        assert_eq!(of(b"<html><svgs></html>"), Kind::Text);
        assert_eq!(of(b"<html><svg width=\"1\"/></html>"), Kind::Text);
        assert_eq!(of(b"rotate X0 <svg >"), Kind::Text);
        assert_eq!(of("\u{feff}max 8".as_bytes()), Kind::Circuit);
        assert_eq!(of(b"# initial 3\nrecord"), Kind::Text);
        assert_eq!(of(b"\xff\xfei\0n\0"), Kind::Utf16);
        assert_eq!(of(b"\xfe\xff\0i\0n"), Kind::Utf16);
        assert_eq!(of(b"m\0a\0x\0\x20\0\xc0\x03"), Kind::Utf16);
        assert_eq!(of(b"\0m\0a\0x\0\x0a"), Kind::Utf16);
        assert_eq!(of(b"\0m\0a\0x"), Kind::Binary);
        assert_eq!(of(b"\0m\0a\0x\0\x01"), Kind::Binary);
        assert_eq!(of(b"\0m\0a\x4e\x01\x4e\x02\x4e\x03"), Kind::Binary);
        assert_eq!(of(b""), Kind::Empty);
        assert_eq!(of(b"a\0b"), Kind::Binary);
        assert_eq!(of(b"\xc3\x28"), Kind::Binary);
        assert_eq!(of(&[0; 128]), Kind::Binary);
    }

    #[test]
    fn a_picture_begins_with_its_element() {
        let pictures = [
            "<svg/>",
            "\n <svg\twidth='1'>",
            "<!-- <html> --><?made?> <!-- again --><svg>",
            "<!DOCTYPE svg PUBLIC \"-//W3C\" \"a.dtd\">\n<svg >",
            "<!DOCTYPE svg [ <!ENTITY a \"b\"> ] >\n<svg >",
        ];
        for text in pictures {
            assert_eq!(of(text.as_bytes()), Kind::Picture, "{text}");
        }
        let others = [
            "<svg",
            "<svgs>",
            "<!-- <svg> -->",
            "<!-- <svg>",
            "<!DOCTYPE svg [ <svg> ",
            "<!-- a picture --><html><svg></svg></html>",
            "&lt;<svg>",
        ];
        for text in others {
            assert_eq!(of(text.as_bytes()), Kind::Text, "{text}");
        }
    }

    #[test]
    fn words_and_stored_plans_are_no_text_in_utf_16() {
        let circuit = circuit::parse(b"initial 65279\nmax 8").unwrap();
        let words = words::encode(&circuit);
        assert!(words.starts_with(&[0xff, 0xfe]));
        assert_eq!(of(&words), Kind::Binary);
        let mut plan = planning::stored(&circuit::parse(b"initial 3\nmax 8").unwrap()).unwrap();
        plan[..2].copy_from_slice(&[0xff, 0xfe]);
        assert_eq!(of(&plan), Kind::StoredPlan);
    }

    #[test]
    fn a_stored_plan_is_no_longer_than_one_can_be() {
        let of_length = |length: usize| {
            let mut bytes = vec![0; length];
            bytes[length - 16..length - 8].copy_from_slice(&(length as u64).to_le_bytes());
            bytes[length - 8..].copy_from_slice(&FILE_VERSION.to_le_bytes());
            of(&bytes)
        };
        assert_eq!(of_length(TRAILER_WORDS * 8 - 8), Kind::Binary);
        assert_eq!(of_length(TRAILER_WORDS * 8), Kind::StoredPlan);
        assert_eq!(of_length(TRAILER_WORDS * 8 + 1), Kind::Binary);
        assert_eq!(of_length(MOST_BYTES), Kind::StoredPlan);
        assert_eq!(of_length(MOST_BYTES + 8), Kind::Binary);
    }

    #[test]
    fn text_of_another_encoding_may_be_told() {
        assert!(may_be_text(b"initial 3 # caf\xe9\r\n\tmax 8\n\x1b[0m"));
        for control in [0, 1, 8, 0x0e, 0x1a, 0x1c, 0x1f, 0x7f] {
            assert!(!may_be_text(&[b'a', control, 0xe9]), "{control}");
        }
        let words = words::encode(&circuit::parse(b"initial 3\nmax 8").unwrap());
        assert!(!may_be_text(&words));
    }

    #[test]
    fn an_opening_tells_what_a_long_file_is() {
        for (text, kind) in [
            ("<svg>", Kind::Picture),
            ("max 8\n", Kind::Circuit),
            ("width 8\n", Kind::List),
            ("a", Kind::Text),
        ] {
            let whole = text.to_owned() + "é";
            assert_eq!(of_opening(&whole.as_bytes()[..whole.len() - 1]), kind);
            assert_eq!(of_opening(whole.as_bytes()), kind);
        }
        assert_eq!(of_opening(b"a\xc3("), Kind::Binary);
        assert_eq!(of_opening(b"a\0\xc3"), Kind::Binary);
        assert_eq!(of_opening(b"\xff\xfea\0b"), Kind::Utf16);
        let plan = planning::stored(&circuit::parse(b"initial 3\nmax 8").unwrap()).unwrap();
        assert_eq!(of_opening(&plan), Kind::Binary);
    }

    #[test]
    fn what_was_not_asked_for_is_told() {
        let plan = planning::stored(&circuit::parse(b"initial 1\nmax 8").unwrap()).unwrap();
        let files: [(&[u8], Option<&str>, Option<&str>); 10] = [
            (
                b"max 8",
                None,
                Some("a circuit; it is shown without --optimize"),
            ),
            (
                b"width 8",
                Some("a list of pending operations; --optimize shows it"),
                None,
            ),
            (b"\xef\xbb\xbfwidth 8\ninitial 3", None, None),
            (
                &plan,
                Some("a stored plan; --stored shows it"),
                Some("a stored plan; --stored shows it"),
            ),
            (b"<svg>", Some("a picture"), Some("a picture")),
            (
                b"\xff\xfem\0",
                Some("text in UTF-16; save it as UTF-8"),
                Some("text in UTF-16; save it as UTF-8"),
            ),
            (b"max\0", Some("binary data"), Some("binary data")),
            (b"# f\xfcr\nmax 8\r\n", None, None),
            (b"rotate X 1", None, None),
            (b"", None, None),
        ];
        for (bytes, circuit, list) in files {
            let told = |wanted: &str, found: &str| format!("expected {wanted}, found {found}");
            let wanted = circuit.map(|found| told("a circuit", found));
            assert_eq!(other(bytes, Kind::Circuit), wanted);
            let wanted = list.map(|found| told("a list of pending operations", found));
            assert_eq!(other(bytes, Kind::List), wanted);
        }
    }

    #[test]
    fn what_is_no_stored_plan_is_told() {
        let told = |bytes: &[u8]| unstored(of(bytes)).unwrap_or_default();
        assert_eq!(
            told(b"max 8"),
            "it is a circuit and no stored plan; it is shown without --stored"
        );
        assert_eq!(
            told(b"width 8"),
            "it is a list of pending operations and no stored plan; --optimize shows it"
        );
        assert_eq!(told(b"<svg>"), "it is a picture and no stored plan");
        assert_eq!(told(b"{}"), "it is text and no stored plan");
        assert_eq!(
            told(b"\xff\xfe{\0"),
            "it is text in UTF-16 and no stored plan"
        );
        assert_eq!(told(b""), "");
        assert_eq!(told(&[1; 16]), "it is text and no stored plan");
        assert_eq!(told(&[0; 16]), "");
    }
}
