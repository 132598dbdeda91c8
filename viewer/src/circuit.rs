//! Reads a circuit file: the head's lines, then one line a record. Every bad line is told,
//! with its place and what was expected there.

use midvokt::{ActiveMeasurement, Head, Record, Rotation, LARGEST_CEILING};

use crate::angle;
use crate::fields::Fields;
use crate::line::{one_of, quoted, Fault, Faults, Line};
use crate::pauli::{self, active, Pauli, Told};

/// The words that begin a line; those of the head first.
const FIRST_WORDS: [&str; 11] = [
    "initial", "max", "expvals", "ceiling", "rotate", "promote", "measure", "expect", "record",
    "detector", "dormant",
];
/// How many of them are the head's.
const HEAD_WORDS: usize = 4;
/// The numbers that may stand behind each word of the head.
const HEAD_NUMBERS: [&str; HEAD_WORDS] = [
    "a whole number from 0 to 512",
    "a whole number from 0 to 61, below the ceiling",
    "a whole number below 2^64",
    "a whole number from 1 to 62",
];

/// A record and where it stands in the file.
#[derive(Clone, Debug, PartialEq)]
pub struct Placed {
    /// The line, from 1.
    pub line: usize,
    /// The line's words, without its comment.
    pub text: String,
    /// The active coordinates in front of it.
    pub width: u64,
    /// The record itself.
    pub record: Record,
}

/// A whole circuit.
#[derive(Clone, Debug, PartialEq)]
pub struct Circuit {
    /// What stands in front of the records.
    pub head: Head,
    /// The lines of initial, max, expvals and ceiling; 0 for one that is not given.
    pub head_lines: [usize; HEAD_WORDS],
    /// The records in their order.
    pub records: Vec<Placed>,
}

impl Circuit {
    /// The greatest number of active coordinates at any time.
    pub fn widest(&self) -> u64 {
        let after = self.records.iter().map(|placed| {
            let promoted = u64::from(placed.record == Record::Promotion);
            placed.width.saturating_add(promoted)
        });
        after.fold(self.head.initial_k, u64::max)
    }

    /// The ceiling, if the file gives one.
    pub fn given_ceiling(&self) -> Option<u64> {
        (self.head_lines[3] != 0).then_some(self.head.ceiling)
    }
}

/// What has been read so far.
#[derive(Default)]
struct Reader {
    /// Value and line of initial, max, expvals and ceiling.
    head: [Option<(u64, usize)>; HEAD_WORDS],
    /// The active coordinates; none where a bad line leaves them open.
    width: Option<u64>,
    /// The first line behind the head.
    first_record: Option<usize>,
    records: Vec<Placed>,
    faults: Faults,
}

impl Reader {
    /// Reads a line and notes what is bad in it.
    fn line(&mut self, line: &Line<'_>) {
        if let Err(fault) = line.read(&FIRST_WORDS, |line| self.words(line)) {
            self.faults.push(fault);
        }
    }

    /// Reads a line that says something.
    fn words(&mut self, line: &Line<'_>) -> Result<(), Fault> {
        let mut head = FIRST_WORDS[..HEAD_WORDS].iter();
        match head.position(|&word| word == line.words[0].text) {
            Some(place) => self.head_line(line, place),
            None => self.record_line(line),
        }
    }

    /// A line of the head.
    fn head_line(&mut self, line: &Line<'_>, place: usize) -> Result<(), Fault> {
        let first = line.words[0];
        if let Some((_, earlier)) = self.head[place] {
            let found = format!("a second one; the first is on line {earlier}");
            return Err(first.fault_found(format!("one line '{} N'", first.text), found));
        }
        if let Some(record) = self.first_record {
            let expected = format!("'{}' before the first record, on line {record}", first.text);
            return Err(first.fault_found(expected, "it behind"));
        }
        // A bad value counts as given, so that nothing more is said of it.
        self.head[place] = Some((0, line.number));
        let mut fields = Fields::new(line, &[])?;
        let expected = HEAD_NUMBERS[place];
        let value = fields.next(expected)?.whole(expected)?;
        fields.finish()?;
        self.head[place] = Some((value, line.number));
        if place == 0 {
            self.width = Some(value);
        }
        Ok(())
    }

    /// A line that holds a record. Its first word says what becomes of the width, even where
    /// the rest is bad.
    fn record_line(&mut self, line: &Line<'_>) -> Result<(), Fault> {
        let first = line.words[0];
        let width = self.width;
        self.width = match first.text {
            "promote" => width.map(|width| width.saturating_add(1)),
            "measure" => width.map(|width| width.saturating_sub(1)),
            "rotate" | "expect" | "record" | "detector" | "dormant" => width,
            _ => None,
        };
        let record = match first.text {
            "rotate" => rotation(line, width),
            "promote" => alone(line, Record::Promotion),
            "measure" => measurement(line, width),
            "expect" => expectation(line, width),
            "record" => alone(line, Record::RecordMeasurement),
            "detector" => alone(line, Record::RecordDetector),
            "dormant" => alone(line, Record::DormantBranch),
            _ => return Err(first.fault(one_of(&FIRST_WORDS))),
        };
        if self.first_record.is_none() {
            self.first_record = Some(line.number);
            self.head_is_whole(line.number, &quoted(first.text));
        }
        self.records.push(Placed {
            line: line.number,
            text: line.text(),
            width: width.unwrap_or(0),
            record: record?,
        });
        Ok(())
    }

    /// Notes what the head lacks where the records begin, or at the end of the file.
    fn head_is_whole(&mut self, line: usize, found: &str) {
        for (place, name) in FIRST_WORDS.iter().enumerate().take(2) {
            if self.head[place].is_none() {
                self.faults.push(Fault {
                    line,
                    column: 1,
                    expected: format!("a line '{name} N' before the records"),
                    found: found.to_owned(),
                });
            }
        }
    }

    /// The circuit, or everything that is bad in the file.
    fn finish(mut self, lines: usize) -> Result<Circuit, Faults> {
        if self.first_record.is_none() {
            self.head_is_whole(lines + 1, "the end of the file");
        }
        if !self.faults.is_empty() {
            return Err(self.faults);
        }
        let [initial, max, expvals, ceiling] = self.head.map(|given| given.map(|(value, _)| value));
        Ok(Circuit {
            head: Head {
                initial_k: initial.unwrap_or(0),
                max_k: max.unwrap_or(0),
                nexpvals: expvals.unwrap_or(0),
                ceiling: ceiling.unwrap_or(LARGEST_CEILING),
            },
            head_lines: self.head.map(|given| given.map_or(0, |(_, line)| line)),
            records: self.records,
        })
    }
}

const PAULI: &str = "a Pauli such as X_X or X0*X2, or masks such as x=5 z=0 phase=1";
/// A mask of a Pauli that is given as numbers.
const MASK: &str = "a mask below 2^64 such as 5, 0x5 or 0b101";
/// The phase of such a Pauli.
pub const EXPONENT: &str = "an exponent of i, 0 to 3";

/// The Pauli of a line: a word, or numbers. A fault tells the width in these words.
pub fn pauli_of(fields: &mut Fields<'_>, width: Option<u64>, told: Told) -> Result<Pauli, Fault> {
    let mut number = |name, expected| match fields.take(name) {
        Some(word) => word.whole(expected).map(Some),
        None => Ok(None),
    };
    let (x, z) = (number("x", MASK)?, number("z", MASK)?);
    let phase = number("phase", EXPONENT)?;
    if x.or(z).or(phase).is_some() {
        if let Some(word) = fields.peek().filter(|word| pauli::begins(word.text)) {
            return Err(word.fault("no Pauli beside x=, z= or phase="));
        }
        return Ok(Pauli {
            x: x.unwrap_or(0),
            z: z.unwrap_or(0),
            phase: phase.unwrap_or(0),
        });
    }
    if let Some(fault) = fields
        .run(pauli::goes_on)
        .and_then(|run| pauli::spaced(&run))
    {
        return Err(fault);
    }
    let word = fields.next(PAULI)?;
    let read = pauli::parse(word, width, told);
    read.map_err(|fault| pauli::small(word, width).unwrap_or(fault))
}

/// A rotation about a Pauli.
fn rotation(line: &Line<'_>, width: Option<u64>) -> Result<Record, Fault> {
    let mut fields = Fields::new(line, &["x", "z", "phase", "sin", "cos"])?;
    let pauli = pauli_of(&mut fields, width, active)?;
    let angle = angle::next(&mut fields, angle::FINITE)?;
    let mut given = |name, computed| match fields.take(name) {
        Some(word) => angle::number(word, "a number from -1 to 1"),
        None => Ok(computed),
    };
    let (sine, cosine) = angle.sin_cos();
    let (sine, cosine) = (given("sin", sine)?, given("cos", cosine)?);
    fields.finish()?;
    Ok(Record::Rotation(Rotation {
        width: width.unwrap_or(0),
        x: pauli.x,
        z: pauli.z,
        phase: pauli.phase,
        angle,
        sine,
        cosine,
    }))
}

/// The position, of so many, whose coordinate leaves: pivot N or pivot=N.
fn pivot_of(fields: &mut Fields<'_>, width: Option<u64>) -> Result<u64, Fault> {
    let position = pauli::position(width, active);
    let word = match fields.take("pivot") {
        Some(word) => word,
        None => {
            let expected = format!("'pivot' and {position}");
            let name = fields.next(&expected)?;
            match name.meant(&["pivot"]) {
                Some(word) => return Err(name.in_small_letters(word)),
                None if name.text == "pivot" => fields.next(&position)?,
                None => return Err(name.fault(expected)),
            }
        }
    };
    word.whole(&position)
}

/// A measurement or an expectation.
fn measured(width: Option<u64>, pauli: Pauli, pivot: u64, expectation: bool) -> Record {
    Record::ActiveMeasurement(ActiveMeasurement {
        width: width.unwrap_or(0),
        x: pauli.x,
        z: pauli.z,
        phase: pauli.phase,
        pivot,
        expectation,
    })
}

/// A measurement that takes a coordinate away.
fn measurement(line: &Line<'_>, width: Option<u64>) -> Result<Record, Fault> {
    let mut fields = Fields::new(line, &["x", "z", "phase", "pivot"])?;
    let pauli = pauli_of(&mut fields, width, active)?;
    let pivot = pivot_of(&mut fields, width)?;
    fields.finish()?;
    Ok(measured(width, pauli, pivot, false))
}

/// An expectation, with a Pauli or without.
fn expectation(line: &Line<'_>, width: Option<u64>) -> Result<Record, Fault> {
    let mut fields = Fields::new(line, &["x", "z", "phase"])?;
    if fields.is_empty() {
        return Ok(Record::expectation());
    }
    let pauli = pauli_of(&mut fields, width, active)?;
    fields.finish()?;
    Ok(measured(width, pauli, 0, true))
}

/// A record of one word.
fn alone(line: &Line<'_>, record: Record) -> Result<Record, Fault> {
    Fields::new(line, &[])?.finish()?;
    Ok(record)
}

/// The text of a file, or the first place that is not UTF-8.
pub fn text_of(bytes: &[u8]) -> Result<&str, Fault> {
    // Some editors put a mark in front of UTF-8.
    let bytes = bytes.strip_prefix(b"\xef\xbb\xbf").unwrap_or(bytes);
    std::str::from_utf8(bytes).map_err(|error| {
        let good = String::from_utf8_lossy(&bytes[..error.valid_up_to()]);
        let last = good.rsplit('\n').next().unwrap_or("");
        Fault {
            line: good.matches('\n').count() + 1,
            column: last.chars().count() + 1,
            expected: "text in UTF-8".to_owned(),
            found: format!("the byte {:#04x}", bytes[error.valid_up_to()]),
        }
    })
}

/// The circuit of a file, or everything that is bad in it.
pub fn parse(bytes: &[u8]) -> Result<Circuit, Faults> {
    let text = text_of(bytes)?;
    let mut reader = Reader::default();
    let mut lines = 0;
    for (place, line) in text.lines().enumerate() {
        lines = place + 1;
        reader.line(&Line::new(lines, line));
    }
    reader.finish(lines)
}

#[cfg(test)]
mod tests {
    use super::*;

    /// A circuit that has no fault.
    fn good(text: &str) -> Circuit {
        parse(text.as_bytes()).unwrap()
    }

    /// The faults of a circuit, as they are told.
    fn bad(text: &str) -> Vec<String> {
        let told = parse(text.as_bytes()).unwrap_err().text("");
        told.lines().map(|line| line[1..].to_owned()).collect()
    }

    #[test]
    fn all_kinds_are_read() {
        let circuit = good(
            "initial 2 # two\nmax 8\n\nrotate XY 0.25\npromote\nrecord\ndetector\n\
             measure -_ZZ pivot 2\ndormant\nexpect\nexpect Z1\n",
        );
        let records: Vec<_> = circuit.records.iter().map(|placed| placed.record).collect();
        assert_eq!(records[0], Record::rotation(2, 3, 2, 1, 0.25));
        assert_eq!(records[1], Record::Promotion);
        assert_eq!(records[4], Record::measurement(3, 0, 6, 2, 2));
        assert_eq!(records[6], Record::expectation());
        assert_eq!(records[7].encode(), [4, 2, 0, 2, 0, 0, 1, 0]);
        assert_eq!(circuit.records[4].line, 8);
        assert_eq!(circuit.widest(), 3);
        assert_eq!(circuit.head_lines, [1, 2, 0, 0]);
    }

    #[test]
    fn the_ceiling_is_the_largest_where_none_is_given() {
        let circuit = good("initial 2\nmax 8\npromote");
        assert_eq!((circuit.head.ceiling, circuit.given_ceiling()), (62, None));
        let circuit = good("ceiling 62 # given\ninitial 2\nmax 8");
        assert_eq!(circuit.given_ceiling(), Some(62));
        for (text, ceiling) in [("0", 0), ("0x20", 32), ("18446744073709551615", u64::MAX)] {
            let circuit = good(&format!("initial 2\nmax 8\n\nceiling {text}\nrecord"));
            assert_eq!(circuit.given_ceiling(), Some(ceiling));
            assert_eq!(circuit.head_lines, [1, 2, 0, 4]);
        }
    }

    #[test]
    fn a_bad_ceiling_is_told_as_its_neighbours_are() {
        let bad = |lines: &str| bad(&format!("initial 2\nmax 8\n{lines}"));
        assert_eq!(
            bad("ceiling 9\nceiling 9"),
            ["4:1: expected one line 'ceiling N', found a second one; the first is on line 3"]
        );
        assert_eq!(
            bad("record\nceiling 9"),
            ["4:1: expected 'ceiling' before the first record, on line 3, found it behind"]
        );
        for (text, found) in [("ceiling", "the end of the line"), ("ceiling -1", "'-1'")] {
            let told = bad(text);
            let wanted = format!("expected a whole number from 1 to 62, found {found}");
            assert!(told[0].ends_with(&wanted), "{told:?}");
            assert_eq!(told.len(), 1, "{told:?}");
        }
        assert_eq!(bad("ceiling 9 9").len(), 1);
    }

    #[test]
    fn words_in_capitals_are_told_and_read_as_what_is_meant() {
        let told = bad(
            "INITIAL 2\nMax 8\nPROMOTE\nmeasure ZZZ PIVOT 2\nMeasure ZZ pivot 1\n\
             rotate x 0.5\nrotate X PI/8 \nrotate X 0.5 SIN=0\nRecord now\nrotate XX 1",
        );
        let small = "words are in small letters";
        assert_eq!(
            told,
            [
                format!("1:1: expected initial, found 'INITIAL': {small}"),
                format!("2:1: expected max, found 'Max': {small}"),
                format!("3:1: expected promote, found 'PROMOTE': {small}"),
                format!("4:13: expected pivot, found 'PIVOT': {small}"),
                format!("5:1: expected measure, found 'Measure': {small}"),
                "6:8: expected X, found 'x': letters of a Pauli are capitals".to_owned(),
                "7:10: expected pi/8, found 'PI/8'".to_owned(),
                format!("8:14: expected sin=0, found 'SIN=0': {small}"),
                format!("9:1: expected record, found 'Record': {small}"),
                "10:9: expected the Pauli to end here (1 coordinate is active), found 'X'"
                    .to_owned(),
            ]
        );
    }

    #[test]
    fn numbers_of_the_head_are_told_with_their_limits() {
        let head = |text: &str| bad(&format!("{text}\ninitial 2\nmax 8"))[0].clone();
        for (text, limits) in [
            (
                "initial 18446744073709551616",
                "a whole number from 0 to 512",
            ),
            ("max 7.5", "a whole number from 0 to 61, below the ceiling"),
            ("expvals -1", "a whole number below 2^64"),
            ("ceiling 1e9", "a whole number from 1 to 62"),
        ] {
            let (word, found) = text.split_once(' ').unwrap();
            let column = word.len() + 2;
            assert_eq!(
                head(text),
                format!("1:{column}: expected {limits}, found '{found}'")
            );
        }
    }

    #[test]
    fn numbers_of_a_record_are_told_with_their_limits() {
        let record = |text: &str| bad(&format!("initial 2\nmax 8\n{text}"))[0].clone();
        for (text, wanted) in [
            (
                "measure ZZ pivot x",
                "18: expected a position below 2 (2 coordinates are active), found 'x'",
            ),
            (
                "measure ZZ pivot=-1",
                "18: expected a position below 2 (2 coordinates are active), found '-1'",
            ),
            (
                "measure ZZ",
                "11: expected 'pivot' and a position below 2 (2 coordinates are active), found \
                 the end of the line",
            ),
            (
                "rotate x=-1 1",
                "10: expected a mask below 2^64 such as 5, 0x5 or 0b101, found '-1'",
            ),
            (
                "rotate phase=i 1",
                "14: expected an exponent of i, 0 to 3, found 'i'",
            ),
            (
                "rotate XX 1 sin=1e400",
                "17: expected a number from -1 to 1, found '1e400'",
            ),
        ] {
            assert_eq!(record(text), format!("3:{wanted}"));
        }
    }

    #[test]
    fn numbers_stand_for_pauli_sine_and_cosine() {
        let circuit = good("initial 3\nmax 8\nrotate x=5 z=0x1 phase=1 0 sin=0.5 cos=-1");
        assert_eq!(
            circuit.records[0].record,
            Record::Rotation(Rotation {
                width: 3,
                x: 5,
                z: 1,
                phase: 1,
                angle: 0.0,
                sine: 0.5,
                cosine: -1.0
            })
        );
        let circuit = good("initial 3\nmax 8\nmeasure z=6 pivot=2");
        assert_eq!(
            circuit.records[0].record,
            Record::measurement(3, 0, 6, 0, 2)
        );
    }

    #[test]
    fn the_sine_and_cosine_are_those_of_the_crate() {
        for text in ["0.1", "pi/8", "-2.5", "1e9"] {
            let circuit = good(&format!("initial 1\nmax 8\nrotate X {text}"));
            let Record::Rotation(rotation) = circuit.records[0].record else {
                panic!("no rotation");
            };
            let same = Record::rotation(1, 1, 0, 0, rotation.angle);
            assert_eq!(circuit.records[0].record, same);
        }
    }

    #[test]
    fn every_bad_line_is_told_once() {
        let told = bad("initial 2\nmax 8\nrotat XX 1\nrotate XXXX\npromote now\n");
        assert_eq!(told.len(), 3, "{told:?}");
        assert!(told[0].starts_with("3:1: expected initial, max"));
        assert_eq!(
            told[1],
            "4:12: expected an angle such as 0.25 or pi/8, found the end of the line"
        );
        assert_eq!(told[2], "5:9: expected the end of the line, found 'now'");
    }

    #[test]
    fn the_head_comes_first_and_once() {
        assert_eq!(bad("").len(), 2);
        assert_eq!(bad("initial x\nmax 8\nrotate XX 1").len(), 1);
        let told = bad("initial 1\nrecord\nmax 8\ninitial 2");
        assert_eq!(
            told[0],
            "2:1: expected a line 'max N' before the records, found 'record'"
        );
        assert_eq!(
            told[1],
            "3:1: expected 'max' before the first record, on line 2, found it behind"
        );
        assert_eq!(
            told[2],
            "4:1: expected one line 'initial N', found a second one; the first is on line 1"
        );
    }

    #[test]
    fn files_of_other_editors_are_read() {
        let circuit = good("\u{feff}initial 1\r\nmax 8\r\n\r\nrotate X 0.5\r\n");
        assert_eq!(circuit.records[0].text, "rotate X 0.5");
    }

    #[test]
    fn bytes_that_are_no_text_are_placed() {
        let told = parse(b"initial 1\nma\xff 8").unwrap_err().text("f");
        assert_eq!(told, "f:2:3: expected text in UTF-8, found the byte 0xff\n");
    }
}
