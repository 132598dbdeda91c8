//! Reads a list of pending operations: the width, then an operation or a boundary that is kept a line.
//! Every bad line is told, with its place and what was expected there. And writes an operation as a
//! line of such a file.

use midvokt::{
    PauliString, PendingClassicalRecord, PendingOperation, PendingPauliMeasurement,
    PendingPauliRotation, SymbolicBool, SymbolicPauliString, MOST_QUBITS,
};

use crate::angle;
use crate::circuit::{pauli_of, text_of, EXPONENT};
use crate::fields::Fields;
use crate::line::{one_of, quoted, Fault, Faults, Line, Word};
use crate::pauli::{self, Pauli};
use crate::symbols;

/// The words that begin a line.
const FIRST_WORDS: [&str; 6] = ["width", "rotate", "measure", "expect", "record", "keep"];
const MASKS: [&str; 3] = ["x", "z", "phase"];

const WIDTH: &str = "a width from 1 to 64";
const PREFIX: &str = "a number of operations, from 0 to the list's (1,024 at most), or the end \
                      of the line";
const RECORD: &str = "the number of a record, 0 to 2,147,483,647";
const VALUE: &str = "the number of an expectation value, 0 to 2,147,483,647";
const FINITE: &str = "a finite angle from -2^20 to 2^20 such as 0.25 or pi/8";

/// An operation and where it stands in the file.
#[derive(Clone, Debug, PartialEq)]
pub struct Queued {
    /// The line, from 1.
    pub line: usize,
    /// The line's words, without its comment.
    pub text: String,
    /// The operation itself.
    pub operation: PendingOperation,
}

/// A boundary that is kept.
#[derive(Clone, Copy, Debug, PartialEq, Eq)]
pub struct Kept {
    /// The line, from 1.
    pub line: usize,
    /// How many operations stand before it.
    pub prefix: u64,
}

/// A whole list.
#[derive(Clone, Debug, Default, PartialEq)]
pub struct List {
    /// How many qubits the strings have.
    pub width: u64,
    /// The line that says so.
    pub width_line: usize,
    /// The operations in their order.
    pub operations: Vec<Queued>,
    /// The boundaries as the file has them.
    pub kept: Vec<Kept>,
}

/// What has been read so far.
#[derive(Default)]
struct Reader {
    /// The width and its line; the width is none where it is bad.
    width: Option<(Option<u64>, usize)>,
    /// That no list may have this width, said only where something else is bad.
    far_width: Option<Fault>,
    /// The first line behind it.
    first: Option<usize>,
    operations: Vec<Queued>,
    kept: Vec<Kept>,
    faults: Faults,
}

/// What the width is, in words.
fn told(width: u64) -> String {
    format!("the width is {width}")
}

impl Reader {
    /// Reads a line and notes what is bad in it.
    fn line(&mut self, line: &Line<'_>) {
        if let Err(fault) = line.read(&FIRST_WORDS, |line| self.words(line)) {
            self.faults.push(fault);
        }
    }

    /// Reads a line that says something.
    fn words(&mut self, line: &Line<'_>) -> Result<(), Fault> {
        match line.words[0].text {
            "width" => self.width_line(line),
            _ => self.further_line(line),
        }
    }

    /// How many qubits the strings have; none where no list may have so many.
    fn qubits(&self) -> Option<u64> {
        let width = self.width.and_then(|(width, _)| width);
        width.filter(|_| self.far_width.is_none())
    }

    /// The line of the width.
    fn width_line(&mut self, line: &Line<'_>) -> Result<(), Fault> {
        let first = line.words[0];
        if let Some((_, earlier)) = self.width {
            let found = format!("a second one; the first is on line {earlier}");
            return Err(first.fault_found("one line 'width N'", found));
        }
        if let Some(other) = self.first {
            let expected = format!("'width' before the first operation, on line {other}");
            return Err(first.fault_found(expected, "it behind"));
        }
        // A bad value counts as given, so that nothing more is said of it.
        self.width = Some((None, line.number));
        let mut fields = Fields::new(line, &[])?;
        let word = fields.next(WIDTH)?;
        let value = word.whole(WIDTH)?;
        fields.finish()?;
        self.width = Some((Some(value), line.number));
        let is_far = !(1..=MOST_QUBITS as u64).contains(&value);
        self.far_width = is_far.then(|| word.fault(WIDTH));
        Ok(())
    }

    /// A line behind the width.
    fn further_line(&mut self, line: &Line<'_>) -> Result<(), Fault> {
        let first = line.words[0];
        let width = self.qubits();
        let read = match first.text {
            "rotate" => rotation(line, width),
            "measure" => measurement(line, width),
            "expect" => expectation(line, width),
            "record" => classical(line),
            "keep" => return self.keep(line),
            _ => return Err(first.fault(one_of(&FIRST_WORDS))),
        };
        self.begin(line);
        // A bad operation counts, so that boundaries stay where they are.
        let operation = read.as_ref().ok().cloned().unwrap_or_else(nothing);
        self.operations.push(Queued {
            line: line.number,
            text: line.text(),
            operation,
        });
        read.map(|_| ())
    }

    /// A boundary: here, or behind so many operations.
    fn keep(&mut self, line: &Line<'_>) -> Result<(), Fault> {
        self.begin(line);
        let mut fields = Fields::new(line, &[])?;
        let prefix = match fields.is_empty() {
            true => self.operations.len() as u64,
            false => fields.next(PREFIX)?.whole(PREFIX)?,
        };
        fields.finish()?;
        let line = line.number;
        self.kept.push(Kept { line, prefix });
        Ok(())
    }

    /// Notes where the operations begin, and that the width is missing there.
    fn begin(&mut self, line: &Line<'_>) {
        if self.first.is_none() {
            self.first = Some(line.number);
            self.width_is_there(line.number, &quoted(line.words[0].text));
        }
    }

    /// Notes that the width is missing, if it is.
    fn width_is_there(&mut self, line: usize, found: &str) {
        if self.width.is_none() {
            self.faults.push(Fault {
                line,
                column: 1,
                expected: "a line 'width N' before the operations".to_owned(),
                found: found.to_owned(),
            });
        }
    }

    /// The list, or everything that is bad in the file.
    fn finish(mut self, lines: usize) -> Result<List, Faults> {
        if self.first.is_none() {
            self.width_is_there(lines + 1, "the end of the file");
        }
        if let Some(fault) = self.far_width.filter(|_| !self.faults.is_empty()) {
            self.faults.put_first(fault);
        }
        match self.width {
            Some((Some(width), width_line)) if self.faults.is_empty() => Ok(List {
                width,
                width_line,
                operations: self.operations,
                kept: self.kept,
            }),
            _ => Err(self.faults),
        }
    }
}

/// An operation that stands for a bad line.
fn nothing() -> PendingOperation {
    PendingOperation::from(PendingClassicalRecord::default())
}

/// The Pauli of a line as a string of this width.
fn string(fields: &mut Fields<'_>, width: Option<u64>) -> Result<PauliString, Fault> {
    let given = fields.named("phase");
    let found = pauli_of(fields, width, told)?;
    match (given, found.phase) {
        (Some(word), 4..) => Err(word.fault(EXPONENT)),
        (_, phase) => {
            let width = width.unwrap_or(0) as usize;
            Ok(PauliString::from_masks(
                width,
                found.x,
                found.z,
                phase as i32,
            ))
        }
    }
}

/// What may stand behind an operation's first words.
#[derive(Default)]
struct Tail {
    sign: Option<SymbolicBool>,
    record: Option<i32>,
    symbol: Option<i32>,
    value: Option<i32>,
}

/// Puts a value where none may stand yet.
fn once<T>(place: &mut Option<T>, word: Word<'_>, value: T) -> Result<(), Fault> {
    match place.replace(value) {
        Some(_) => {
            let found = format!("{} again", quoted(word.text));
            Err(word.fault_found(format!("{} once", quoted(word.text)), found))
        }
        None => Ok(()),
    }
}

/// The rest of a line, in which these words may begin something, each once.
fn tail(fields: &mut Fields<'_>, words: &[&str]) -> Result<Tail, Fault> {
    let mut tail = Tail::default();
    while let Some(word) = fields.peek() {
        if let Some(known) = word.meant(words) {
            return Err(word.in_small_letters(known));
        }
        if !words.contains(&word.text) {
            return Err(word.fault(format!("{} or the end of the line", words.join(", "))));
        }
        fields.next("")?;
        match word.text {
            "if" => once(&mut tail.sign, word, symbols::parse(fields)?)?,
            "as" => once(&mut tail.symbol, word, symbols::next(fields)?)?,
            "value" => once(&mut tail.value, word, symbols::number(fields, VALUE)?)?,
            _ => once(&mut tail.record, word, symbols::number(fields, RECORD)?)?,
        }
    }
    fields.finish()?;
    Ok(tail)
}

/// A rotation about a Pauli.
fn rotation(line: &Line<'_>, width: Option<u64>) -> Result<PendingOperation, Fault> {
    let mut fields = Fields::new(line, &MASKS)?;
    let pauli = string(&mut fields, width)?;
    let kernel_angle = angle::next(&mut fields, FINITE)?;
    let tail = tail(&mut fields, &["if"])?;
    let pauli = SymbolicPauliString::with_sign(pauli, tail.sign.unwrap_or_default());
    Ok(PendingOperation::from(PendingPauliRotation {
        kernel_angle,
        pauli,
    }))
}

/// A measurement of a Pauli, with what may stand behind.
fn measured(pauli: PauliString, tail: Tail) -> PendingOperation {
    PendingOperation::from(PendingPauliMeasurement {
        pauli: SymbolicPauliString::with_sign(pauli, tail.sign.unwrap_or_default()),
        record: tail.record,
        record_condition: tail.symbol,
        exp_val: tail.value,
    })
}

/// A measurement.
fn measurement(line: &Line<'_>, width: Option<u64>) -> Result<PendingOperation, Fault> {
    let mut fields = Fields::new(line, &MASKS)?;
    let pauli = string(&mut fields, width)?;
    Ok(measured(pauli, tail(&mut fields, &["record", "as", "if"])?))
}

/// A measurement that takes an expectation value.
fn expectation(line: &Line<'_>, width: Option<u64>) -> Result<PendingOperation, Fault> {
    let mut fields = Fields::new(line, &MASKS)?;
    let pauli = string(&mut fields, width)?;
    let tail = tail(&mut fields, &["value", "record", "as", "if"])?;
    match tail.value {
        Some(_) => Ok(measured(pauli, tail)),
        None => Err(line.ended(format!("'value' and {VALUE}"))),
    }
}

/// A classical record.
fn classical(line: &Line<'_>) -> Result<PendingOperation, Fault> {
    let mut fields = Fields::new(line, &[])?;
    let outcome = symbols::parse(&mut fields)?;
    let tail = tail(&mut fields, &["to", "as"])?;
    Ok(PendingOperation::from(PendingClassicalRecord {
        outcome,
        record: tail.record,
        record_condition: tail.symbol,
    }))
}

/// The list of a file, or everything that is bad in it.
pub fn parse(bytes: &[u8]) -> Result<List, Faults> {
    let text = text_of(bytes)?;
    let mut reader = Reader::default();
    let mut lines = 0;
    for (place, line) in text.lines().enumerate() {
        lines = place + 1;
        reader.line(&Line::new(lines, line));
    }
    reader.finish(lines)
}

/// A word and a number behind it, if there is one.
fn option(word: &str, number: Option<i32>) -> String {
    number.map_or(String::new(), |number| format!(" {word}{number}"))
}

/// The words for a sign, if it is one.
fn condition(sign: &SymbolicBool) -> String {
    match *sign == SymbolicBool::default() {
        true => String::new(),
        false => format!(" if {}", symbols::text(sign)),
    }
}

/// The masks and the exponent of i of an operation's string.
pub fn pauli_of_string(string: &PauliString) -> Pauli {
    Pauli {
        x: string.x[0],
        z: string.z[0],
        phase: string.phase_exponent() as u64,
    }
}

/// An operation as a line of a file, its Pauli written in this way.
fn line_of(operation: &PendingOperation, written: fn(Pauli) -> String) -> String {
    let pauli = |string: &PauliString| written(pauli_of_string(string));
    match operation {
        PendingOperation::PauliRotation(rotation) => {
            let string = pauli(&rotation.pauli.pauli);
            let angle = angle::text(rotation.kernel_angle);
            let sign = condition(&rotation.pauli.sign);
            format!("rotate {string} {angle}{sign}")
        }
        PendingOperation::PauliMeasurement(measurement) => {
            let word = match measurement.exp_val {
                Some(_) => "expect",
                None => "measure",
            };
            format!(
                "{word} {}{}{}{}{}",
                pauli(&measurement.pauli.pauli),
                option("value ", measurement.exp_val),
                option("record ", measurement.record),
                option("as s", measurement.record_condition),
                condition(&measurement.pauli.sign)
            )
        }
        PendingOperation::ClassicalRecord(record) => format!(
            "record {}{}{}",
            symbols::text(&record.outcome),
            option("to ", record.record),
            option("as s", record.record_condition)
        ),
    }
}

/// An operation as a line of a file, its Pauli as a product.
pub fn text(operation: &PendingOperation) -> String {
    line_of(operation, pauli::product)
}

/// An operation as a line of a file, its Pauli as masks, so that it is short at every width.
pub fn masked(operation: &PendingOperation) -> String {
    line_of(operation, pauli::masks)
}

#[cfg(test)]
mod tests {
    use super::*;

    /// A list that has no fault.
    fn good(text: &str) -> List {
        parse(text.as_bytes()).unwrap()
    }

    /// The faults of a list, as they are told.
    fn bad(text: &str) -> Vec<String> {
        let told = parse(text.as_bytes()).unwrap_err().text("");
        told.lines().map(|line| line[1..].to_owned()).collect()
    }

    /// The words of the operation on a line behind a width of 3.
    fn words(line: &str) -> Vec<u64> {
        let list = good(&format!("width 3\n{line}"));
        let words = list.operations[0].operation.to_words().unwrap();
        let used = words
            .iter()
            .rposition(|&word| word != 0)
            .map_or(1, |last| last + 1);
        words[..used].to_vec()
    }

    #[test]
    fn all_that_words_say_can_be_said() {
        let bits = |angle: f64| angle.to_bits();
        assert_eq!(
            words("rotate -Y0*Z2 -0 if not s9^s1"),
            [0, bits(-0.0), 1, 5, 3, 1, 2, 1, 9]
        );
        assert_eq!(words("rotate x=1 z=1 phase=2 5e-324"), [0, 1, 1, 1, 2]);
        assert_eq!(words("measure XIZ"), [1, 1, 4]);
        assert_eq!(
            words("measure iXIZ as s0 if 1 record 2147483647"),
            [1, 1, 4, 1, 1, 0, 0, 0, 0, 0, 0, 0, 0, 0, 1, 2147483647, 1]
        );
        let expect = words("expect Z0 value 0 record 0");
        assert_eq!(
            (&expect[..3], &expect[14..]),
            (&[1, 0, 1][..], &[1, 0, 0, 0, 1][..])
        );
        assert_eq!(words("record 1"), [2, 1]);
        assert_eq!(
            words("record s4^s1 to 5 as s9"),
            [2, 0, 2, 1, 4, 0, 0, 0, 0, 0, 0, 1, 5, 1, 9]
        );
    }

    #[test]
    fn boundaries_stand_where_they_are_kept() {
        let list = good("width 1\nkeep # 0");
        assert_eq!(list.kept, [Kept { line: 2, prefix: 0 }]);
        let list = good("width 1\nrecord 0\nkeep\nrecord 0\nkeep 99\nkeep\nkeep");
        let prefixes: Vec<_> = list.kept.iter().map(|kept| kept.prefix).collect();
        assert_eq!(prefixes, [1, 99, 2, 2]);
        assert_eq!((list.operations.len(), list.width_line), (2, 1));
    }

    #[test]
    fn operations_are_written_as_they_are_read() {
        for line in [
            "rotate X0*Y1*Z2 pi/8",
            "rotate -iI0 -0.1 if not s1^s3",
            "measure Z0*Z1 record 3 as s7 if s2",
            "measure X2",
            "expect Z0 value 0 record 4 as s0 if 1",
            "record not s1^s4 to 5 as s9",
            "record 0",
        ] {
            let list = good(&format!("width 3\n{line}"));
            assert_eq!(text(&list.operations[0].operation), line);
        }
    }

    #[test]
    fn operations_with_masks_are_written_as_they_are_read() {
        for (line, wanted) in [
            (
                "rotate -Y0*Z2 pi/8 if s1",
                "rotate x=0x1 z=0x5 phase=3 pi/8 if s1",
            ),
            (
                "measure phase=1 record 3",
                "measure x=0x0 z=0x0 phase=1 record 3",
            ),
            (
                "expect XXX value 0 as s2 if not s9",
                "expect x=0x7 z=0x0 phase=0 value 0 as s2 if not s9",
            ),
            ("record not s1^s4 to 5", "record not s1^s4 to 5"),
        ] {
            let read = |line: &str| good(&format!("width 3\n{line}")).operations[0].clone();
            let found = masked(&read(line).operation);
            assert_eq!(found, wanted);
            assert_eq!(read(&found).operation, read(line).operation);
        }
    }

    #[test]
    fn each_bad_line_is_told_once() {
        let told =
            bad("width 2\nrotat X0 1\nrotate X0\nmeasure Z0 to 3\nexpect Z0\nkeep x\nrecord\n");
        let wanted = [
            "2:1: expected width, rotate, measure, expect, record or keep, found 'rotat'",
            "3:10: expected an angle such as 0.25 or pi/8, found the end of the line",
            "4:12: expected record, as, if or the end of the line, found 'to'",
            "5:10: expected 'value' and the number of an expectation value, 0 to 2,147,483,647, \
             found the end of the line",
            "6:6: expected a number of operations, from 0 to the list's (1,024 at most), or the \
             end of the line, found 'x'",
            "7:7: expected s1^s3, not s1^s3, 0 or 1, found the end of the line",
        ];
        assert_eq!(told, wanted);
    }

    #[test]
    fn the_width_comes_first_and_once() {
        assert_eq!(
            bad(""),
            ["1:1: expected a line 'width N' before the operations, found the end of the file"]
        );
        let told = bad("rotate X0 1\nwidth 1");
        assert_eq!(
            told,
            [
                "1:1: expected a line 'width N' before the operations, found 'rotate'",
                "2:1: expected 'width' before the first operation, on line 1, found it behind"
            ]
        );
        assert_eq!(
            bad("width 1\nwidth 2"),
            ["2:1: expected one line 'width N', found a second one; the first is on line 1"]
        );
        assert_eq!(bad("width x\nrotate X9 1").len(), 1);
    }

    #[test]
    fn paulis_are_held_to_the_width() {
        assert_eq!(
            bad("width 2\nmeasure Z2\nmeasure ZZZ\nmeasure Z\nmeasure phase=4"),
            [
                "2:10: expected a position below 2 (the width is 2), found '2'",
                "3:11: expected the Pauli to end here (the width is 2), found 'Z'",
                "4:9: expected 2 letters, one for each position (the width is 2), found 1",
                "5:15: expected an exponent of i, 0 to 3, found '4'"
            ]
        );
    }

    #[test]
    fn words_in_capitals_are_told_and_read_as_what_is_meant() {
        let told = bad(
            "WIDTH 2\nRotate X0 1\nmeasure Z0 Record 1\nrotate X0 1 IF s1\n\
             rotate X0 1 if NOT s1\nmeasure Z0 as S4\nrecord s1^S2\nrotate X=1 1\n\
             rotate z2 1\nrotate Z2 1\nKEEP",
        );
        let small = "words are in small letters";
        assert_eq!(
            told,
            [
                format!("1:1: expected width, found 'WIDTH': {small}"),
                format!("2:1: expected rotate, found 'Rotate': {small}"),
                format!("3:12: expected record, found 'Record': {small}"),
                format!("4:13: expected if, found 'IF': {small}"),
                format!("5:16: expected not, found 'NOT': {small}"),
                format!("6:15: expected s4, found 'S4': {small}"),
                format!("7:11: expected s2, found 'S2': {small}"),
                format!("8:8: expected x=1, found 'X=1': {small}"),
                "9:8: expected Z2, found 'z2': letters of a Pauli are capitals".to_owned(),
                "10:9: expected a position below 2 (the width is 2), found '2'".to_owned(),
                format!("11:1: expected keep, found 'KEEP': {small}"),
            ]
        );
    }

    #[test]
    fn a_width_that_no_list_may_have_is_told_where_something_is_bad() {
        for (width, line, found) in [
            (
                "65",
                "rotate X64 1",
                "2:8: expected nothing to act at position 64",
            ),
            ("0", "rotate x0 1", "2:8: expected X0"),
            (
                "18446744073709551615",
                "keep -1",
                "2:6: expected a number of operations",
            ),
        ] {
            let told = bad(&format!("width {width}\n{line}"));
            assert_eq!(told.len(), 2, "{told:?}");
            let wanted = format!("1:7: expected a width from 1 to 64, found '{width}'");
            assert_eq!(told[0], wanted);
            assert!(told[1].starts_with(found), "{told:?}");
        }
        assert_eq!(
            bad("width -1\nrotate X70 1")[0],
            "1:7: expected a width from 1 to 64, found '-1'"
        );
    }

    #[test]
    fn a_width_that_no_list_may_have_holds_no_line_to_it() {
        for text in ["65\nrotate X63 1", "65\nrotate XX 1", "0\nmeasure Z5"] {
            assert_eq!(good(&format!("width {text}")).operations.len(), 1);
        }
    }

    #[test]
    fn an_angle_of_a_list_is_finite() {
        assert_eq!(
            bad("width 1\nrotate X 1e400\nrotate X PI / 8 if s1"),
            [
                "2:10: expected a finite angle from -2^20 to 2^20 such as 0.25 or pi/8, found \
                 '1e400'",
                "3:10: expected pi/8, found 'PI / 8': an angle has no spaces"
            ]
        );
    }

    #[test]
    fn what_stands_twice_is_told() {
        assert_eq!(
            bad("width 1\nmeasure Z0 as s1 as s2\nrecord 0 to 2147483648"),
            [
                "2:18: expected 'as' once, found 'as' again",
                "3:13: expected the number of a record, 0 to 2,147,483,647, found '2147483648'"
            ]
        );
    }
}
