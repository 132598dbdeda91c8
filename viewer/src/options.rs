//! The command line, and the screen that --help prints.

use std::ffi::{OsStr, OsString};
use std::iter::Peekable;
use std::os::unix::ffi::{OsStrExt, OsStringExt};
use std::path::PathBuf;

use crate::files::{Identity, STANDARD_INPUT};
use crate::lanes::Style;
use crate::line::quoted;
use crate::terminal;

/// What --help prints.
pub const HELP: &str = "\
show: plans a circuit through the proved library and shows the plan; or has the
library optimize a list of pending operations, and shows it before and after

  ./show [--json] [--svg FILE] [--words FILE] [--store FILE] [--force] [--ascii]
         [--brief] [--columns N] CIRCUIT   or --stored FILE in place of CIRCUIT
  ./show --optimize LIST [--json] [--columns N]

CIRCUIT is a file, or - for standard input, of at most 4,194,304 bytes, with one
record a line; # is a comment.
  initial N              active coordinates at the start (needed, comes first)
  max N                  the dense peak is 2^N (needed, comes first; no default,
                         since it decides the choice; below 8 nothing is read)
  expvals N              expectation values (0 if not given, else nothing read)
  ceiling N              max, and the members of each component, are below N, as
                         the controller needs it (1 to 62; 62 if not given)
  rotate PAULI ANGLE     exp(-i ANGLE PAULI); sin=S, cos=C in place of ANGLE's
                         (S*S + C*C has to be 1, give or take 2^-50)
  promote                a new active coordinate, behind the last position
  measure PAULI pivot N  the coordinate at position N leaves
  expect [PAULI]         an expectation: passed over by planning, as are
  record, detector, dormant   classical records and branches off the register
PAULI  -_ZZ         a sign and a letter for each active coordinate, position 0
                    first, _ or I where nothing acts; a sign alone where no
                    coordinate is active
       -Z1*Z2       the same as a product
       z=6 phase=2  the same as masks (0x6, 0b110 too) and exponent of i: X sets
                    x, Z sets z, Y both; the sign - adds 2 to it, i 1, each Y 1
ANGLE  in radians: 0.25, or a part of pi: pi/8, -3pi/4

LIST is a file likewise, of operations that are not planned yet: a line
'width N' (qubits, 1 to 64), then a line each; # is a comment.
  rotate PAULI ANGLE [if SIGN]         exp(-i ANGLE PAULI); with SIGN 1, -PAULI
  measure PAULI [record N] [as sN] [if SIGN]    to record N, known as sN
  expect PAULI value N [...]           an expectation value in place of an
                                       outcome: with one, nothing is changed
  record SIGN [to N] [as sN]           a bit that is written, no qubit touched
  keep [N]                             nothing crosses this boundary, or the one
                                       behind the first N operations
SIGN   s1^s3, an exclusive or of up to 8 symbols, s1 on; not s1^s3; 0 or 1
Of a list it prints how much the library fused, cancelled and moved; the list
before, with what becomes of each operation; and the list after. No operation is
cut: one without room on a line is written with masks, or wrapped.
From 223 columns on each of the list after has one line, which can be given
again, but for an angle that was fused past 2^20; --json has it so at any width.

Of a plan it prints the choice with both sides of each test; notes on what may
be meant otherwise; works, and how many times cheaper the split is; dimensions;
a line a record; the components' lives as lanes; the final groups.
  --json        the same, or the refusal, for programs instead (docs/JSON.md)
  --brief       of these only the choice without its tests, the notes, the works
                and the lanes; with no --json and no --optimize
  --svg FILE    the lanes as a picture besides
  --words FILE  head (4 words, ceiling last) and records (8 each) besides: 64
                bits each, little-endian
  --store FILE  the plan as a file besides, to be kept (include/midvokt.h); the
                ceiling is not stored
  --stored FILE shows such a file, or by - standard input, with the checksum of
                the command cksum; with no circuit, --words or --store
  --force       an output replaces any file; else only an empty one, or one of
                its kind: a picture, a stored plan, or for words binary data
                that is no stored plan
  --ascii       lanes without box characters
  --columns N   the text's width, 40 to 1000; else the terminal's, or 80
  --version, -V the version
--svg=FILE is --svg FILE; behind -- stands a file's name. An output may be
neither what is read nor another output; where one cannot be written, none is.
The file of --stored and of --optimize may stand anywhere, as a circuit's does.
Exit status: 0 planned or optimized; 1 refused, or a stored file is no plan; 2 a
bad file (FILE:LINE:COLUMN: expected ..., found ...), an unreadable one or a bad
option; 3 the viewer cannot be built.
";

/// The least and the most columns, and those of text that goes to no terminal.
const COLUMNS: std::ops::RangeInclusive<usize> = 40..=1000;
const USUAL_COLUMNS: usize = 80;

/// What is shown.
pub enum Subject {
    /// The plan of the circuit in this file.
    Circuit(PathBuf),
    /// The plan that is stored in this file.
    Stored(PathBuf),
    /// The list of pending operations in this file, optimized.
    List(PathBuf),
}

/// What the command line asks for.
pub struct Options {
    /// What is shown.
    pub subject: Subject,
    /// Where the picture goes.
    pub svg: Option<PathBuf>,
    /// Where the words go.
    pub words: Option<PathBuf>,
    /// Where the stored plan goes.
    pub store: Option<PathBuf>,
    /// Whether an output replaces a file of any kind.
    pub force: bool,
    /// Whether the plan is printed for programs.
    pub json: bool,
    /// Whether it is printed in brief.
    pub brief: bool,
    /// How wide the text is and how the lanes are drawn.
    pub style: Style,
}

/// What is to be done.
pub enum Request {
    /// Print the help.
    Help,
    /// Print the version.
    Version,
    /// Plan and show.
    Show(Options),
}

/// What a word of the command line leads to.
enum Next {
    /// The next word.
    Word,
    /// Names alone, behind --.
    Names,
    /// Nothing more is read.
    Done(Request),
}

/// What is shown in place of a circuit: the file behind its option; or what is said where none
/// stands there, and none elsewhere.
type Named = Result<PathBuf, String>;

/// What has been read of the command line.
#[derive(Default)]
struct Reader {
    names: Vec<PathBuf>,
    svg: Option<PathBuf>,
    words: Option<PathBuf>,
    store: Option<PathBuf>,
    stored: Option<Named>,
    optimize: Option<Named>,
    columns: Option<usize>,
    force: bool,
    json: bool,
    brief: bool,
    ascii: bool,
}

/// An option's name, and the value that stands behind = in the same word.
fn parted(word: &OsStr) -> (String, Option<OsString>) {
    let bytes = word.as_bytes();
    let place = bytes.iter().position(|&byte| byte == b'=');
    match place.filter(|_| bytes.starts_with(b"--")) {
        Some(place) => (
            String::from_utf8_lossy(&bytes[..place]).into_owned(),
            Some(OsString::from_vec(bytes[place + 1..].to_vec())),
        ),
        None => (word.to_string_lossy().into_owned(), None),
    }
}

/// Whether a word is an option's name, and no file's that an option takes.
fn is_option(word: &OsStr) -> bool {
    word.as_bytes().starts_with(b"--")
}

/// The value of an option: what stands behind =, or else the next word.
fn value(
    name: &str,
    given: Option<OsString>,
    words: &mut Peekable<impl Iterator<Item = OsString>>,
) -> Result<OsString, String> {
    let word = given.or_else(|| words.next_if(|word| !is_option(word)));
    match (word, words.peek()) {
        (Some(word), _) if !word.is_empty() => Ok(word),
        (None, Some(next)) => Err(format!(
            "expected a word behind {name}, found {0}; {name}={1} takes it as the word",
            shown(next),
            next.to_string_lossy().escape_debug()
        )),
        _ => Err(format!("expected a word behind {name}, found nothing")),
    }
}

/// The file of an option that may stand elsewhere too: no word is none, an empty one is an error.
fn named(
    name: &str,
    given: Option<OsString>,
    words: &mut Peekable<impl Iterator<Item = OsString>>,
) -> Result<Named, String> {
    let stands_here = given.is_some() || words.peek().is_some_and(|word| !is_option(word));
    let file = value(name, given, words).map(PathBuf::from);
    match stands_here {
        true => file.map(Ok),
        false => Ok(file),
    }
}

/// A word of the command line between quotes.
fn shown(word: &OsStr) -> String {
    quoted(&word.to_string_lossy())
}

/// What is said of an option that there is not.
fn unknown(word: &OsStr) -> String {
    let found = shown(word);
    format!("expected an option that --help tells, found {found}")
}

/// Puts a value where none may stand yet.
fn once<T>(place: &mut Option<T>, name: &str, value: T) -> Result<(), String> {
    match place.replace(value) {
        Some(_) => Err(format!("expected {name} once, found it again")),
        None => Ok(()),
    }
}

/// A number of columns.
fn columns(word: &OsStr) -> Result<usize, String> {
    let number = word.to_str().and_then(|text| text.parse().ok());
    number
        .filter(|number| COLUMNS.contains(number))
        .ok_or_else(|| {
            format!(
                "expected {} to {} behind --columns, found {}",
                COLUMNS.start(),
                COLUMNS.end(),
                shown(word)
            )
        })
}

impl Reader {
    /// One word of the command line.
    fn word(
        &mut self,
        word: OsString,
        words: &mut Peekable<impl Iterator<Item = OsString>>,
    ) -> Result<Next, String> {
        let (name, given) = parted(&word);
        match name.as_str() {
            "--svg" | "--words" | "--store" => {
                let file = value(&name, given, words)?.into();
                once(self.output(&name), &name, file)?;
            }
            "--stored" => once(&mut self.stored, &name, named(&name, given, words)?)?,
            "--optimize" => once(&mut self.optimize, &name, named(&name, given, words)?)?,
            "--columns" => {
                let number = columns(&value(&name, given, words)?)?;
                once(&mut self.columns, &name, number)?;
            }
            _ if given.is_some() => {
                return Err(format!(
                    "expected --svg=, --words=, --store=, --stored=, --optimize= or --columns=, \
                     found {}",
                    shown(&word)
                ));
            }
            "--help" | "-h" => return Ok(Next::Done(Request::Help)),
            "--version" | "-V" => return Ok(Next::Done(Request::Version)),
            "--force" => self.force = true,
            "--json" => self.json = true,
            "--brief" => self.brief = true,
            "--ascii" => self.ascii = true,
            "--" => return Ok(Next::Names),
            _ if name.starts_with('-') && name != STANDARD_INPUT => {
                return Err(unknown(&word));
            }
            _ => self.name(word)?,
        }
        Ok(Next::Word)
    }

    /// Where the file of an output goes.
    fn output(&mut self, name: &str) -> &mut Option<PathBuf> {
        match name {
            "--svg" => &mut self.svg,
            "--words" => &mut self.words,
            _ => &mut self.store,
        }
    }

    /// A name that stands without an option.
    fn name(&mut self, word: OsString) -> Result<(), String> {
        if word.is_empty() {
            return Err("expected a circuit file or -, found ''".to_owned());
        }
        self.names.push(word.into());
        Ok(())
    }

    /// That none of these is given beside an option.
    fn stands_alone(
        &self,
        option: &str,
        others: &[(&str, Option<&PathBuf>)],
    ) -> Result<(), String> {
        let given = others
            .iter()
            .find_map(|(name, other)| Some((name, (*other)?)));
        given.map_or(Ok(()), |(name, other)| {
            let other = shown(other.as_os_str());
            Err(format!("expected no {name} beside {option}, found {other}"))
        })
    }

    /// The file of an option that is given: the one behind it, or else the first name.
    fn taken(&mut self, named: Option<Named>) -> Result<Option<PathBuf>, String> {
        let elsewhere = |message| match self.names.is_empty() {
            true => Err(message),
            false => Ok(self.names.remove(0)),
        };
        named.map(|named| named.or_else(elsewhere)).transpose()
    }

    /// What is shown: a circuit's plan, a stored one, with which neither a circuit nor what is made
    /// of one goes, or an optimized list, with which no picture goes either.
    fn subject(&mut self) -> Result<Subject, String> {
        let (list, stored) = (self.optimize.take(), self.stored.take());
        let list = self.taken(list)?;
        let stored = self.taken(stored)?;
        let others = [
            ("circuit", self.names.first()),
            ("--words", self.words.as_ref()),
            ("--store", self.store.as_ref()),
            ("--svg", self.svg.as_ref()),
            ("--stored", stored.as_ref()),
        ];
        if let Some(list) = list {
            self.stands_alone("--optimize", &others)?;
            return Ok(Subject::List(list));
        }
        if let Some(stored) = &stored {
            self.stands_alone("--stored", &others[..3])?;
            return Ok(Subject::Stored(stored.clone()));
        }
        match self.names.as_slice() {
            [circuit] => Ok(Subject::Circuit(circuit.clone())),
            [] => Err("expected a circuit file or -, found none; --help tells more".to_owned()),
            _ => Err("expected a circuit once, found it again".to_owned()),
        }
    }

    /// That what is printed in brief is a plan for a person.
    fn brief_fits(&self, subject: &Subject) -> Result<(), String> {
        let others = [
            ("--json", self.json),
            ("--optimize", matches!(subject, Subject::List(_))),
        ];
        let given = others.iter().find(|(_, is_given)| self.brief && *is_given);
        given.map_or(Ok(()), |(name, _)| {
            Err(format!("expected no --brief beside {name}, found both"))
        })
    }

    /// The options, if a circuit, a stored plan or a list is named.
    fn finish(mut self) -> Result<Options, String> {
        let subject = self.subject()?;
        self.brief_fits(&subject)?;
        let of_terminal = || terminal::columns().unwrap_or(USUAL_COLUMNS);
        let columns = self.columns.unwrap_or_else(of_terminal);
        Ok(Options {
            subject,
            svg: self.svg,
            words: self.words,
            store: self.store,
            force: self.force,
            json: self.json,
            brief: self.brief,
            style: Style {
                columns: columns.clamp(*COLUMNS.start(), *COLUMNS.end()),
                ascii: self.ascii,
            },
        })
    }
}

impl Options {
    /// The files that are written, each with the option that names it.
    fn outputs(&self) -> Vec<(&'static str, &PathBuf)> {
        let all = [
            ("--svg", &self.svg),
            ("--words", &self.words),
            ("--store", &self.store),
        ];
        let named = all.map(|(name, file)| Some((name, file.as_ref()?)));
        named.into_iter().flatten().collect()
    }

    /// Whether each output is a file of its own: neither what is shown, nor another output, nor
    /// where the text is printed.
    pub fn files_differ(&self) -> Result<(), String> {
        let printed = "standard output, where the plan is printed".to_owned();
        let (read, name) = match &self.subject {
            Subject::Circuit(path) => (path, "the circuit"),
            Subject::Stored(path) => (path, "the stored plan"),
            Subject::List(path) => (path, "the list"),
        };
        let mut known = vec![
            (Identity::of_read(read), name.to_owned()),
            (Identity::of_printed(), printed.clone()),
        ];
        for (name, path) in self.outputs() {
            let found = Identity::of(path);
            let is_found =
                |(file, _): &&(Option<Identity>, String)| file.is_some() && *file == found;
            let other = match path.as_os_str() == STANDARD_INPUT {
                true => Some(&printed),
                false => known.iter().find(is_found).map(|(_, other)| other),
            };
            if let Some(other) = other {
                return Err(format!(
                    "expected a file of its own for {name}, found {other}"
                ));
            }
            known.push((found, format!("that of {name}")));
        }
        Ok(())
    }
}

/// Reads the words behind the command's name.
pub fn parse(words: impl Iterator<Item = OsString>) -> Result<Request, String> {
    let mut words = words.peekable();
    let mut reader = Reader::default();
    while let Some(word) = words.next() {
        match reader.word(word, &mut words)? {
            Next::Word => {}
            Next::Names => words.by_ref().try_for_each(|word| reader.name(word))?,
            Next::Done(request) => return Ok(request),
        }
    }
    reader.finish().map(Request::Show)
}

#[cfg(test)]
mod tests {
    use super::*;

    /// What these words, parted by spaces, lead to.
    fn parsed(line: &str) -> Result<Request, String> {
        parse(line.split_whitespace().map(OsString::from))
    }

    /// What is shown for these words: L a list, S a stored plan, C a circuit, with its file.
    fn subject(line: &str) -> String {
        let (kind, path) = match parsed(line) {
            Ok(Request::Show(options)) => match options.subject {
                Subject::List(path) => ("L", path),
                Subject::Stored(path) => ("S", path),
                Subject::Circuit(path) => ("C", path),
            },
            Ok(_) => return "no file".to_owned(),
            Err(message) => return message,
        };
        format!("{kind} {}", path.display())
    }

    #[test]
    fn a_list_or_a_stored_plan_stands_anywhere() {
        for line in [
            "--optimize a",
            "--optimize=a",
            "--optimize --json a",
            "--json a --optimize",
            "a --optimize",
            "a --optimize --json",
            "--optimize --columns 50 a --json",
            "--optimize -- a",
            "--optimize --columns=50 -- a",
        ] {
            assert_eq!(subject(line), "L a", "{line}");
            let line = line.replace("--optimize", "--stored");
            assert_eq!(subject(&line), "S a", "{line}");
        }
        assert_eq!(subject("--optimize -- --json"), "L --json");
        assert_eq!(subject("--optimize --json -"), "L -");
        assert_eq!(subject("--stored --svg b a --force"), "S a");
        assert_eq!(subject("--svg b a"), "C a");
    }

    #[test]
    fn no_file_and_two_are_told() {
        let nothing = "expected a word behind --optimize, found nothing";
        for line in ["--optimize", "--json --optimize", "--stored a --optimize"] {
            assert_eq!(subject(line), nothing, "{line}");
        }
        let option =
            "expected a word behind --stored, found '--json'; --stored=--json takes it as \
                      the word";
        assert_eq!(subject("--stored --json"), option);
        for line in ["--optimize a b", "--optimize --json a b", "a b --optimize"] {
            let told = "expected no circuit beside --optimize, found 'b'";
            assert_eq!(subject(line), told, "{line}");
            let line = line.replace("--optimize", "--stored");
            let told = "expected no circuit beside --stored, found 'b'";
            assert_eq!(subject(&line), told, "{line}");
        }
        assert_eq!(
            subject("--stored --optimize a"),
            "expected a word behind --stored, found '--optimize'; --stored=--optimize takes it as \
             the word"
        );
        assert_eq!(
            subject("--stored a --optimize --json b"),
            "expected no --stored beside --optimize, found 'a'"
        );
        assert_eq!(
            subject("--optimize --json --optimize a"),
            "expected --optimize once, found it again"
        );
        assert_eq!(
            subject("a b --json"),
            "expected a circuit once, found it again"
        );
    }

    #[test]
    fn an_empty_name_is_no_file() {
        for line in ["--optimize= a", "a --optimize="] {
            let told = "expected a word behind --optimize, found nothing";
            assert_eq!(subject(line), told, "{line}");
        }
        let words = ["--stored", "", "a"].map(OsString::from);
        let told = parse(words.into_iter()).err();
        let nothing = "expected a word behind --stored, found nothing";
        assert_eq!(told.as_deref(), Some(nothing));
    }

    #[test]
    fn the_version_has_two_names() {
        for line in ["-V", "--version", "a -V", "--optimize --version"] {
            assert!(matches!(parsed(line), Ok(Request::Version)), "{line}");
        }
    }
}
