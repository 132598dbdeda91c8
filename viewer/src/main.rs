//! The command behind ./show: reads a circuit file, plans it through the proved library, and
//! prints the plan or the refusal; or reads a stored plan and prints that; or reads a list of pending
//! operations, has the library optimize it, and prints it before and after. Nothing in here is proved;
//! nothing in here plans or optimizes.

mod angle;
mod beside;
mod checksum;
mod choice;
mod circuit;
mod fields;
mod figures;
mod files;
mod heading;
mod json;
mod kept;
mod kernel_sense;
mod kinds;
mod lanes;
mod layout;
mod legend;
mod line;
mod list;
mod list_json;
mod list_text;
mod lives;
mod notes;
mod optimizing;
mod options;
mod parts;
mod pauli;
mod pieces;
mod places;
mod planning;
mod sense;
mod shapes;
mod signals;
mod sources;
mod svg;
mod symbols;
mod tally;
mod terminal;
mod text;
mod trailer;
mod words;
mod works;

use std::io::{self, ErrorKind, Write};
use std::path::Path;
use std::process::ExitCode;

use checksum::Checksum;
use circuit::Circuit;
use files::Output;
use kept::Fault;
use kinds::Kind;
use line::{visible, Faults};
use list::List;
use midvokt::{Refusal, MOST_RECORDS};
use optimizing::Optimization;
use options::{Options, Request, Subject};
use planning::View;

const PLANNED: u8 = 0;
const REFUSED: u8 = 1;
const MALFORMED: u8 = 2;

/// The most bytes that are read of a circuit or a list: 4,096 for each record that one may have.
const MOST_BYTES: usize = 4096 * MOST_RECORDS;

/// What goes to standard output, and the exit status.
struct Answer {
    text: String,
    status: u8,
}

/// The circuit or the list that a file holds, by the way to read it, or all that is to be said of
/// it.
fn read<T>(
    path: &Path,
    name: &str,
    wanted: Kind,
    parse: fn(&[u8]) -> Result<T, Faults>,
) -> Result<T, String> {
    let bytes = files::read_at_most(path, MOST_BYTES)
        .map_err(|error| format!("{name}: cannot be read: {error}\n"))?;
    let bytes = bytes.ok_or_else(|| {
        let most = figures::whole(MOST_BYTES as u64);
        format!("{name}: expected at most {most} bytes, found more\n")
    })?;
    match kinds::other(&bytes, wanted) {
        Some(other) => Err(format!("{name}: {other}\n")),
        None => parse(&bytes).map_err(|faults| faults.text(name)),
    }
}

/// Writes all files, or says which ones may not replace what is there, or which cannot be written.
fn write(options: &Options, outputs: &[Output<'_>]) -> Result<(), String> {
    let mut said: Vec<_> = match options.force {
        true => vec![None; outputs.len()],
        false => outputs.iter().map(Output::misfit).collect(),
    };
    if said.iter().all(Option::is_none) {
        let Err((failed, error)) = files::write_all(outputs) else {
            return Ok(());
        };
        said[failed] = Some(format!("cannot be written: {error}"));
    }
    let mut all: Vec<_> = outputs.iter().zip(said).collect();
    all.sort_by_key(|(_, said)| said.is_none());
    let line = |(output, said): (&Output<'_>, Option<String>)| {
        let name = visible(&output.path.to_string_lossy());
        let said = said.unwrap_or("not written either".to_owned());
        format!("{name}: {said}\n")
    };
    Err(all.into_iter().map(line).collect())
}

/// What is not written where there is no plan, a line each.
fn unwritten(options: &Options) -> String {
    let line = |what: &str| {
        let words = format!("no {what} is written, since there is no plan");
        figures::wrapped("  ", &words, options.style.columns)
    };
    let picture = options.svg.as_ref().map(|_| line("picture"));
    let stored = options.store.as_ref().map(|_| line("stored plan"));
    picture.into_iter().chain(stored).collect()
}

/// What is said of a refusal.
fn refused(options: &Options, name: &str, circuit: &Circuit, refusal: &Refusal) -> Answer {
    let text = match options.json {
        true => json::refusal(name, circuit, refusal),
        false => {
            let text = text::refusal(&visible(name), circuit, refusal, &options.style);
            text + &unwritten(options)
        }
    };
    Answer {
        text,
        status: REFUSED,
    }
}

/// What is said of a plan.
fn planned(options: &Options, view: &View<'_>) -> Answer {
    let text = match options.json {
        true => json::plan(view),
        false if options.brief => text::brief(view, &options.style),
        false => text::plan(view, &options.style),
    };
    Answer {
        text,
        status: PLANNED,
    }
}

/// The picture that is asked for, if there is a plan.
fn picture<'a>(options: &'a Options, view: Option<&View<'_>>) -> Option<Output<'a>> {
    let (path, view) = options.svg.as_ref().zip(view)?;
    Some(Output {
        path,
        bytes: svg::picture(view).into_bytes(),
        kind: Kind::Picture,
    })
}

/// The stored plan that is asked for, of a circuit that has a plan.
fn stored<'a>(
    options: &'a Options,
    name: &str,
    circuit: &Circuit,
) -> Result<Option<Output<'a>>, String> {
    let Some(path) = &options.store else {
        return Ok(None);
    };
    let bytes = planning::stored(circuit);
    Ok(Some(Output {
        path,
        bytes: bytes.map_err(|refusal| format!("{}: {refusal}\n", visible(name)))?,
        kind: Kind::StoredPlan,
    }))
}

/// Plans the circuit, writes the files that are asked for, and gives what is printed.
fn show(options: &Options, path: &Path) -> Result<Answer, String> {
    let name = path.to_string_lossy();
    let circuit = read(path, &visible(&name), Kind::Circuit, circuit::parse)?;
    let mut view = View::of(&name, &circuit);
    let words = options.words.as_ref().map(|path| Output {
        path,
        bytes: words::encode(&circuit),
        kind: Kind::Binary,
    });
    let svg = picture(options, view.as_ref().ok());
    let store = match view {
        Ok(_) => stored(options, &name, &circuit)?,
        Err(_) => None,
    };
    if let Ok(view) = &mut view {
        view.checksum = store.as_ref().map(|file| Checksum::of(&file.bytes));
    }
    write(
        options,
        &[words, svg, store]
            .into_iter()
            .flatten()
            .collect::<Vec<_>>(),
    )?;
    Ok(match view {
        Ok(view) => planned(options, &view),
        Err(refusal) => refused(options, &name, &circuit, &refusal),
    })
}

/// What is said of a file that holds no plan that can be shown.
fn faulty(options: &Options, name: &str, checksum: Option<Checksum>, fault: &Fault) -> Answer {
    let text = match (options.json, fault) {
        (false, _) => {
            let (name, more) = (visible(name), unwritten(options));
            kept::text(&name, checksum, fault, &more, &options.style)
        }
        (true, Fault::Refused(refusal, reason)) => {
            json::stored_refusal(name, checksum, refusal, reason)
        }
        (true, Fault::Senseless(what, scalars)) => {
            json::senseless(name, checksum, what, scalars.as_ref())
        }
    };
    Answer {
        text,
        status: REFUSED,
    }
}

/// Reads a stored plan, writes the picture that is asked for, and gives what is printed.
fn show_stored(options: &Options, path: &Path) -> Result<Answer, String> {
    let name = path.to_string_lossy();
    let bytes = files::read_opening(path, kept::MOST_BYTES)
        .map_err(|error| format!("{}: cannot be read: {error}\n", visible(&name)))?;
    let checksum = kept::is_whole(&bytes).then(|| Checksum::of(&bytes));
    let mut view = match kept::view(&name, &bytes) {
        Ok(view) => view,
        Err(fault) => return Ok(faulty(options, &name, checksum, &fault)),
    };
    view.checksum = checksum;
    write(
        options,
        &picture(options, Some(&view))
            .into_iter()
            .collect::<Vec<_>>(),
    )?;
    Ok(planned(options, &view))
}

/// What is said of a refused list.
fn refused_list(options: &Options, name: &str, list: &List, refusal: &Refusal) -> Answer {
    let text = match options.json {
        true => list_json::refusal(name, list, refusal),
        false => list_text::refusal(&visible(name), list, refusal, &options.style),
    };
    Answer {
        text,
        status: REFUSED,
    }
}

/// Has a list of pending operations optimized, and gives what is printed.
fn show_list(options: &Options, path: &Path) -> Result<Answer, String> {
    let name = path.to_string_lossy();
    let list = read(path, &visible(&name), Kind::List, list::parse)?;
    let view = match Optimization::of(&name, &list) {
        Ok(view) => view,
        Err(refusal) => return Ok(refused_list(options, &name, &list, &refusal)),
    };
    let text = match options.json {
        true => list_json::optimized(&view),
        false => list_text::optimized(&view, &options.style),
    };
    Ok(Answer {
        text,
        status: PLANNED,
    })
}

/// Shows a circuit's plan, a stored one or an optimized list, where each output is a file of its own.
fn show_subject(options: &Options) -> Result<Answer, String> {
    options
        .files_differ()
        .map_err(|message| format!("show: {message}\n"))?;
    match &options.subject {
        Subject::Circuit(path) => show(options, path),
        Subject::Stored(path) => show_stored(options, path),
        Subject::List(path) => show_list(options, path),
    }
}

/// What the command line asks for.
fn answer() -> Result<Answer, String> {
    match options::parse(std::env::args_os().skip(1)) {
        Ok(Request::Help) => Ok(Answer {
            text: options::HELP.to_owned(),
            status: PLANNED,
        }),
        Ok(Request::Version) => Ok(Answer {
            text: format!("Midvokt {}\n", midvokt::VERSION),
            status: PLANNED,
        }),
        Ok(Request::Show(options)) => show_subject(&options),
        Err(message) => Err(format!("show: {message}\n")),
    }
}

/// Prints, and takes a reader that has gone away for a good end.
fn print(text: &str) -> io::Result<()> {
    let mut output = io::stdout().lock();
    match output
        .write_all(text.as_bytes())
        .and_then(|()| output.flush())
    {
        Err(error) if error.kind() == ErrorKind::BrokenPipe => Ok(()),
        printed => printed,
    }
}

/// Prints the answer to standard output, or what is wrong to standard error.
fn main() -> ExitCode {
    let printed = answer().and_then(|answer| {
        print(&answer.text).map_err(|error| format!("show: cannot print: {error}\n"))?;
        Ok(answer.status)
    });
    ExitCode::from(printed.unwrap_or_else(|message| {
        // Where standard error is gone too, the status alone tells.
        let _ = io::stderr().write_all(message.as_bytes());
        MALFORMED
    }))
}

#[cfg(test)]
mod tests {
    use super::*;

    #[test]
    fn the_help_says_how_long_a_circuit_may_be() {
        let most = figures::whole(MOST_BYTES as u64);
        assert!(options::HELP.contains(&format!("at most {most} bytes")));
    }
}
