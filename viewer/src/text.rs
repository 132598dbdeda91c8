//! The plan as text for a person: the choice, the works, the dimensions, a line a record, the
//! lanes and the final groups; and a refusal in words. A stored plan is shown likewise, without what
//! only its circuit tells.

use std::fmt::Write;

use midvokt::{
    ActiveComponentStepKind as Kind, Reason, Record, Refusal, LARGEST_CEILING, MOST_RECORDS,
};

use crate::angle;
use crate::checksum;
use crate::choice::{Choice, Test};
use crate::circuit::{Circuit, Placed};
use crate::figures;
use crate::kept;
use crate::lanes::{self, Style};
use crate::line::visible;
use crate::lives::{Deed, Event};
use crate::notes;
use crate::planning::{self, View};
use crate::works::Works;

/// The most characters of a record's own line, and the most letters of a local Pauli, that the
/// table shows.
const MOST_OF_LINE: usize = 32;
const MOST_OF_PAULI: usize = 24;
/// The most characters of a refused record's line that are shown, and the most notes.
const MOST_REPEATED: usize = 80;
const MOST_NOTES: usize = 8;
/// What is said of a stored plan with neither steps nor components.
pub const NOTHING: &str =
    "there are neither steps nor components: no record was read, or there was none";

/// The circuit's name and size.
fn heading(name: &str, circuit: &Circuit, columns: usize) -> String {
    let head = &circuit.head;
    let expvals = match head.nexpvals {
        0 => String::new(),
        number => format!(", expvals {number}"),
    };
    let ceiling = match circuit.given_ceiling() {
        None => String::new(),
        Some(number) => format!(", ceiling {number}"),
    };
    let size = format!(
        "{} at the start, max {}{expvals}{ceiling}, {}",
        figures::count(head.initial_k, "coordinate", "coordinates"),
        head.max_k,
        figures::count(circuit.records.len() as u64, "record", "records")
    );
    format!("{name}\n{}", figures::wrapped("", &size, columns))
}

/// The stored plan's name and size.
fn stored_heading(view: &View<'_>, columns: usize) -> String {
    let plan = &view.plan;
    let first = plan.initial_components as u64;
    let records = plan.instruction_steps.len() as u64;
    let size = match view.choice {
        Choice::Nothing => format!(
            "a stored plan: {} at the start, no step and no component",
            figures::count(first, "coordinate", "coordinates")
        ),
        _ => format!(
            "a stored plan: {} at the start, {} in all, {}",
            figures::count(first, "component", "components"),
            figures::whole(plan.component_count as u64),
            figures::count(records, "record", "records")
        ),
    };
    format!(
        "{}\n{}{}",
        visible(view.name),
        figures::wrapped("", &size, columns),
        checksum::line("", view.checksum, columns)
    )
}

/// The checksum of the stored plan that is written besides, if one is.
fn stored_besides(view: &View<'_>, columns: usize) -> String {
    let checksum = view.checksum.filter(|_| view.planned.is_some());
    checksum::line("The stored plan has the ", checksum, columns)
}

/// What may be meant otherwise in a circuit, a line each; empty where nothing is to be said.
fn noted(circuit: &Circuit, columns: usize) -> String {
    told_notes(notes::of(circuit), columns)
}

/// Notes, a line each, the first of them where there are many.
pub fn told_notes(notes: Vec<String>, columns: usize) -> String {
    let more = match notes.len().saturating_sub(MOST_NOTES) {
        0 => None,
        left => Some(format!(
            "{} more; --json has them all",
            figures::whole(left as u64)
        )),
    };
    let told = notes.into_iter().take(MOST_NOTES).chain(more);
    told.map(|note| figures::wrapped("Note: ", &note, columns))
        .collect()
}

/// One test of the choice: verdict, name and both sides.
fn test_line(test: &Test, columns: usize) -> String {
    let verdict = if test.passes { "pass" } else { "FAIL" };
    let (left, right) = test.sides();
    let origin = match test.origin.as_str() {
        "" => String::new(),
        origin => format!("{origin} = "),
    };
    let rounded = if test.is_rounded {
        " (rounded to a float)"
    } else {
        ""
    };
    figures::wrapped(
        &format!("  {verdict}  {:<20}  ", test.name),
        &format!("{left}{rounded} {} {origin}{right}", test.relation),
        columns,
    )
}

/// How many of the tests fail, and which.
pub fn verdict(tests: &[Test]) -> String {
    let failed = tests.iter().filter(|test| !test.passes);
    let names: Vec<_> = failed.map(|test| test.name).collect();
    let (count, verb) = match names.len() {
        0 => return "all four tests pass, so the split pays".to_owned(),
        4 => return "all four tests fail".to_owned(),
        1 => (1, "fails"),
        count => (count, "fail"),
    };
    format!("{count} of the four tests {verb}: {}", names.join(", "))
}

/// Whether the plan is selected, and why; in brief without both sides of each test.
fn choice(view: &View<'_>, is_brief: bool, columns: usize) -> String {
    let word = match view.plan.selected {
        true => "SELECTED",
        false => "NOT SELECTED",
    };
    let said = |words: &str| figures::wrapped(&format!("{word}: "), words, columns);
    let (tests, agrees) = match &view.choice {
        Choice::Unread(reason) => {
            return said(&format!("{reason}, so that planning reads no record"));
        }
        Choice::Nothing => return said(NOTHING),
        Choice::Tested { tests, agrees } => (tests, agrees),
    };
    let mut text = said(&verdict(tests));
    let shown = tests.iter().filter(|_| !is_brief);
    text.extend(shown.map(|test| test_line(test, columns)));
    if !agrees {
        let words = "The tests computed here say otherwise than the plan. The plan counts.";
        text.push_str(&figures::wrapped("  ", words, columns));
    }
    text
}

/// The works, and how many times cheaper the components are.
fn work(view: &View<'_>, columns: usize) -> String {
    let works = Works::of(view);
    let (dense, component) = works.digits();
    let compared = works.comparison();
    let compared = compared
        .iter()
        .map(|line| figures::wrapped("  ", line, columns));
    format!(
        "Work\n  dense        {dense}\n  components   {component}\n{}",
        compared.collect::<String>()
    )
}

/// Where the dense peak comes from, and how wide the register is, as far as a circuit tells.
fn origin(view: &View<'_>) -> String {
    let Some(planned) = &view.planned else {
        return String::new();
    };
    if !view.is_read() {
        return ", from max".to_owned();
    }
    let widest = figures::count(planned.circuit.widest(), "coordinate", "coordinates");
    format!(", from max; the widest register has {widest}")
}

/// What is said of the ceiling of a stored plan, which does not hold it.
fn unstored_ceiling(view: &View<'_>, columns: usize) -> String {
    let largest = view.plan.component_max_k.iter().max();
    let members = match (&view.planned, largest) {
        (None, Some(&largest)) => figures::count(largest as u64, "member", "members"),
        _ => return String::new(),
    };
    let words = format!("not stored; the largest component has {members}");
    figures::wrapped("  ceiling      ", &words, columns)
}

/// The dimensions; where no record is read, only what max gives.
fn dimensions(view: &View<'_>, columns: usize) -> String {
    let plan = &view.plan;
    let peak = figures::dimension(plan.dense_peak_dimension as u64);
    let dense = format!("{peak}{}", origin(view));
    let dense = figures::wrapped("  dense peak   ", &dense, columns);
    if !view.is_read() {
        return format!("Dimensions\n{dense}");
    }
    format!(
        "Dimensions\n  peak         {}\n  allocated    {}\n{dense}{}",
        figures::whole(plan.component_peak_live_dimension as u64),
        figures::whole(plan.component_allocated_dimension as u64),
        unstored_ceiling(view, columns)
    )
}

/// What an event joins and where, and what it does there.
pub fn deed(view: &View<'_>, event: &Event) -> String {
    let component = event.component;
    let noun = if event.members.len() == 1 {
        "member"
    } else {
        "members"
    };
    let members = format!("{noun} {}", figures::list(&event.members));
    let place = match event.joined.len() {
        0 => format!("in {component}"),
        1 => format!("{} joins {component}", event.joined[0]),
        _ => format!("{} join {component}", figures::list(&event.joined)),
    };
    let pauli = view.local_text(event, MOST_OF_PAULI);
    match event.deed {
        Deed::Promotion => format!("new component {component}: {members}"),
        Deed::Rotation => format!("{place}: {members}; rotates {pauli}"),
        Deed::Measurement { leaves, empties } => {
            let end = match empties {
                true => format!(", component {component} ends"),
                false => String::new(),
            };
            format!("{place}: {members}; measures {pauli}, {leaves} leaves{end}")
        }
    }
}

/// What becomes of a record that concerns no component; a stored plan does not tell what it was.
fn passed_over(record: Option<&Record>, kind: Kind) -> &'static str {
    match record {
        _ if kind == Kind::IgnoredGlobalPhase => "a global phase: no coordinate is active",
        Some(Record::ActiveMeasurement(_)) => "an expectation: nothing to plan",
        Some(Record::RecordMeasurement) => "a classical record: nothing to plan",
        Some(Record::RecordDetector) => "a classical detector: nothing to plan",
        Some(Record::DormantBranch) => "a branch off the register: nothing to plan",
        _ => "nothing to plan",
    }
}

/// What becomes of a record.
pub fn outcome(view: &View<'_>, record: usize) -> String {
    match view.replay.event(record) {
        Some(event) => deed(view, event),
        None => {
            let kind = view.plan.instruction_steps[record].kind;
            let circuit = view.planned.as_ref().map(|planned| planned.circuit);
            let placed = circuit.map(|circuit| &circuit.records[record].record);
            passed_over(placed, kind).to_owned()
        }
    }
}

/// One line a record of a stored plan, or more where the text is narrow.
fn stored_records(view: &View<'_>, columns: usize) -> String {
    let mut text = format!("Records\n  {:>4}  plan\n", "no.");
    for record in 0..view.plan.instruction_steps.len() {
        let first = format!("  {record:>4}  ");
        text.push_str(&figures::wrapped(&first, &outcome(view, record), columns));
    }
    text
}

/// One line a record, or more where the text is narrow.
fn records(view: &View<'_>, circuit: &Circuit, columns: usize) -> String {
    let all = &circuit.records;
    let most = MOST_OF_LINE.min(columns * 3 / 10);
    let shown = all.iter().map(|placed| figures::cut(&placed.text, most));
    let shown: Vec<_> = shown.collect();
    let lengths = shown.iter().map(|text| text.chars().count());
    let widest = lengths.fold("circuit".len(), usize::max);
    let mut text = format!(
        "Records\n  {:>4}  {:>4}  {:<widest$}  plan\n",
        "no.", "line", "circuit"
    );
    for (record, placed) in all.iter().enumerate() {
        let line = placed.line;
        let first = format!("  {record:>4}  {line:>4}  {:<widest$}  ", shown[record]);
        text.push_str(&figures::wrapped(&first, &outcome(view, record), columns));
    }
    text
}

/// The components that live at the end, with their members in order. A stored plan has no groups,
/// so that they are told from its rows.
fn groups(view: &View<'_>) -> String {
    let heading = match view.planned {
        Some(_) => "Final groups",
        None => "Live at the end, told from the rows",
    };
    let mut text = format!("{heading}\n");
    let live = view.replay.members.iter().enumerate();
    for (component, members) in live.filter(|(_, members)| !members.is_empty()) {
        let _ = writeln!(
            text,
            "  component {component:>3}: {}",
            figures::list(members)
        );
    }
    if view.replay.members.iter().all(Vec::is_empty) {
        text.push_str("  none: no coordinate is active at the end\n");
    }
    text
}

/// The heading, the choice and, for a circuit, the notes; for a stored plan, what was not checked.
fn opening(view: &View<'_>, is_brief: bool, columns: usize) -> Vec<String> {
    let choice = choice(view, is_brief, columns);
    match &view.planned {
        Some(planned) => {
            let name = visible(view.name);
            let heading = heading(&name, planned.circuit, columns);
            vec![heading, choice, noted(planned.circuit, columns)]
        }
        None => {
            let words = kept::unchecked(&view.plan);
            let unchecked = figures::wrapped("Unchecked: ", &words, columns);
            vec![stored_heading(view, columns), choice, unchecked]
        }
    }
}

/// The lanes; empty where there are none.
fn drawn(view: &View<'_>, style: &Style) -> String {
    match view.is_read() && !view.replay.lives.is_empty() {
        true => lanes::picture(&view.replay, style),
        false => String::new(),
    }
}

/// Parts with a line between; behind them the checksum of a stored plan that is written besides
/// and, where it is so, that the lanes are not the plan's.
fn joined(view: &View<'_>, mut parts: Vec<String>, columns: usize) -> String {
    parts.push(stored_besides(view, columns));
    if !view.agrees {
        let words = "The lanes drawn here do not agree with the plan. The plan counts.";
        parts.push(figures::wrapped("", words, columns));
    }
    parts.retain(|part| !part.is_empty());
    parts.join("\n")
}

/// The whole view of a plan.
pub fn plan(view: &View<'_>, style: &Style) -> String {
    let columns = style.columns;
    let mut parts = opening(view, false, columns);
    parts.push(work(view, columns));
    parts.push(dimensions(view, columns));
    if view.is_read() {
        if !view.plan.instruction_steps.is_empty() {
            parts.push(match &view.planned {
                Some(planned) => records(view, planned.circuit, columns),
                None => stored_records(view, columns),
            });
        }
        parts.push(drawn(view, style));
        parts.push(groups(view));
    }
    joined(view, parts, columns)
}

/// A plan in brief: whether it is selected and why, the notes or what is unchecked, the works and
/// the lanes.
pub fn brief(view: &View<'_>, style: &Style) -> String {
    let mut parts = opening(view, true, style.columns);
    parts.push(work(view, style.columns));
    parts.push(drawn(view, style));
    joined(view, parts, style.columns)
}

/// The line of the head that a refusal is about, if it is about one that the file gives.
pub fn head_line(circuit: &Circuit, refusal: &Refusal) -> Option<usize> {
    let line = match refusal.reason {
        Reason::MaxK => circuit.head_lines[1],
        Reason::InitialK => circuit.head_lines[0],
        Reason::Ceiling => circuit.head_lines[3],
        _ => 0,
    };
    (line != 0).then_some(line)
}

/// Which ceiling a circuit has, and that it is the largest one where the file gives none.
fn ceiling(circuit: &Circuit) -> String {
    match circuit.given_ceiling() {
        Some(number) => format!("the ceiling is {}", figures::whole(number)),
        None => format!("the ceiling is {LARGEST_CEILING} where none is given"),
    }
}

/// Why a join is refused, with as many members as it makes.
fn too_many(circuit: &Circuit, refusal: &Refusal) -> String {
    let members = match planning::joined(circuit, refusal.index) {
        Some(number) => format!("{} members", figures::whole(number)),
        None => "too many members".to_owned(),
    };
    let ceiling = ceiling(circuit);
    format!("the join makes a component of {members}, and {ceiling}: there have to be fewer")
}

/// Why a sine and a cosine are refused, with what their squares sum to.
fn no_one_angle(circuit: &Circuit, refusal: &Refusal) -> String {
    let placed = refused_record(circuit, refusal);
    let sum = match placed.map(|placed| &placed.record) {
        Some(Record::Rotation(r)) => angle::written(r.sine * r.sine + r.cosine * r.cosine),
        _ => "something else".to_owned(),
    };
    format!("the squares of sin and cos sum to {sum}, and have to sum to 1, give or take 2^-50")
}

/// Why a circuit is refused, in the words of its file.
pub fn reason(circuit: &Circuit, refusal: &Refusal) -> String {
    let words = match refusal.reason {
        Reason::MaxK => {
            let (max, ceiling) = (figures::whole(circuit.head.max_k), ceiling(circuit));
            return format!("max is {max}, and {ceiling}: max has to be below it");
        }
        Reason::Ceiling => {
            let ceiling = ceiling(circuit);
            return format!("{ceiling}, and has to be 1 to {LARGEST_CEILING}");
        }
        Reason::ComponentSize => return too_many(circuit, refusal),
        Reason::Squares => return no_one_angle(circuit, refusal),
        Reason::RecordWords => {
            let (found, most) = (circuit.records.len() as u64, MOST_RECORDS as u64);
            let (found, most) = (figures::whole(found), figures::whole(most));
            return format!("there are {found} records, and {most} is the most");
        }
        Reason::InitialK => "initial is more than 512",
        Reason::Width => "a record that acts here needs 62 active coordinates or fewer",
        Reason::Phase => "phase is more than 3",
        Reason::Floats => "sin or cos is not in -1 to 1",
        Reason::Promotion => "this promote would make the 513th coordinate",
        Reason::NothingActive => "no coordinate is active that could be measured",
        Reason::Pivot => "the pivot is not below the number of active coordinates",
        Reason::PivotX => "X or Y acts on the measured component, but not at the pivot",
        Reason::PivotZ => "only Z acts on the measured component, and not at the pivot",
        Reason::Eigenvalues => {
            "only Z acts on the measured component, with phase 1 or 3 (a sign i)"
        }
        Reason::Identity => "no X, Y or Z acts on the measured component",
        other => other.sentence(),
    };
    words.to_owned()
}

/// Where a circuit is refused.
pub fn place(circuit: &Circuit, refusal: &Refusal) -> String {
    match (
        refused_record(circuit, refusal),
        head_line(circuit, refusal),
    ) {
        (Some(placed), _) => format!(
            " at record {} (the first is 0), on line {}",
            refusal.index, placed.line
        ),
        (None, Some(line)) => format!(" of the head, on line {line}"),
        (None, None) => " of the whole circuit".to_owned(),
    }
}

/// The record that a refusal is about, if it is about one.
pub fn refused_record<'a>(circuit: &'a Circuit, refusal: &Refusal) -> Option<&'a Placed> {
    let placed = circuit.records.get(refusal.index);
    placed.filter(|_| refusal.is_of_record())
}

/// A refusal in words, with the record's number and its line.
pub fn refusal(name: &str, circuit: &Circuit, refusal: &Refusal, style: &Style) -> String {
    let wrapped = |words: &str| figures::wrapped("  ", words, style.columns);
    let mut text = heading(name, circuit, style.columns) + "\n";
    let about = format!("refusal {}{}", refusal.number(), place(circuit, refusal));
    text.push_str(&figures::wrapped("REFUSED: ", &about, style.columns));
    text.push_str(&wrapped(&reason(circuit, refusal)));
    if let Some(placed) = refused_record(circuit, refusal) {
        let line = figures::cut(&placed.text, MOST_REPEATED.min(style.columns));
        text.push_str(&wrapped(&format!("{name}:{}: {line}", placed.line)));
        let active = figures::count(placed.width, "coordinate is", "coordinates are");
        text.push_str(&wrapped(&format!("{active} active there")));
    }
    match noted(circuit, style.columns) {
        notes if notes.is_empty() => text,
        notes => format!("{text}\n{notes}"),
    }
}

#[cfg(test)]
mod tests {
    use super::*;
    use crate::circuit;

    /// What is said of a circuit that is refused.
    fn said(text: &str, columns: usize) -> String {
        let circuit = circuit::parse(text.as_bytes()).unwrap();
        let refused = View::of("-", &circuit).err().unwrap();
        let style = Style {
            columns,
            ascii: false,
        };
        refusal("-", &circuit, &refused, &style)
    }

    #[test]
    fn a_narrow_refusal_is_wrapped() {
        let text = "initial 4\nmax 8\npromote\nmeasure ZZ___ pivot 2\n";
        let found = said(text, 40);
        assert!(found.lines().all(|line| line.len() <= 40), "{found}");
    }

    #[test]
    fn a_refusal_of_the_head_names_its_line() {
        let found = said("initial 1\nmax 62\n", 80);
        let wanted = "refusal 1 of the head, on line 2\n  max is 62, and the ceiling is 62 where \
                      none is given: max has to be below it\n";
        assert!(found.contains(wanted), "{found}");
        let found = said("ceiling 12\ninitial 1\nmax 12\n", 80);
        let wanted =
            "refusal 1 of the head, on line 3\n  max is 12, and the ceiling is 12: max has \
                      to be below it\n";
        assert!(found.contains(wanted), "{found}");
        for (number, shown) in [
            (0, "0"),
            (70, "70"),
            (u64::MAX, "18,446,744,073,709,551,615"),
        ] {
            let found = said(&format!("max 99\ninitial 1\n\nceiling {number}\n"), 80);
            let wanted = format!(
                "refusal 24 of the head, on line 4\n  the ceiling is {shown}, and has to be 1 to 62\n"
            );
            assert!(found.contains(&wanted), "{found}");
        }
    }

    #[test]
    fn a_refused_join_tells_members_and_ceiling() {
        let found = said("initial 12\nmax 8\nceiling 9\nrotate x=0x3ff 1", 200);
        assert!(found.contains("at the start, max 8, ceiling 9, 1 record\n"));
        let wanted = "a component of 10 members, and the ceiling is 9: there have to be fewer\n";
        assert!(found.contains(wanted), "{found}");
        let found = said("initial 62\nmax 8\nrotate x=0x3fffffffffffffff 1", 200);
        let wanted = "a component of 62 members, and the ceiling is 62 where none is given: there";
        assert!(found.contains(wanted), "{found}");
    }

    #[test]
    fn refusals_speak_of_what_the_file_has() {
        let records = "record\n".repeat(1025);
        let cases = [
            ("initial 513\nmax 8\n", "  initial is more than 512\n"),
            (
                &format!("initial 1\nmax 8\n{records}"),
                "1,025 records, and 1,024 is",
            ),
            (
                "initial 1\nmax 8\nrotate x=1 phase=4 1",
                "  phase is more than 3\n",
            ),
            ("initial 1\nmax 8\nrotate X 1 sin=2", "  sin or cos is not"),
            (
                "initial 1\nmax 8\nrotate X 0 sin=0 cos=0",
                "  the squares of sin and cos sum to 0, and have to sum to 1, give or take 2^-50\n",
            ),
            ("initial 1\nmax 8\nrotate X 0 sin=-0.5", " sum to 1.25, "),
            ("initial 1\nmax 8\nrotate X 0 sin=1 cos=-1", " sum to 2, "),
            (
                "initial 1\nmax 8\nrotate X 0 sin=1e-100 cos=0",
                " sum to 1e-200, ",
            ),
            (
                "initial 1\nmax 8\nrotate X 0 sin=0.6 cos=0.8000000000000007",
                " sum to 1.000000000000001, ",
            ),
        ];
        for (text, wanted) in cases {
            let found = said(text, 80);
            assert!(found.contains(wanted), "{found}");
            assert!(!found.contains("_k") && !found.contains("words"), "{found}");
        }
    }
}
