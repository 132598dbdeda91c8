//! The plan, or the refusal, as JSON for programs; docs/JSON.md describes every field. Fields
//! of the plan have the names that the Rust crate gives them. A field whose whole number may
//! pass 2^53, which a reader may keep as a float, is a string of digits, whatever it holds.

use midvokt::{
    ActiveComponentStepKind as Kind, ActivePauliAction, Complex, Head, Refusal, Scalars, WholeWorks,
};

use crate::checksum::Checksum;
use crate::choice::Choice;
use crate::circuit::Circuit;
use crate::kept;
use crate::lives::{Deed, End, Event};
use crate::notes;
use crate::planning::{Planned, View};
use crate::text::{self, refused_record};

/// The number of this form of the output; another form gets another number.
pub const FORMAT: u64 = 1;

/// The fields of an object, each with its value as JSON.
pub type Fields = Vec<(&'static str, String)>;

/// A text between quotes.
pub fn string(text: &str) -> String {
    let mut quoted = "\"".to_owned();
    for character in text.chars() {
        match character {
            '"' => quoted.push_str("\\\""),
            '\\' => quoted.push_str("\\\\"),
            _ if character.is_control() => {
                quoted.push_str(&format!("\\u{:04x}", character as u32));
            }
            _ => quoted.push(character),
        }
    }
    quoted + "\""
}

/// An object on one line.
pub fn object(fields: &Fields) -> String {
    let field = |(name, value): &(&str, String)| format!("{}: {value}", string(name));
    let fields: Vec<_> = fields.iter().map(field).collect();
    format!("{{{}}}", fields.join(", "))
}

/// An object with a field a line.
pub fn tall_object(fields: &Fields) -> String {
    let field = |(name, value): &(&str, String)| format!("{}: {value}", string(name));
    let fields: Vec<_> = fields.iter().map(field).collect();
    format!("{{\n{}\n}}", fields.join(",\n"))
}

/// A list on one line.
pub fn list<T: ToString>(values: &[T]) -> String {
    let values: Vec<_> = values.iter().map(T::to_string).collect();
    format!("[{}]", values.join(", "))
}

/// A list with a value a line.
pub fn tall_list(values: &[String]) -> String {
    match values {
        [] => "[]".to_owned(),
        _ => format!("[\n  {}\n]", values.join(",\n  ")),
    }
}

/// A whole number that may pass 2^53: its digits between quotes.
pub fn wide<T: ToString>(number: T) -> String {
    string(&number.to_string())
}

/// A float with all digits that it needs. None of a plan's is infinite or no number.
pub fn float(number: f64) -> String {
    format!("{number:?}")
}

/// A complex number as a list of two.
fn complex(number: Complex) -> String {
    list(&[float(number.re), float(number.im)])
}

/// A number, or null.
pub fn optional<T: ToString>(number: Option<T>) -> String {
    number.map_or("null".to_owned(), |number| number.to_string())
}

/// The head.
fn head(head: &Head) -> String {
    object(&vec![
        ("initial_k", wide(head.initial_k)),
        ("max_k", wide(head.max_k)),
        ("nexpvals", wide(head.nexpvals)),
        ("ceiling", wide(head.ceiling)),
    ])
}

/// The tests of the choice; null where the records are unread.
fn tests(choice: &Choice) -> String {
    let Choice::Tested { tests, .. } = choice else {
        return "null".to_owned();
    };
    let test = |test: &crate::choice::Test| {
        object(&vec![
            ("name", string(test.name)),
            ("left", float(test.left)),
            ("relation", string(test.relation)),
            ("right", float(test.right)),
            ("passes", test.passes.to_string()),
        ])
    };
    tall_list(&tests.iter().map(test).collect::<Vec<_>>())
}

/// Both works as whole numbers, which are below 2^53; null for what the mark does not give.
fn whole_works(works: WholeWorks) -> String {
    let (mark, numbers) = match works {
        WholeWorks::TooWide => ("too_wide", [None; 4]),
        WholeWorks::WithoutQuotient { dense } => {
            ("without_quotient", [Some(dense), Some(0), None, None])
        }
        WholeWorks::WithQuotient {
            dense,
            component,
            quotient,
            remainder,
        } => {
            let numbers = [dense, component, quotient, remainder];
            ("with_quotient", numbers.map(Some))
        }
    };
    let [dense, component, quotient, remainder] = numbers.map(optional);
    object(&vec![
        ("mark", string(mark)),
        ("dense", dense),
        ("component", component),
        ("quotient", quotient),
        ("remainder", remainder),
    ])
}

/// The name of a step's kind.
fn step_name(kind: Kind) -> &'static str {
    match kind {
        Kind::None => "none",
        Kind::IgnoredGlobalPhase => "ignored_global_phase",
        Kind::Rotation => "rotation",
        Kind::Promotion => "promotion",
        Kind::Measurement => "measurement",
    }
}

/// A row's Pauli in its component's own order.
fn action(action: &ActivePauliAction) -> Fields {
    vec![
        ("nqubits", action.nqubits.to_string()),
        ("xmask", wide(action.xmask)),
        ("zmask", wide(action.zmask)),
        ("even_phase", complex(action.even_phase)),
        ("odd_phase", complex(action.odd_phase)),
        ("xz_overlap_odd", action.xz_overlap_odd.to_string()),
    ]
}

/// What applying a rotation needs.
fn rotation(view: &View<'_>, row: usize) -> Fields {
    let kernel = &view.plan.rotations[row].kernel;
    let mut fields = action(&kernel.action);
    fields.extend([
        ("is_diagonal", kernel.is_diagonal.to_string()),
        ("uniform_imag_pairs", kernel.uniform_imag_pairs.to_string()),
        ("real_pair_flip", kernel.real_pair_flip.to_string()),
        ("pair_bit", kernel.pair_bit.to_string()),
        ("pair_count", wide(kernel.pair_count)),
        ("kernel_angle", float(kernel.kernel_angle)),
        ("cos_kernel_angle", float(kernel.cos_kernel_angle)),
        ("sin_kernel_angle", float(kernel.sin_kernel_angle)),
        (
            "minus_even_coefficient",
            complex(kernel.minus_even_coefficient),
        ),
    ]);
    fields
}

/// What a measurement needs.
fn measurement(view: &View<'_>, row: usize) -> Fields {
    let step = &view.plan.measurements[row];
    let kernel = &step.kernel;
    let mut fields = action(&kernel.action);
    fields.extend([
        ("pivot", kernel.pivot.to_string()),
        ("is_diagonal", kernel.is_diagonal.to_string()),
        ("diagonal_phase_bit", kernel.diagonal_phase_bit.to_string()),
        ("z_without_pivot", wide(kernel.z_without_pivot)),
        ("out_dim", wide(kernel.out_dim)),
        (
            "nondiagonal_coefficient1_even",
            complex(kernel.nondiagonal_coefficient1_even),
        ),
        ("deactivate_after", step.deactivate_after.to_string()),
    ]);
    fields
}

/// What a record joins and where, and its row.
fn event(view: &View<'_>, event: &Event) -> Fields {
    let sources: Vec<_> = [event.component]
        .iter()
        .chain(&event.joined)
        .copied()
        .collect();
    let mut fields = vec![("component", event.component.to_string())];
    match event.deed {
        Deed::Promotion => {}
        Deed::Rotation => {
            fields.push(("sources", list(&sources)));
            fields.push(("members", list(&event.members)));
            fields.extend(rotation(view, event.row));
        }
        Deed::Measurement { leaves, .. } => {
            fields.push(("sources", list(&sources)));
            fields.push(("members", list(&event.members)));
            fields.push(("leaves", leaves.to_string()));
            fields.extend(measurement(view, event.row));
        }
    }
    fields
}

/// The records with their steps; none where they are unread.
fn records(view: &View<'_>) -> String {
    let steps = view.plan.instruction_steps.iter().enumerate();
    let circuit = view.planned.as_ref().map(|planned| planned.circuit);
    let record = |(number, step): (usize, &midvokt::ActiveComponentStepRef)| {
        let mut fields = vec![("record", number.to_string())];
        if let Some(placed) = circuit.map(|circuit| &circuit.records[number]) {
            fields.push(("line", placed.line.to_string()));
            fields.push(("text", string(&placed.text)));
        }
        fields.push(("step", string(step_name(step.kind))));
        if let Some(found) = view.replay.event(number) {
            fields.extend(event(view, found));
        }
        object(&fields)
    };
    tall_list(&steps.map(record).collect::<Vec<_>>())
}

/// The lives of the components.
fn components(view: &View<'_>) -> String {
    let lives = view.replay.lives.iter().enumerate();
    let component = |(number, life): (usize, &crate::lives::Life)| {
        let (end, into) = match life.end {
            End::Lives => ("lives", None),
            End::Joined { into, .. } => ("joined", Some(into)),
            End::Emptied { .. } => ("emptied", None),
        };
        object(&vec![
            ("component", number.to_string()),
            ("born_at", optional(life.born)),
            ("max_k", life.longest.to_string()),
            ("end", string(end)),
            ("end_at", optional(life.end.record())),
            ("joined_into", optional(into)),
        ])
    };
    tall_list(&lives.map(component).collect::<Vec<_>>())
}

/// The fields that a plan and a refusal begin with.
fn opening(name: &str, circuit: &Circuit, refusal: String) -> Fields {
    let notes: Vec<_> = notes::of(circuit).iter().map(|note| string(note)).collect();
    vec![
        ("format", FORMAT.to_string()),
        ("circuit", string(name)),
        ("head", head(&circuit.head)),
        ("notes", tall_list(&notes)),
        ("refusal", refusal),
    ]
}

/// A checksum's field.
fn checksum(checksum: Option<Checksum>) -> (&'static str, String) {
    ("checksum", optional(checksum.map(|checksum| checksum.crc)))
}

/// The fields that a stored plan and its refusal begin with; the last is null but for words that
/// make no plan.
fn stored_opening(name: &str, sum: Option<Checksum>, refusal: String, senseless: String) -> Fields {
    vec![
        ("format", FORMAT.to_string()),
        ("stored", string(name)),
        checksum(sum),
        ("refusal", refusal),
        ("senseless", senseless),
    ]
}

/// The members of each component that lives at the end, by ascending number.
fn groups(planned: &Planned<'_>) -> String {
    let groups: Vec<_> = planned.groups.iter().map(|members| list(members)).collect();
    list(&groups)
}

/// A plan.
pub fn plan(view: &View<'_>) -> String {
    let null = || "null".to_owned();
    let mut fields = match &view.planned {
        Some(planned) => opening(view.name, planned.circuit, null()),
        None => stored_opening(view.name, view.checksum, null(), null()),
    };
    match view.planned {
        None => fields.push(("unchecked", string(&kept::unchecked(&view.plan)))),
        Some(_) if view.checksum.is_some() => fields.push(checksum(view.checksum)),
        Some(_) => {}
    }
    fields.extend(scalars(view));
    fields.extend([
        ("component_max_k", list(&view.plan.component_max_k)),
        ("records", records(view)),
        ("components", components(view)),
    ]);
    fields.extend(
        view.planned
            .iter()
            .map(|planned| ("groups", groups(planned))),
    );
    tall_object(&fields) + "\n"
}

/// The scalar fields of a plan, the choice and the whole works; a stored plan has none of these.
fn scalars(view: &View<'_>) -> Fields {
    let plan = &view.plan;
    let mut fields = vec![
        ("selected", plan.selected.to_string()),
        ("records_read", view.is_read().to_string()),
        ("tests", tests(&view.choice)),
        ("initial_components", wide(plan.initial_components)),
        ("component_count", plan.component_count.to_string()),
        ("estimated_dense_work", float(plan.estimated_dense_work)),
        (
            "estimated_component_work",
            float(plan.estimated_component_work),
        ),
    ];
    let works = view.whole_works().map(whole_works);
    fields.extend(works.map(|works| ("whole_works", works)));
    fields.extend([
        ("dense_peak_dimension", wide(plan.dense_peak_dimension)),
        (
            "component_peak_live_dimension",
            wide(plan.component_peak_live_dimension),
        ),
        (
            "component_allocated_dimension",
            wide(plan.component_allocated_dimension),
        ),
    ]);
    fields
}

/// A file that is refused as a stored plan.
pub fn stored_refusal(
    name: &str,
    checksum: Option<Checksum>,
    refusal: &Refusal,
    reason: &str,
) -> String {
    let about = object(&vec![
        ("number", refusal.number().to_string()),
        ("reason", string(reason)),
        ("record", optional::<u64>(None)),
        ("line", optional::<u64>(None)),
    ]);
    let fields = stored_opening(name, checksum, about, "null".to_owned());
    tall_object(&fields) + "\n"
}

/// A stored plan that makes no sense, with its scalar fields as words if it was read.
pub fn senseless(
    name: &str,
    checksum: Option<Checksum>,
    what: &str,
    scalars: Option<&Scalars>,
) -> String {
    let mut fields = stored_opening(name, checksum, "null".to_owned(), string(what));
    let words = scalars.map(|scalars| list(&scalars.in_order().map(wide)));
    fields.extend(words.map(|words| ("scalars", words)));
    tall_object(&fields) + "\n"
}

/// A refusal.
pub fn refusal(name: &str, circuit: &Circuit, refusal: &Refusal) -> String {
    let placed = refused_record(circuit, refusal);
    let line = placed.map(|placed| placed.line);
    let line = line.or_else(|| text::head_line(circuit, refusal));
    let about = object(&vec![
        ("number", refusal.number().to_string()),
        ("reason", string(&text::reason(circuit, refusal))),
        ("record", optional(placed.map(|_| refusal.index))),
        ("line", optional(line)),
    ]);
    tall_object(&opening(name, circuit, about)) + "\n"
}

#[cfg(test)]
mod tests_of_json {
    use super::*;
    use crate::circuit;

    #[test]
    fn a_refused_head_has_its_line() {
        let records = "record\n".repeat(1025);
        let many = format!("initial 1\nmax 8\n{records}");
        for (text, number, line) in [
            ("\nmax 62\ninitial 1", 1, "2"),
            ("ceiling 9\n\nmax 8\ninitial 513", 4, "4"),
            ("max 8\n\nceiling 0\ninitial 1", 24, "3"),
            ("max 8\ninitial 1\nrecord\nrotate X 1 sin=2", 8, "4"),
            (&many, 2, "null"),
        ] {
            let circuit = circuit::parse(text.as_bytes()).unwrap();
            let refused = View::of("-", &circuit).err().unwrap();
            let found = refusal("-", &circuit, &refused);
            assert!(
                found.contains(&format!("{{\"number\": {number}, ")),
                "{found}"
            );
            assert!(
                found.contains(&format!(", \"line\": {line}}}\n")),
                "{found}"
            );
        }
    }

    #[test]
    fn strings_are_escaped() {
        assert_eq!(string("a\"b\\c\n\u{7f}ä"), "\"a\\\"b\\\\c\\u000a\\u007fä\"");
    }

    #[test]
    fn lists_and_objects_are_joined() {
        assert_eq!(list(&[1, 2]), "[1, 2]");
        assert_eq!(list::<usize>(&[]), "[]");
        assert_eq!(
            object(&vec![("a", float(-0.0)), ("b", optional::<u64>(None))]),
            "{\"a\": -0.0, \"b\": null}"
        );
    }

    #[test]
    fn the_head_has_the_ceiling_last() {
        let all = Head {
            initial_k: 3,
            max_k: 8,
            nexpvals: 0,
            ceiling: u64::MAX,
        };
        assert_eq!(
            head(&all),
            "{\"initial_k\": \"3\", \"max_k\": \"8\", \"nexpvals\": \"0\", \
             \"ceiling\": \"18446744073709551615\"}"
        );
    }

    #[test]
    fn what_a_mark_does_not_give_is_null() {
        assert_eq!(
            whole_works(WholeWorks::TooWide),
            "{\"mark\": \"too_wide\", \"dense\": null, \"component\": null, \
             \"quotient\": null, \"remainder\": null}"
        );
        assert_eq!(
            whole_works(WholeWorks::WithoutQuotient { dense: 2 }),
            "{\"mark\": \"without_quotient\", \"dense\": 2, \"component\": 0, \
             \"quotient\": null, \"remainder\": null}"
        );
        let works = WholeWorks::WithQuotient {
            dense: 26_624,
            component: 334,
            quotient: 79,
            remainder: 238,
        };
        assert_eq!(
            whole_works(works),
            "{\"mark\": \"with_quotient\", \"dense\": 26624, \"component\": 334, \
             \"quotient\": 79, \"remainder\": 238}"
        );
    }
}
