//! A stored plan that is read from its file: the plan where its words make one that can be followed,
//! else in words why not, with what the file holds.

use midvokt::{file_bytes, load, Reason, Refusal, Scalars, Stored, StoredPlan, MOST_RECORDS};

use crate::checksum::{self, Checksum};
use crate::figures;
use crate::kinds;
use crate::lanes::Style;
use crate::planning::View;
use crate::sense;
use crate::trailer;

/// From so many columns on, a scalar field's word stands beside its name.
const ROOM: usize = 60;

/// Why a file is not shown as a plan.
pub enum Fault {
    /// The library refuses it, for this reason.
    Refused(Refusal, String),
    /// It makes no sense, for this reason; with the scalar fields of a file that was read.
    Senseless(String, Option<Scalars>),
}

/// What of a stored plan nothing tells: of one with steps or components, of such a one with a
/// dense work that may stay the same where 1 is added, and of one without.
const UNCHECKED: &str = "that each angle belongs to its sine and cosine; a cosine's sign and \
    digits too low for the sum of the squares; the sign of a sine of 0; masks, sources and \
    pivots where others make a plan too; the dense peak where the choice is the same";
const UNCHECKED_OF_LARGE_WORK: &str =
    "; whether a record is a global phase where no coordinate is active";
const LARGE_WORK: f64 = (1u64 << 53) as f64;
const UNCHECKED_OF_NOTHING: &str = "how many coordinates there are at the start; the dense peak";

/// What of a plan that is shown was not checked, since its circuit alone tells it.
pub fn unchecked(plan: &StoredPlan) -> String {
    let work = plan.estimated_dense_work;
    match sense::is_empty(plan) {
        true => UNCHECKED_OF_NOTHING.to_owned(),
        false if work >= LARGE_WORK => UNCHECKED.to_owned() + UNCHECKED_OF_LARGE_WORK,
        false => UNCHECKED.to_owned(),
    }
}

/// The most bytes that a stored plan has.
pub const MOST_BYTES: usize = file_bytes(MOST_RECORDS);

/// What is said of a longer file that begins with these bytes.
fn too_long(opening: &[u8]) -> String {
    let too_long = format!(
        "it is longer than {} bytes, and the plan of {} records is not",
        figures::whole(MOST_BYTES as u64),
        figures::whole(MOST_RECORDS as u64)
    );
    kinds::unstored(kinds::of_opening(opening)).unwrap_or(too_long)
}

/// Why a file is refused; the number's own sentence where nothing more is known.
fn refused(bytes: &[u8], refusal: Refusal) -> Fault {
    let other = (refusal.reason == Reason::File).then(|| kinds::unstored(kinds::of(bytes)));
    let why = trailer::why(bytes).filter(|(number, _)| *number == refusal.number());
    let why = other.flatten().or(why.map(|(_, words)| words));
    let words = why.unwrap_or(refusal.sentence().to_owned());
    Fault::Refused(refusal, words)
}

/// Whether a file with these first bytes may be a stored plan by its length.
pub fn is_whole(bytes: &[u8]) -> bool {
    bytes.len() <= MOST_BYTES
}

/// The plan of a file's bytes, of which there is one more than a plan has where it is longer.
pub fn view<'a>(name: &'a str, bytes: &[u8]) -> Result<View<'a>, Fault> {
    if !is_whole(bytes) {
        return Err(Fault::Senseless(too_long(bytes), None));
    }
    let plan = match load(bytes).map_err(|refusal| refused(bytes, refusal))? {
        Stored::Plan(plan) => plan,
        Stored::Words { words, misfit } => {
            return Err(Fault::Senseless(misfit.to_string(), Some(words.scalars)));
        }
    };
    let scalars = plan.to_words().scalars;
    View::of_stored(name, plan).map_err(|what| Fault::Senseless(what, Some(scalars)))
}

/// A scalar field's name and its word, beside each other where there is room.
fn field(name: &str, word: &str, columns: usize) -> String {
    match columns >= ROOM {
        true => figures::wrapped(&format!("  {name:<29}  "), word, columns),
        false => format!("  {name}\n{}", figures::wrapped("    ", word, columns)),
    }
}

/// The scalar fields as words of the file, works with the floats that they are.
fn words(scalars: &Scalars, columns: usize) -> String {
    let work = |bits: u64| format!("{bits} (the float {:e})", f64::from_bits(bits));
    let fields = [
        ("selected", scalars.selected.to_string()),
        ("initial_components", scalars.initial_components.to_string()),
        ("component_count", scalars.component_count.to_string()),
        ("estimated_dense_work", work(scalars.estimated_dense_work)),
        (
            "estimated_component_work",
            work(scalars.estimated_component_work),
        ),
        (
            "dense_peak_dimension",
            scalars.dense_peak_dimension.to_string(),
        ),
        (
            "component_peak_live_dimension",
            scalars.component_peak_live_dimension.to_string(),
        ),
        (
            "component_allocated_dimension",
            scalars.component_allocated_dimension.to_string(),
        ),
    ];
    let fields = fields.iter().map(|(name, word)| field(name, word, columns));
    format!(
        "\nScalar fields, as words of the file\n{}",
        fields.collect::<String>()
    )
}

/// Why a file is not shown, for a person, with what more is to be said of that.
pub fn text(
    name: &str,
    checksum: Option<Checksum>,
    fault: &Fault,
    more: &str,
    style: &Style,
) -> String {
    let columns = style.columns;
    let (what, scalars) = match fault {
        Fault::Refused(refusal, words) => {
            let number = format!("REFUSED: refusal {} of a stored plan\n", refusal.number());
            (number + &figures::wrapped("  ", words, columns), None)
        }
        Fault::Senseless(words, scalars) => {
            let first = "NO PLAN: what the file holds makes none\n";
            let what = figures::wrapped("  ", words, columns);
            (format!("{first}{what}"), scalars.as_ref())
        }
    };
    let words = scalars.map_or(String::new(), |scalars| words(scalars, columns));
    let checksum = checksum::line("", checksum, columns);
    format!("{name}\n{checksum}\n{what}{more}{words}")
}

#[cfg(test)]
mod tests {
    use super::*;
    use crate::{circuit, json, planning, svg, text};

    const STYLE: Style = Style {
        columns: 80,
        ascii: false,
    };

    /// The file of a circuit with every kind of row.
    fn file() -> Vec<u8> {
        let text = "initial 3\nmax 8\nrotate X_X 0.5\nrecord\npromote\nmeasure _ZZ_ pivot 2\n\
                    measure __X pivot 2\nrotate YX 0.25";
        planning::stored(&circuit::parse(text.as_bytes()).unwrap()).unwrap()
    }

    /// All that is shown of a file.
    fn shown(bytes: &[u8]) -> (bool, String) {
        match view("-", bytes) {
            Ok(view) => {
                let all = [
                    text::plan(&view, &STYLE),
                    svg::picture(&view),
                    json::plan(&view),
                ];
                (true, all.concat())
            }
            Err(fault) => (false, super::text("-", None, &fault, "", &STYLE)),
        }
    }

    #[test]
    fn a_stored_plan_is_shown() {
        let (is_plan, shown) = shown(&file());
        assert!(
            is_plan
                && shown.contains("a stored plan: 3 components at the start, 4 in all, 6 records")
        );
        assert!(shown.contains("     1  nothing to plan\n"));
        assert!(shown.contains("Live at the end, told from the rows\n  component   0: 0 1\n"));
    }

    #[test]
    fn the_ceiling_of_a_stored_plan_is_open() {
        let text = "initial 3\nmax 8\nceiling 9\nrotate X_X 0.5";
        let circuit = circuit::parse(text.as_bytes()).unwrap();
        let (is_plan, shown) = shown(&planning::stored(&circuit).unwrap());
        assert!(is_plan && !shown.contains("\"ceiling\""), "{shown}");
        let wanted = "  ceiling      not stored; the largest component has 2 members\n";
        assert_eq!(shown.matches("ceiling").count(), 1);
        assert!(shown.contains(wanted), "{shown}");
    }

    #[test]
    fn every_damaged_word_is_shown_or_told() {
        let good = file();
        let mut plans = 0;
        for place in 0..good.len() / 8 {
            let start = 8 * place;
            let before = u64::from_le_bytes(good[start..start + 8].try_into().unwrap());
            let near = [
                before ^ 1,
                before.wrapping_add(1),
                before.wrapping_sub(1),
                before << 1,
            ];
            for word in [0, 1, 2, 61, 62, 63, 64, 511, 1 << 32, 1 << 63, u64::MAX]
                .into_iter()
                .chain(near)
            {
                let mut damaged = good.clone();
                damaged[start..start + 8].copy_from_slice(&word.to_le_bytes());
                let (is_plan, shown) = shown(&damaged);
                plans += usize::from(is_plan);
                let is_finite = !shown.contains("inf") && !shown.contains("NaN");
                assert!(!is_plan || is_finite, "{shown}");
            }
        }
        assert!(plans > 100, "{plans}");
    }

    /// Where 52 coordinates leave, the work is so large that a global phase adds nothing to it.
    #[test]
    fn a_global_phase_beside_a_large_work_is_said_to_be_unchecked() {
        for (coordinates, is_open) in [(51, false), (52, true)] {
            let measured = "measure x=1 z=0 pivot 0\n".repeat(coordinates);
            let text = format!("initial {coordinates}\nmax 8\n{measured}record");
            let circuit = circuit::parse(text.as_bytes()).unwrap();
            let mut file = planning::stored(&circuit).unwrap();
            let (_, whole) = shown(&file);
            file[16 * coordinates] ^= 1;
            let (is_plan, damaged) = shown(&file);
            assert_eq!(is_plan, is_open, "{damaged}");
            assert_eq!(whole.contains(UNCHECKED_OF_LARGE_WORK), is_open);
        }
    }

    #[test]
    fn a_longer_file_than_a_plan_has_is_told() {
        let told = |opening: &str| {
            let mut bytes = opening.as_bytes().to_vec();
            bytes.resize(MOST_BYTES + 1, opening.bytes().last().unwrap_or(0));
            shown(&bytes).1
        };
        assert!(told("").contains("it is longer than 204,984 bytes"));
        let found = told("<svg>\n");
        assert!(
            found.contains("it is a picture and no stored plan"),
            "{found}"
        );
        let found = told("initial 3\n");
        let wanted = "it is a circuit and no stored plan; it is shown without --stored";
        assert!(found.contains(wanted), "{found}");
    }
}
