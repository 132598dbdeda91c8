//! What stands above the lanes of the SVG picture: name, choice, works and dimensions.

use crate::choice::Choice;
use crate::figures;
use crate::files::STANDARD_INPUT;
use crate::layout::MARGIN;
use crate::planning::View;
use crate::shapes::Sheet;
use crate::text;
use crate::works::Works;

/// The size of the title's characters.
const TITLE: f64 = 18.0;
/// What stands in front of the name.
const COMPONENTS: &str = "Components of ";

/// How wide a bold text is at the size 1, at the most: most small letters and digits are narrow,
/// all else may be a little wider than high.
fn width(text: &str) -> f64 {
    let of = |character: char| match character {
        'm' | 'w' | '@' | '%' | 'A'..='Z' => 1.1,
        _ if character.is_ascii() => 0.72,
        _ => 1.1,
    };
    text.chars().map(of).sum()
}

/// The name of a file without the folders that it lies in.
fn file_name(name: &str) -> &str {
    if name == STANDARD_INPUT {
        return "standard input";
    }
    let last = name.rsplit('/').find(|part| !part.is_empty());
    last.unwrap_or(name)
}

/// A name, or its end where it is wider than this at the size 1.
fn fitting(name: &str, room: f64) -> String {
    if width(name) <= room {
        return name.to_owned();
    }
    let mut starts = name.char_indices().map(|(start, _)| &name[start..]);
    let rest = starts.find(|rest| width("...") + width(rest) <= room);
    format!("...{}", rest.unwrap_or(""))
}

/// What a picture is of.
pub fn title(view: &View<'_>) -> String {
    format!("{COMPONENTS}{}", file_name(view.name))
}

/// Whether the plan is selected, and why.
fn choice(view: &View<'_>) -> String {
    let word = match view.plan.selected {
        true => "Selected",
        false => "Not selected",
    };
    match &view.choice {
        Choice::Unread(reason) => format!("{word}: {reason}; no record is read"),
        Choice::Nothing => format!("{word}: {}", text::NOTHING),
        Choice::Tested { tests, .. } => format!("{word}: {}", text::verdict(tests)),
    }
}

/// The dimensions.
fn dimensions(view: &View<'_>) -> String {
    let plan = &view.plan;
    format!(
        "dimensions: peak {}, allocated {}, dense peak {}",
        figures::whole(plan.component_peak_live_dimension as u64),
        figures::whole(plan.component_allocated_dimension as u64),
        figures::dimension(plan.dense_peak_dimension as u64)
    )
}

/// The words above a picture so wide.
pub fn draw(sheet: &mut Sheet, view: &View<'_>, wide: f64) {
    let works = Works::of(view);
    let (dense, component) = works.digits();
    let compared = works.comparison().join("; ");
    let works = format!("work: {dense} dense, {component} in components");
    let room = (wide - 2.0 * MARGIN) / TITLE - width(COMPONENTS);
    let name = fitting(file_name(view.name), room);
    let bold = format!("font-size=\"{TITLE}\" font-weight=\"bold\"");
    sheet.words((MARGIN, 28.0), &bold, &format!("{COMPONENTS}{name}"));
    sheet.words((MARGIN, 49.0), "font-size=\"13\"", &choice(view));
    sheet.grey_words((MARGIN, 67.0), 12.0, "start", &works);
    sheet.grey_words((MARGIN, 84.0), 12.0, "start", &compared);
    sheet.grey_words((MARGIN, 101.0), 12.0, "start", &dimensions(view));
}

#[cfg(test)]
mod tests {
    use super::*;
    use crate::circuit;

    /// A width between those of small pictures and of large ones.
    const WIDE: f64 = 1000.0;

    /// The title of a picture of nothing, of this name.
    fn titled(name: &str) -> String {
        let circuit = circuit::parse(b"initial 3\nmax 8\n").unwrap();
        let mut sheet = Sheet::default();
        draw(&mut sheet, &View::of(name, &circuit).unwrap(), WIDE);
        let drawn = sheet.finished();
        let (_, rest) = drawn.split_once("font-weight=\"bold\">").unwrap();
        rest.split_once('<').unwrap().0.to_owned()
    }

    #[test]
    fn the_title_has_the_name_without_folders() {
        for (name, shown) in [
            ("b.circuit", "b.circuit"),
            ("a/b.circuit", "b.circuit"),
            ("/a//b/c.circuit", "c.circuit"),
            ("-", "standard input"),
            ("./-", "-"),
            ("/", "/"),
            ("a/..", ".."),
        ] {
            assert_eq!(titled(name), format!("Components of {shown}"));
        }
    }

    #[test]
    fn a_long_name_is_cut_in_front() {
        let long = titled(&format!(
            "folder/{}/{}.circuit",
            "b/".repeat(9),
            "c".repeat(200)
        ));
        assert!(long.starts_with("Components of ...c") && long.ends_with("c.circuit"));
        let wide = titled(&"\u{4e00}".repeat(300));
        assert!(wide.starts_with("Components of ...\u{4e00}"));
        for title in [long, wide] {
            let found = width(&title) * TITLE;
            assert!(found <= WIDE - 2.0 * MARGIN && found > WIDE - 3.0 * TITLE - MARGIN);
        }
    }
}
