//! What the marks, the lanes and the words of the SVG picture mean, below its lanes.

use crate::layout::{Layout, MARGIN};
use crate::lives::Deed;
use crate::shapes::{self, line, shade, Sheet, GREY, LARGEST};

/// The distance between two lines, from the picture to the first, and from the last to the edge.
const LINE: f64 = 22.0;
const ABOVE: f64 = 30.0;
const BELOW: f64 = 14.0;

/// What a lane, its members and the words behind it are.
const LANES: &str = "A lane is a component. Its members are the coordinates that it holds: with \
    more of them it is thicker and darker.";
const WORDS: &str = "The words behind a lane tell how it ends: 'joins 4 at 9' has the lane that \
    it joins, and the record; 'lives: 2 3' its members then.";
const COLUMNS: &str = "Records that concern no component have no column.";
const SIZES: &str = "A number below a mark: the members after the join.";
const PARTS: [&str; 2] = [
    "The picture goes on below, in parts. Gaps in a lane at the edge of a part: it comes from \
     another part, or goes on in one.",
    "Lanes that do not change in a part are not drawn there; they are named below it.",
];

/// The lines of words.
fn sentences(layout: &Layout<'_>) -> Vec<String> {
    let columns = match layout.shows_sizes() {
        true => format!("{COLUMNS} {SIZES}"),
        false => COLUMNS.to_owned(),
    };
    let mut lines = vec![LANES.to_owned(), WORDS.to_owned(), columns];
    if layout.is_folded() {
        lines.extend(PARTS.map(str::to_owned));
    }
    lines
}

/// How high the legend is.
pub fn height(layout: &Layout<'_>) -> f64 {
    ABOVE + LINE * (1 + sentences(layout).len()) as f64 + BELOW
}

/// The marks and what they are.
fn marks(sheet: &mut Sheet, y: f64) {
    let measured = |empties| Deed::Measurement { leaves: 0, empties };
    let marks = [
        (Deed::Promotion, 162.0, "promotion"),
        (Deed::Rotation, 262.0, "rotation"),
        (measured(false), 352.0, "measurement"),
        (measured(true), 470.0, "measurement that ends it"),
    ];
    let (top, base, bottom) = (y - 6.0, y + 4.0, y + 6.0);
    sheet.add(&line(&format!("M20 {top:.1}V{bottom:.1}"), GREY, 2.0));
    sheet.words((28.0, base), "", "there at the start");
    for (deed, x, words) in marks {
        sheet.add(&shapes::mark(deed, x, y, 6.0));
        sheet.words((x + 12.0, base), "", words);
    }
    let join = format!("M652 {bottom:.1}Q664 {bottom:.1} 664 {top:.1}");
    sheet.add(&line(&join, GREY, 2.0));
    sheet.words((674.0, base), "", "joins the lane marked there");
}

/// How thick and dark a lane is for its members.
fn sizes(sheet: &mut Sheet, layout: &Layout<'_>, y: f64) {
    sheet.words((MARGIN, y + 4.0), "", "members of a lane:");
    for (place, size) in [1, 2, 4, 8, LARGEST].into_iter().enumerate() {
        let x = 140.0 + 70.0 * place as f64;
        let path = format!("M{x} {y:.1}h34");
        sheet.add(&line(&path, &shade(size), layout.thickness(size)));
        let more = if size == LARGEST { " or more" } else { "" };
        sheet.words((x + 40.0, y + 4.0), "", &format!("{size}{more}"));
    }
}

/// The legend of a picture whose parts stop at this height.
pub fn draw(sheet: &mut Sheet, layout: &Layout<'_>, bottom: f64) {
    sheet.add("<g class=\"legend\">");
    let first = bottom + ABOVE;
    marks(sheet, first);
    sizes(sheet, layout, first + LINE);
    for (place, words) in sentences(layout).iter().enumerate() {
        let base = first + LINE * (place as f64 + 2.0) + 4.0;
        sheet.grey_words((MARGIN, base), 12.0, "start", words);
    }
    sheet.add("</g>");
}

#[cfg(test)]
mod tests {
    use super::*;
    use crate::circuit;
    use crate::planning::View;

    /// The legend of a circuit with so many rotations of two coordinates.
    fn legend(rotations: usize) -> String {
        let text = format!("initial 2\nmax 8\n{}", "rotate XX 1\n".repeat(rotations));
        let circuit = circuit::parse(text.as_bytes()).unwrap();
        let view = View::of("-", &circuit).unwrap();
        let layout = Layout::of(&view.replay);
        let mut sheet = Sheet::default();
        draw(&mut sheet, &layout, 100.0);
        let text = sheet.finished();
        let last = text
            .rsplit("y=\"")
            .next()
            .and_then(|rest| rest.split('"').next());
        let base: f64 = last.unwrap().parse().unwrap();
        assert!((4.0..BELOW).contains(&(100.0 + height(&layout) - base)));
        text
    }

    #[test]
    fn the_legend_tells_what_the_picture_has() {
        for (rotations, has_sizes, has_parts) in
            [(7, true, false), (99, false, false), (101, true, true)]
        {
            let text = legend(rotations);
            assert!(text.contains(">A lane is a component. Its members are the coordinates"));
            assert!(text.contains("has the lane that it joins"));
            assert_eq!(text.contains(SIZES), has_sizes);
            assert_eq!(PARTS.map(|words| text.contains(words)), [has_parts; 2]);
        }
    }
}
