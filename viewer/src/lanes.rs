//! The components' lives as a picture in the terminal: a row a component, a column a record
//! that concerns one. A picture that is too wide goes on below, in parts.

use crate::figures;
use crate::lives::{Deed, End, Event, Life, Replay};
use crate::parts::Part;

/// How the picture is drawn.
pub struct Style {
    /// The most characters in a line.
    pub columns: usize,
    /// Whether only ASCII is used.
    pub ascii: bool,
}

/// The characters of the picture.
struct Marks {
    /// A component that lives.
    lane: char,
    /// Where a component that is there at the start begins.
    start: char,
    /// A join that passes a row without a component, and one with.
    join: char,
    crossing: char,
    /// A component that joins another: the uppermost of a join, one between, the lowest.
    upper: char,
    between: char,
    lower: char,
}

const BOXES: Marks = Marks {
    lane: '─',
    start: '├',
    join: '│',
    crossing: '┼',
    upper: '╮',
    between: '┤',
    lower: '╯',
};

const ASCII: Marks = Marks {
    lane: '-',
    start: '|',
    join: ':',
    crossing: '+',
    upper: 'J',
    between: 'J',
    lower: 'J',
};

/// How a component ends, in few words.
fn fate(life: &Life) -> String {
    match life.end {
        End::Lives => "lives".to_owned(),
        End::Joined { at, into } => format!("to {into} at {at}"),
        End::Emptied { at } => format!("ends at {at}"),
    }
}

/// The letter of what a record does.
fn letter(deed: Deed) -> char {
    match deed {
        Deed::Rotation => 'R',
        Deed::Promotion => 'P',
        Deed::Measurement { empties: false, .. } => 'M',
        Deed::Measurement { empties: true, .. } => 'E',
    }
}

/// What stands in a component's row at an event.
fn cell(event: &Event, component: usize, life: &Life, marks: &Marks) -> char {
    let ends = event.joined.iter().chain([&event.component]);
    let (top, bottom) = ends.fold((usize::MAX, 0), |(top, bottom), &end| {
        (top.min(end), bottom.max(end))
    });
    if component == event.component {
        return letter(event.deed);
    }
    if event.joined.contains(&component) {
        return match component {
            _ if component == top => marks.upper,
            _ if component == bottom => marks.lower,
            _ => marks.between,
        };
    }
    match (
        life.after(event.record),
        top < component && component < bottom,
    ) {
        (true, true) => marks.crossing,
        (true, false) => marks.lane,
        (false, true) => marks.join,
        (false, false) => ' ',
    }
}

/// A component's row, in which each event has so many characters.
fn row(part: &Part<'_>, pitch: usize, component: usize, life: &Life, marks: &Marks) -> String {
    let mut text = String::new();
    text.push(match part.enters(life) {
        true if part.is_first => marks.start,
        true => marks.lane,
        false => ' ',
    });
    for event in part.events {
        text.push(cell(event, component, life, marks));
        let filler = if life.after(event.record) {
            marks.lane
        } else {
            ' '
        };
        text.extend((1..pitch).map(|_| filler));
    }
    let goes_on = life.end == End::Lives && part.is_last;
    text.push(if goes_on { '>' } else { ' ' });
    text
}

/// The records' numbers, read downwards.
fn numbers(part: &Part<'_>, pitch: usize, indent: usize) -> String {
    let last = part.events.last();
    let digits = last.map_or(0, |event| event.record.to_string().len());
    let mut text = String::new();
    for place in 0..digits {
        let mut line = " ".repeat(indent);
        for event in part.events {
            let number = format!("{:>digits$}", event.record);
            line.push_str(&number[place..=place]);
            line.push_str(&" ".repeat(pitch - 1));
        }
        text.push_str(line.trim_end());
        text.push('\n');
    }
    text
}

/// One part: numbers, rows, and who goes through it without an event.
fn draw(part: &Part<'_>, pitch: usize, replay: &Replay, marks: &Marks, columns: usize) -> String {
    let label = replay.lives.len().saturating_sub(1).to_string().len();
    let mut text = numbers(part, pitch, label + 4);
    let (drawn, quiet) = part.components(replay);
    for component in drawn {
        let life = &replay.lives[component];
        let fate = if part.ends(life) {
            fate(life)
        } else {
            String::new()
        };
        let row = row(part, pitch, component, life, marks);
        let line = format!("  {component:>label$} {row} {fate}");
        text.push_str(line.trim_end());
        text.push('\n');
    }
    if !quiet.is_empty() {
        let quiet = figures::ranges(&quiet);
        text.push_str(&figures::wrapped("  unchanged here: ", &quiet, columns));
    }
    text
}

/// How many events go into a part, and how many characters each has.
fn layout(replay: &Replay, style: &Style) -> (usize, usize) {
    let label = replay.lives.len().to_string().len();
    let fates = replay.lives.iter().map(|life| fate(life).len());
    let taken = label + 6 + fates.max().unwrap_or(0);
    let room = style.columns.saturating_sub(taken).max(8);
    let events = replay.events.len();
    match events {
        0 => (1, 1),
        _ if events * 2 <= room => (events, 2),
        _ => (events.div_ceil(events.div_ceil(room)), 1),
    }
}

/// Parts of a legend with room between them, in as many lines as they need.
fn in_lines(parts: &[String], columns: usize) -> String {
    let mut text = String::new();
    let mut length = 0;
    for part in parts {
        let more = part.chars().count();
        let goes_on = length > 0 && length + 3 + more <= columns;
        text.push_str(match (goes_on, length) {
            (true, _) => "   ",
            (false, 0) => "  ",
            (false, _) => "\n  ",
        });
        text.push_str(part);
        length = more + if goes_on { length + 3 } else { 2 };
    }
    text + "\n"
}

/// What the marks mean.
fn legend(marks: &Marks, columns: usize) -> String {
    let mut joins = vec![marks.upper, marks.between, marks.lower];
    joins.dedup();
    let joins: Vec<_> = joins.iter().map(char::to_string).collect();
    let parts = [
        format!("{} there at the start", marks.start),
        "P promotion".to_owned(),
        "R rotation".to_owned(),
        "M measurement".to_owned(),
        "E measurement that ends it".to_owned(),
        format!("{} lives", marks.lane),
        "> lives at the end".to_owned(),
        "to 4 at 9: joins 4 at record 9".to_owned(),
        format!("{} joins the letter in its column", joins.join(" ")),
        format!("{} {} a join passes", marks.join, marks.crossing),
    ];
    in_lines(&parts, columns)
}

/// The picture of a plan.
pub fn picture(replay: &Replay, style: &Style) -> String {
    let marks = if style.ascii { &ASCII } else { &BOXES };
    let (most, pitch) = layout(replay, style);
    let heading = "a row each; a column a record that concerns one, number downwards";
    let mut text = figures::wrapped("Components: ", heading, style.columns);
    for part in Part::all(&replay.events, most) {
        text.push_str(&draw(&part, pitch, replay, marks, style.columns));
        text.push('\n');
    }
    text + &legend(marks, style.columns)
}

#[cfg(test)]
mod tests {
    use super::*;
    use crate::circuit;
    use crate::planning::View;

    /// The rows of a circuit's picture, without what stands behind them.
    fn rows(text: &str, columns: usize) -> Vec<String> {
        let circuit = circuit::parse(text.as_bytes()).unwrap();
        let view = View::of("-", &circuit).unwrap();
        let style = Style {
            columns,
            ascii: false,
        };
        let drawn = picture(&view.replay, &style);
        drawn.lines().map(str::to_owned).collect()
    }

    #[test]
    fn joins_go_up_down_and_past_others() {
        let text = "initial 5\nmax 8\nrotate __XX_ 1\nrotate X_X_X 1\npromote\n\
                    measure _Z____ pivot 1\n";
        assert_eq!(
            rows(text, 90)[1..7],
            [
                "     0 1 2 3",
                "  0 ├──╮       to 2 at 1",
                "  1 ├──┼───E   ends at 3",
                "  2 ├R─R─────> lives",
                "  3 ├╯ │       to 2 at 0",
                "  4 ├──╯       to 2 at 1",
            ]
        );
        assert_eq!(rows(text, 90)[7], "  5      P───> lives");
    }

    #[test]
    fn a_wide_picture_goes_on_below() {
        let turned = "rotate X0 1\n".repeat(40);
        let text = format!("initial 3\nmax 8\n{turned}rotate XX_ 1\n");
        let rows = rows(&text, 40);
        assert!(rows.iter().all(|row| row.chars().count() <= 40));
        let unchanged = rows
            .iter()
            .filter(|row| row.starts_with("  unchanged here:"));
        assert_eq!(
            unchanged.collect::<Vec<_>>(),
            ["  unchanged here: 1-2", "  unchanged here: 2"]
        );
        let joined = rows.iter().filter(|row| row.ends_with("to 0 at 40"));
        assert_eq!(joined.count(), 1);
    }

    #[test]
    fn a_circuit_without_records_has_lanes() {
        assert_eq!(
            rows("initial 2\nmax 8\n", 90)[1..3],
            ["  0 ├> lives", "  1 ├> lives"]
        );
    }
}
