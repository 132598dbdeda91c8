//! The components' lives as an SVG picture: a lane a component, time from left to right, with
//! births, joins, rotations, measurements and ends marked, and a tooltip for each. A picture that
//! is wider than a page goes on below, in parts.

use crate::figures;
use crate::heading;
use crate::layout::{Layout, Section, LEFT, MARGIN};
use crate::legend;
use crate::lives::Event;
use crate::pieces::Lane;
use crate::planning::View;
use crate::shapes::{self, escaped, line, stroke, Sheet};
use crate::shapes::{FAINT, GREY, INK, WHITE};
use crate::text;

/// The least distance between two numbers on the axis, and the size of these.
const TICK: f64 = 26.0;
const AXIS_FONT: f64 = 11.0;
/// The white band behind the numbers of an axis: how far above the lanes it begins, its height.
const BAND: (f64, f64) = (20.0, 16.0);
/// How wide a digit is at the size 1.
const DIGIT: f64 = 0.65;

/// A picture in the making.
struct Picture<'a> {
    view: &'a View<'a>,
    layout: &'a Layout<'a>,
    sheet: Sheet,
}

impl Picture<'_> {
    /// After how many columns a number stands on the axis, so that none touches the next.
    fn every(&self) -> usize {
        let last = self.view.replay.events.last();
        let digits = last.map_or(1, |event| event.record.to_string().len());
        let width = AXIS_FONT * 0.6 * digits as f64 + 6.0;
        (width.max(TICK) / self.layout.step).ceil() as usize
    }

    /// The lines of a part's axes, faint, and what they number.
    fn axes(&mut self, section: &Section<'_>) {
        for (top, bottom) in self.layout.blocks(section) {
            let place = (LEFT - 6.0, top - 8.0);
            self.sheet.grey_words(place, 12.0, "end", "record");
            let mut path = format!(
                "M{LEFT:.1} {:.1}H{:.1}",
                top - 3.0,
                self.layout.end(section)
            );
            let numbered = section.part.events.iter().step_by(self.every());
            path.extend(numbered.map(|event| {
                let x = self.layout.x(event.record);
                format!("M{x:.1} {:.1}V{bottom:.1}", top - 3.0)
            }));
            self.sheet.add(&line(&path, FAINT, 1.0));
        }
    }

    /// The record numbers above a block of lanes, so many apart that they can be read. Joins that
    /// cross them pass behind a white band.
    fn axis_numbers(&mut self, section: &Section<'_>, top: f64) {
        let (above, height) = BAND;
        let width = self.layout.end(section) - LEFT + 12.0;
        self.sheet.white((LEFT - 4.0, top - above), (width, height));
        self.sheet.add("<g class=\"axis\">");
        for event in section.part.events.iter().step_by(self.every()) {
            let at = (self.layout.x(event.record), top - 8.0);
            self.sheet.number(at, AXIS_FONT, "middle", event.record);
        }
        self.sheet.add("</g>");
    }

    /// The numbers of a part's records, and those of its lanes inside it.
    fn numbers(&mut self, section: &Section<'_>) {
        for (top, _) in self.layout.blocks(section) {
            self.axis_numbers(section, top);
        }
        self.ruler(section);
    }

    /// The numbers of a part's lanes where these are born and in its ruler.
    fn ruler(&mut self, section: &Section<'_>) {
        self.sheet.add("<g class=\"ruler\">");
        for &component in &section.lanes {
            self.lane_numbers(section, component);
        }
        self.sheet.add("</g>");
    }

    /// A lane's number where it is born and in its part's ruler.
    fn lane_numbers(&mut self, section: &Section<'_>, component: usize) {
        let (layout, life) = (self.layout, &self.view.replay.lives[component]);
        let (y, font) = (layout.y(section, component), layout.font());
        let base = y + font * 0.35;
        let width = font * DIGIT * component.to_string().len() as f64;
        let born = life.born.filter(|_| !section.part.enters(life));
        let right = born.map(|born| layout.x(born) - layout.mark() - 3.0);
        // In the first columns the number in front of the lane is near enough.
        if let Some(right) = right.filter(|right| right - width > LEFT - 5.0) {
            let size = (width, layout.lane * 0.9);
            self.sheet.white((right - width, y - size.1 * 0.5), size);
            self.sheet.number((right, base), font, "end", component);
        }
        let ruler = layout.ruler(section);
        if let Some((_, x)) = ruler.filter(|(event, _)| life.before(event.record)) {
            self.sheet.number((x, base), font, "middle", component);
        }
    }

    /// What is said of a part: its number, its records, and the lanes that are not drawn.
    fn part(&mut self, number: usize, section: &Section<'_>) {
        let records = section.part.events.iter().map(|event| event.record);
        let (first, last) = (records.clone().next(), records.last());
        let (first, last) = (first.unwrap_or(0), last.unwrap_or(0));
        let all = self.layout.sections.len();
        let words = format!("part {} of {all}: records {first} to {last}", number + 1);
        self.sheet.add(&format!(
            "<g class=\"part\" data-part=\"{}\" data-first=\"{first}\" data-last=\"{last}\">",
            number + 1
        ));
        let place = (MARGIN, Layout::part_base(section));
        self.sheet
            .words(place, "font-size=\"13\" font-weight=\"bold\"", &words);
        for (number, words) in section.unchanged.iter().enumerate() {
            let place = (MARGIN, self.layout.unchanged_base(section, number));
            self.sheet.grey_words(place, 12.0, "start", words);
        }
        self.sheet.add("</g>");
    }

    /// The path from a component's lane to the one that it joins at an event.
    fn join_path(&self, event: &Event, from: usize) -> String {
        let section = self.layout.section_of(event.record);
        let target = self.layout.y(section, event.component);
        let (x, y) = (self.layout.x(event.record), self.layout.y(section, from));
        let bend = self.layout.bend();
        let edge = self.layout.thickness(event.members.len()) / 2.0;
        let down = if target < y { -1.0 } else { 1.0 };
        format!(
            "M{:.1} {y:.1}Q{x:.1} {y:.1} {x:.1} {:.1}V{:.1}",
            x - bend,
            y + down * bend,
            target - down * edge.max(3.0)
        )
    }

    /// The lines by which others join an event's component, all over one white edge.
    fn joins(&mut self, event: &Event) {
        if event.joined.is_empty() {
            return;
        }
        let joined = event.joined.iter();
        let paths: Vec<_> = joined.map(|&from| self.join_path(event, from)).collect();
        self.sheet.add(&line(&paths.concat(), WHITE, 5.0));
        let (record, into) = (event.record, event.component);
        for (from, path) in event.joined.iter().zip(&paths) {
            self.sheet.add(&format!(
                "<path class=\"join\" data-record=\"{record}\" data-from=\"{from}\" \
                 data-into=\"{into}\" d=\"{path}\" {}>\
                 <title>record {record}: component {from} joins {into}</title></path>",
                stroke(GREY, 2.0)
            ));
        }
    }

    /// What the tooltip of a mark says: the record, its line where there is a circuit, its deed.
    fn mark_title(&self, event: &Event) -> String {
        let record = event.record;
        let place = match &self.view.planned {
            Some(planned) => {
                let placed = &planned.circuit.records[record];
                let said = figures::cut(&placed.text, 80);
                format!("record {record}, line {}: {said}", placed.line)
            }
            None => format!("record {record}"),
        };
        let deed = text::deed(self.view, event);
        format!("{}\n{}", escaped(&place), escaped(&deed))
    }

    /// The mark of an event on its component's lane.
    fn mark(&mut self, event: &Event) {
        let (record, component) = (event.record, event.component);
        let section = self.layout.section_of(record);
        let (x, y) = (self.layout.x(record), self.layout.y(section, component));
        let about = self.mark_title(event);
        let class = shapes::class(event.deed);
        let shape = shapes::mark(event.deed, x, y, self.layout.mark());
        self.sheet.add(&format!(
            "<g class=\"{class}\" data-record=\"{record}\" data-component=\"{component}\">\
             <title>{about}</title>{shape}</g>"
        ));
        if !event.joined.is_empty() && self.layout.shows_sizes() {
            let members = event.members.len();
            let below = y + self.layout.thickness(members) * 0.5 + 8.0;
            let more = "class=\"members\" font-size=\"10\"";
            let words = members.to_string();
            self.sheet.words((x + 5.0, below), more, &words);
        }
    }

    /// All parts: axes, lanes, joins over the lanes, numbers over the joins, and marks over all.
    fn parts(&mut self) {
        let (layout, replay) = (self.layout, &self.view.replay);
        let all = || layout.sections.iter();
        all().for_each(|section| self.axes(section));
        let lives = replay.lives.iter().enumerate();
        lives.for_each(|(component, life)| {
            let members = &replay.members[component];
            let lane = Lane {
                layout,
                component,
                life,
                members,
            };
            lane.draw(&mut self.sheet);
        });
        replay.events.iter().for_each(|event| self.joins(event));
        all().for_each(|section| self.numbers(section));
        if layout.is_folded() {
            let numbered = all().enumerate();
            numbered.for_each(|(number, section)| self.part(number, section));
        }
        replay.events.iter().for_each(|event| self.mark(event));
    }
}

/// The picture of a plan.
pub fn picture(view: &View<'_>) -> String {
    let layout = Layout::of(&view.replay);
    let (width, bottom) = (layout.width(), layout.height());
    let height = bottom + legend::height(&layout);
    let mut picture = Picture {
        view,
        layout: &layout,
        sheet: Sheet::default(),
    };
    let sheet = &mut picture.sheet;
    sheet.add(&format!(
        "<svg xmlns=\"http://www.w3.org/2000/svg\" width=\"{width:.0}\" height=\"{height:.0}\" \
         viewBox=\"0 0 {width:.0} {height:.0}\" font-family=\"sans-serif\" font-size=\"12\" \
         fill=\"{INK}\">"
    ));
    let title = escaped(&heading::title(view));
    sheet.add(&format!("<title>{title}</title>"));
    sheet.add(&format!(
        "<rect width=\"100%\" height=\"100%\" fill=\"{WHITE}\"/>"
    ));
    heading::draw(sheet, view, width);
    picture.parts();
    let mut sheet = picture.sheet;
    legend::draw(&mut sheet, &layout, bottom);
    sheet.add("</svg>");
    sheet.finished()
}

#[cfg(test)]
mod tests {
    use super::*;
    use crate::circuit;

    /// The picture of a circuit of this name.
    fn drawn(name: &str, text: &str) -> String {
        let circuit = circuit::parse(text.as_bytes()).unwrap();
        picture(&View::of(name, &circuit).unwrap())
    }

    #[test]
    fn lanes_joins_and_ends_are_those_of_the_plan() {
        let text = "initial 3\nmax 8\nrotate X_X 0.5\nmeasure _ZZ pivot 2\npromote\n\
                    measure __Z pivot 2";
        let drawn = drawn("a<b", text);
        let count = |what: &str| drawn.matches(what).count();
        assert_eq!(count("class=\"lane\""), 4);
        assert_eq!(count("class=\"join\""), 2);
        assert_eq!(count("class=\"end\""), 1);
        assert_eq!(count("class=\"promotion\""), 1);
        assert_eq!(count("class=\"piece\"") + count("class=\"part\""), 0);
        assert!(drawn.contains("data-record=\"1\" data-from=\"1\" data-into=\"0\""));
        assert!(drawn
            .contains("data-component=\"3\" data-born=\"2\" data-end=\"emptied\" data-at=\"3\""));
        assert!(drawn.contains("Components of a&lt;b") && !drawn.contains("a<b"));
    }

    #[test]
    fn a_long_picture_goes_on_below() {
        let turned = "rotate X0 1\n".repeat(150);
        let text = format!("initial 3\nmax 8\n{turned}rotate XX_ 1\n");
        let drawn = drawn("-", &text);
        let pieces = |component: usize| {
            let begin = format!("<g class=\"lane\" data-component=\"{component}\"");
            let (_, rest) = drawn.split_once(&begin).unwrap();
            let (lane, _) = rest.split_once("\n</g>").unwrap_or((rest, ""));
            let all = [
                "<g class=\"piece\" data-part=\"1\">",
                "data-part=\"2\">",
                "joins 0 at 150<",
            ];
            all.map(|what| lane.contains(what))
        };
        assert_eq!(pieces(1), [false, true, true]);
        for (words, times) in [
            (">part 1 of 2: records 0 to 75<", 1),
            (">part 2 of 2: records 76 to 150<", 1),
            (">unchanged here: 1-2<", 1),
            (">unchanged here, and live to the end: 2<", 1),
            ("class=\"piece\"", 3),
            ("class=\"lane\"", 3),
            ("class=\"rotation\"", 151),
            ("class=\"join\"", 1),
            (">lives: 0 1<", 1),
        ] {
            assert_eq!(drawn.matches(words).count(), times, "{words}");
        }
        assert_eq!(drawn.matches("class=\"ruler\"").count(), 2);
    }
}
