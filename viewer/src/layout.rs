//! Where things stand in the SVG picture: its parts below each other, each no wider than a page,
//! with a column an event and a lane a component.

use crate::figures;
use crate::lives::{Event, Replay};
use crate::parts::Part;
use crate::shapes::share;

/// Where the lanes of a part begin.
pub const LEFT: f64 = 52.0;
/// Where words begin.
pub const MARGIN: f64 = 16.0;
/// Where the lanes of a picture without further parts begin.
const TOP: f64 = 130.0;
/// Room for words behind the lanes.
const RIGHT: f64 = 170.0;
/// The heading and the legend need as much.
const LEAST_WIDTH: f64 = 980.0;
/// The width at which a picture can still be read on a page of paper (A4, landscape).
const PAGE: f64 = 1400.0;
/// The most events that stand beside each other.
const MOST_EVENTS: usize = 100;
/// The most width of a column where there are no more than so many, and of one among more.
const FEW: (usize, f64) = (24, 34.0);
const MOST_STEP: f64 = 22.0;
/// Where columns are wider than this together, the lane numbers stand again in the middle, in a
/// column of this width.
const MOST_WITHOUT_RULER: f64 = 690.0;
const RULER: f64 = 30.0;
/// After so many lanes the record numbers stand again, in a row of this height.
const LANES_PER_AXIS: usize = 28;
const AXIS: f64 = 24.0;
/// The height of a part's words above its axis, the distance between parts, and the height of a
/// line of lanes that are not drawn.
const PART: f64 = 22.0;
const GAP: f64 = 22.0;
const LINE: f64 = 16.0;
/// The width of a digit in these lines.
const DIGIT: f64 = 7.7;

/// A part of the picture in its place.
pub struct Section<'a> {
    /// Its events.
    pub part: Part<'a>,
    /// Where its first lane begins.
    pub top: f64,
    /// The components that are drawn, ascending.
    pub lanes: Vec<usize>,
    /// What is said of those that live in it unchanged, in lines.
    pub unchanged: Vec<String>,
}

/// Distances by the number of records and components.
pub struct Layout<'a> {
    events: &'a [Event],
    /// How many events a part has; the last may have fewer.
    most: usize,
    /// The distance between two columns, and between two lanes.
    pub step: f64,
    pub lane: f64,
    /// The parts, below each other.
    pub sections: Vec<Section<'a>>,
}

/// The words for components that are not drawn in a part, in lines of so many characters.
fn unchanged(quiet: &[usize], is_last: bool, most: usize) -> Vec<String> {
    if quiet.is_empty() {
        return Vec::new();
    }
    let first = match is_last {
        true => "unchanged here, and live to the end: ",
        false => "unchanged here: ",
    };
    let text = figures::wrapped(first, &figures::ranges(quiet), most);
    text.lines().map(|line| line.trim().to_owned()).collect()
}

/// The width of a column of so many: as much as the page has, but no more than looks well.
fn step(columns: usize) -> f64 {
    let room = PAGE - LEFT - RIGHT - RULER;
    let most = match columns <= FEW.0 {
        true => FEW.1,
        false => MOST_STEP,
    };
    (room / (columns as f64 + 1.0)).floor().min(most)
}

impl<'a> Layout<'a> {
    /// Puts everything where the picture can be read.
    pub fn of(replay: &'a Replay) -> Self {
        let events = &replay.events[..];
        let parts = events.len().div_ceil(MOST_EVENTS).max(1);
        let most = events.len().div_ceil(parts).max(1);
        let mut layout = Self {
            events,
            most,
            step: step(most),
            lane: 0.0,
            sections: Vec::new(),
        };
        let sections = Part::all(events, most).into_iter();
        layout.sections = sections.map(|part| layout.section(part, replay)).collect();
        let lanes = layout.sections.iter().map(|section| section.lanes.len());
        layout.lane = match lanes.max().unwrap_or(0) {
            0..=16 => 30.0,
            17..=64 => 19.0,
            _ => 14.0,
        };
        layout.place();
        layout
    }

    /// A part that has no place yet.
    fn section(&self, part: Part<'a>, replay: &Replay) -> Section<'a> {
        let (lanes, quiet) = part.components(replay);
        let widest = self.x_of(self.most) + RIGHT;
        let most = ((widest.max(LEAST_WIDTH) - 2.0 * MARGIN) / DIGIT) as usize;
        Section {
            unchanged: unchanged(&quiet, part.is_last, most),
            part,
            top: 0.0,
            lanes,
        }
    }

    /// Puts the parts below each other.
    fn place(&mut self) {
        let mut top = match self.is_folded() {
            true => TOP + PART,
            false => TOP,
        };
        for number in 0..self.sections.len() {
            self.sections[number].top = top;
            top = self.bottom(&self.sections[number]) + GAP + PART + AXIS;
        }
    }

    /// Whether the picture has more than one part.
    pub fn is_folded(&self) -> bool {
        self.sections.len() > 1
    }

    /// The column from which on the lane numbers stand again.
    fn ruler_column(&self) -> Option<usize> {
        let width = self.step * (self.most as f64 + 1.0);
        (width > MOST_WITHOUT_RULER).then_some(self.most.div_ceil(2))
    }

    /// The middle of a column of any part.
    fn x_of(&self, column: usize) -> f64 {
        let ruler = self.ruler_column().filter(|&ruler| column >= ruler);
        LEFT + self.step * (column as f64 + 1.0) + ruler.map_or(0.0, |_| RULER)
    }

    /// The number of an event among the events.
    fn place_of(&self, record: usize) -> usize {
        self.events.partition_point(|event| event.record < record)
    }

    /// The middle of the column of a record that has one.
    pub fn x(&self, record: usize) -> f64 {
        self.x_of(self.place_of(record) % self.most)
    }

    /// The part in which a record has its column.
    pub fn section_of(&self, record: usize) -> &Section<'a> {
        let number = self.place_of(record) / self.most;
        &self.sections[number.min(self.sections.len() - 1)]
    }

    /// The middle of a component's lane in a part where it is drawn.
    pub fn y(&self, section: &Section<'_>, component: usize) -> f64 {
        let row = section.lanes.partition_point(|&other| other < component);
        self.y_of(section, row)
    }

    /// The middle of a part's lane by its number from above.
    fn y_of(&self, section: &Section<'_>, row: usize) -> f64 {
        let axes = row / LANES_PER_AXIS;
        section.top + self.lane * (row as f64 + 0.5) + AXIS * axes as f64
    }

    /// The rows of lanes between one axis and the next: where each begins and stops.
    pub fn blocks(&self, section: &Section<'_>) -> Vec<(f64, f64)> {
        let all = section.lanes.len();
        let firsts = (0..all).step_by(LANES_PER_AXIS);
        let block = |first: usize| {
            let top = self.y_of(section, first) - self.lane * 0.5;
            let lanes = LANES_PER_AXIS.min(all - first);
            (top, top + self.lane * lanes as f64)
        };
        firsts.map(block).collect()
    }

    /// The first event behind a part's ruler, and the ruler's middle, if it has one.
    pub fn ruler(&self, section: &Section<'a>) -> Option<(&'a Event, f64)> {
        let column = self.ruler_column()?;
        let event = section.part.events.get(column)?;
        Some((event, (self.x_of(column - 1) + self.x_of(column)) * 0.5))
    }

    /// Where the lanes stop that live where the part stops.
    pub fn end(&self, section: &Section<'_>) -> f64 {
        match section.part.events.len() {
            0 => self.x_of(0),
            events => self.x_of(events - 1) + self.step,
        }
    }

    /// Where a part's lanes stop.
    pub fn lanes_bottom(&self, section: &Section<'_>) -> f64 {
        let blocks = self.blocks(section);
        blocks.last().map_or(section.top, |&(_, bottom)| bottom)
    }

    /// Where a part stops, with the lines of lanes that are not drawn.
    fn bottom(&self, section: &Section<'_>) -> f64 {
        self.lanes_bottom(section) + LINE * section.unchanged.len() as f64
    }

    /// The base of a line of the lanes that are not drawn.
    pub fn unchanged_base(&self, section: &Section<'_>, line: usize) -> f64 {
        self.lanes_bottom(section) + LINE * (line as f64 + 1.0)
    }

    /// The base of a part's words above its axis.
    pub fn part_base(section: &Section<'_>) -> f64 {
        section.top - AXIS - 4.0
    }

    /// Half the height of a mark.
    pub fn mark(&self) -> f64 {
        (self.lane * 0.27).min(self.step * 0.4).min(6.5)
    }

    /// The radius of the corner in which a lane turns to the one it joins.
    pub fn bend(&self) -> f64 {
        (self.step * 0.4).min(self.lane * 0.5)
    }

    /// The thickness of a lane: more for more members.
    pub fn thickness(&self, size: usize) -> f64 {
        3.0 + share(size) * (self.lane * 0.55 - 3.0)
    }

    /// The size of the words beside a lane.
    pub fn font(&self) -> f64 {
        (self.lane * 0.75).min(12.0)
    }

    /// Whether there is room for numbers below marks.
    pub fn shows_sizes(&self) -> bool {
        self.step >= 20.0
    }

    /// The picture's width.
    pub fn width(&self) -> f64 {
        let ends = self.sections.iter().map(|section| self.end(section));
        (ends.fold(0.0, f64::max) + RIGHT).max(LEAST_WIDTH)
    }

    /// Where the last part stops.
    pub fn height(&self) -> f64 {
        self.sections
            .last()
            .map_or(TOP, |section| self.bottom(section))
    }
}

#[cfg(test)]
mod tests {
    use super::*;
    use crate::lives::Deed;

    /// The events of so many records that turn the one component there is.
    fn turned(records: usize) -> Replay {
        let event = |record| Event {
            record,
            deed: Deed::Rotation,
            row: record,
            component: 0,
            joined: Vec::new(),
            members: vec![0],
        };
        Replay {
            events: (0..records).map(event).collect(),
            ..Replay::default()
        }
    }

    /// That a part's columns are apart, end in front of its edge, and have lane numbers near.
    fn has_room(layout: &Layout<'_>, section: &Section<'_>) -> bool {
        let events = section.part.events.iter();
        let columns: Vec<_> = events.map(|event| layout.x(event.record)).collect();
        let mut apart = columns.windows(2).map(|pair| pair[1] - pair[0]);
        let end = layout.end(section);
        let numbers = layout.ruler(section).map_or(LEFT, |(_, x)| x);
        apart.all(|apart| apart >= layout.step)
            && columns.last().is_none_or(|&last| last < end)
            && end - numbers <= 700.0
    }

    #[test]
    fn no_picture_is_wider_than_a_page() {
        for records in 0..=1024 {
            let replay = turned(records);
            let layout = Layout::of(&replay);
            assert!(layout.width() <= PAGE && layout.width() >= LEAST_WIDTH);
            assert!(layout.step >= 11.0);
            let mut sections = layout.sections.iter();
            assert!(sections.all(|section| has_room(&layout, section)));
        }
    }

    #[test]
    fn parts_have_nearly_as_many_events() {
        let parts = |records| {
            let replay = turned(records);
            let sections = Layout::of(&replay).sections;
            let events = sections.iter().map(|section| section.part.events.len());
            events.collect::<Vec<_>>()
        };
        assert_eq!(parts(0), [0]);
        assert_eq!(parts(100), [100]);
        assert_eq!(parts(101), [51, 50]);
        assert_eq!(parts(1024), [94, 94, 94, 94, 94, 94, 94, 94, 94, 94, 84]);
    }

    #[test]
    fn many_lanes_that_are_not_drawn_stand_in_several_lines() {
        let every_other: Vec<_> = (0..600).step_by(2).collect();
        let lines = unchanged(&every_other, false, 150);
        assert!(lines.len() > 5 && lines.iter().all(|line| line.len() <= 150));
        let said = lines.join(" ");
        assert!(said.starts_with("unchanged here: 0 2 4 ") && said.ends_with(" 598"));
        assert_eq!(
            unchanged(&[1, 2], true, 150),
            ["unchanged here, and live to the end: 1-2"]
        );
        assert!(unchanged(&[], true, 150).is_empty());
    }
}
