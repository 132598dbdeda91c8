//! A component's lane in the SVG picture: its pieces in the parts where it is drawn, its number in
//! front and its end in words behind.

use crate::figures;
use crate::layout::{Layout, Section, LEFT};
use crate::lives::{End, Life};
use crate::shapes::{escaped, line, shade, Sheet, GREY, WHITE};

/// The most members that stand behind a lane, and the most characters of these words.
const MOST_LISTED: usize = 6;
const MOST_WORDS: usize = 22;

/// A component's lane.
pub struct Lane<'a> {
    /// Where it stands.
    pub layout: &'a Layout<'a>,
    /// The component.
    pub component: usize,
    /// Its life.
    pub life: &'a Life,
    /// Its members at the end.
    pub members: &'a [usize],
}

impl Lane<'_> {
    /// Draws the lane in all parts where it stands.
    pub fn draw(&self, sheet: &mut Sheet) {
        let component = self.component;
        let end = match self.life.end {
            End::Lives => "data-end=\"lives\"".to_owned(),
            End::Joined { at, into } => {
                format!("data-end=\"joined\" data-at=\"{at}\" data-into=\"{into}\"")
            }
            End::Emptied { at } => format!("data-end=\"emptied\" data-at=\"{at}\""),
        };
        let born = match self.life.born {
            Some(born) => born.to_string(),
            None => "start".to_owned(),
        };
        let about = escaped(&title(component, self.life));
        sheet.add(&format!(
            "<g class=\"lane\" data-component=\"{component}\" data-born=\"{born}\" {end}>\
             <title>{about}</title>"
        ));
        for (number, section) in self.layout.sections.iter().enumerate() {
            if section.lanes.binary_search(&component).is_ok() {
                self.piece(sheet, number + 1, section);
            }
        }
        sheet.add("</g>");
    }

    /// The lane in one part, a group of its own where the picture has more than one.
    fn piece(&self, sheet: &mut Sheet, number: usize, section: &Section<'_>) {
        let is_folded = self.layout.is_folded();
        if is_folded {
            sheet.add(&format!("<g class=\"piece\" data-part=\"{number}\">"));
        }
        let y = self.layout.y(section, self.component);
        for (from, to, size) in self.segments(section) {
            let path = format!("M{from:.1} {y:.1}H{to:.1}");
            let width = self.layout.thickness(size);
            sheet.add(&line(&path, &shade(size), width));
        }
        self.begin(sheet, section, y);
        self.end(sheet, section, y);
        if is_folded {
            sheet.add("</g>");
        }
    }

    /// The lane in a part between changes of its size: from, to, size.
    fn segments(&self, section: &Section<'_>) -> Vec<(f64, f64, usize)> {
        let (layout, life, part) = (self.layout, self.life, &section.part);
        let stop = match life.end {
            _ if part.leaves(life) && part.is_last => layout.end(section) - 4.0,
            End::Joined { at, .. } if !part.leaves(life) => layout.x(at) - layout.bend(),
            _ => layout.end(section),
        };
        let mut from = match life.born {
            Some(born) if !part.enters(life) => layout.x(born),
            _ => LEFT,
        };
        let first = part.events.first().map_or(0, |event| event.record);
        let last = part.events.last().map_or(0, |event| event.record);
        let mut size = size_before(life, first);
        let mut segments = Vec::new();
        let changes = life.sizes.iter();
        for &(record, after) in changes.filter(|(at, _)| (first..=last).contains(at)) {
            let to = layout.x(record);
            segments.push((from, to, size));
            (from, size) = (to, after);
        }
        if size > 0 {
            segments.push((from, stop, size));
        }
        segments
    }

    /// The number in front; a bar where the lane is there at the start, and gaps where it comes
    /// from another part.
    fn begin(&self, sheet: &mut Sheet, section: &Section<'_>, y: f64) {
        let (layout, part) = (self.layout, &section.part);
        match part.enters(self.life) {
            true if part.is_first => {
                let half = layout.lane * 0.3;
                let path = format!("M{LEFT:.1} {:.1}V{:.1}", y - half, y + half);
                sheet.add(&line(&path, GREY, 2.0));
            }
            true => self.gaps(sheet, [LEFT + 2.5, LEFT + 6.5], y),
            false => {}
        }
        let font = layout.font();
        let more = format!("font-size=\"{font:.1}\" text-anchor=\"end\"");
        let place = (LEFT - 7.0, y + font * 0.35);
        sheet.words(place, &more, &self.component.to_string());
    }

    /// Gaps in the lane.
    fn gaps(&self, sheet: &mut Sheet, places: [f64; 2], y: f64) {
        let half = self.layout.lane * 0.3;
        for x in places {
            let path = format!("M{x:.1} {:.1}V{:.1}", y - half, y + half);
            sheet.add(&line(&path, WHITE, 2.0));
        }
    }

    /// An arrow where the lane lives to the end, and gaps where it goes on in another part; its
    /// end in words in the part where it ends.
    fn end(&self, sheet: &mut Sheet, section: &Section<'_>, y: f64) {
        let (layout, life) = (self.layout, self.life);
        let end = layout.end(section);
        if !section.part.ends(life) {
            return self.gaps(sheet, [end - 6.5, end - 2.5], y);
        }
        if life.end == End::Lives {
            let size = life.sizes.last().map_or(1, |&(_, size)| size);
            let half = layout.thickness(size) / 2.0 + 2.5;
            let (back, tip, top, bottom) = (end - 5.0, end + 3.0, y - half, y + half);
            let path = format!("M{back:.1} {top:.1}L{tip:.1} {y:.1}L{back:.1} {bottom:.1}Z");
            let colour = shade(size);
            sheet.add(&format!("<path d=\"{path}\" fill=\"{colour}\"/>"));
        }
        let font = layout.font();
        let place = (end + 10.0, y + font * 0.35);
        sheet.grey_words(place, font, "start", &fate(self.members, life));
    }
}

/// What the tooltip of a lane says.
fn title(component: usize, life: &Life) -> String {
    let born = match life.born {
        Some(born) => format!("promoted at record {born}"),
        None => "there at the start".to_owned(),
    };
    let end = match life.end {
        End::Lives => "lives to the end".to_owned(),
        End::Joined { at, into } => format!("joins component {into} at record {at}"),
        End::Emptied { at } => format!("ends at record {at}"),
    };
    let most = figures::count(life.longest as u64, "member", "members");
    format!("component {component}: {born}; at most {most}; {end}")
}

/// The members that a component has in front of a record.
fn size_before(life: &Life, record: usize) -> usize {
    let changes = life.sizes.iter().rev();
    let before = changes.skip_while(|&&(at, _)| at >= record);
    before.map(|&(_, size)| size).next().unwrap_or(1)
}

/// What stands behind a lane.
fn fate(members: &[usize], life: &Life) -> String {
    match life.end {
        End::Lives => {
            let listed = format!("lives: {}", figures::list(members));
            let number = members.len();
            match listed.len() > MOST_WORDS || number > MOST_LISTED {
                true => format!("lives: {number} members"),
                false => listed,
            }
        }
        End::Joined { at, into } => format!("joins {into} at {at}"),
        End::Emptied { at } => format!("ends at {at}"),
    }
}

#[cfg(test)]
mod tests {
    use super::*;

    #[test]
    fn many_members_are_counted_behind_a_lane() {
        let life = Life {
            born: None,
            end: End::Lives,
            longest: 6,
            sizes: Vec::new(),
        };
        let fate = |members: &[usize]| fate(members, &life);
        assert_eq!(fate(&[3, 1]), "lives: 3 1");
        assert_eq!(fate(&[0, 1, 2, 3, 4, 5]), "lives: 0 1 2 3 4 5");
        assert_eq!(fate(&[0, 1, 2, 3, 4, 5, 6]), "lives: 7 members");
        assert_eq!(fate(&[1000, 1001, 1002, 1003]), "lives: 4 members");
        assert!(fate(&[usize::MAX; 6]).len() <= MOST_WORDS);
    }

    #[test]
    fn a_lane_has_its_size_from_the_part_before() {
        let life = Life {
            born: Some(1),
            end: End::Lives,
            longest: 4,
            sizes: vec![(3, 2), (5, 4)],
        };
        let sizes = [0, 3, 4, 5, 6].map(|record| size_before(&life, record));
        assert_eq!(sizes, [1, 1, 2, 2, 4]);
    }
}
