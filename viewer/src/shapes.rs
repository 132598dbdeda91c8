//! The parts that the SVG picture is put together from: colours, strokes, marks, and text that
//! may stand in XML.

use crate::lives::Deed;

/// Words, lines in the background, and words and lines of less weight.
pub const INK: &str = "#1c2430";
pub const FAINT: &str = "#e3e8ef";
pub const GREY: &str = "#5d6878";
pub const WHITE: &str = "#ffffff";

const ROTATION: &str = "#1f5fae";
const MEASUREMENT: &str = "#d07a1c";
const PROMOTION: &str = "#2c8a4b";
const END: &str = "#b3261e";

/// A size from which on a lane gets no thicker and no darker.
pub const LARGEST: usize = 12;

/// How large a size is, from 0 to 1.
pub fn share(size: usize) -> f64 {
    (size.clamp(1, LARGEST) - 1) as f64 / (LARGEST - 1) as f64
}

/// The colour of a lane: darker for more members.
pub fn shade(size: usize) -> String {
    let mix = |light: f64, dark: f64| (light + (dark - light) * share(size)).round() as u8;
    let (red, green, blue) = (mix(150.0, 24.0), mix(180.0, 48.0), mix(214.0, 96.0));
    format!("#{red:02x}{green:02x}{blue:02x}")
}

/// Text that may stand in XML.
pub fn escaped(text: &str) -> String {
    let mut escaped = String::new();
    for character in text.chars() {
        match character {
            '&' => escaped.push_str("&amp;"),
            '<' => escaped.push_str("&lt;"),
            '>' => escaped.push_str("&gt;"),
            '"' => escaped.push_str("&quot;"),
            '\'' => escaped.push_str("&#39;"),
            '\u{fffe}' | '\u{ffff}' => escaped.push('?'),
            _ if character.is_control() => escaped.push('?'),
            _ => escaped.push(character),
        }
    }
    escaped
}

/// The attributes of a line that is not filled.
pub fn stroke(colour: &str, width: f64) -> String {
    format!("stroke=\"{colour}\" stroke-width=\"{width:.1}\" fill=\"none\"")
}

/// A line along a path.
pub fn line(path: &str, colour: &str, width: f64) -> String {
    format!("<path d=\"{path}\" {}/>", stroke(colour, width))
}

/// The text of a picture in the making.
#[derive(Default)]
pub struct Sheet(String);

impl Sheet {
    /// Adds a line.
    pub fn add(&mut self, line: &str) {
        self.0.push_str(line);
        self.0.push('\n');
    }

    /// Adds words at a place.
    pub fn words(&mut self, (x, y): (f64, f64), more: &str, words: &str) {
        let words = escaped(words);
        self.add(&format!(
            "<text x=\"{x:.1}\" y=\"{y:.1}\" {more}>{words}</text>"
        ));
    }

    /// Adds words of less weight, of this size, at a place.
    pub fn grey_words(&mut self, place: (f64, f64), font: f64, anchor: &str, words: &str) {
        let more = format!("fill=\"{GREY}\" font-size=\"{font:.1}\" text-anchor=\"{anchor}\"");
        self.words(place, &more, words);
    }

    /// Adds a number on white, so that lines behind it do not hide it.
    pub fn number(&mut self, (x, base): (f64, f64), font: f64, anchor: &str, number: usize) {
        let number = number.to_string();
        let width = font * 0.6 * number.len() as f64 + 2.0;
        let left = match anchor {
            "end" => x - width + 1.0,
            _ => x - width * 0.5,
        };
        self.white((left, base - font * 0.8), (width, font * 0.9));
        self.grey_words((x, base), font, anchor, &number);
    }

    /// Adds a white area, by its corner and its size.
    pub fn white(&mut self, (left, top): (f64, f64), (width, height): (f64, f64)) {
        self.add(&format!(
            "<rect x=\"{left:.1}\" y=\"{top:.1}\" width=\"{width:.1}\" height=\"{height:.1}\" \
             fill=\"{WHITE}\"/>"
        ));
    }

    /// The whole text.
    pub fn finished(self) -> String {
        self.0
    }
}

/// A diamond with a white edge.
fn diamond(x: f64, y: f64, half: f64, colour: &str) -> String {
    let (left, right, top, bottom) = (x - half, x + half, y - half, y + half);
    format!(
        "<path d=\"M{left:.1} {y:.1}L{x:.1} {top:.1}L{right:.1} {y:.1}L{x:.1} {bottom:.1}Z\" \
         fill=\"{colour}\" stroke=\"{WHITE}\"/>"
    )
}

/// A disc or a ring.
fn circle(x: f64, y: f64, half: f64, colours: &str) -> String {
    format!("<circle cx=\"{x:.1}\" cy=\"{y:.1}\" r=\"{half:.1}\" {colours}/>")
}

/// The class of a mark.
pub fn class(deed: Deed) -> &'static str {
    match deed {
        Deed::Rotation => "rotation",
        Deed::Promotion => "promotion",
        Deed::Measurement { empties: false, .. } => "measurement",
        Deed::Measurement { empties: true, .. } => "end",
    }
}

/// The mark of a record: disc, ring, diamond, or a cross on white.
pub fn mark(deed: Deed, x: f64, y: f64, half: f64) -> String {
    match deed {
        Deed::Rotation => {
            let colours = format!("fill=\"{ROTATION}\" stroke=\"{WHITE}\"");
            circle(x, y, half, &colours)
        }
        Deed::Promotion => {
            let colours = format!("fill=\"{WHITE}\" stroke=\"{PROMOTION}\" stroke-width=\"2\"");
            circle(x, y, half - 0.5, &colours)
        }
        Deed::Measurement { empties: false, .. } => diamond(x, y, half + 0.8, MEASUREMENT),
        Deed::Measurement { empties: true, .. } => {
            let (left, top, across) = (x - half * 0.95, y - half * 0.95, half * 1.9);
            let path = format!(
                "M{left:.1} {top:.1}l{across:.1} {across:.1}\
                 m0 -{across:.1}l-{across:.1} {across:.1}"
            );
            diamond(x, y, half + 0.8, WHITE) + &line(&path, END, 2.0)
        }
    }
}

#[cfg(test)]
mod tests {
    use super::*;

    #[test]
    fn text_is_escaped() {
        assert_eq!(
            escaped("a&b<c>\"d\"'\u{1}"),
            "a&amp;b&lt;c&gt;&quot;d&quot;&#39;?"
        );
    }

    #[test]
    fn more_members_are_darker() {
        assert_eq!((share(1), share(12), share(61)), (0.0, 1.0, 1.0));
        assert_eq!(shade(1), "#96b4d6");
        assert_eq!(shade(40), "#183060");
    }
}
