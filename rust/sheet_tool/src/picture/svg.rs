//! The few SVG elements that the picture is made of.

use std::fmt::Write;

/// The sizes of letters.
pub const TITLE: u64 = 20;
pub const NORMAL: u64 = 12;
pub const SMALL: u64 = 11;

/// Which part of a text stands at its place.
#[derive(Clone, Copy)]
pub enum Anchor {
    Start,
    Middle,
    End,
}

impl Anchor {
    fn name(self) -> &'static str {
        match self {
            Anchor::Start => "start",
            Anchor::Middle => "middle",
            Anchor::End => "end",
        }
    }
}

/// A rectangle by its left upper corner.
#[derive(Clone, Copy, Debug, PartialEq, Eq)]
pub struct Area {
    pub x: u64,
    pub y: u64,
    pub width: u64,
    pub height: u64,
}

/// A picture as it grows, one element a line.
#[derive(Default)]
pub struct Svg {
    elements: String,
}

impl Svg {
    fn element(&mut self, element: std::fmt::Arguments) {
        writeln!(self.elements, "{}", element).expect("a String takes every text");
    }

    /// Rectangles of one style.
    pub fn areas(&mut self, areas: impl IntoIterator<Item = Area>, style: &str) {
        let mut path = String::new();
        for area in areas {
            let (width, height) = (area.width, area.height);
            path += &format!("M{} {}h{}v{}h-{}z", area.x, area.y, width, height, width);
        }
        self.path(&path, style);
    }

    /// A path, if it has anything to draw.
    pub fn path(&mut self, path: &str, style: &str) {
        if !path.is_empty() {
            self.element(format_args!("<path d=\"{}\" {}/>", path, style));
        }
    }

    /// A text, its baseline at `y`.
    pub fn text(&mut self, x: u64, y: u64, size: u64, anchor: Anchor, text: &str) {
        self.element(format_args!(
            "<text x=\"{}\" y=\"{}\" font-size=\"{}\" text-anchor=\"{}\">{}</text>",
            x,
            y,
            size,
            anchor.name(),
            escaped(text)
        ));
    }

    /// A text that runs upwards, with this place in its middle.
    pub fn upward_text(&mut self, x: u64, y: u64, size: u64, text: &str) {
        self.element(format_args!(
            "<text transform=\"translate({} {}) rotate(-90)\" font-size=\"{}\" text-anchor=\"middle\">{}</text>",
            // The middle of the letters is two fifths of their size above the
            // baseline.
            x + size * 2 / 5,
            y,
            size,
            escaped(text)
        ));
    }

    /// The whole picture, on white.
    pub fn finished(self, title: &str, width: u64, height: u64) -> String {
        format!(
            "<svg xmlns=\"http://www.w3.org/2000/svg\" viewBox=\"0 0 {0} {1}\" width=\"{0}\" \
             height=\"{1}\" font-family=\"sans-serif\" fill=\"#111\">\n\
             <title>{2}</title>\n\
             <rect width=\"{0}\" height=\"{1}\" fill=\"#fff\"/>\n{3}</svg>\n",
            width,
            height,
            escaped(title),
            self.elements
        )
    }
}

/// How wide a text may be, in letters of this size: fonts differ.
pub fn text_width(text: &str, size: u64) -> u64 {
    (text.chars().count() as u64 * size * 62 + 99) / 100
}

/// A text that XML can hold.
fn escaped(text: &str) -> String {
    let mut escaped = String::new();
    for letter in text.chars() {
        match letter {
            '&' => escaped += "&amp;",
            '<' => escaped += "&lt;",
            '>' => escaped += "&gt;",
            letter if letter.is_control() || "\u{fffe}\u{ffff}".contains(letter) => escaped += "?",
            letter => escaped.push(letter),
        }
    }
    escaped
}
