//! A small writer of SVG: areas, lines and words on a white ground, so that a picture can be read on a dark page too. Numbers have at most one
//! decimal and nothing depends on the machine, so the same picture is the same bytes.

use std::fmt::Write;

/// The width of every picture.
pub const WIDTH: f64 = 900.0;

/// Okabe and Ito's colours, which colour-blind readers can tell apart: blue, orange, green and purple for channels in slot order.
pub const CHANNELS: [&str; 4] = ["#0072b2", "#e69f00", "#009e73", "#cc79a7"];
/// Two lighter ones of theirs, under black words: sky blue and yellow.
pub const GROUNDS: [&str; 2] = ["#56b4e9", "#f0e442"];
pub const WHITE: &str = "#ffffff";
pub const BLACK: &str = "#000000";
pub const GREY: &str = "#767676";
pub const PALE: &str = "#dddddd";

/// A place, or a size: across and down.
pub type Pair = (f64, f64);

/// How words are set: their size, their weight, and which end of them stands at the place given.
#[derive(Clone, Copy)]
pub struct Face {
    size: u32,
    weight: &'static str,
    anchor: &'static str,
}

pub const TITLE: Face = Face { size: 17, weight: "bold", anchor: "start" };
pub const HEAD: Face = Face { size: 14, weight: "bold", anchor: "start" };
pub const LEFT: Face = Face { size: 12, weight: "normal", anchor: "start" };
pub const MIDDLE: Face = Face { size: 12, weight: "normal", anchor: "middle" };
pub const SMALL: Face = Face { size: 9, weight: "normal", anchor: "middle" };
pub const RIGHT: Face = Face { size: 12, weight: "normal", anchor: "end" };

/// How a line is drawn: its colour, its width, and the lengths of its dashes and gaps (none for a solid one).
#[derive(Clone, Copy)]
pub struct Stroke {
    pub colour: &'static str,
    pub width: f64,
    pub dashes: &'static str,
}

/// A solid line.
pub const fn solid(colour: &'static str, width: f64) -> Stroke {
    Stroke { colour, width, dashes: "" }
}

/// A dashed line.
pub const fn dashed(colour: &'static str, width: f64) -> Stroke {
    Stroke { colour, width, dashes: "5 4" }
}

/// A picture under way.
pub struct Picture {
    text: String,
}

impl Picture {
    /// A white picture of this height; its title stands at the top. A screen reader says the title, and then what the picture shows.
    pub fn new(title: &str, shows: &str, height: f64) -> Picture {
        let (width, height, title_read, shows) = (shown(WIDTH), shown(height), escaped(title), escaped(shows));
        let text = format!(
            "<svg xmlns=\"http://www.w3.org/2000/svg\" width=\"{width}\" height=\"{height}\" viewBox=\"0 0 {width} {height}\" role=\"img\" \
             aria-labelledby=\"title shows\" font-family=\"system-ui, 'Segoe UI', Helvetica, Arial, sans-serif\">\n\
             <title id=\"title\">{title_read}</title>\n<desc id=\"shows\">{shows}</desc>\n\
             <rect width=\"{width}\" height=\"{height}\" fill=\"{WHITE}\"/>\n"
        );
        let mut picture = Picture { text };
        picture.words(TITLE, (20.0, 30.0), title);
        picture
    }

    /// A filled area with a thin outline.
    pub fn area(&mut self, (x, y): Pair, (width, height): Pair, fill: &str) {
        let (x, y, width, height) = (shown(x), shown(y), shown(width), shown(height));
        let _ = writeln!(
            self.text,
            "<rect x=\"{x}\" y=\"{y}\" width=\"{width}\" height=\"{height}\" fill=\"{fill}\" stroke=\"#333333\" stroke-width=\"0.5\"/>"
        );
    }

    /// A line from point to point.
    pub fn line(&mut self, stroke: Stroke, points: &[Pair]) {
        let places: Vec<String> = points.iter().map(|&(x, y)| format!("{},{}", shown(x), shown(y))).collect();
        let dashes = if stroke.dashes.is_empty() { String::new() } else { format!(" stroke-dasharray=\"{}\"", stroke.dashes) };
        let _ = writeln!(
            self.text,
            "<polyline points=\"{}\" fill=\"none\" stroke=\"{}\" stroke-width=\"{}\"{dashes}/>",
            places.join(" "),
            stroke.colour,
            shown(stroke.width)
        );
    }

    /// Words in one line; the place is on their base line.
    pub fn words(&mut self, face: Face, (x, y): Pair, words: &str) {
        let (x, y, words) = (shown(x), shown(y), escaped(words));
        let Face { size, weight, anchor } = face;
        let _ = writeln!(
            self.text,
            "<text x=\"{x}\" y=\"{y}\" font-size=\"{size}\" font-weight=\"{weight}\" text-anchor=\"{anchor}\">{words}</text>"
        );
    }

    /// The whole file.
    pub fn finish(mut self) -> String {
        self.text += "</svg>\n";
        self.text
    }
}

/// A number of the drawing: at most one decimal.
fn shown(number: f64) -> String {
    let text = format!("{number:.1}");
    text.strip_suffix(".0").map_or(text.clone(), str::to_string)
}

fn escaped(words: &str) -> String {
    words.replace('&', "&amp;").replace('<', "&lt;").replace('>', "&gt;")
}

/// A number in words' text, with a comma at each thousand.
pub fn grouped(number: u64) -> String {
    if number < 1_000 {
        number.to_string()
    } else {
        format!("{},{:03}", grouped(number / 1_000), number % 1_000)
    }
}

/// Numbers as a list in words.
pub fn listed(numbers: &[u32]) -> String {
    numbers.iter().map(u32::to_string).collect::<Vec<_>>().join(", ")
}
