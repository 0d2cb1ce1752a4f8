//! An SVG that is being written. Nothing goes wrong in writing to a string.

use std::fmt::Write;

/// How wide a letter is, by the size of its font; an estimate on the safe side.
const LETTER: f64 = 0.6;

/// Ids begin with it, so that none clashes with those of a page around.
pub const LACK: &str = "ck-lack";
pub const BOOKED: &str = "ck-booked";

pub const INK: &str = "#222";
pub const GREY: &str = "#555";
pub const PALE: &str = "#888";
pub const GRID: &str = "#e6e6e6";
pub const BAND: &str = "#f6f6f6";
pub const ALARM: &str = "#b00020";

#[derive(Clone, Copy)]
pub enum Anchor {
    Start,
    Middle,
    End,
}

#[derive(Clone, Copy)]
pub struct Font {
    pub size: f64,
    pub colour: &'static str,
    pub is_bold: bool,
    pub anchor: Anchor,
}

impl Font {
    pub const fn new(size: f64, colour: &'static str) -> Font {
        Font {
            size,
            colour,
            is_bold: false,
            anchor: Anchor::Start,
        }
    }

    pub const fn bold(self) -> Font {
        Font {
            is_bold: true,
            ..self
        }
    }

    pub const fn at(self, anchor: Anchor) -> Font {
        Font { anchor, ..self }
    }

    /// How wide a text is, about.
    pub fn width(&self, text: &str) -> f64 {
        text.chars().count() as f64 * self.size * LETTER
    }
}

#[derive(Default)]
pub struct Svg {
    body: String,
}

impl Svg {
    pub fn rect(&mut self, x: f64, y: f64, width: f64, height: f64, look: &str) {
        let _ = writeln!(
            self.body,
            "<rect x=\"{x:.1}\" y=\"{y:.1}\" width=\"{:.1}\" height=\"{height:.1}\" {look}/>",
            width.max(0.0)
        );
    }

    pub fn line(&mut self, from: (f64, f64), to: (f64, f64), look: &str) {
        let _ = writeln!(
            self.body,
            "<line x1=\"{:.1}\" y1=\"{:.1}\" x2=\"{:.1}\" y2=\"{:.1}\" {look}/>",
            from.0, from.1, to.0, to.1
        );
    }

    /// An area or a line through points.
    pub fn path(&mut self, points: &[(f64, f64)], look: &str) {
        let mut way = String::new();
        for (place, (x, y)) in points.iter().enumerate() {
            let _ = write!(way, "{}{x:.1} {y:.1}", if place == 0 { 'M' } else { 'L' });
        }
        let _ = writeln!(self.body, "<path d=\"{way}\" {look}/>");
    }

    pub fn dot(&mut self, x: f64, y: f64, radius: f64, colour: &str) {
        let _ = writeln!(
            self.body,
            "<circle cx=\"{x:.1}\" cy=\"{y:.1}\" r=\"{radius:.1}\" fill=\"{colour}\"/>"
        );
    }

    pub fn text(&mut self, x: f64, y: f64, font: Font, text: &str) {
        let anchor = match font.anchor {
            Anchor::Start => "",
            Anchor::Middle => " text-anchor=\"middle\"",
            Anchor::End => " text-anchor=\"end\"",
        };
        let weight = if font.is_bold {
            " font-weight=\"bold\""
        } else {
            ""
        };
        let _ = writeln!(
            self.body,
            "<text x=\"{x:.1}\" y=\"{y:.1}\" font-size=\"{}\" fill=\"{}\"{anchor}{weight}>{}</text>",
            font.size,
            font.colour,
            escaped(text)
        );
    }

    /// A text that can be read on any colour.
    pub fn text_above_all(&mut self, x: f64, y: f64, font: Font, text: &str) {
        self.body.push_str("<g stroke=\"#fff\" stroke-width=\"3\" paint-order=\"stroke\" stroke-linejoin=\"round\">");
        self.text(x, y, font, text);
        self.body.push_str("</g>\n");
    }

    /// A text where it has room, cut where a part of it has.
    pub fn fitted(&mut self, x: f64, y: f64, room: f64, font: Font, text: &str) {
        if let Some(cut) = fitting(text, room, font) {
            self.text(x, y, font, &cut);
        }
    }

    /// A part that tells more where somebody points at it.
    pub fn told(&mut self, title: &str, draw: impl FnOnce(&mut Svg)) {
        let _ = write!(self.body, "<g><title>{}</title>", escaped(title));
        draw(self);
        self.body.push_str("</g>\n");
    }

    /// The whole picture.
    pub fn end(self, width: f64, height: f64, title: &str) -> String {
        format!(
            "<svg xmlns=\"http://www.w3.org/2000/svg\" viewBox=\"0 0 {width:.0} {height:.0}\" width=\"{width:.0}\" \
             height=\"{height:.0}\" font-family=\"DejaVu Sans, Segoe UI, Helvetica, Arial, sans-serif\">\n<title>{}</title>\n\
             <defs>{}{}</defs>\n<rect width=\"{width:.0}\" height=\"{height:.0}\" fill=\"#fff\"/>\n{}</svg>\n",
            escaped(title),
            hatch(LACK, "#fdecec", "#f0b4b4"),
            hatch(BOOKED, "#f3f3f3", "#b5b5b5"),
            self.body
        )
    }
}

fn hatch(id: &str, ground: &str, stripe: &str) -> String {
    format!(
        "<pattern id=\"{id}\" width=\"6\" height=\"6\" patternUnits=\"userSpaceOnUse\" patternTransform=\"rotate(45)\">\
         <rect width=\"6\" height=\"6\" fill=\"{ground}\"/><rect width=\"1.5\" height=\"6\" fill=\"{stripe}\"/></pattern>"
    )
}

/// As much of a text as there is room for: all, its front, or none.
pub fn fitting(text: &str, room: f64, font: Font) -> Option<String> {
    if font.width(text) <= room {
        return Some(text.to_string());
    }
    let letters = (room / (font.size * LETTER)) as usize;
    let front: String = text.chars().take(letters.saturating_sub(1)).collect();
    (front.chars().count() > 2).then(|| format!("{}…", front.trim_end()))
}

/// A text in which nothing is markup.
pub fn escaped(text: &str) -> String {
    let mut escaped = String::with_capacity(text.len());
    for letter in text.chars() {
        match letter {
            '&' => escaped.push_str("&amp;"),
            '<' => escaped.push_str("&lt;"),
            '>' => escaped.push_str("&gt;"),
            '"' => escaped.push_str("&quot;"),
            '\'' => escaped.push_str("&#39;"),
            letter => escaped.push(letter),
        }
    }
    escaped
}
