//! Lines over two axes: how long days are.

use super::svg::{Anchor, Font, Svg, GREY, GRID, INK, PALE};

/// The colours of lines, as those of branches.
const COLOURS: [&str; 6] = [
    "#0072B2", "#D55E00", "#009E73", "#CC79A7", "#E69F00", "#56B4E9",
];

pub struct Line {
    pub label: String,
    pub points: Vec<(f64, f64)>,
    /// From the least to the most at each point, where it is known.
    pub ribbon: Vec<(f64, f64, f64)>,
    pub is_dashed: bool,
    pub colour: usize,
}

impl Line {
    pub fn plain(label: String, points: Vec<(f64, f64)>, colour: usize) -> Line {
        Line {
            label,
            points,
            ribbon: Vec::new(),
            is_dashed: false,
            colour,
        }
    }
}

pub struct Chart {
    pub title: String,
    pub across: String,
    pub up: String,
    pub lines: Vec<Line>,
}

pub const WIDTH: f64 = 760.0;
pub const HEIGHT: f64 = 380.0;
const LEFT: f64 = 60.0;
const RIGHT: f64 = WIDTH - 150.0;
const TOP: f64 = 50.0;
const BOTTOM: f64 = HEIGHT - 50.0;
const TICKS: f64 = 6.0;

impl Chart {
    /// Draws it at a place of a picture.
    pub fn draw(&self, svg: &mut Svg, left: f64, top: f64) {
        let scale = Scale::of(self, left, top);
        svg.text(
            left + LEFT,
            top + 24.0,
            Font::new(14.0, INK).bold(),
            &self.title,
        );
        svg.text(left + LEFT, top + 41.0, Font::new(11.0, GREY), &self.up);
        let below = Font::new(11.0, GREY).at(Anchor::End);
        svg.text(left + RIGHT, top + HEIGHT - 12.0, below, &self.across);
        scale.grid(svg);
        for line in &self.lines {
            scale.line(svg, line);
        }
        self.legend(svg, left, top);
    }

    /// The whole picture of one chart.
    pub fn svg(&self) -> String {
        let mut svg = Svg::default();
        self.draw(&mut svg, 0.0, 0.0);
        svg.end(WIDTH, HEIGHT, &self.title)
    }

    fn legend(&self, svg: &mut Svg, left: f64, top: f64) {
        let font = Font::new(11.0, INK);
        let labelled = self.lines.iter().filter(|line| !line.label.is_empty());
        for (row, line) in labelled.enumerate() {
            let y = top + TOP + 14.0 + 16.0 * row as f64;
            let ends = [(left + RIGHT + 14.0, y), (left + RIGHT + 34.0, y)];
            svg.path(&ends, &look(line));
            svg.text(left + RIGHT + 40.0, y + 4.0, font, &line.label);
        }
    }
}

fn look(line: &Line) -> String {
    let dashes = if line.is_dashed {
        " stroke-dasharray=\"5 4\""
    } else {
        ""
    };
    let colour = COLOURS[line.colour % COLOURS.len()];
    format!("fill=\"none\" stroke=\"{colour}\" stroke-width=\"2\"{dashes}")
}

/// Numbers to places of the picture.
struct Scale {
    left: f64,
    top: f64,
    across: (f64, f64),
    up: (f64, f64),
}

impl Scale {
    fn of(chart: &Chart, left: f64, top: f64) -> Scale {
        let points = || chart.lines.iter().flat_map(|line| &line.points);
        let highs = chart.lines.iter().flat_map(|line| &line.ribbon);
        let least = |values: &mut dyn Iterator<Item = f64>| values.fold(f64::INFINITY, f64::min);
        let most = |values: &mut dyn Iterator<Item = f64>| values.fold(f64::NEG_INFINITY, f64::max);
        let across = (
            least(&mut points().map(|point| point.0)),
            most(&mut points().map(|point| point.0)),
        );
        let lows = points()
            .map(|point| point.1)
            .chain(highs.clone().map(|ribbon| ribbon.1));
        let tops = points()
            .map(|point| point.1)
            .chain(highs.map(|ribbon| ribbon.2));
        let (low, high) = (least(&mut { lows }), most(&mut { tops }));
        let step = round((high - low).max(1e-9) / TICKS);
        Scale {
            left,
            top,
            across: (across.0, across.1.max(across.0 + 1e-9)),
            up: (
                (low / step).floor() * step,
                (high / step).ceil() * step + 1e-9,
            ),
        }
    }

    fn at(&self, x: f64, y: f64) -> (f64, f64) {
        let part = |value: f64, (least, most): (f64, f64)| (value - least) / (most - least);
        (
            self.left + LEFT + (RIGHT - LEFT) * part(x, self.across),
            self.top + BOTTOM - (BOTTOM - TOP) * part(y, self.up),
        )
    }

    fn grid(&self, svg: &mut Svg) {
        let look = format!("stroke=\"{GRID}\"");
        let side = Font::new(11.0, PALE).at(Anchor::End);
        for value in ticks(self.up) {
            let (x, y) = self.at(self.across.0, value);
            svg.line((x, y), (self.left + RIGHT, y), &look);
            svg.text(x - 6.0, y + 4.0, side, &number(value));
        }
        let below = Font::new(11.0, PALE).at(Anchor::Middle);
        for value in ticks(self.across) {
            let (x, y) = self.at(value, self.up.0);
            svg.line((x, y), (x, self.top + TOP), &look);
            svg.text(x, y + 16.0, below, &number(value));
        }
    }

    fn line(&self, svg: &mut Svg, line: &Line) {
        let colour = COLOURS[line.colour % COLOURS.len()];
        if !line.ribbon.is_empty() {
            let low = line.ribbon.iter().map(|&(x, low, _)| self.at(x, low));
            let high = line
                .ribbon
                .iter()
                .rev()
                .map(|&(x, _, high)| self.at(x, high));
            let area: Vec<(f64, f64)> = low.chain(high).collect();
            svg.path(&area, &format!("fill=\"{colour}\" fill-opacity=\".15\""));
        }
        let points: Vec<(f64, f64)> = line.points.iter().map(|&(x, y)| self.at(x, y)).collect();
        svg.path(&points, &look(line));
        for &(x, y) in points.iter().filter(|_| !line.is_dashed) {
            svg.dot(x, y, 2.5, colour);
        }
    }
}

/// Round numbers between two.
fn ticks((least, most): (f64, f64)) -> Vec<f64> {
    let step = round((most - least) / TICKS);
    let first = (least / step - 1e-9).ceil() as i64;
    let last = (most / step + 1e-9).floor() as i64;
    (first..=last).map(|tick| tick as f64 * step).collect()
}

/// A round number of about this size.
fn round(step: f64) -> f64 {
    let unit = 10_f64.powf(step.log10().floor());
    let fits = |&&times: &&f64| times * unit >= step;
    let times = [1.0, 2.0, 5.0].iter().find(fits).copied().unwrap_or(10.0);
    times * unit
}

fn number(value: f64) -> String {
    let text = format!("{value:.3}");
    text.trim_end_matches('0').trim_end_matches('.').to_string()
}
