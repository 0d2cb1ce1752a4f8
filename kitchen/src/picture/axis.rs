//! The time axis, which all panels share.

use super::svg::{Anchor, Font, Svg, GREY, GRID};
use super::timeline::{Timeline, Unit};

/// Where the axis begins and ends across the picture.
pub const LEFT: f64 = 270.0;
pub const RIGHT: f64 = 1240.0;

/// At most so many lines of the grid.
const LINES: u32 = 12;
/// Distances between lines of the grid, in minutes or reports.
const STEPS: [u32; 17] = [
    1, 2, 5, 10, 15, 20, 30, 60, 120, 240, 480, 960, 1_440, 2_880, 14_400, 144_000, 1_440_000,
];

const MINUTES_OF_AN_HOUR: u32 = 60;
const HOURS_OF_A_DAY: u32 = 24;

pub struct Axis {
    first: u32,
    last: u32,
    unit: Unit,
}

impl Axis {
    pub fn of(timeline: &Timeline) -> Axis {
        let (first, last) = timeline.ends();
        Axis {
            first,
            last,
            unit: timeline.unit,
        }
    }

    /// Where a time is across the picture.
    pub fn x(&self, time: u32) -> f64 {
        let part = f64::from(time - self.first) / f64::from(self.last - self.first);
        LEFT + (RIGHT - LEFT) * part
    }

    /// The times of the grid.
    pub fn ticks(&self) -> Vec<u32> {
        let span = self.last - self.first;
        let fits = |&&step: &&u32| span / step <= LINES;
        let step = STEPS.iter().find(fits).copied().unwrap_or(span.max(1));
        let first = self.first.div_ceil(step) * step;
        (first..=self.last).step_by(step as usize).collect()
    }

    pub fn label(&self, time: u32) -> String {
        match self.unit {
            Unit::Minutes => format!("{time} min"),
            Unit::Clock => {
                let (hours, minutes) = (time / MINUTES_OF_AN_HOUR, time % MINUTES_OF_AN_HOUR);
                format!("{:02}:{minutes:02}", hours % HOURS_OF_A_DAY)
            }
            Unit::Reports => time.to_string(),
        }
    }

    /// The lines of the grid from one height to another.
    pub fn grid(&self, svg: &mut Svg, top: f64, bottom: f64) {
        for tick in self.ticks() {
            let x = self.x(tick);
            svg.line((x, top), (x, bottom), &format!("stroke=\"{GRID}\""));
        }
    }

    /// The labels of the grid.
    pub fn labels(&self, svg: &mut Svg, y: f64) {
        let font = Font::new(11.0, GREY).at(Anchor::Middle);
        for tick in self.ticks() {
            svg.text(self.x(tick), y, font, &self.label(tick));
        }
    }
}
