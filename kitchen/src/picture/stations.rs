//! The panel of the stations: who does what, and where a cook is free and the
//! next step lacks places.

use super::axis::{Axis, LEFT, RIGHT};
use super::colours::Colours;
use super::svg::{Anchor, Font, Svg, ALARM, GREY, INK, LACK};
use super::timeline::Timeline;
use crate::day::Lack;

/// The height of a lane, less where there are many.
const LANE: f64 = 28.0;
const MANY: usize = 16;
const THIN_LANE: f64 = 12.0;
const GAP: f64 = 4.0;
const THIN_GAP: f64 = 2.0;
/// The part of a thin bar that may be a gap.
const GAP_PART: f64 = 0.2;
/// Room ahead of a label in its bar.
const INDENT: f64 = 4.5;

/// A stretch in which a station is free and the next step lacks places.
#[derive(Clone, Copy, Debug, PartialEq, Eq)]
pub struct Idle {
    pub station: usize,
    pub from: u32,
    pub to: u32,
    pub lack: Lack,
}

/// Draws the panel from a height on; answers where it ends.
pub fn draw(svg: &mut Svg, timeline: &Timeline, axis: &Axis, colours: &Colours, top: f64) -> f64 {
    svg.text(20.0, top, Font::new(12.0, GREY).bold(), "stations");
    let lanes = Lanes::of(timeline, top + 8.0);
    lanes.draw(svg);
    axis.grid(svg, lanes.top - 2.0, lanes.bottom());
    for idle in idles(timeline) {
        draw_idle(svg, timeline, axis, &lanes, idle);
    }
    for step in timeline.day.sheet.numbers() {
        draw_step(svg, timeline, axis, colours, &lanes, step);
    }
    lanes.bottom()
}

/// Where the lanes of the stations are.
struct Lanes {
    top: f64,
    count: usize,
    height: f64,
    gap: f64,
    /// Too thin for letters.
    is_thin: bool,
}

impl Lanes {
    fn of(timeline: &Timeline, top: f64) -> Lanes {
        let count = usize::from(timeline.day.sheet.stations);
        let is_thin = count > MANY;
        let (height, gap) = if is_thin {
            (THIN_LANE, THIN_GAP)
        } else {
            (LANE, GAP)
        };
        Lanes {
            top,
            count,
            height,
            gap,
            is_thin,
        }
    }

    fn y(&self, station: usize) -> f64 {
        self.top + self.height * station as f64
    }

    fn bottom(&self) -> f64 {
        self.y(self.count)
    }

    /// The line on which letters of a lane stand.
    fn line(&self, station: usize) -> f64 {
        self.y(station) + self.height * 0.57
    }

    fn draw(&self, svg: &mut Svg) {
        let size = if self.is_thin { 8.0 } else { 12.0 };
        let font = Font::new(size, INK).at(Anchor::End);
        for station in 0..self.count {
            self.bar(svg, station, LEFT, RIGHT, "fill=\"#f4f4f4\"");
            svg.text(
                LEFT - 10.0,
                self.line(station),
                font,
                &(station + 1).to_string(),
            );
        }
    }

    /// A bar, with a gap to its neighbours.
    fn bar(&self, svg: &mut Svg, station: usize, from: f64, to: f64, look: &str) {
        let between = between(from, to);
        let (x, width) = (from + between / 2.0, to - from - between);
        svg.rect(x, self.y(station), width, self.height - self.gap, look);
    }
}

fn draw_idle(svg: &mut Svg, timeline: &Timeline, axis: &Axis, lanes: &Lanes, idle: Idle) {
    let (from, to) = (axis.x(idle.from), axis.x(idle.to));
    let Lack { step, lack } = idle.lack;
    let label = format!("{step} lacks {lack}");
    let told = format!("{} lacks {lack}", timeline.day.sheet.label(step));
    let font = Font::new(9.5, ALARM);
    svg.told(&told, |svg| {
        lanes.bar(
            svg,
            idle.station,
            from,
            to,
            &format!("fill=\"url(#{LACK})\""),
        );
        if !lanes.is_thin && font.width(&label) <= to - from - INDENT {
            svg.text(from + INDENT, lanes.line(idle.station), font, &label);
        }
    });
}

fn draw_step(
    svg: &mut Svg,
    timeline: &Timeline,
    axis: &Axis,
    colours: &Colours,
    lanes: &Lanes,
    step: u16,
) {
    let way = timeline.ways[usize::from(step) - 1];
    let Some(started) = way.started else {
        return;
    };
    let (from, to) = (
        axis.x(timeline.times[started]),
        axis.x(timeline.time(way.ended)),
    );
    let (colour, label) = (colours.step(step), timeline.day.sheet.label(step));
    let font = Font::new(11.0, colour.letters);
    let number = step.to_string();
    let fits = |text: &&String| !lanes.is_thin && font.width(text) <= to - from - 2.0 * INDENT;
    svg.told(&label, |svg| {
        let corner = if lanes.is_thin { 1 } else { 3 };
        let look = format!("fill=\"{}\" rx=\"{corner}\"", colour.fill);
        lanes.bar(svg, way.station, from, to, &look);
        if let Some(text) = [&label, &number].into_iter().find(fits) {
            svg.text(from + INDENT, lanes.line(way.station), font, text);
        }
    });
}

/// The gap between neighbours; bars that are thinner than it would vanish.
fn between(from: f64, to: f64) -> f64 {
    ((to - from) * GAP_PART).min(1.0)
}

/// All stretches in which a station is free and the next step lacks places,
/// those with the same lack as one.
pub fn idles(timeline: &Timeline) -> Vec<Idle> {
    let count = usize::from(timeline.day.sheet.stations);
    let mut busy = vec![false; count];
    let mut open: Vec<Option<Idle>> = vec![None; count];
    let mut idles = Vec::new();
    for (now, moment) in timeline.day.moments.iter().enumerate() {
        for way in timeline.ways.iter().filter(|way| way.ended == Some(now)) {
            busy[way.station] = false;
        }
        for &step in &moment.starts {
            busy[timeline.ways[usize::from(step) - 1].station] = true;
        }
        for station in 0..count {
            let lack = moment.next.filter(|_| !busy[station]);
            let to = timeline.until(now);
            match (&mut open[station], lack) {
                (Some(idle), Some(lack)) if idle.lack == lack => idle.to = to,
                (place, lack) => {
                    idles.extend(place.take());
                    *place = lack.map(|lack| Idle {
                        station,
                        from: timeline.times[now],
                        to,
                        lack,
                    });
                }
            }
        }
    }
    idles.extend(open.into_iter().flatten());
    idles.retain(|idle| idle.from < idle.to);
    idles
}
