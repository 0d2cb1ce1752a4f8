//! The panel of the trays: in use, stacked by branch, booked above it, the places
//! and the peak of the order.

use super::axis::{Axis, LEFT, RIGHT};
use super::colours::Colours;
use super::svg::{Anchor, Font, Svg, ALARM, BOOKED, GREY, GRID, INK, PALE};
use super::timeline::Timeline;
use crate::day::Report;

const HEIGHT: f64 = 150.0;
/// About so many lines of the grid.
const LINES: u64 = 4;
/// Room between the labels of reports.
const BETWEEN: f64 = 3.0;

/// Draws the panel from a height on; answers where it ends.
pub fn draw(svg: &mut Svg, timeline: &Timeline, axis: &Axis, colours: &Colours, top: f64) -> f64 {
    svg.text(
        20.0,
        top,
        Font::new(12.0, GREY).bold(),
        "trays in the cold room",
    );
    let top = top + 16.0;
    let scale = Scale::of(timeline, top);
    axis.grid(svg, top, scale.bottom());
    scale.draw(svg);
    let moments = timeline.day.moments.len();
    let booked: Vec<u64> = timeline
        .day
        .moments
        .iter()
        .map(|moment| moment.booked.into())
        .collect();
    let look = format!("fill=\"url(#{BOOKED})\" stroke=\"{PALE}\" stroke-width=\".6\"");
    scale.area(svg, timeline, axis, &vec![0; moments], &booked, &look);
    let mut below = vec![0; moments];
    for (branch, shares) in shares(timeline, colours).into_iter().enumerate() {
        let above: Vec<u64> = below
            .iter()
            .zip(&shares)
            .map(|(below, share)| below + share)
            .collect();
        let look = format!("fill=\"{}\"", colours.of_branch(branch).fill);
        scale.area(svg, timeline, axis, &below, &above, &look);
        below = above;
    }
    draw_bounds(svg, timeline, axis, &scale);
    draw_reports(svg, timeline, axis, scale.bottom());
    svg.line(
        (LEFT, scale.bottom()),
        (RIGHT, scale.bottom()),
        "stroke=\"#999\"",
    );
    axis.labels(svg, scale.bottom() + 30.0);
    scale.bottom() + 36.0
}

/// Trays to heights.
struct Scale {
    top: f64,
    most: u64,
}

impl Scale {
    fn of(timeline: &Timeline, top: f64) -> Scale {
        // Far more places than are ever booked would leave the rest flat.
        let moments = &timeline.day.moments;
        let booked = moments
            .iter()
            .map(|moment| u64::from(moment.booked))
            .max()
            .unwrap_or(0);
        let peak = moments.first().map_or(0, |moment| moment.peak);
        let places = moments
            .iter()
            .map(|moment| u64::from(moment.places))
            .max()
            .unwrap_or(0);
        let shown = booked.max(peak).max(1);
        Scale {
            top,
            most: places.clamp(shown, 2 * shown),
        }
    }

    fn bottom(&self) -> f64 {
        self.top + HEIGHT
    }

    fn y(&self, trays: u64) -> f64 {
        self.bottom() - HEIGHT * (trays.min(self.most) as f64 / self.most as f64) * 0.93
    }

    fn draw(&self, svg: &mut Svg) {
        let step = round_step(self.most.div_ceil(LINES));
        let font = Font::new(11.0, PALE).at(Anchor::End);
        for trays in (0..=self.most).step_by(step as usize) {
            let y = self.y(trays);
            svg.line((LEFT, y), (RIGHT, y), &format!("stroke=\"{GRID}\""));
            svg.text(LEFT - 8.0, y + 4.0, font, &trays.to_string());
        }
    }

    /// The area between two numbers of trays at each moment.
    fn area(
        &self,
        svg: &mut Svg,
        timeline: &Timeline,
        axis: &Axis,
        below: &[u64],
        above: &[u64],
        look: &str,
    ) {
        if below == above {
            return;
        }
        let mut upper = Vec::new();
        let mut lower = Vec::new();
        for now in 0..timeline.times.len() {
            let (from, to) = (axis.x(timeline.times[now]), axis.x(timeline.until(now)));
            upper.extend([(from, self.y(above[now])), (to, self.y(above[now]))]);
            lower.extend([(from, self.y(below[now])), (to, self.y(below[now]))]);
        }
        upper.extend(lower.into_iter().rev());
        svg.path(&upper, look);
    }
}

/// A round number that is at least as large.
fn round_step(least: u64) -> u64 {
    let mut unit = 1;
    loop {
        for step in [unit, 2 * unit, 5 * unit] {
            if step >= least {
                return step;
            }
        }
        unit *= 10;
    }
}

/// How the trays in use at each moment are shared by the branches, the last step
/// behind all: needs of what runs, and outs that stand. Together they are what
/// the library answers.
pub fn shares(timeline: &Timeline, colours: &Colours) -> Vec<Vec<u64>> {
    let sheet = &timeline.day.sheet;
    let moments = timeline.day.moments.len();
    let mut changes = vec![vec![0_i64; moments + 1]; colours.count + 1];
    let mut fed = vec![0_i64; sheet.steps.len() + 1];
    for step in &sheet.steps {
        fed[usize::from(step.record.parent)] += i64::from(step.record.out);
    }
    for number in sheet.numbers() {
        let (way, record) = (
            timeline.ways[usize::from(number) - 1],
            sheet.steps[usize::from(number) - 1].record,
        );
        let share = &mut changes[colours.branch(number)];
        let need = fed[usize::from(number)] + i64::from(record.work) + i64::from(record.out);
        if let Some(started) = way.started {
            share[started] += need;
            share[way.ended.unwrap_or(moments)] -= need;
        }
        if let Some(ended) = way.ended {
            share[ended] += i64::from(record.out);
            share[way.taken.unwrap_or(moments)] -= i64::from(record.out);
        }
    }
    let running = |changes: Vec<i64>| {
        let sums = changes.into_iter().scan(0, |sum, change| {
            *sum += change;
            Some(*sum)
        });
        sums.take(moments).map(|sum| sum.max(0) as u64).collect()
    };
    changes.into_iter().map(running).collect()
}

/// The places in force as a line, and the peak dashed.
fn draw_bounds(svg: &mut Svg, timeline: &Timeline, axis: &Axis, scale: &Scale) {
    let moments = &timeline.day.moments;
    let Some(first) = moments.first() else {
        return;
    };
    let y = scale.y(first.peak);
    let look = format!("stroke=\"{ALARM}\" stroke-width=\"1\" stroke-dasharray=\"4 3\"");
    svg.line((LEFT, y), (RIGHT, y), &look);
    let font = Font::new(9.5, ALARM);
    svg.text_above_all(
        LEFT + 6.0,
        y - 4.0,
        font,
        &format!("peak of the order {}", first.peak),
    );
    let points: Vec<(f64, f64)> = moments
        .iter()
        .enumerate()
        .flat_map(|(now, moment)| {
            let y = scale.y(moment.places.into());
            [
                (axis.x(timeline.times[now]), y),
                (axis.x(timeline.until(now)), y),
            ]
        })
        .collect();
    let look = format!("fill=\"none\" stroke=\"{ALARM}\" stroke-width=\"2\"");
    svg.path(&points, &look);
    if let (Some(last), Some(&(_, y))) = (moments.last(), points.last()) {
        let more = if u64::from(last.places) > scale.most {
            " (above the picture)"
        } else {
            ""
        };
        let font = Font::new(11.0, ALARM).bold().at(Anchor::End);
        svg.text(
            RIGHT,
            y - 6.0,
            font,
            &format!("{} places{more}", last.places),
        );
    }
}

/// A tick a report, with the step that ended where there is room.
fn draw_reports(svg: &mut Svg, timeline: &Timeline, axis: &Axis, y: f64) {
    svg.text(
        20.0,
        y + 14.0,
        Font::new(11.0, PALE),
        "reports (step that ended)",
    );
    let font = Font::new(9.0, INK).at(Anchor::Middle);
    let mut free_from = LEFT - 30.0;
    for (now, moment) in timeline.day.moments.iter().enumerate() {
        let x = axis.x(timeline.times[now]);
        svg.line((x, y), (x, y + 5.0), &format!("stroke=\"{GREY}\""));
        let label = match moment.report {
            Report::Begin => "begin".to_string(),
            Report::Done(step) => step.to_string(),
            Report::Places(_) => "places".to_string(),
            Report::Fetch => "fetch".to_string(),
        };
        let half = font.width(&label) / 2.0;
        if x - half >= free_from {
            svg.text(x, y + 15.0, font, &label);
            free_from = x + half + BETWEEN;
        }
    }
}
