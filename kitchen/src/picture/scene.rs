//! The picture of a day: a head and three panels over one time axis.

use super::axis::{Axis, LEFT};
use super::colours::Colours;
use super::svg::{Font, Svg, ALARM, GREY, INK, LACK};
use super::timeline::{Timeline, Unit};
use super::{stations, steps, trays};
use crate::day::Report;
use crate::tell::counted;

pub const WIDTH: f64 = 1280.0;
const MARGIN: f64 = 16.0;

/// A picture, and where its moments stand across and its panels from top to bottom.
pub struct Scene {
    pub svg: String,
    pub moments: Vec<f64>,
    pub top: f64,
    pub bottom: f64,
}

pub fn draw(timeline: &Timeline) -> Scene {
    let (axis, colours) = (Axis::of(timeline), Colours::of(&timeline.day.sheet));
    let mut svg = Svg::default();
    let title = title(timeline);
    svg.fitted(
        20.0,
        30.0,
        WIDTH - 40.0,
        Font::new(20.0, INK).bold(),
        &title,
    );
    svg.text(20.0, 50.0, Font::new(13.0, GREY), &summary(timeline));
    legend(&mut svg);
    let top = 106.0;
    let mut bottom = stations::draw(&mut svg, timeline, &axis, &colours, top);
    if timeline.day.sheet.steps.len() <= steps::MOST {
        bottom = steps::draw(&mut svg, timeline, &axis, &colours, bottom + 20.0);
    }
    bottom = trays::draw(&mut svg, timeline, &axis, &colours, bottom + 24.0);
    Scene {
        moments: timeline.times.iter().map(|&time| axis.x(time)).collect(),
        svg: svg.end(WIDTH, bottom + MARGIN, &title),
        top,
        bottom,
    }
}

pub fn title(timeline: &Timeline) -> String {
    let title = timeline
        .day
        .sheet
        .title
        .as_deref()
        .filter(|title| !title.is_empty());
    title.unwrap_or("A day").to_string()
}

/// The day in a line.
pub fn summary(timeline: &Timeline) -> String {
    let (day, sheet) = (&timeline.day, &timeline.day.sheet);
    let mut parts = vec![
        counted(sheet.steps.len() as u64, "step", "steps"),
        counted(sheet.stations.into(), "station", "stations"),
    ];
    if let Some(begun) = day.moments.first() {
        parts.push(counted(begun.places.into(), "place", "places"));
        parts.push(format!("peak {} at {}", begun.peak, sheet.label(begun.by)));
    }
    let axis = Axis::of(timeline);
    parts.push(match (timeline.length, timeline.unit) {
        (None, _) => {
            let ended = day.plan.standing().finished;
            format!("{ended} ended so far")
        }
        (Some(length), Unit::Minutes) => format!(
            "{} to the last step",
            counted(length.into(), "minute", "minutes")
        ),
        (Some(length), Unit::Clock) => format!("the last step ended at {}", axis.label(length)),
        (Some(length), Unit::Reports) => counted(length.into(), "report", "reports"),
    });
    let fetched = day
        .moments
        .iter()
        .position(|moment| moment.report == Report::Fetch);
    if let Some(fetched) = fetched.filter(|_| timeline.unit != Unit::Reports) {
        parts.push(format!(
            "fetched at {}",
            axis.label(timeline.times[fetched])
        ));
    }
    parts.join(" · ")
}

fn legend(svg: &mut Svg) {
    let (y, font) = (67.0, Font::new(11.0, INK));
    let blue = "#0072B2";
    svg.rect(LEFT, y, 26.0, 11.0, &format!("fill=\"{blue}\""));
    svg.text(LEFT + 31.0, y + 10.0, font, "running (its need)");
    let look =
        format!("fill=\"{blue}\" fill-opacity=\".18\" stroke=\"{blue}\" stroke-opacity=\".6\"");
    svg.rect(LEFT + 150.0, y, 26.0, 11.0, &look);
    svg.text(LEFT + 181.0, y + 10.0, font, "booked, not started");
    let look = format!("stroke=\"{blue}\" stroke-width=\"3\"");
    svg.line((LEFT + 305.0, y + 5.5), (LEFT + 331.0, y + 5.5), &look);
    svg.text(LEFT + 336.0, y + 10.0, font, "out stands");
    svg.rect(
        LEFT + 425.0,
        y,
        26.0,
        11.0,
        &format!("fill=\"url(#{LACK})\""),
    );
    svg.text(
        LEFT + 456.0,
        y + 10.0,
        font,
        "a cook is free, the next step lacks places",
    );
    let look = format!("stroke=\"{ALARM}\" stroke-width=\"2\"");
    svg.line((LEFT + 740.0, y + 5.5), (LEFT + 766.0, y + 5.5), &look);
    svg.text(LEFT + 771.0, y + 10.0, font, "places");
}
