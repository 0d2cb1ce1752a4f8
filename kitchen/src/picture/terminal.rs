//! The picture in letters, for a terminal.

use super::colours::Colours;
use super::scene::{summary, title};
use super::stations::idles;
use super::timeline::Timeline;
use super::Axis;
use crate::paint::Paint;
use std::fmt::Write;

/// The columns of the picture where the terminal does not say, and the fewest.
const COLUMNS: usize = 100;
const FEWEST: usize = 40;
/// The columns ahead of the time axis.
const AHEAD: usize = 7;
/// The lines of the trays.
const LINES: u64 = 8;

const LACKING: char = '░';
const RUNNING: char = '█';
const BOOKED: char = '▒';
const FREE: char = ' ';

pub fn terminal(timeline: &Timeline, columns: Option<usize>, paint: Paint) -> String {
    let width = columns.unwrap_or(COLUMNS).max(FEWEST) - AHEAD;
    let colours = Colours::of(&timeline.day.sheet);
    let mut text = format!(
        "{}\n{}\n\n",
        paint.strong(&title(timeline)),
        summary(timeline)
    );
    for station in 0..timeline.day.sheet.stations.into() {
        let lane = lane(timeline, &colours, station, width, paint);
        let _ = writeln!(text, "{:>4} │ {lane}", station + 1);
    }
    text.push('\n');
    text += &trays(timeline, width);
    let axis = Axis::of(timeline);
    let (first, last) = timeline.ends();
    let (from, to) = (axis.label(first), axis.label(last));
    let _ = writeln!(
        text,
        "       {from}{to:>rest$}",
        rest = width - from.chars().count()
    );
    let _ = writeln!(text, "\n       {RUNNING} in use  {BOOKED} booked  {LACKING} a cook is free, the next step lacks places");
    text
}

/// The column of a time.
fn column(timeline: &Timeline, time: u32, width: usize) -> usize {
    let (first, last) = timeline.ends();
    let part = u64::from(time - first) * width as u64 / u64::from(last - first);
    (part as usize).min(width)
}

/// A stretch of a lane: from and to which column, what it says, and its colour.
struct Stretch {
    from: usize,
    to: usize,
    label: String,
    filling: char,
    colour: Option<u8>,
}

fn lane(
    timeline: &Timeline,
    colours: &Colours,
    station: usize,
    width: usize,
    paint: Paint,
) -> String {
    let sheet = &timeline.day.sheet;
    let at = |time| column(timeline, time, width);
    let mut stretches: Vec<Stretch> = idles(timeline)
        .into_iter()
        .filter(|idle| idle.station == station)
        .map(|idle| Stretch {
            from: at(idle.from),
            to: at(idle.to),
            label: format!("{} lacks {}", idle.lack.step, idle.lack.lack),
            filling: LACKING,
            colour: None,
        })
        .collect();
    for (step, way) in sheet.numbers().zip(&timeline.ways) {
        if let Some(started) = way.started.filter(|_| way.station == station) {
            stretches.push(Stretch {
                from: at(timeline.times[started]),
                to: at(timeline.time(way.ended)),
                label: sheet.label(step),
                filling: '─',
                colour: Some(colours.step(step).terminal),
            });
        }
    }
    stretches.sort_by_key(|stretch| stretch.from);
    let mut line = String::new();
    let mut end = 0;
    for stretch in stretches {
        let _ = write!(line, "{:1$}", "", stretch.from.saturating_sub(end));
        line += &filled(&stretch, paint);
        end = stretch.to.max(end);
    }
    line.trim_end().to_string()
}

/// A stretch with its label where it fits.
fn filled(stretch: &Stretch, paint: Paint) -> String {
    let room = stretch.to - stretch.from;
    let number = stretch.label.split(' ').next().unwrap_or("");
    let fits = |label: &&str| label.chars().count() < room;
    let label = [&*stretch.label, number]
        .into_iter()
        .find(fits)
        .unwrap_or("");
    let mut text = label.to_string();
    let rest = room - label.chars().count();
    text.extend(std::iter::repeat_n(stretch.filling, rest.saturating_sub(1)));
    // A gap tells neighbours apart.
    if rest > 0 {
        text.push(if stretch.filling == LACKING {
            LACKING
        } else {
            '▏'
        });
    }
    match stretch.colour {
        Some(colour) => paint.filled(colour, &text),
        None => paint.wrong(&text),
    }
}

/// In use and booked, a column a stretch of time.
fn trays(timeline: &Timeline, width: usize) -> String {
    let moments = &timeline.day.moments;
    let most = moments
        .iter()
        .map(|moment| u64::from(moment.booked))
        .max()
        .unwrap_or(0);
    let places = moments.last().map_or(0, |moment| u64::from(moment.places));
    let top = most
        .max(moments.first().map_or(0, |moment| moment.peak))
        .max(1);
    let top = places.clamp(top, 2 * top);
    let mut columns = vec![(0, 0); width];
    for (now, moment) in moments.iter().enumerate() {
        let from = column(timeline, timeline.times[now], width);
        let to = column(timeline, timeline.until(now), width);
        columns[from..to].fill((u64::from(moment.used), u64::from(moment.booked)));
    }
    let mut text = String::new();
    for line in (0..LINES).rev() {
        // A line is full where half of it is.
        let level = (2 * line + 1) * top / (2 * LINES);
        let mark = match line {
            0 => "0".to_string(),
            line if line == LINES - 1 => top.to_string(),
            _ => String::new(),
        };
        let letters: String = columns
            .iter()
            .map(|&(used, booked)| match (used > level, booked > level) {
                (true, _) => RUNNING,
                (false, true) => BOOKED,
                _ => FREE,
            })
            .collect();
        let _ = writeln!(text, "{mark:>4} │ {}", letters.trim_end());
    }
    text
}
