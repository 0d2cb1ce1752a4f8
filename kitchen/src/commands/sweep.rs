//! `cephlouk sweep`: how long the day is for each number of places and stations.

use super::simulate::{minutes_of, unsimulated};
use super::{Subcommand, DONE, OUTPUT};
use crate::arguments::{wrong, Arguments, Switch};
use crate::console::{Console, Stop};
use crate::input::STANDARD;
use crate::json::{list, Object};
use crate::load::{load, Loaded, Scope};
use crate::message::Message;
use crate::output::write_to;
use crate::picture::chart::{Chart, Line};
use crate::simulate::simulate;
use cephlouk::{desk_peak, Plan, Refusal};
use std::ffi::OsStr;
use std::ops::RangeInclusive;
use std::path::Path;

pub static SWEEP: Subcommand = Subcommand {
    name: "sweep",
    usage: "[FILE] [--places A..B] [--stations A..B] [-o x.svg]",
    about: "how long the day is for each number of places and stations: how many are worth having",
    switches: &[&PLACES, &STATIONS, &OUTPUT],
    run: sweep,
};

static PLACES: Switch = Switch {
    word: "--places",
    value: Some("A..B"),
    about: "the places to try; from the peak to where more are no use, unless it says otherwise",
};

static STATIONS: Switch = Switch {
    word: "--stations",
    value: Some("A..B"),
    about: "the stations to try; those of the plan, unless it says otherwise",
};

/// At most so many numbers of places are tried, evenly spread.
const ROWS: u32 = 24;
/// And so many stations.
const COLUMNS: u32 = 16;

/// The minutes of the day for each number of places and of stations; none where
/// the places are fewer than the peak.
struct Table {
    places: Vec<u32>,
    stations: Vec<u8>,
    minutes: Vec<Vec<Option<u32>>>,
}

fn sweep(console: &mut Console, arguments: &Arguments) -> Result<u8, Stop> {
    if let Some(path) = arguments.value(&OUTPUT) {
        check_form(path)?;
    }
    let loaded = load(arguments.file()?, Scope::Orders)?;
    let minutes = minutes_of(&loaded)?;
    let stations = match arguments.value(&STATIONS) {
        Some(said) => range(
            &STATIONS,
            &said.to_string_lossy(),
            1..=Plan::MAX_PROCESSORS as u32,
        )?,
        None => {
            let own = u32::from(loaded.day.sheet.stations);
            own..=own
        }
    };
    let places = match arguments.value(&PLACES) {
        Some(said) => range(&PLACES, &said.to_string_lossy(), 0..=u32::MAX)?,
        None => useful_places(&loaded)?,
    };
    let table = Table::of(
        &loaded,
        &minutes,
        spread(places, ROWS),
        spread(stations, COLUMNS),
    )?;
    match arguments.value(&OUTPUT) {
        Some(path) => {
            let chart = table.chart(&loaded).svg();
            write_to(console, Some(path), chart.as_bytes())?;
        }
        None if console.is_json => console.line(&table.json())?,
        None => console.bytes(table.text().as_bytes())?,
    }
    Ok(DONE)
}

/// A chart is drawn as SVG.
fn check_form(path: &OsStr) -> Result<(), Message> {
    let is_svg = Path::new(path)
        .extension()
        .is_some_and(|ending| ending == "svg");
    match is_svg || path == STANDARD {
        true => Ok(()),
        false => Err(wrong(format!("'{}' is no .svg", path.to_string_lossy()))),
    }
}

/// A range as it is typed: `16..40`, or one number.
fn range(
    of: &Switch,
    said: &str,
    limits: RangeInclusive<u32>,
) -> Result<RangeInclusive<u32>, Message> {
    let (first, last) = said.split_once("..").unwrap_or((said, said));
    let number = |text: &str| {
        text.parse::<u32>()
            .ok()
            .filter(|number| limits.contains(number))
    };
    match (number(first), number(last)) {
        (Some(first), Some(last)) if first <= last => Ok(first..=last),
        _ => {
            let (least, most) = (limits.start(), limits.end());
            let what = format!(
                "'{}' wants A..B with numbers from {least} to {most}, found '{said}'",
                of.word
            );
            Err(wrong(what))
        }
    }
}

/// Evenly spread numbers of a range, with both its ends.
fn spread(range: RangeInclusive<u32>, most: u32) -> Vec<u32> {
    let (first, last) = range.into_inner();
    let step = (last - first).div_ceil(most.saturating_sub(1)).max(1);
    let mut numbers: Vec<u32> = (first..last).step_by(step as usize).collect();
    numbers.push(last);
    numbers
}

/// From the peak to the sum of all needs, with which every step is booked at
/// once; at most three times the peak.
fn useful_places(loaded: &Loaded) -> Result<RangeInclusive<u32>, Stop> {
    let sheet = &loaded.day.sheet;
    let peak = desk_peak(&sheet.records(), &sheet.activation)
        .map_err(|refusal| unsimulated(loaded, refusal))?
        .peak;
    let roots = sheet.steps.iter().filter(|step| step.record.parent == 0);
    let counts =
        |step: &crate::sheet::Step| u64::from(step.record.work) + 2 * u64::from(step.record.out);
    let all: u64 = sheet.steps.iter().map(counts).sum();
    let all = all - roots.map(|step| u64::from(step.record.out)).sum::<u64>();
    let fit = |places: u64| u32::try_from(places).unwrap_or(u32::MAX);
    Ok(fit(peak)..=fit(all.min(3 * peak).max(peak)))
}

impl Table {
    fn of(
        loaded: &Loaded,
        minutes: &[u32],
        places: Vec<u32>,
        stations: Vec<u32>,
    ) -> Result<Table, Stop> {
        let stations: Vec<u8> = stations.into_iter().map(|count| count as u8).collect();
        let mut rows = Vec::new();
        for &places in &places {
            let mut row = Vec::new();
            for &stations in &stations {
                row.push(length(loaded, minutes, places, stations)?);
            }
            rows.push(row);
        }
        Ok(Table {
            places,
            stations,
            minutes: rows,
        })
    }

    fn text(&self) -> String {
        let mut text = "places".to_string();
        for stations in &self.stations {
            let head = format!("{stations} st.");
            text += &format!("  {head:>7}");
        }
        text.push('\n');
        for (places, row) in self.places.iter().zip(&self.minutes) {
            text += &format!("{places:>6}");
            for minutes in row {
                let cell = minutes.map_or("-".to_string(), |minutes| minutes.to_string());
                text += &format!("  {cell:>7}");
            }
            text.push('\n');
        }
        text + "minutes of the day; - where the places are fewer than the peak\n"
    }

    fn json(&self) -> String {
        let cells = self
            .places
            .iter()
            .zip(&self.minutes)
            .flat_map(|(&places, row)| {
                self.stations
                    .iter()
                    .zip(row)
                    .filter_map(move |(&stations, minutes)| {
                        let object = Object::new()
                            .number("places", places)
                            .number("stations", stations);
                        minutes.map(|minutes| object.number("minutes", minutes).end())
                    })
            });
        Object::new().value("days", &list(cells)).end()
    }

    fn chart(&self, loaded: &Loaded) -> Chart {
        let line = |(column, stations): (usize, &u8)| {
            let points = self
                .places
                .iter()
                .zip(&self.minutes)
                .filter_map(|(&places, row)| {
                    row[column].map(|minutes| (f64::from(places), f64::from(minutes)))
                });
            let label = crate::tell::counted((*stations).into(), "station", "stations");
            Line::plain(label, points.collect(), column)
        };
        Chart {
            title: loaded
                .day
                .sheet
                .title
                .as_deref()
                .unwrap_or("A day")
                .to_string(),
            across: "places".to_string(),
            up: "minutes of the day".to_string(),
            lines: self.stations.iter().enumerate().map(line).collect(),
        }
    }
}

/// The minutes of the day with other places and stations.
fn length(
    loaded: &Loaded,
    minutes: &[u32],
    places: u32,
    stations: u8,
) -> Result<Option<u32>, Stop> {
    let day = loaded
        .day
        .with(places, stations)
        .map_err(|refusal| unsimulated(loaded, refusal))?;
    match simulate(&day, minutes) {
        Ok(simulated) => Ok(Some(simulated.length)),
        Err(Refusal::PeakAboveBound) => Ok(None),
        Err(refusal) => Err(unsimulated(loaded, refusal)),
    }
}
