//! The line of each moment of a day: as cooks read it, as the day printer prints
//! it, and as programs read it.

use crate::day::{Day, Moment, Report};
use crate::json::Object;
use crate::paint::Paint;
use crate::tell::{self, counted, places};
use cephlouk::Phase;
use std::fmt::Write;

/// As cooks read it.
pub fn told(day: &Day, moment: &Moment, paint: Paint) -> String {
    let sheet = &day.sheet;
    let head = match moment.report {
        Report::Begin => "begin".to_string(),
        Report::Done(step) => format!("done {}", sheet.label(step)),
        Report::Places(places) => format!("places {places}"),
        Report::Fetch => return "fetch: the trolley is gone, and the day is over".to_string(),
    };
    let starts = match &moment.starts[..] {
        [] if day.plan.phase() == Phase::Ready => "the trolley stands until 'fetch'".to_string(),
        [] => "start nothing".to_string(),
        starts => paint.strong(&format!("start {}", sheet.labels(starts))),
    };
    let mut line = format!(
        "{head}: {starts} · {} in use, {} booked of {}",
        moment.used, moment.booked, moment.places
    );
    if moment.report == Report::Begin {
        let _ = write!(
            line,
            " · peak {} at {}",
            moment.peak,
            sheet.label(moment.by)
        );
    }
    if let Some(lack) = lacking(day, moment) {
        let _ = write!(line, " · {lack}");
    }
    line
}

/// Where a cook is free and yet the next step waits, what it lacks.
fn lacking(day: &Day, moment: &Moment) -> Option<String> {
    let is_free = moment.standing.running < day.sheet.stations.into();
    let next = moment.next.filter(|_| is_free)?;
    let label = day.sheet.label(next.step);
    Some(format!(
        "{label} is next and lacks {}",
        places(next.lack.into())
    ))
}

/// As the day printer prints it.
pub fn plain(moment: &Moment) -> String {
    let mut line = match moment.report {
        Report::Begin => format!("begin peak={} by={}", moment.peak, moment.by),
        Report::Done(step) => format!("done {step} offers={}", moment.offers),
        Report::Places(places) => format!("places M={places}"),
        Report::Fetch => return format!("fetch booked={}", moment.booked),
    };
    let (booked, used, full) = (moment.booked, moment.used, moment.full);
    let _ = write!(line, " booked={booked} used={used} full={full} start");
    if moment.starts.is_empty() {
        line.push_str(" -");
    }
    for step in &moment.starts {
        let _ = write!(line, " {step}");
    }
    line
}

/// As programs read it.
pub fn json(moment: &Moment) -> String {
    let object = match moment.report {
        Report::Begin => Object::new()
            .text("command", "begin")
            .number("peak", moment.peak)
            .number("by", moment.by),
        Report::Done(step) => Object::new()
            .text("command", "done")
            .number("step", step)
            .number("offers", moment.offers as u64),
        Report::Places(_) => Object::new().text("command", "places"),
        Report::Fetch => Object::new().text("command", "fetch"),
    };
    let mut object = object
        .numbers("starts", &moment.starts)
        .number("booked", moment.booked)
        .number("used", moment.used)
        .number("full", moment.full)
        .number("places", moment.places);
    if let Some(time) = moment.at {
        object = object.text("at", &time.to_string());
    }
    if let Some(next) = moment.next {
        let next = Object::new()
            .number("step", next.step)
            .number("lacks", next.lack);
        object = object.value("next", &next.end());
    }
    object.end()
}

/// How the day stands.
pub fn standing(day: &Day) -> String {
    let counts = day.plan.standing();
    let steps = counted(day.sheet.steps.len() as u64, "step", "steps");
    format!(
        "{}; {} in use, {} booked of {}; of {steps} {} wait, {} are booked, {} run, {} have ended",
        tell::phase(day),
        day.plan.in_use(),
        day.plan.booked(),
        day.sheet.places,
        counts.waiting,
        counts.activated,
        counts.running,
        counts.finished
    )
}
