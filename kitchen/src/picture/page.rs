//! The picture as a page: a slider through the moments of the day, a sentence for
//! the moment, and who waits, is booked, runs and has ended. One file that asks
//! nobody for anything.

use super::scene::{draw, title};
use super::svg::escaped;
use super::timeline::Timeline;
use super::Axis;
use crate::json::{list, string, Object};
use crate::lines::told;
use crate::paint::Paint;

const STYLE: &str = include_str!("page.css");
const SCRIPT: &str = include_str!("page.js");

/// Nothing may be loaded, sent or framed.
const POLICY: &str = "default-src 'none'; style-src 'unsafe-inline'; script-src 'unsafe-inline'; base-uri 'none'; form-action 'none'";

pub fn page(timeline: &Timeline) -> String {
    let scene = draw(timeline);
    let data = Object::new()
        .value("moments", &moments(timeline, &scene.moments))
        .value("steps", &steps(timeline))
        .number("top", scene.top as u64)
        .number("bottom", scene.bottom as u64)
        .end();
    format!(
        "<!doctype html>\n<html lang=\"en\"><head><meta charset=\"utf-8\">\n\
         <meta http-equiv=\"Content-Security-Policy\" content=\"{POLICY}\">\n\
         <meta name=\"viewport\" content=\"width=device-width\">\n<title>{}</title>\n<style>{STYLE}</style></head>\n<body>\n\
         <nav><button id=\"back\" aria-label=\"back\">◀</button>\n\
         <input id=\"now\" type=\"range\" min=\"0\" max=\"{}\" value=\"0\" aria-label=\"moment\">\n\
         <button id=\"on\" aria-label=\"on\">▶</button>\n<output id=\"told\"></output></nav>\n\
         {}\n<main><section><h2>waiting</h2><p id=\"waiting\"></p></section><section><h2>booked</h2><p id=\"booked\"></p></section>\
         <section><h2>running</h2><p id=\"running\"></p></section><section><h2>ended</h2><p id=\"ended\"></p></section></main>\n\
         <script>const day = {data};\n{SCRIPT}</script>\n</body></html>\n",
        escaped(&title(timeline)),
        timeline.times.len().saturating_sub(1),
        scene.svg
    )
}

/// Where each moment stands across the picture, and its sentence.
fn moments(timeline: &Timeline, across: &[f64]) -> String {
    let axis = Axis::of(timeline);
    let moments = timeline.day.moments.iter().enumerate();
    list(moments.map(|(now, moment)| {
        let time = axis.label(timeline.times[now]);
        let sentence = told(&timeline.day, moment, Paint::OFF);
        Object::new()
            .value("x", &format!("{:.1}", across[now]))
            .text("told", &format!("{time} · {sentence}"))
            .end()
    }))
}

/// The label of each step, and the moments at which it was booked, started and
/// ended.
fn steps(timeline: &Timeline) -> String {
    let at = |moment: Option<usize>| moment.map_or("null".to_string(), |moment| moment.to_string());
    let sheet = &timeline.day.sheet;
    list(sheet.numbers().zip(&timeline.ways).map(|(number, way)| {
        let label = string(&sheet.label(number));
        format!(
            "[{label},{},{},{}]",
            at(way.booked),
            at(way.started),
            at(way.ended)
        )
    }))
}
