//! The panel of the steps in the activation order: the tree at the left, and
//! when each is booked, runs, and has its out standing.

use super::axis::{Axis, LEFT, RIGHT};
use super::colours::Colours;
use super::svg::{Anchor, Font, Svg, BAND, GREY, INK, PALE};
use super::timeline::{Timeline, Unit};

/// Above so many steps the panel is left out.
pub const MOST: usize = 60;

const ROW: f64 = 21.0;
const BAR: f64 = 14.0;
/// How far a step stands to the right of the one that it feeds.
const INDENT: f64 = 14.0;
const MOST_INDENT: f64 = 98.0;
const TREE: f64 = 20.0;

/// Draws the panel from a height on; answers where it ends.
pub fn draw(svg: &mut Svg, timeline: &Timeline, axis: &Axis, colours: &Colours, top: f64) -> f64 {
    let sheet = &timeline.day.sheet;
    let bold = Font::new(12.0, GREY).bold();
    svg.text(20.0, top, bold, "steps, in the activation order");
    svg.text(
        LEFT - 10.0,
        top,
        Font::new(11.0, PALE).at(Anchor::End),
        "need",
    );
    let top = top + 16.0;
    let bottom = top + ROW * sheet.activation.len() as f64;
    for row in (0..sheet.activation.len()).step_by(2) {
        let look = format!("fill=\"{BAND}\"");
        svg.rect(14.0, top + ROW * row as f64, RIGHT - 14.0, ROW, &look);
    }
    axis.grid(svg, top, bottom);
    let tree = Tree::of(timeline, top);
    for (row, &step) in sheet.activation.iter().enumerate() {
        tree.draw(svg, step, colours);
        draw_row(svg, timeline, axis, colours, step, top + ROW * row as f64);
    }
    bottom
}

/// Where the dot of each step stands, by its number less 1.
struct Tree<'a> {
    timeline: &'a Timeline,
    dots: Vec<(f64, f64)>,
}

impl Tree<'_> {
    fn of(timeline: &Timeline, top: f64) -> Tree<'_> {
        let sheet = &timeline.day.sheet;
        let mut dots = vec![(0.0, 0.0); sheet.steps.len()];
        let mut deepest: f64 = 1.0;
        for (row, &step) in sheet.activation.iter().enumerate().rev() {
            let place = usize::from(step) - 1;
            let parent = usize::from(sheet.steps[place].record.parent).checked_sub(1);
            let depth = parent.map_or(0.0, |parent| dots[parent].0 + 1.0);
            deepest = deepest.max(depth);
            dots[place] = (depth, top + ROW * (row as f64 + 0.5));
        }
        // A deep tree is drawn narrower.
        let indent = INDENT.min(MOST_INDENT / deepest);
        for dot in &mut dots {
            dot.0 = TREE + indent * dot.0;
        }
        Tree { timeline, dots }
    }

    fn draw(&self, svg: &mut Svg, step: u16, colours: &Colours) {
        let sheet = &self.timeline.day.sheet;
        let place = usize::from(step) - 1;
        let (x, y) = self.dots[place];
        let colour = colours.step(step).fill;
        let record = sheet.steps[place].record;
        if let Some(parent) = usize::from(record.parent).checked_sub(1) {
            let (parent_x, parent_y) = self.dots[parent];
            let look = format!(
                "fill=\"none\" stroke=\"{colour}\" stroke-opacity=\".55\" stroke-width=\"1.4\""
            );
            svg.path(&[(x, y), (parent_x, y), (parent_x, parent_y)], &look);
        }
        svg.dot(x, y, 4.0, colour);
        let font = Font::new(12.0, INK);
        let font = if record.parent == 0 {
            font.bold()
        } else {
            font
        };
        let room = LEFT - 44.0 - x;
        svg.fitted(x + 9.0, y + 4.0, room, font, &sheet.label(step));
        let need = Font::new(11.0, PALE).at(Anchor::End);
        svg.text(
            LEFT - 10.0,
            y + 4.0,
            need,
            &need_of(self.timeline, step).to_string(),
        );
    }
}

fn draw_row(
    svg: &mut Svg,
    timeline: &Timeline,
    axis: &Axis,
    colours: &Colours,
    step: u16,
    top: f64,
) {
    let sheet = &timeline.day.sheet;
    let way = timeline.ways[usize::from(step) - 1];
    let (Some(given), Some(booked)) = (sheet.step(step), way.booked) else {
        return;
    };
    let (fill, y) = (colours.step(step).fill, top + (ROW - BAR) / 2.0);
    let (from, start) = (
        axis.x(timeline.times[booked]),
        axis.x(timeline.time(way.started)),
    );
    if start > from {
        let look =
            format!("fill=\"{fill}\" fill-opacity=\".18\" stroke=\"{fill}\" stroke-opacity=\".5\"");
        svg.rect(from, y, start - from, BAR, &look);
    }
    if way.started.is_none() {
        return;
    }
    let end = axis.x(timeline.time(way.ended));
    svg.rect(
        start,
        y,
        end - start,
        BAR,
        &format!("fill=\"{fill}\" rx=\"2\""),
    );
    if let Some(minutes) = given.minutes.filter(|_| timeline.unit != Unit::Reports) {
        let font = Font::new(10.0, colours.step(step).letters);
        svg.fitted(
            start + 4.0,
            y + 10.5,
            end - start - 6.0,
            font,
            &format!("{minutes}′"),
        );
    }
    if way.ended.is_some() {
        let taken = axis.x(timeline.time(way.taken));
        if taken > end {
            let look = format!("stroke=\"{fill}\" stroke-width=\"3\"");
            svg.line((end, top + ROW / 2.0), (taken, top + ROW / 2.0), &look);
        }
        svg.text(
            end + 4.0,
            top + 7.5,
            Font::new(9.0, fill),
            &given.record.out.to_string(),
        );
    }
}

/// The outs of its children, its work and its out.
pub fn need_of(timeline: &Timeline, step: u16) -> u64 {
    let steps = &timeline.day.sheet.steps;
    let fed: u64 = steps
        .iter()
        .filter(|child| child.record.parent == step)
        .map(|child| u64::from(child.record.out))
        .sum();
    let own = steps[usize::from(step) - 1].record;
    fed + u64::from(own.work) + u64::from(own.out)
}
