//! Figures 10, 11 and 15 of RR-8966 anew: `figures FOLDER` writes figures.md and
//! figures.svg. MEMBOOKING is the proved library, driven by the steps' times; ACTIVATION
//! is the report's algorithm 1.

use cephlouk::{desk_peak, Command};
use compare::activation::{fed, makespan};
use compare::synthetic::{tree, Tree};
use kitchen::day::Day;
use kitchen::picture::chart::{Chart, Line, HEIGHT, WIDTH};
use kitchen::picture::svg::Svg;
use kitchen::simulate::simulate;
use kitchen::text::{Given, Order, Place};
use peer::generate::Random;
use std::fmt::Write;
use std::path::Path;

const TREES: usize = 50;
const NODES: usize = 1_000;
const SEED: u64 = 8966;

/// Memory bounds, as so many tenths of the least.
const TENTHS: [u64; 12] = [10, 12, 14, 16, 20, 25, 30, 40, 50, 70, 100, 200];
const PROCESSORS: [u8; 5] = [2, 4, 8, 16, 32];
/// The processors of figures 10 and 11.
const USUAL: u8 = 8;

/// A tree with the best postorder and the least memory that it needs.
struct Case {
    tree: Tree,
    order: Vec<u16>,
    /// The longest way to the root first.
    critical: Vec<u16>,
    least: u64,
}

/// The makespans of one tree, over the lower bound.
#[derive(Clone, Copy)]
struct Made {
    booking: f64,
    critical: f64,
    activation: f64,
}

fn case(random: &mut Random) -> Case {
    let tree = tree(random, NODES);
    let mut day = opened(&tree, 1, 0);
    day.sheet
        .steps
        .iter_mut()
        .zip(&tree.times)
        .for_each(|(step, &time)| {
            step.minutes = Some(time as u16);
        });
    let order = day.found(Order::Activation).expect("a tree");
    let critical = day.found(Order::Execution).expect("a tree");
    let least = desk_peak(&tree.records, &order).expect("a tree").peak;
    Case {
        tree,
        order,
        critical,
        least,
    }
}

/// A plan of the tree, with no order yet.
fn opened(tree: &Tree, stations: u8, places: u32) -> Day {
    let mut day = Day::default();
    let open = Command::Plan {
        steps: tree.records.len() as u16,
        stations,
        places,
    };
    give(&mut day, open);
    for record in &tree.records {
        let (parent, work, out) = (record.parent, record.work, record.out);
        give(&mut day, Command::Step { parent, work, out });
    }
    day
}

fn give(day: &mut Day, command: Command) {
    day.give(&Given::plain(command, Place::nowhere()))
        .expect("a plan of a tree");
}

/// The makespan by the proved library.
fn booking(case: &Case, execution: &[u16], processors: u8, bound: u64) -> u64 {
    let mut day = opened(&case.tree, processors, bound as u32);
    case.order
        .iter()
        .for_each(|&step| give(&mut day, Command::Activation(step)));
    execution
        .iter()
        .for_each(|&step| give(&mut day, Command::Execution(step)));
    let simulated = simulate(&day, &case.tree.times).expect("at least the least memory");
    simulated.length.into()
}

/// The largest of the lower bounds of section 6.
fn lower_bound(case: &Case, processors: u8, bound: u64) -> f64 {
    let tree = &case.tree;
    let total: u64 = tree.times.iter().map(|&time| u64::from(time)).sum();
    let needs = tree.records.iter().enumerate().map(|(node, record)| {
        let need = fed(tree, node) + u64::from(record.work) + u64::from(record.out);
        need * u64::from(tree.times[node])
    });
    let needed = needs.sum::<u64>() as f64 / bound as f64;
    let mut ways = vec![0; tree.records.len()];
    for &step in case.order.iter().rev() {
        let node = usize::from(step) - 1;
        let behind = usize::from(tree.records[node].parent).checked_sub(1);
        ways[node] = u64::from(tree.times[node]) + behind.map_or(0, |parent| ways[parent]);
    }
    let longest = ways.into_iter().max().unwrap_or(0) as f64;
    (total as f64 / f64::from(processors))
        .max(longest)
        .max(needed)
}

fn made(case: &Case, processors: u8, tenths: u64) -> Made {
    let bound = (case.least * tenths).div_ceil(10);
    let lower = lower_bound(case, processors, bound);
    let over = |length: u64| length as f64 / lower;
    let activation = makespan(&case.tree, &case.order, processors.into(), bound);
    let found = Made {
        booking: over(booking(case, &case.order, processors, bound)),
        critical: over(booking(case, &case.critical, processors, bound)),
        activation: over(activation),
    };
    assert!(
        found.booking >= 1.0 - 1e-9,
        "no makespan is below the lower bound"
    );
    found
}

/// The cases of one number of processors: by memory bound, then by tree.
type Panel = Vec<Vec<Made>>;

fn mean(values: impl Iterator<Item = f64>) -> f64 {
    let values: Vec<f64> = values.collect();
    values.iter().sum::<f64>() / values.len() as f64
}

fn points(panel: &Panel, value: impl Fn(&[Made]) -> f64) -> Vec<(f64, f64)> {
    let across = TENTHS.iter().map(|&tenths| tenths as f64 / 10.0);
    across.zip(panel.iter().map(|made| value(made))).collect()
}

fn makespans(panel: &Panel, title: String) -> Chart {
    let line = |label: &str, value: fn(&Made) -> f64, colour| {
        Line::plain(
            label.to_string(),
            points(panel, |made| mean(made.iter().map(value))),
            colour,
        )
    };
    let mut critical = line("longest way first", |made| made.critical, 0);
    critical.is_dashed = true;
    Chart {
        title,
        across: "memory bound, in times the least".to_string(),
        up: "mean makespan over the lower bound".to_string(),
        lines: vec![
            line("ACTIVATION", |made| made.activation, 1),
            line("MEMBOOKING", |made| made.booking, 0),
            critical,
        ],
    }
}

/// The speedups of the trees at one bound, rising.
fn speedups(made: &[Made]) -> Vec<f64> {
    let mut speedups: Vec<f64> = made
        .iter()
        .map(|made| made.activation / made.booking)
        .collect();
    speedups.sort_by(f64::total_cmp);
    speedups
}

fn median(rising: &[f64]) -> f64 {
    (rising[(rising.len() - 1) / 2] + rising[rising.len() / 2]) / 2.0
}

fn speedup_chart(panel: &Panel) -> Chart {
    let average = points(panel, |made| mean(speedups(made).into_iter()));
    let middle = points(panel, |made| median(&speedups(made)));
    let ribbon = average.iter().zip(panel).map(|(&(x, _), made)| {
        let rising = speedups(made);
        (x, rising[0], rising[rising.len() - 1])
    });
    let mut mean = Line::plain("mean".to_string(), average.clone(), 2);
    mean.ribbon = ribbon.collect();
    let mut median = Line::plain("median".to_string(), middle, 2);
    median.is_dashed = true;
    Chart {
        title: "Figure 11: MEMBOOKING beside ACTIVATION, 8 processors".to_string(),
        across: "memory bound, in times the least".to_string(),
        up: "speedup; least to most shaded".to_string(),
        lines: vec![mean, median],
    }
}

fn picture(panels: &[Panel]) -> String {
    let usual = &panels[usual()];
    let mut charts = vec![
        makespans(usual, "Figure 10: 8 processors".to_string()),
        speedup_chart(usual),
    ];
    for (panel, processors) in panels.iter().zip(PROCESSORS) {
        charts.push(makespans(
            panel,
            format!("Figure 15: {processors} processors"),
        ));
    }
    let mut svg = Svg::default();
    for (place, chart) in charts.iter().enumerate() {
        chart.draw(
            &mut svg,
            WIDTH * (place % 2) as f64,
            HEIGHT * (place / 2) as f64,
        );
    }
    let rows = charts.len().div_ceil(2) as f64;
    svg.end(
        2.0 * WIDTH,
        HEIGHT * rows,
        "Figures 10, 11 and 15 of RR-8966 anew",
    )
}

fn usual() -> usize {
    PROCESSORS
        .iter()
        .position(|&count| count == USUAL)
        .expect("one of them")
}

fn tables(panels: &[Panel], height: f64) -> String {
    let mut text = format!(
        "{TREES} trees of {NODES} nodes, of mean height {height:.0}.\n\nFigures 10 and 11, {USUAL} processors: mean makespan over the lower \
         bound, and the speedup of MEMBOOKING over ACTIVATION.\n\n\
         | memory | ACTIVATION | MEMBOOKING | longest way first | speedup: mean | median | least | most |\n\
         |---|---|---|---|---|---|---|---|\n"
    );
    for (made, tenths) in panels[usual()].iter().zip(TENTHS) {
        let rising = speedups(made);
        let _ = writeln!(
            text,
            "| {:.1} | {:.2} | {:.2} | {:.2} | {:.2} | {:.2} | {:.2} | {:.2} |",
            tenths as f64 / 10.0,
            mean(made.iter().map(|made| made.activation)),
            mean(made.iter().map(|made| made.booking)),
            mean(made.iter().map(|made| made.critical)),
            mean(rising.iter().copied()),
            median(&rising),
            rising[0],
            rising[rising.len() - 1]
        );
    }
    text += "\nFigure 15: the mean speedup for other numbers of processors.\n\n| memory |";
    PROCESSORS
        .iter()
        .for_each(|processors| text += &format!(" p = {processors} |"));
    text += "\n|---|---|---|---|---|---|\n";
    for (place, tenths) in TENTHS.iter().enumerate() {
        let _ = write!(text, "| {:.1} |", *tenths as f64 / 10.0);
        for panel in panels {
            let _ = write!(text, " {:.2} |", mean(speedups(&panel[place]).into_iter()));
        }
        text.push('\n');
    }
    text
}

fn main() -> std::io::Result<()> {
    let folder = std::env::args().nth(1).expect("a folder for the figures");
    let random = &mut Random::new(SEED);
    let cases: Vec<Case> = (0..TREES).map(|_| case(random)).collect();
    let height = mean(cases.iter().map(|case| case.tree.height as f64));
    let panel = |processors: u8| -> Panel {
        let at = |&tenths: &u64| {
            cases
                .iter()
                .map(|case| made(case, processors, tenths))
                .collect()
        };
        TENTHS.iter().map(at).collect()
    };
    let panels: Vec<Panel> = PROCESSORS.into_iter().map(panel).collect();
    std::fs::write(
        Path::new(&folder).join("figures.md"),
        tables(&panels, height),
    )?;
    std::fs::write(Path::new(&folder).join("figures.svg"), picture(&panels))
}
