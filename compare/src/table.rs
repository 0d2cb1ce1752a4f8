//! Tables of figures in Markdown.

use crate::day::Day;
use peer::generate::Shape;

/// The numbers of tasks.
const SIZES: [usize; 3] = [64, 256, 1024];
/// The largest of them.
pub const LARGEST: usize = SIZES[SIZES.len() - 1];

const TREES: [(&str, Shape); 4] = [
    ("chain", Shape::Chain),
    ("star", Shape::Star),
    ("random", Shape::Random),
    ("binary", Shape::Binary),
];

/// The numbers of processors.
const PROCESSORS: [u8; 3] = [1, 4, 64];

/// M as so many times the peak.
const PEAKS: [u32; 2] = [1, 2];

/// The nanoseconds of a command, by the proved function and by the peer.
pub type Pair = [f64; 2];

/// The figures of one row: a pair for each number of tasks.
pub struct Row {
    name: String,
    figures: [Pair; SIZES.len()],
}

impl Row {
    /// Measured for each number of tasks.
    pub fn new(name: String, measure: impl FnMut(usize) -> Pair) -> Row {
        Row {
            name,
            figures: SIZES.map(measure),
        }
    }

    fn ratios(&self) -> [f64; SIZES.len()] {
        self.figures.map(|[proved, peer]| proved / peer)
    }

    /// How much both grow from the least number of tasks to the largest.
    fn growth(&self) -> Pair {
        let [least, .., largest] = self.figures;
        [largest[0] / least[0], largest[1] / least[1]]
    }
}

/// What is to be seen in a whole table.
pub struct Extremes {
    /// The least and the highest ratio at the largest number of tasks.
    pub at_largest: [f64; 2],
    /// The highest ratio of all.
    pub highest: f64,
    /// By how much the proved function grows more than the peer, at most.
    pub growth: f64,
    /// The highest figure of the proved function at the largest number of tasks.
    pub longest: f64,
}

/// Prints a table with every tree, p and M.
pub fn print_table(title: &str, measure: fn(&Day) -> Pair) -> Extremes {
    let cases = TREES.into_iter().flat_map(|tree| {
        PROCESSORS
            .into_iter()
            .flat_map(move |p| PEAKS.map(|peaks| (tree, p, peaks)))
    });
    let rows = cases.map(|((tree, shape), p, peaks)| {
        Row::new(format!("{tree} | {p} | {peaks} × peak"), |n| {
            measure(&Day::new(shape, n, p, peaks))
        })
    });
    print_rows(title, [("tree", "---"), ("p", "---:"), ("M", "---")], rows)
}

/// Prints a table, row by row as they are measured: what they are called, in
/// columns with their alignment, for each number of tasks both figures and their
/// ratio, and how both grow.
pub fn print_rows<const NAMES: usize>(
    title: &str,
    names: [(&str, &str); NAMES],
    rows: impl Iterator<Item = Row>,
) -> Extremes {
    println!("\n## {title}\n");
    let sizes = SIZES.map(|n| format!("n = {n}: proved | peer | ratio"));
    println!(
        "| {} | {} | growth: proved | peer |",
        names.map(|(name, _)| name).join(" | "),
        sizes.join(" | ")
    );
    println!(
        "|{}|{}",
        names.map(|(_, alignment)| alignment).join("|"),
        "---:|".repeat(3 * SIZES.len() + 2)
    );
    extremes(&rows.inspect(print_row).collect::<Vec<_>>())
}

fn print_row(row: &Row) {
    let cells = row.figures.map(|[proved, peer]| {
        let ratio = proved / peer;
        format!("{} | {} | {ratio:.2}", figure(proved), figure(peer))
    });
    let [proved, peer] = row.growth();
    let cells = cells.join(" | ");
    println!("| {} | {cells} | {proved:.2} | {peer:.2} |", row.name);
}

fn extremes(rows: &[Row]) -> Extremes {
    let mut extremes = Extremes {
        at_largest: [f64::INFINITY, 0.0],
        highest: 0.0,
        growth: f64::NEG_INFINITY,
        longest: 0.0,
    };
    for row in rows {
        let ratios = row.ratios();
        let [.., largest] = ratios;
        let [proved, peer] = row.growth();
        extremes.at_largest[0] = extremes.at_largest[0].min(largest);
        extremes.at_largest[1] = extremes.at_largest[1].max(largest);
        extremes.highest = ratios.into_iter().fold(extremes.highest, f64::max);
        extremes.growth = extremes.growth.max(proved - peer);
        let [.., [proved, _]] = row.figures;
        extremes.longest = extremes.longest.max(proved);
    }
    extremes
}

/// Three digits at least, and no more than are worth it.
fn figure(time: f64) -> String {
    let decimals = if time < 100.0 { 1 } else { 0 };
    format!("{time:.decimals$}")
}
