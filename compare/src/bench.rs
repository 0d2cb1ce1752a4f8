//! Commands, the question why a step is not starting, a plan written out, an
//! order found and fullness timed, the proved functions beside the peer's, and
//! the two day printers, printed as Markdown. No figure fails anything.

use compare::clock::{medians, Batch, Calls, SAMPLES};
use compare::day::Day;
use compare::programs::{self, COMMANDS, RUNS};
use compare::readings::{print_readings, TOGETHER};
use compare::table::{print_table, Extremes, Pair, LARGEST};
use compare::trees::{print_orders, STARS};
use std::hint::black_box;

/// About so many tasks have the copies of a plan that are timed together.
const TASKS_TOGETHER: usize = 512;
/// So many copies of a plan get FETCH or 08 together, whatever their tasks.
const COPIES_TOGETHER: usize = 8;
/// The nanoseconds of a millisecond.
const MILLISECOND: f64 = 1e6;

fn main() {
    print_notes();
    let done = print_table("DONE", reports);
    let begin = print_table("BEGIN, divided by n", begin);
    let one_order = print_table("BEGIN without 04, divided by n", begin_with_one_order);
    let fetch = print_table("FETCH", fetch);
    let bound = print_table("08 with the same M", same_bound);
    let setup = print_table("PLAN, STEP, 03 and 04", setup);
    let why = print_table("Why a step is not starting", why);
    let write = print_table("A plan written out, divided by n", write);
    let orders = print_orders();
    let readings = print_readings();
    let programs = programs::times();
    print_aims(
        [done, begin, setup],
        [&one_order, &fetch, &bound, &why, &write, &orders],
        readings,
        programs,
    );
    print_command(programs::times_of_command());
}

/// What the command for planners takes.
fn print_command([run, drawn]: [[f64; 2]; 2]) {
    for (what, aim, [user, system]) in [
        ("a day of 1,024 steps from text, by the command", 10, run),
        ("its picture as a page", 100, drawn),
    ] {
        println!(
            "| {what}, mean of {RUNS} runs | at most {aim} ms | {user:.1} ms, and {system:.1} ms of the system |"
        );
    }
}

/// How the figures come about.
fn print_notes() {
    println!(
        "- Nanoseconds per command, of BEGIN per step of the plan, by the proved library through its exported function and by the peer, which gets the same \
         bytes in the same process. Both are built for release.\n\
         - A sample gives all commands of one kind to fresh copies of a plan that was led up to them: all reports of a day, its \
         BEGIN, with 04 and without, its FETCH, an 08 with the same M once half of the reports came, or all commands ahead of BEGIN, these on a \
         plan whose day is over. The copies, 8 at 64 steps, 2 at 256 and 1 at 1,024, of FETCH and 08 {COPIES_TOGETHER} each, are made before the \
         time is taken. It is the time for which the thread had a processor, less that of a look at the clock. The two sides take turns, and a figure \
         is the median of {SAMPLES} samples.\n\
         - Parents have lower numbers than their children, the activation order falls and the execution order is mixed; works \
         and outs are 0 to 20; any running step ends next.\n\
         - Why a step is not starting is asked of every step once half of the reports came; the figure is that of one asking. The \
         plan is written out then too; the figure is that of one step.\n\
         - An activation order is found for trees of which the root is step 1; works and outs are 0 to 20, but where works rise or fall with \
         the number of the step, or are 1. Side by side stand {STARS} stars, whose roots feed the root. The figure is that of one step.\n\
         - Fullness is read of {TOGETHER} pairs; the figure is that of one reading.\n\
         - Growth is the figure at n = 1024 over the figure at n = 64."
    );
}

/// A report.
fn reports(day: &Day) -> Pair {
    let places = day.reports();
    let led_to = places.start;
    pair(day, &day.bytes[places], led_to, day.tasks)
}

/// BEGIN, as much of it as goes to one task.
fn begin(day: &Day) -> Pair {
    let places = day.begin();
    let led_to = places.start;
    pair(day, &day.bytes[places], led_to, day.tasks)
}

/// The same where no 04 was given.
fn begin_with_one_order(day: &Day) -> Pair {
    pair(day, &day.bytes[day.begin()], day.activated(), day.tasks)
}

/// FETCH.
fn fetch(day: &Day) -> Pair {
    let places = day.fetch();
    let led_to = places.start;
    pair_of_copies(day, &day.bytes[places], led_to, COPIES_TOGETHER)
}

/// 08 halfway through the day, with the bound in force, which is always taken.
fn same_bound(day: &Day) -> Pair {
    pair_of_copies(day, &day.same_bound(), day.halfway(), COPIES_TOGETHER)
}

/// A command ahead of BEGIN.
fn setup(day: &Day) -> Pair {
    let commands = &day.bytes[day.setup()];
    pair(day, commands, day.bytes.len(), 1 + 3 * day.tasks)
}

/// An asking why a task is not starting: the mean of all tasks, halfway
/// through the day.
fn why(day: &Day) -> Pair {
    let proved = day.led(cephlouk::Plan::new(), day.halfway());
    let peer = day.led(peer::Plan::new(), day.halfway());
    let tasks = 1..=day.tasks as u16;
    let times = medians([
        &mut Calls(|| {
            for task in tasks.clone() {
                let _ = black_box(proved.why(task));
            }
        }),
        &mut Calls(|| {
            for task in tasks.clone() {
                black_box(peer.why(task));
            }
        }),
    ]);
    times.map(|time| time / day.tasks as f64)
}

/// A plan written out halfway through the day, as much of it as goes to one
/// task.
fn write(day: &Day) -> Pair {
    let proved = day.led(cephlouk::Plan::new(), day.halfway());
    let peer = day.led(peer::Plan::new(), day.halfway());
    let [mut list, mut list_of_peer] = [(); 2].map(|()| vec![0; peer::Plan::WRITTEN]);
    let written = proved.write(&mut list).expect("a plan written out");
    assert_eq!(peer.write(&mut list_of_peer).count, written, "as long");
    assert_eq!(list, list_of_peer, "the same bytes");
    let times = medians([
        &mut Calls(|| {
            let _ = black_box(proved.write(black_box(&mut list)));
        }),
        &mut Calls(|| {
            black_box(peer.write(black_box(&mut list_of_peer)));
        }),
    ]);
    times.map(|time| time / day.tasks as f64)
}

/// One of so many parts of some commands, on a plan that was led to a place.
fn pair(day: &Day, commands: &[u8], led_to: usize, parts: usize) -> Pair {
    let copies = (TASKS_TOGETHER / day.tasks).max(1);
    let times = pair_of_copies(day, commands, led_to, copies);
    times.map(|time| time / parts as f64)
}

/// All of some commands, on one of so many copies of such a plan.
fn pair_of_copies(day: &Day, commands: &[u8], led_to: usize, copies: usize) -> Pair {
    let proved = day.led(cephlouk::Plan::new(), led_to);
    let peer = day.led(peer::Plan::new(), led_to);
    let times = medians([
        &mut Batch::new(commands, proved, copies),
        &mut Batch::new(commands, peer, copies),
    ]);
    times.map(|time| time / copies as f64)
}

/// What is aimed at, and what was measured.
fn print_aims(
    [done, begin, setup]: [Extremes; 3],
    [one_order, fetch, bound, why, write, orders]: [&Extremes; 6],
    [least, most]: [f64; 2],
    [printer, peer]: [[f64; 2]; 2],
) {
    let ratio = |extremes: &Extremes| {
        let [least, most] = extremes.at_largest;
        format!(
            "{least:.2} to {most:.2} at 1,024 steps, no cell above {:.2}",
            extremes.highest
        )
    };
    println!("\n## In short\n\n| ratio to the peer | aim | measured |\n|---|---|---|");
    println!(
        "| DONE | at most 0.9 at 1,024 steps, no cell above 1.1 | {} |",
        ratio(&done)
    );
    println!("| BEGIN | at most 1.1 | {} |", ratio(&begin));
    println!("| BEGIN without 04 | at most 1.1 | {} |", ratio(one_order));
    println!("| FETCH | – | {} |", ratio(fetch));
    println!("| 08 | – | {} |", ratio(bound));
    println!(
        "| PLAN, STEP, 03 and 04 | at most 0.8 | {} |",
        ratio(&setup)
    );
    println!("| why a step is not starting | – | {} |", ratio(why));
    println!("| a plan written out | – | {} |", ratio(write));
    println!("| an activation order found | – | {} |", ratio(orders));
    println!("| fullness | – | {least:.2} to {most:.2} |");
    for (name, extremes) in [
        ("DONE", done),
        ("BEGIN", begin),
        ("PLAN, STEP, 03 and 04", setup),
    ] {
        println!(
            "| {name}: growth from 64 to 1,024 steps | at most 0.2 above the peer's | at most {:.2} above |",
            extremes.growth
        );
    }
    println!(
        "| an activation order found, the longest at 1,024 steps | at most about 1 ms | {:.3} ms |",
        orders.longest * LARGEST as f64 / MILLISECOND
    );
    println!(
        "| an activation order found: growth of a step's part from 64 to 1,024 steps | – | at most {:.2} above the peer's |",
        orders.growth
    );
    let names = ["user time of the day printer", "its system time"];
    for ((name, aim), (printer, peer)) in names
        .into_iter()
        .zip(["at most 1.3", "at most 2"])
        .zip(printer.into_iter().zip(peer))
    {
        println!(
            "| {name}, {COMMANDS} commands, mean of {RUNS} runs | {aim} | {:.2}: {printer:.1} ms, the peer's program {peer:.1} ms |",
            printer / peer
        );
    }
}
