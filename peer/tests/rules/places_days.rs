//! New bounds in generated days, of plans small and large.

use crate::generator::Seen;
use crate::menu::{answers, ask, places, written, Menu};
use crate::peak_sums::peak_and_task;
use crate::watch::{follow, Watch};
use peer::generate::stream;
use peer::{desk_peak, Phase, Plan, Reason};

/// The first waiting task and what it lacks, while one waits.
fn lacking(watch: &Watch, plan: &Plan) -> Option<(u16, u32)> {
    match plan.why(*watch.activation.last()?) {
        Reason::NotBooked { first, lack } => Some((first, lack)),
        _ => None,
    }
}

/// A copy of a plan with so many more places, which it takes.
fn with_more(watch: &Watch, plan: &Plan, more: u32) -> Plan {
    let mut plan = plan.clone();
    let (answer, _) = places(&mut plan, watch.memory_bound + more);
    assert_eq!(answer.number, 0);
    plan
}

/// Request 01's claim, with places that really come: with as many more as the
/// first waiting task lacks it is booked, and with one fewer it is not.
fn check_lack(watch: &Watch, plan: &Plan, seen: &mut Seen) {
    let Some((first, lack)) = lacking(watch, plan) else {
        return;
    };
    let one_fewer = with_more(watch, plan, lack - 1);
    assert_eq!(lacking(watch, &one_fewer), Some((first, 1)));
    assert_eq!(one_fewer.standing(), plan.standing());
    let enough = with_more(watch, plan, lack);
    assert_ne!(lacking(watch, &enough).map(|(first, _)| first), Some(first));
    assert!(enough.standing()[0] < plan.standing()[0]);
    seen.note(if lack == 1 { "lacks one" } else { "lacks more" });
}

#[test]
fn places_that_the_first_waiting_task_lacks() {
    let mut seen = Seen::default();
    for stream in (9000..9150).map(stream) {
        follow(&stream, |watch, plan| check_lack(watch, plan, &mut seen));
    }
    seen.check(&[("lacks one", 100), ("lacks more", 800)]);
}

/// A copy of a plan with a bound that is no larger: it is taken and starts nothing.
fn with_no_more(plan: &Plan, bound: u32) -> Plan {
    let mut plan = plan.clone();
    let (answer, starts) = places(&mut plan, bound);
    assert_eq!((answer.number, answer.used, starts), (0, 5, vec![]));
    plan
}

#[test]
fn the_same_bound_and_the_least() {
    for stream in (9150..9200).map(stream) {
        follow(&stream, |watch, plan| {
            if plan.phase() != Phase::Running {
                return;
            }
            let same = with_no_more(plan, watch.memory_bound);
            assert_eq!(answers(&same), answers(plan));
            let peak = desk_peak(&watch.records, &watch.activation).peak;
            let least = with_no_more(plan, peak.max(plan.booked()));
            let day = |plan: &Plan| (plan.booked(), plan.in_use(), plan.standing());
            assert_eq!(day(&least), day(plan));
        });
    }
}

/// By task, its booked trays.
fn booked(plan: &Plan, tasks: usize) -> Vec<u32> {
    let numbers = 1..=tasks as u16;
    numbers.map(|task| plan.booked_by(task)).collect()
}

/// BEGIN with the peak and then a larger bound books what BEGIN with that bound
/// books, though others may have started.
fn check_larger(menu: &Menu) {
    let (peak, _) = peak_and_task(&menu.records, &menu.activation);
    let within = |memory_bound| Menu {
        memory_bound,
        ..menu.clone()
    };
    let (answer, _, mut plan) = within(peak).begun();
    assert_eq!((answer.number, answer.peak), (0, peak));
    assert_eq!(places(&mut plan, menu.memory_bound).0.number, 0);
    let (_, _, at_once) = menu.begun();
    let tasks = menu.records.len();
    assert_eq!(booked(&plan, tasks), booked(&at_once, tasks));
    assert_eq!(plan.standing()[0], at_once.standing()[0]);
    assert_eq!(plan.fullness(), at_once.fullness());
    assert_eq!(
        written(&plan, Plan::WRITTEN),
        written(&at_once, Plan::WRITTEN)
    );
}

#[test]
fn a_larger_bound_right_after_begin() {
    let mut checked = 0;
    for stream in (9250..9450).map(stream) {
        let menu = follow(&stream, |_, _| {}).0.menu();
        if let Some(menu) = menu.filter(|menu| menu.begun().0.number == 0) {
            check_larger(&menu);
            checked += 1;
        }
    }
    assert!(checked > 80, "{checked}");
}

/// Bounds that are refused now, each with its number.
fn refused_bounds(watch: &Watch, plan: &Plan) -> Vec<(u32, u8)> {
    if plan.phase() != Phase::Running {
        return vec![(0, 3), (watch.memory_bound, 3), (u32::MAX, 3)];
    }
    let peak = desk_peak(&watch.records, &watch.activation).peak;
    let below_peak = [0, peak / 2, peak.saturating_sub(1)];
    let below_booked = [peak, plan.booked().saturating_sub(1)];
    let number = |bound: u32| match bound {
        _ if bound < peak => 9,
        _ if bound < plan.booked() => 13,
        _ => 0,
    };
    let bounds = below_peak.into_iter().chain(below_booked);
    let mut refused: Vec<_> = bounds.map(|bound| (bound, number(bound))).collect();
    refused.retain(|&(_, number)| number != 0);
    refused
}

#[test]
fn refused_bounds_change_nothing() {
    let mut seen = Seen::default();
    for stream in (9450..9550).map(stream) {
        let mut pestered = Plan::new();
        let mut place = 0;
        follow(&stream, |watch, plan| {
            let (answer, _) = ask(&mut pestered, &stream, place, Plan::STARTS);
            assert_eq!(answer.number, 0);
            place += answer.used;
            for (bound, number) in refused_bounds(watch, plan) {
                assert_eq!(places(&mut pestered, bound).0.number, number);
                seen.note(match number {
                    3 => "out of turn",
                    9 => "below the peak",
                    _ => "below B",
                });
            }
            assert_eq!(answers(&pestered), answers(plan));
        });
    }
    seen.check(&[
        ("out of turn", 5000),
        ("below the peak", 5000),
        ("below B", 1000),
    ]);
}
