//! 08 refused: out of turn, cut short, with a short start list, and that no
//! refusal changes anything.

use crate::menu::{
    accepting, ahead_of_days, answers, ask, fetch, give, hex, places, plan_a, plan_a_within,
    refused,
};
use peer::generate::encode;
use peer::{Command, Phase, Plan};

/// 08 is refused 3 in this phase, whatever its bound; `ask` sees that nothing
/// changes.
fn check_out_of_turn(plan: &mut Plan, phase: Phase) {
    assert_eq!(plan.phase(), phase);
    for bound in [0, 6, 7, 12, u32::MAX] {
        assert_eq!(places(plan, bound).0, refused(3), "{phase:?}");
    }
}

#[test]
fn out_of_turn_outside_running() {
    for (mut plan, phase) in ahead_of_days() {
        check_out_of_turn(&mut plan, phase);
    }
    let mut plan = plan_a().ready();
    check_out_of_turn(&mut plan, Phase::Ready);
    fetch(&mut plan);
    check_out_of_turn(&mut plan, Phase::Over);
    give(&mut plan, &plan_a().commands()[0]);
    check_out_of_turn(&mut plan, Phase::Steps);
}

/// A plan in each phase.
fn in_each_phase() -> [Plan; 6] {
    let menu = plan_a_within(12);
    [
        Plan::new(),
        accepting(&menu.steps()[..2]),
        menu.given(),
        menu.begun().2,
        menu.ready(),
        menu.over(),
    ]
}

#[test]
fn short_lists_then_cut_operands_in_each_phase() {
    for mut plan in in_each_phase() {
        // Whether it would be taken, refused 9 or refused 13 makes no difference.
        for text in ["08 0c 00 00 00", "08 06 00 00 00", "08 0b 00 00 00"] {
            let bytes = hex(text);
            for end in 0..=4 {
                let cut = &bytes[..end];
                assert_eq!(ask(&mut plan, cut, 0, 64).0, refused(1), "{cut:02x?}");
                assert_eq!(ask(&mut plan, cut, 0, 63).0, refused(10));
            }
            for starts_len in [0, 1, 62, 63] {
                assert_eq!(ask(&mut plan, &bytes, 0, starts_len).0, refused(10));
            }
        }
    }
}

#[test]
fn no_bound_mends_a_refused_begin() {
    let mut plan = plan_a_within(6).given();
    assert_eq!(give(&mut plan, &[0x05]).0, refused(9));
    assert_eq!(places(&mut plan, 7).0, refused(3));
    assert_eq!(give(&mut plan, &[0x05]).0, refused(9));
}

#[test]
fn refused_bounds_change_no_later_answer() {
    let mut commands = plan_a_within(12).commands();
    commands.push(vec![0x05]);
    commands.extend((1..=3).map(|task| encode(Command::Done(task))));
    commands.push(vec![0x07]);
    let (mut plan, mut pestered) = (Plan::new(), Plan::new());
    for command in commands {
        for bound in [0, 6, plan.booked().saturating_sub(1)] {
            assert_ne!(places(&mut pestered, bound).0.number, 0);
        }
        assert_eq!(give(&mut plan, &command), give(&mut pestered, &command));
        assert_eq!(answers(&plan), answers(&pestered));
    }
}
