//! The table of grounds, and the order of checks.

use crate::menu::{accepting, ask, done, fetch, give, hex, plan_a, plan_c, refused_plans, Menu};
use peer::{Phase, Plan};

/// The number that answers these bytes.
fn number(plan: &mut Plan, text: &str) -> u8 {
    give(plan, &hex(text)).0.number
}

fn empty(text: &str) -> u8 {
    number(&mut Plan::new(), text)
}

#[test]
fn small_inputs() {
    assert_eq!(empty("02 03 00"), 1);
    assert_eq!(empty("09"), 2);
    assert_eq!(empty("05"), 3);
    assert_eq!(empty("01 00 00 02 07 00 00 00"), 4);

    let mut plan = accepting(&plan_a().steps());
    let stream = hex("03 01 00 03 01 00");
    assert_eq!(ask(&mut plan, &stream, 0, 64).0.number, 0);
    assert_eq!(ask(&mut plan, &stream, 3, 64).0.number, 5);

    let (_, _, mut plan) = plan_a().begun();
    assert_eq!(number(&mut plan, "06 03 00"), 6);

    let mut plan = Plan::new();
    assert_eq!(number(&mut plan, "01 01 00 01 00 00 00 00"), 0);
    assert_eq!(number(&mut plan, "02 01 00 00 00 00 00"), 0);
    assert_eq!(number(&mut plan, "03 01 00"), 0);
    assert_eq!(number(&mut plan, "04 01 00"), 0);
    assert_eq!(number(&mut plan, "05"), 7);

    let activation = vec![3, 1, 2];
    let mut plan = Menu {
        activation,
        ..plan_a()
    }
    .given();
    assert_eq!(number(&mut plan, "05"), 8);

    let memory_bound = 6;
    let mut plan = Menu {
        memory_bound,
        ..plan_a()
    }
    .given();
    assert_eq!(number(&mut plan, "05"), 9);

    for command in ["01 01 00 01 00 00 00 00", "09", "", "05", "02"] {
        assert_eq!(ask(&mut Plan::new(), &hex(command), 0, 63).0.number, 10);
    }
}

#[test]
fn no_byte_then_unknown_then_cut() {
    assert_eq!(empty(""), 1);
    for place in [1, 2, usize::MAX] {
        assert_eq!(ask(&mut Plan::new(), &[0x05], place, 64).0.number, 1);
    }
    for byte in (0x00..=0xff).filter(|byte| !(0x01..=0x08).contains(byte)) {
        assert_eq!(give(&mut Plan::new(), &[byte]).0.number, 2);
    }
    // Cut operands are 1 even out of turn or outside limits.
    let cut = [
        "01",
        "01 00 00 00 00 00 00",
        "02 ff ff 00 00 00",
        "03",
        "04 01",
        "06 00",
        "08",
        "08 00 00 00",
    ];
    for text in cut {
        assert_eq!(empty(text), 1);
    }
}

#[test]
fn a_command_may_stand_anywhere_in_the_stream() {
    let stream = hex("05 09 01 01 00 01 00 00 00 00 ff");
    let (answer, _) = ask(&mut Plan::new(), &stream, 2, 100);
    assert_eq!((answer.number, answer.used), (0, 8));
}

#[test]
fn turns() {
    // Out of turn is 3 whatever the operands say.
    for text in [
        "02 ff ff 00 00 00 00",
        "03 00 00",
        "04 00 00",
        "06 00 00",
        "07",
        "08 00 00 00 00",
    ] {
        assert_eq!(empty(text), 3);
    }
    let mut plan = accepting(&plan_a().steps()[..3]);
    assert_eq!(plan.phase(), Phase::Steps);
    for text in [
        "03 01 00",
        "04 01 00",
        "05",
        "06 01 00",
        "07",
        "08 07 00 00 00",
    ] {
        assert_eq!(number(&mut plan, text), 3);
    }
    let mut plan = plan_a().given();
    // Both orders are full: a further entry is 3, ahead of 4 and 5.
    for text in [
        "02 00 00 00 00 00 00",
        "03 01 00",
        "04 00 00",
        "03 09 00",
        "06 01 00",
        "07",
        "08 07 00 00 00",
    ] {
        assert_eq!(number(&mut plan, text), 3);
    }
    let (_, _, mut plan) = plan_a().begun();
    for text in [
        "01 00 00 00 00 00 00 00",
        "02 00 00 00 00 00 00",
        "03 01 00",
        "04 01 00",
        "05",
        "07",
    ] {
        assert_eq!(number(&mut plan, text), 3);
    }
    let mut plan = plan_a().over();
    for text in [
        "02 00 00 00 00 00 00",
        "03 01 00",
        "04 01 00",
        "05",
        "06 03 00",
        "07",
        "08 07 00 00 00",
    ] {
        assert_eq!(number(&mut plan, text), 3);
    }
}

#[test]
fn begin_waits_for_whole_orders() {
    let commands = plan_a().commands();
    for given in 0..=commands.len() {
        // All of the activation order, and none or all of the execution order.
        let wanted = if given == 7 || given == 10 { 0 } else { 3 };
        let mut plan = accepting(&commands[..given]);
        assert_eq!(number(&mut plan, "05"), wanted, "{given}");
    }
}

#[test]
fn numbers_are_limited_by_this_plan_s_n() {
    let mut plan = accepting(&plan_a().steps()[..1]);
    assert_eq!(number(&mut plan, "02 04 00 00 00 00 00"), 4);
    assert_eq!(number(&mut plan, "02 03 00 00 00 00 00"), 0);
    let mut plan = accepting(&plan_a().steps());
    for text in ["03 00 00", "03 04 00", "04 00 00", "04 03 01"] {
        assert_eq!(number(&mut plan, text), 4);
    }
    let (_, _, mut plan) = plan_a().begun();
    for text in ["06 00 00", "06 04 00", "06 01 01"] {
        assert_eq!(number(&mut plan, text), 4);
    }
}

#[test]
fn done_only_while_running() {
    let (_, _, mut plan) = plan_c().begun();
    assert_eq!(number(&mut plan, "06 03 00"), 6);
    assert_eq!(number(&mut plan, "06 01 00"), 0);
    assert_eq!(number(&mut plan, "06 01 00"), 6);
}

#[test]
fn seven_before_eight_before_nine() {
    for (menu, number) in refused_plans() {
        assert_eq!(menu.begun().0.number, number, "{menu:?}");
    }
}

#[test]
fn a_refused_begin_leaves_both_orders_full() {
    let menu = Menu {
        activation: vec![3, 1, 2],
        ..plan_a()
    };
    let mut plan = menu.given();
    for _ in 0..2 {
        assert_eq!(number(&mut plan, "05"), 8);
        assert_eq!(number(&mut plan, "03 01 00"), 3);
    }
}

#[test]
fn a_bad_plan_command_leaves_the_old_plan() {
    for text in ["01 00 00 01 00 00 00 00", "01 01 00 00 00 00 00 00"] {
        assert_eq!(empty(text), 4);
        let mut plan = accepting(&plan_a().commands()[..6]);
        assert_eq!(number(&mut plan, text), 4);
        assert_eq!(number(&mut plan, "03 03 00"), 0);
        let (_, _, mut plan) = Menu::new(1, 0, &[(0, 0, 0)]).begun();
        assert_eq!(number(&mut plan, text), 3);
        done(&mut plan, 1);
        assert_eq!(number(&mut plan, text), 3);
        fetch(&mut plan);
        assert_eq!(number(&mut plan, text), 4);
        assert_eq!(plan.standing(), [0, 0, 0, 1]);
    }
}

#[test]
fn a_new_plan_drops_the_old_one() {
    let commands = plan_a().commands();
    for given in 0..=commands.len() {
        let mut plan = accepting(&commands[..given]);
        for command in &plan_c().commands() {
            assert_eq!(give(&mut plan, command).0.number, 0);
        }
        assert_eq!(give(&mut plan, &[0x05]).1, [1, 2]);
    }
    let mut plan = plan_a().over();
    assert_eq!(number(&mut plan, "01 01 00 01 00 00 00 00"), 0);
    assert_eq!((plan.phase(), plan.standing()), (Phase::Steps, [0; 4]));
}
