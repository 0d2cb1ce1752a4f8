//! Where no peak is answered, its task is 0: refusals, and commands other than
//! BEGIN.

use crate::menu::{
    accepting, ask, give, hex, plan_a, plan_a_within, plan_c, refused, refused_plans, Menu,
};
use peer::{desk_peak, Answer, DeskAnswer, Plan, Record};

/// Asks with a start list of so many entries, and with nothing in between.
fn answer(plan: &mut Plan, bytes: &[u8], starts_len: usize) -> Answer {
    plan.command(bytes, 0, &mut vec![0; starts_len])
}

/// What refuses BEGIN of a plan, each asked twice.
fn check_begin(menu: &Menu, number: u8) {
    let mut plan = menu.given();
    for _ in 0..2 {
        assert_eq!(answer(&mut plan, &[0x05], 64), refused(number), "{menu:?}");
    }
}

#[test]
fn refused_7_8_and_9() {
    for (menu, number) in refused_plans() {
        check_begin(&menu, number);
    }
    let in_order = |activation: &[u16]| Menu {
        activation: activation.to_vec(),
        ..plan_a()
    };
    check_begin(&in_order(&[3, 1, 2]), 8);
    check_begin(&in_order(&[1, 3, 2]), 8);
    let with_parents = |parents: [u16; 3]| {
        let mut menu = plan_a();
        for (record, parent) in menu.records.iter_mut().zip(parents) {
            record.parent = parent;
        }
        menu
    };
    check_begin(&with_parents([3, 0, 0]), 7);
    check_begin(&with_parents([3, 3, 3]), 7);
}

#[test]
fn refused_9_at_each_bound_below_the_peak() {
    for (menu, peak, task) in [(plan_a(), 7, 2), (plan_c(), 6, 3)] {
        for memory_bound in 0..=peak + 1 {
            let menu = Menu {
                memory_bound,
                ..menu.clone()
            };
            if memory_bound < peak {
                check_begin(&menu, 9);
            } else {
                let (answer, ..) = menu.begun();
                assert_eq!((answer.peak, answer.peak_task), (peak, task));
            }
        }
    }
}

/// Commands that a plan refuses, each with the number.
fn check_refused(plan: &mut Plan, commands: &[(&str, u8)]) {
    for &(text, number) in commands {
        let got = answer(plan, &hex(text), 64);
        assert_eq!(got, refused(number), "{text}");
    }
    for (text, starts_len) in [("", 0), ("05", 0), ("05", 63), ("06 01 00", 63)] {
        let got = answer(plan, &hex(text), starts_len);
        assert_eq!(got, refused(10), "{text}");
    }
}

#[test]
fn all_other_refusals() {
    let empty = [("", 1), ("02 03 00", 1), ("09", 2), ("05", 3)];
    check_refused(&mut Plan::new(), &empty);
    let one_missing = [("05", 3), ("04 00 00", 4), ("04 02 00", 5)];
    check_refused(&mut accepting(&plan_a().commands()[..9]), &one_missing);
    let complete = [("", 1), ("06 01", 1), ("ff", 2), ("03 01 00", 3)];
    check_refused(&mut plan_a().given(), &complete);
    let running = [
        ("05", 3),
        ("06 04 00", 4),
        ("06 02 00", 6),
        ("07", 3),
        ("08 06 00 00 00", 9),
    ];
    check_refused(&mut plan_a().begun().2, &running);
    let all_booked = [("08 06 00 00 00", 9), ("08 0b 00 00 00", 13)];
    check_refused(&mut plan_a_within(12).begun().2, &all_booked);
    let ready = [("05", 3), ("06 03 00", 3), ("01 01 00 01 00 00 00 00", 3)];
    check_refused(&mut plan_a().ready(), &ready);
    let over = [("05", 3), ("07", 3), ("01 00 00 01 00 00 00 00", 4)];
    check_refused(&mut plan_a().over(), &over);
}

#[test]
fn accepted_commands_before_begin() {
    let mut plan = Plan::new();
    for command in plan_a().commands() {
        let accepted = Answer {
            used: command.len(),
            ..Answer::default()
        };
        assert_eq!(answer(&mut plan, &command, 64), accepted);
    }
    assert_eq!(answer(&mut plan, &[0x05], 64).peak_task, 2);
}

#[test]
fn a_refused_begin_leaves_no_task_behind() {
    let menu = Menu {
        memory_bound: 6,
        ..plan_a()
    };
    let mut plan = menu.given();
    assert_eq!(give(&mut plan, &[0x05]).0, refused(9));
    // The next plan's commands, and its BEGIN.
    for command in plan_c().commands() {
        assert_eq!(give(&mut plan, &command).0.peak_task, 0);
    }
    assert_eq!(ask(&mut plan, &[0x05], 0, 63).0, refused(10));
    assert_eq!(give(&mut plan, &[0x05]).0.peak_task, 3);
}

#[test]
fn the_desk_on_bad_lists() {
    let records = |parents: &[u16]| -> Vec<Record> {
        let record = |&parent| Record {
            parent,
            work: 5,
            out: 1,
        };
        parents.iter().map(record).collect()
    };
    for (parents, activation, number) in [
        (&[][..], &[][..], 4),
        (&[0], &[], 4),
        (&[], &[1], 4),
        (&[3, 3, 0], &[1, 2], 4),
        (&[3, 3, 0], &[1, 2, 3, 3], 4),
        (&[3, 3, 0], &[1, 2, 0], 4),
        (&[3, 3, 0], &[1, 2, 4], 4),
        (&[3, 4, 0], &[1, 2, 3], 4),
        (&[3, 3, 0], &[1, 1, 3], 5),
        (&[3, 3, 0], &[1, 2, 2], 5),
        (&[3, 0, 0], &[1, 2, 3], 7),
        (&[3, 3, 3], &[1, 2, 3], 7),
        (&[3, 3, 0], &[3, 1, 2], 8),
        (&[3, 3, 0], &[1, 3, 2], 8),
        (&[1, 3, 0], &[1, 2, 3], 8),
    ] {
        let refused = DeskAnswer {
            number,
            peak: 0,
            peak_task: 0,
        };
        let answer = desk_peak(&records(parents), activation);
        assert_eq!(answer, refused, "{parents:?} {activation:?}");
    }
    let answer = desk_peak(&records(&[3, 3, 0]), &[1, 2, 3]);
    assert_eq!((answer.number, answer.peak, answer.peak_task), (0, 8, 3));
    let too_many: Vec<u16> = (1..=1025).collect();
    let answer = desk_peak(&records(&too_many), &too_many);
    assert_eq!((answer.number, answer.peak, answer.peak_task), (4, 0, 0));
}
