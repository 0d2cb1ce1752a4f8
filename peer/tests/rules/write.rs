//! A plan written back out: cases worked out by hand.

use crate::menu::{
    accepting, bytes_of, done, fetch, give, hex, plan_a, plan_c, reading, refused_plans, written,
    Menu,
};
use crate::naive::Naive;
use crate::plan_a;
use peer::{Phase, Plan, Wrote};

/// A list of so many bytes is longer than a small plan needs.
const ENOUGH: usize = 200;

/// The bytes of a plan, which has them.
fn bytes(plan: &Plan) -> Vec<u8> {
    written(plan, Plan::WRITTEN).unwrap()
}

/// The bytes of a menu by the naive writing.
fn naive_bytes(menu: &Menu) -> Vec<u8> {
    let mut naive = Naive::new();
    for command in menu.commands() {
        assert_eq!(naive.command(&command, 0, Plan::STARTS).number, 0);
    }
    naive.written(Plan::WRITTEN).unwrap()
}

/// Checks a plan as it was given, and that what is written restores it.
fn check(menu: &Menu) {
    let plan = menu.given();
    let (wanted, enough) = (naive_bytes(menu), bytes_of(menu.records.len()));
    assert_eq!(wanted.len(), enough);
    assert_eq!(written(&plan, enough), Ok(wanted.clone()));
    assert_eq!(written(&plan, enough + 1), Ok(wanted.clone()));
    assert_eq!(written(&plan, enough - 1), Err(11));
    assert_eq!(bytes(&reading(&wanted)), wanted);
}

/// Plan A as the paper prints it, up to its BEGIN.
fn plan_a_bytes() -> Vec<u8> {
    hex(plan_a::BYTES)[..bytes_of(3)].to_vec()
}

#[test]
fn plan_a_as_the_paper_has_it() {
    let wanted = hex("01 03 00 02 07 00 00 00
        02 03 00 05 00 01 00 02 03 00 05 00 01 00 02 00 00 00 00 01 00
        03 01 00 03 02 00 03 03 00
        04 01 00 04 02 00 04 03 00");
    assert_eq!(wanted, plan_a_bytes());
    let mut list = [0xee; ENOUGH];
    let wrote = plan_a().given().write(&mut list);
    let (number, count) = (0, 47);
    assert_eq!(wrote, Wrote { number, count });
    assert_eq!(list[..count], wanted);
    assert_eq!(list[count..], [0xee; ENOUGH - 47]);
    check(&plan_a());
}

#[test]
fn each_number_in_its_place() {
    let menu = Menu {
        activation: vec![3, 1, 2],
        execution: vec![2, 3, 1],
        ..Menu::new(
            0x40,
            0x0a0b_0c0d,
            &[(2, 0x1112, 0x1314), (0, 0x2122, 0x2324), (1, 0, 65_535)],
        )
    };
    let wanted = hex("01 03 00 40 0d 0c 0b 0a
        02 02 00 12 11 14 13
        02 00 00 22 21 24 23
        02 01 00 00 00 ff ff
        03 03 00 03 01 00 03 02 00
        04 02 00 04 03 00 04 01 00");
    assert_eq!(bytes(&menu.given()), wanted);
    check(&menu);
}

/// Plan C with two orders that differ in every place.
fn two_orders() -> Menu {
    Menu {
        activation: vec![2, 1, 3, 4],
        execution: vec![4, 3, 1, 2],
        ..plan_c()
    }
}

#[test]
fn the_orders_in_any_mix() {
    let menu = two_orders();
    let wanted = bytes(&menu.given());
    let commands = menu.commands();
    let (steps, orders) = commands.split_at(1 + 4);
    let mut mixes = 0;
    // A bit for each command of a mix: whether it is of the activation order.
    for mix in (0..1 << 8).filter(|mix: &u32| mix.count_ones() == 4) {
        let (mut activation, mut execution) = (orders[..4].iter(), orders[4..].iter());
        let mut commands = steps.to_vec();
        commands.extend((0..8).map(|place| match mix >> place & 1 {
            1 => activation.next().unwrap().clone(),
            _ => execution.next().unwrap().clone(),
        }));
        assert_eq!(bytes(&accepting(&commands)), wanted);
        mixes += 1;
    }
    assert_eq!(mixes, 70);
}

#[test]
fn the_same_in_orders_running_ready_and_over() {
    for menu in [plan_a(), plan_c()] {
        let wanted = bytes(&menu.given());
        let (_, _, mut plan) = menu.begun();
        for task in 1..=menu.records.len() as u16 {
            assert_eq!(plan.phase(), Phase::Running);
            assert_eq!(bytes(&plan), wanted);
            assert_eq!(done(&mut plan, task).0.number, 0);
        }
        assert_eq!((plan.phase(), bytes(&plan)), (Phase::Ready, wanted.clone()));
        fetch(&mut plan);
        assert_eq!((plan.phase(), bytes(&plan)), (Phase::Over, wanted.clone()));
        // A bad PLAN leaves the old plan, also one that is over.
        assert_eq!(give(&mut plan, &hex("01 00 00 01 00 00 00 00")).0.number, 4);
        assert_eq!(bytes(&plan), wanted);
    }
}

/// Refused 3 whatever the list.
fn check_out_of_turn(plan: &Plan) {
    for list_len in (0..60).chain([ENOUGH, Plan::WRITTEN]) {
        assert_eq!(written(plan, list_len), Err(3), "{list_len}");
    }
}

#[test]
fn refused_until_both_orders_are_complete() {
    check_out_of_turn(&Plan::new());
    let steps = plan_a().steps();
    for given in 1..=steps.len() {
        check_out_of_turn(&accepting(&steps[..given]));
    }
    let orders = &plan_a().commands()[steps.len()..];
    let (activation, execution) = orders.split_at(3);
    for (of_one, of_other) in (0..16).map(|both| (both / 4, both % 4)) {
        let given = [&steps[..], &activation[..of_one], &execution[..of_other]];
        let plan = accepting(&given.concat());
        if (of_one, of_other) == (3, 3) {
            assert_eq!(bytes(&plan), plan_a_bytes());
        } else {
            check_out_of_turn(&plan);
        }
    }
}

#[test]
fn refused_after_a_next_plan_is_opened() {
    let menu = Menu::new(1, 0, &[(0, 0, 0)]);
    for mut plan in [menu.given(), menu.over()] {
        bytes(&plan);
        give(&mut plan, &hex("01 01 00 01 00 00 00 00"));
        assert_eq!(plan.phase(), Phase::Steps);
        check_out_of_turn(&plan);
        give(&mut plan, &hex("02 00 00 00 00 00 00"));
        assert_eq!(plan.phase(), Phase::Orders);
        check_out_of_turn(&plan);
    }
}

#[test]
fn refused_where_the_list_is_too_short() {
    let menu = plan_a();
    for plan in [menu.given(), menu.begun().2, menu.ready(), menu.over()] {
        for list_len in 0..47 {
            assert_eq!(written(&plan, list_len), Err(11), "{list_len}");
        }
        for list_len in 47..ENOUGH {
            assert_eq!(written(&plan, list_len), Ok(plan_a_bytes()), "{list_len}");
        }
    }
}

#[test]
fn a_refusal_answers_its_number_and_no_bytes() {
    for (plan, number) in [(Plan::new(), 3), (plan_a().given(), 11)] {
        let mut list = [0xee; 46];
        let wrote = plan.write(&mut list);
        assert_eq!(wrote, Wrote { number, count: 0 });
        assert_eq!(list, [0xee; 46]);
    }
}

#[test]
fn a_refused_begin_leaves_a_plan_to_write() {
    for (menu, number) in refused_plans() {
        check(&menu);
        let (answer, _, plan) = menu.begun();
        assert_eq!(answer.number, number);
        assert_eq!(bytes(&plan), naive_bytes(&menu));
        let begun = give(&mut reading(&bytes(&plan)), &[0x05]);
        assert_eq!(begun.0.number, number);
    }
}

#[test]
fn one_task() {
    let menu = Menu::new(1, 0, &[(0, 0, 0)]);
    let wanted = "01 01 00 01 00 00 00 00 02 00 00 00 00 00 00 03 01 00 04 01 00";
    assert_eq!(bytes(&menu.given()), hex(wanted));
    check(&menu);
    let most = Menu::new(64, u32::MAX, &[(1, 65_535, 65_535)]);
    let wanted = "01 01 00 40 ff ff ff ff 02 01 00 ff ff ff ff 03 01 00 04 01 00";
    assert_eq!(bytes(&most.given()), hex(wanted));
    check(&most);
}

#[test]
fn the_most_tasks() {
    let most = 1024;
    let records: Vec<_> = (1..=most)
        .map(|task| (task % most, 63 * task, 65_535 - task))
        .collect();
    for memory_bound in [0, 7, 0x8000_0000, u32::MAX] {
        let menu = Menu {
            execution: (1..=most).rev().collect(),
            ..Menu::new(64, memory_bound, &records)
        };
        assert_eq!(bytes(&menu.given()).len(), 13_320);
        check(&menu);
    }
}

#[test]
fn sizes_around_a_byte() {
    for n in [2, 63, 64, 65, 255, 256, 257, 1023] {
        check(&Menu::new(3, 5, &vec![(n, n, n + 1); n.into()]));
    }
}

/// A plan that differs in what is done to it.
fn with(change: impl Fn(&mut Menu)) -> Menu {
    let mut menu = two_orders();
    change(&mut menu);
    menu
}

#[test]
fn plans_that_differ_are_written_differently() {
    let menus = [
        two_orders(),
        with(|menu| menu.processors = 3),
        with(|menu| menu.memory_bound = 7),
        with(|menu| menu.memory_bound += 1 << 16),
        with(|menu| menu.memory_bound += 1 << 31),
        with(|menu| menu.records[1].parent = 4),
        with(|menu| menu.records[2].parent = 0),
        with(|menu| menu.records[1].work += 1),
        with(|menu| menu.records[1].work += 256),
        with(|menu| menu.records[3].work += 1),
        with(|menu| menu.records[0].out += 1),
        with(|menu| menu.records[0].out += 256),
        with(|menu| menu.records.swap(0, 1)),
        with(|menu| menu.activation.swap(0, 1)),
        with(|menu| menu.activation.swap(2, 3)),
        with(|menu| menu.execution.swap(0, 1)),
        with(|menu| menu.execution.swap(2, 3)),
        with(|menu| std::mem::swap(&mut menu.activation, &mut menu.execution)),
        with(|menu| {
            menu.records.push(menu.records[3]);
            menu.activation.push(5);
            menu.execution.push(5);
        }),
        with(|menu| {
            menu.records.truncate(3);
            menu.records[2].parent = 0;
            menu.activation.retain(|&task| task <= 3);
            menu.execution.retain(|&task| task <= 3);
        }),
    ];
    for (place, menu) in menus.iter().enumerate() {
        check(menu);
        for other in &menus[..place] {
            assert_ne!(menu, other);
            assert_ne!(bytes(&menu.given()), bytes(&other.given()));
        }
    }
}

#[test]
fn nothing_is_left_of_a_dropped_plan() {
    let mut plan = two_orders().given();
    for command in plan_a().commands() {
        give(&mut plan, &command);
    }
    assert_eq!(bytes(&plan), plan_a_bytes());
    for command in two_orders().commands() {
        give(&mut plan, &command);
    }
    assert_eq!(bytes(&plan), naive_bytes(&two_orders()));
}
