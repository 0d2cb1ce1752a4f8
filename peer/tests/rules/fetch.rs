//! The trolley stands until it is fetched: ready, and FETCH.

use crate::menu::{
    ahead_of_days, answers, ask, bytes_of, done, fetch, finish, give, hex, plan_a, plan_c, reading,
    written, Menu,
};
use crate::plan_a;
use crate::printer::printed;
use crate::watch::follow;
use peer::generate::encode;
use peer::Reason::Refused;
use peer::{Answer, Command, Phase, Plan};

/// One task with this work and out.
fn one_task(memory_bound: u32, work: u16, out: u16) -> Menu {
    Menu::new(1, memory_bound, &[(0, work, out)])
}

/// Two tasks feed a root in the middle that leaves nothing.
fn root_without_out() -> Menu {
    Menu {
        activation: vec![3, 1, 2],
        ..Menu::new(2, 9, &[(2, 1, 2), (0, 4, 0), (2, 0, 3)])
    }
}

/// Plans with the root's number, its out, and that out's fullness.
fn menus() -> Vec<(Menu, u16, u32, u32)> {
    let most = u32::from(u16::MAX);
    let without_04 = Menu {
        execution: vec![],
        ..plan_c()
    };
    vec![
        (plan_a(), 3, 1, 142),
        (plan_c(), 4, 3, 500),
        (without_04, 4, 3, 500),
        (root_without_out(), 2, 0, 0),
        (one_task(0, 0, 0), 1, 0, 0),
        (one_task(9, 9, 0), 1, 0, 0),
        (one_task(7, 5, 2), 1, 2, 285),
        (one_task(2, 0, 2), 1, 2, 1000),
        (one_task(most, 0, u16::MAX), 1, most, 1000),
        (one_task(2 * most, u16::MAX, u16::MAX), 1, most, 500),
        (one_task(u32::MAX, 0, u16::MAX), 1, most, 0),
    ]
}

/// Booked trays, trays in use and fullness.
fn trays(plan: &Plan) -> (u32, u32, u32) {
    (plan.booked(), plan.in_use(), plan.fullness())
}

/// The booked trays of each task, and of numbers around them.
fn booked_by_all(plan: &Plan, menu: &Menu) -> Vec<u32> {
    let numbers = 0..=menu.records.len() as u16 + 1;
    numbers.map(|task| plan.booked_by(task)).collect()
}

/// Everything that leads nowhere in ready, whatever its operands say.
const OTHERS: [&str; 15] = [
    "01 01 00 01 00 00 00 00",
    "01 03 00 02 07 00 00 00",
    "01 00 00 00 00 00 00 00",
    "02 00 00 00 00 00 00",
    "02 ff ff 00 00 00 00",
    "03 01 00",
    "03 00 00",
    "04 01 00",
    "04 ff ff",
    "05",
    "06 01 00",
    "06 03 00",
    "06 00 00",
    "08 00 00 00 00",
    "08 ff ff ff ff",
];

#[test]
fn when_the_root_ends_its_out_remains_booked_and_in_use() {
    for (menu, root, out, full) in menus() {
        let plan = menu.ready();
        assert_eq!(plan.phase(), Phase::Ready);
        assert_eq!(trays(&plan), (out, out, full), "{menu:?}");
        let mut wanted = vec![0; menu.records.len() + 2];
        wanted[usize::from(root)] = out;
        assert_eq!(booked_by_all(&plan, &menu), wanted);
    }
}

#[test]
fn the_root_s_report_makes_no_offer_and_starts_nothing() {
    for (menu, root, ..) in menus() {
        let (_, starts, mut plan) = menu.begun();
        let mut running = starts;
        while running != [root] {
            let task = running.remove(0);
            assert_ne!(task, root);
            running.extend(done(&mut plan, task).1);
            assert_eq!(plan.phase(), Phase::Running);
        }
        let (answer, starts) = done(&mut plan, root);
        let accepted = Answer {
            used: 3,
            ..Answer::default()
        };
        assert_eq!((answer, starts), (accepted, vec![]));
        assert_eq!(plan.phase(), Phase::Ready);
    }
}

#[test]
fn fetch_frees_it_and_leads_to_over() {
    for (menu, ..) in menus() {
        let mut plan = menu.ready();
        let accepted = Answer {
            used: 1,
            ..Answer::default()
        };
        assert_eq!(fetch(&mut plan), (accepted, vec![]));
        assert_eq!(plan.phase(), Phase::Over);
        assert_eq!(trays(&plan), (0, 0, 0));
        let nothing = vec![0; menu.records.len() + 2];
        assert_eq!(booked_by_all(&plan, &menu), nothing);
    }
}

#[test]
fn ready_shows_the_same_standing_as_over() {
    for (menu, ..) in menus() {
        let all_ended = [0, 0, 0, menu.records.len() as u32];
        assert_eq!(menu.ready().standing(), all_ended);
        assert_eq!(menu.over().standing(), all_ended);
    }
}

#[test]
fn a_root_with_out_0_waits_for_fetch_too() {
    for menu in [root_without_out(), one_task(0, 0, 0), one_task(9, 9, 0)] {
        let mut plan = menu.ready();
        assert_eq!(trays(&plan), (0, 0, 0));
        assert_eq!(give(&mut plan, &hex(OTHERS[0])).0.number, 3);
        assert_eq!(fetch(&mut plan).0.number, 0);
        assert_eq!(give(&mut plan, &hex(OTHERS[0])).0.number, 0);
    }
}

#[test]
fn nothing_else_is_in_turn_in_ready() {
    for (menu, root, out, full) in menus() {
        let mut plan = menu.ready();
        let before = answers(&plan);
        for text in OTHERS {
            assert_eq!(give(&mut plan, &hex(text)).0.number, 3, "{text}");
        }
        assert_eq!(done(&mut plan, root).0.number, 3);
        assert_eq!(answers(&plan), before);
        assert_eq!(trays(&plan), (out, out, full));
        assert_eq!(fetch(&mut plan).0.number, 0);
    }
}

#[test]
fn unknown_bytes_cut_commands_and_short_lists_in_ready() {
    let mut plan = plan_a().ready();
    let whole = hex("07 07");
    for place in [2, 3, usize::MAX] {
        assert_eq!(ask(&mut plan, &whole, place, 64).0.number, 1);
    }
    for byte in (0x00..=0xff).filter(|byte| !(0x01..=0x08).contains(byte)) {
        assert_eq!(give(&mut plan, &[byte]).0.number, 2);
    }
    for text in [
        "01",
        "01 01 00 01 00 00 00",
        "02 03 00",
        "03",
        "04 01",
        "06 03",
        "08 07 00 00",
    ] {
        assert_eq!(give(&mut plan, &hex(text)).0.number, 1, "{text}");
    }
    for text in ["", "00", "01", "05", "06 03 00", "07", "08"] {
        for starts_len in [0, 1, 63] {
            assert_eq!(ask(&mut plan, &hex(text), 0, starts_len).0.number, 10);
        }
    }
    assert_eq!((plan.phase(), trays(&plan)), (Phase::Ready, (1, 1, 142)));
    assert_eq!(fetch(&mut plan).0.number, 0);
}

#[test]
fn fetch_leaves_the_start_list_untouched() {
    for mark in [0, 1, 0xbeef, 0xffff] {
        for starts_len in [0, 1, 62, 63, 64, 65, 1024] {
            let (mut plan, mut starts) = (plan_a().ready(), vec![mark; starts_len]);
            let answer = plan.command(&[0x07], 0, &mut starts);
            let wanted = if starts_len < 64 { (10, 0) } else { (0, 1) };
            assert_eq!((answer.number, answer.used), wanted, "{starts_len}");
            assert_eq!((answer.starts, answer.offers), (0, 0));
            assert_eq!((answer.peak, answer.peak_task), (0, 0));
            assert_eq!(starts, vec![mark; starts_len]);
            let is_over = plan.phase() == Phase::Over;
            assert_eq!(is_over, starts_len >= 64);
        }
    }
}

#[test]
fn fetch_is_one_byte_anywhere_in_a_stream() {
    for (text, place) in [("07", 0), ("ff 07", 1), ("07 06", 0), ("05 07 07 ff", 1)] {
        let mut plan = plan_a().ready();
        let (answer, _) = ask(&mut plan, &hex(text), place, 64);
        assert_eq!((answer.number, answer.used), (0, 1), "{text}");
    }
}

/// FETCH is refused 3 in this phase; `ask` sees that nothing changes.
fn check_out_of_turn(plan: &mut Plan, phase: Phase) {
    assert_eq!(plan.phase(), phase);
    assert_eq!(fetch(plan).0.number, 3, "{phase:?}");
}

#[test]
fn fetch_is_out_of_turn_outside_ready() {
    for (mut plan, phase) in ahead_of_days() {
        check_out_of_turn(&mut plan, phase);
    }
    let (_, _, mut plan) = plan_a().begun();
    for task in 1..=3 {
        check_out_of_turn(&mut plan, Phase::Running);
        done(&mut plan, task);
    }
    fetch(&mut plan);
    for _ in 0..3 {
        check_out_of_turn(&mut plan, Phase::Over);
    }
    give(&mut plan, &plan_a().commands()[0]);
    check_out_of_turn(&mut plan, Phase::Steps);
}

#[test]
fn a_fetch_that_came_too_early_changes_no_answer() {
    let mut commands = plan_c().commands();
    commands.push(vec![0x05]);
    commands.extend((1..=4).map(|task| encode(Command::Done(task))));
    let (mut plan, mut pestered) = (Plan::new(), Plan::new());
    for command in commands {
        assert_eq!(fetch(&mut pestered).0.number, 3);
        assert_eq!(give(&mut plan, &command), give(&mut pestered, &command));
        assert_eq!(answers(&plan), answers(&pestered));
    }
    assert_eq!(fetch(&mut plan), fetch(&mut pestered));
    assert_eq!(answers(&plan), answers(&pestered));
}

#[test]
fn why_is_refused_in_ready() {
    for (menu, ..) in menus() {
        let plan = menu.ready();
        for task in (0..=menu.records.len() as u16 + 1).chain([u16::MAX]) {
            assert_eq!(plan.why(task), Refused(3), "{task}");
        }
    }
}

#[test]
fn a_plan_in_ready_is_written() {
    for (menu, ..) in menus() {
        let enough = bytes_of(menu.records.len());
        let wanted = written(&menu.begun().2, enough);
        assert!(wanted.is_ok());
        for plan in [menu.ready(), menu.over()] {
            assert_eq!(written(&plan, enough), wanted);
            assert_eq!(written(&plan, enough + 1), wanted);
            assert_eq!(written(&plan, enough - 1), Err(11));
        }
        let restored = reading(&wanted.unwrap());
        assert_eq!(restored.phase(), Phase::Orders);
    }
}

#[test]
fn after_fetch_a_next_plan_is_as_after_none() {
    for (first, ..) in menus() {
        for (second, ..) in menus() {
            let mut plan = first.over();
            for command in second.commands() {
                assert_eq!(give(&mut plan, &command).0.number, 0);
                assert_eq!((trays(&plan), plan.standing()), ((0, 0, 0), [0; 4]));
            }
            let (answer, starts) = give(&mut plan, &[0x05]);
            let (of_fresh, starts_of_fresh, mut fresh) = second.begun();
            assert_eq!((answer, &starts), (of_fresh, &starts_of_fresh));
            assert_eq!(answers(&plan), answers(&fresh));
            assert_eq!(
                finish(&mut plan, starts),
                finish(&mut fresh, starts_of_fresh)
            );
            assert_eq!(answers(&plan), answers(&fresh));
        }
    }
}

#[test]
fn plan_a_cut_at_each_byte() {
    let stream = hex(plan_a::BYTES);
    let (begin, end) = (bytes_of(3), stream.len());
    for cut in 0..=end {
        let (_, plan, number) = follow(&stream[..cut], |watch, plan| watch.check(plan));
        assert_eq!(number, 1);
        let is_ready = cut == end - 1;
        assert_eq!(plan.phase() == Phase::Ready, is_ready, "{cut}");
        assert_eq!(plan.phase() == Phase::Over, cut == end);
        assert_eq!(
            plan.phase() == Phase::Running,
            (begin + 1..end - 1).contains(&cut)
        );
    }
}

#[test]
fn the_largest_trolley_of_the_largest_plan() {
    let most = u32::from(u16::MAX);
    let chain: Vec<_> = (1..=1024)
        .map(|task| ((task + 1) % 1025, u16::MAX, u16::MAX))
        .collect();
    let mut plan = Menu::new(64, 3 * most, &chain).ready();
    assert_eq!(trays(&plan), (most, most, 333));
    assert_eq!(plan.booked_by(1024), most);
    assert_eq!(plan.standing(), [0, 0, 0, 1024]);
    assert_eq!(fetch(&mut plan).0.number, 0);
    assert_eq!((trays(&plan), plan.booked_by(1024)), ((0, 0, 0), 0));
}

const FETCH_LINE: &str = "fetch booked=0\n";

/// Plan A's lines up to its trolley, and plan C's.
fn a_lines() -> &'static str {
    plan_a::LINES.strip_suffix(FETCH_LINE).unwrap()
}

const C_LINES: &str = "\
begin peak=6 by=3 booked=6 used=6 full=1000 start 1 2
done 1 offers=1 booked=6 used=5 full=1000 start -
done 2 offers=1 booked=6 used=6 full=1000 start 3
done 3 offers=1 booked=5 used=5 full=833 start 4
done 4 offers=0 booked=3 used=3 full=500 start -
";

/// Plan A's bytes up to its trolley, and plan C's.
fn a_bytes() -> Vec<u8> {
    let mut bytes = hex(plan_a::BYTES);
    assert_eq!(bytes.pop(), Some(0x07));
    bytes
}

fn c_bytes() -> Vec<u8> {
    let reports = hex("05 06 01 00 06 02 00 06 03 00 06 04 00");
    [plan_c().commands().concat(), reports].concat()
}

#[test]
fn the_line_of_a_fetch() {
    assert_eq!(printed(&a_bytes()), a_lines());
    let fetched = [a_bytes(), hex("07")].concat();
    assert_eq!(printed(&fetched), [a_lines(), FETCH_LINE].concat());
}

#[test]
fn two_days_in_one_stream() {
    let stream = [a_bytes(), hex("07"), c_bytes()].concat();
    let lines = [a_lines(), FETCH_LINE, C_LINES].concat();
    assert_eq!(printed(&stream), lines);
    let fetched = [stream, hex("07")].concat();
    assert_eq!(printed(&fetched), lines + FETCH_LINE);
}

/// Plan A up to its trolley, and what comes behind it, is printed like this.
fn check_behind_a(bytes: &str, lines: &str) {
    let stream = [a_bytes(), hex(bytes)].concat();
    assert_eq!(printed(&stream), [a_lines(), lines].concat(), "{bytes}");
}

#[test]
fn lines_of_refusals() {
    assert_eq!(printed(&hex("07")), "refused 3 at 0\n");
    let steps = hex("01 03 00 02 07 00 00 00 07");
    assert_eq!(printed(&steps), "refused 3 at 8\n");
    assert_eq!(a_bytes().len(), 57);
    // The next plan comes too early, and the last report again.
    check_behind_a("01 01 00 01 00 00 00 00 07", "refused 3 at 57\n");
    check_behind_a("06 03 00 07", "refused 3 at 57\n");
    check_behind_a("09 07", "refused 2 at 57\n");
    check_behind_a("08 07", "refused 1 at 57\n");
    check_behind_a("08 07 00 00 00", "refused 3 at 57\n");
    check_behind_a("06 03", "refused 1 at 57\n");
    check_behind_a("07 07", "fetch booked=0\nrefused 3 at 58\n");
    // FETCH comes in place of the last report.
    let early = [&a_bytes()[..54], &[0x07]].concat();
    let three: String = a_lines().split_inclusive('\n').take(3).collect();
    assert_eq!(printed(&early), three + "refused 3 at 54\n");
}

#[test]
fn known_phases_keep_their_numbers() {
    let phases = [
        Phase::Empty,
        Phase::Steps,
        Phase::Orders,
        Phase::Running,
        Phase::Over,
        Phase::Ready,
    ];
    assert_eq!(phases.map(|phase| phase as u8), [0, 1, 2, 3, 4, 5]);
}
