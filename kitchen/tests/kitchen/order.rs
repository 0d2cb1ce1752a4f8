//! `cephlouk order` and `cephlouk peak`.

use crate::menu::{example, file, fine, first_line, run, to_text};
use cephlouk::Plan;
use kitchen::text::commands;
use peer::generate::{steps_only, Random};
use std::collections::BTreeSet;
use std::fs;

/// Plan C and its steps.
const STEPS: &str = "\
plan steps 4 stations 2 places 6
step 1: parent 3 work 1 out 2
step 2: parent 3 work 2 out 1
step 3: parent 4 work 1 out 2
step 4: parent - work 0 out 3
";

/// The order found for it.
const ORDER: &str = "activation 2 1 3 4   # peak 6\n";

fn text(parts: &[&str]) -> Vec<u8> {
    parts.concat().into_bytes()
}

#[test]
fn from_a_file_or_standard_input() {
    let name = file("steps.plan", STEPS.as_bytes());
    assert_eq!(run(&["order", &name], b""), fine(ORDER));
    assert_eq!(run(&["order"], STEPS.as_bytes()), fine(ORDER));
    assert_eq!(run(&["order", "-"], STEPS.as_bytes()), fine(ORDER));
}

#[test]
fn orders_and_days_are_passed_over() {
    for rest in [
        "execution 4 4 4\nactivation 4 # wrong\n",
        "activation 4 3 2 1\nbegin\n",
        "activation 1 2\nbegin\ndone 1\ndone 2 3 4\nfetch\nfetch\n",
    ] {
        let text = text(&["# Monday\n", STEPS, rest]);
        assert_eq!(run(&["order"], &text), fine(ORDER), "{rest}");
    }
    let text = text(&["begin\nactivation 7\n", STEPS]);
    assert_eq!(run(&["order"], &text), fine(ORDER));
}

/// What it prints takes the place of the activation line of the example.
#[test]
fn a_plan_that_is_refused_9_gets_an_order_that_fits() {
    let platter = example("platter");
    let found = "activation 2 1 3   # peak 7, was 10\n";
    assert_eq!(run(&["order"], platter.as_bytes()), fine(found));
    let mended = platter.replace("activation 1 2 3\n", found);
    let name = file("platter.plan", platter.as_bytes());
    assert_eq!(run(&["order", "--write", &name], b""), fine(found));
    assert_eq!(fs::read_to_string(&name).unwrap(), mended);
    assert_eq!(run(&["check", &name], b"").status, 0);
    assert!(!fs::exists(format!("{name}.new")).unwrap());
}

#[test]
fn written_where_no_order_stands() {
    let unended = STEPS.trim_end();
    for (name, before, after) in [
        (
            "none.plan",
            text(&[STEPS, "begin\n"]),
            text(&[STEPS, ORDER, "begin\n"]),
        ),
        ("unended.plan", text(&[unended]), text(&[STEPS, ORDER])),
        (
            "split.plan",
            text(&[
                STEPS,
                "activation 1\r\nexecution 1 2 3 4\nactivation 2 3 4\nbegin\n",
            ]),
            text(&[
                STEPS,
                "activation 2 1 3 4   # peak 6, was 6\nexecution 1 2 3 4\nbegin\n",
            ]),
        ),
    ] {
        let file = file(name, &before);
        assert_eq!(run(&["order", "--write", &file], b"").status, 0);
        assert_eq!(fs::read(&file).unwrap(), after, "{name}");
    }
    let ended = run(&["order", "--write"], STEPS.as_bytes());
    assert_eq!(
        first_line(&ended.errors),
        "cephlouk: '--write' wants a file to write to"
    );
    assert_eq!(ended.status, 2);
}

#[test]
fn with_minutes_an_execution_order_too() {
    let timed: String = STEPS
        .lines()
        .zip(["", " minutes 5", " minutes 9", " minutes 0", " minutes 7"])
        .map(|(line, minutes)| format!("{line}{minutes}\n"))
        .collect();
    let both = format!("{ORDER}execution 2 1 3 4\n");
    assert_eq!(run(&["order"], timed.as_bytes()), fine(&both));
    let name = file("timed.plan", timed.as_bytes());
    run(&["order", "--write", &name], b"");
    assert_eq!(fs::read_to_string(&name).unwrap(), format!("{timed}{both}"));
    // One that was typed is what the kitchen wants.
    let typed = format!("{timed}execution 4 3 2 1\n");
    assert_eq!(run(&["order"], typed.as_bytes()), fine(ORDER));
}

#[test]
fn the_last_plan_of_a_text() {
    let one_step = "plan steps 1 stations 1 places 0\nstep parent - work 0 out 0\n";
    for ahead in [one_step, "plan steps 9 stations 64 places 1\n"] {
        let text = text(&[ahead, STEPS]);
        assert_eq!(run(&["order"], &text), fine(ORDER));
    }
    // Also behind a day that goes on.
    let text = text(&[STEPS, ORDER, "begin\n", one_step]);
    assert_eq!(run(&["order"], &text), fine("activation 1   # peak 0\n"));
}

#[test]
fn sixteen_steps_a_line() {
    let mut text = "plan steps 18 stations 1 places 0\n".to_string();
    for step in 1..=18 {
        text += &format!("step parent {} work 0 out 0\n", step % 18 + 1);
    }
    let text = text.replace("parent 1 ", "parent - ");
    let wanted = "activation 1 2 3 4 5 6 7 8 9 10 11 12 13 14 15 16\nactivation 17 18   # peak 0\n";
    assert_eq!(run(&["order"], text.as_bytes()), fine(wanted));
}

/// A text is told to be wrong, and nothing is written.
fn check_wrong(text: &[u8], what: &str, status: i32) {
    let ended = run(&["order"], text);
    assert_eq!(first_line(&ended.errors), format!("standard input{what}"));
    assert_eq!((ended.output, ended.status), (vec![], status));
}

#[test]
fn refused_3_until_all_steps_are_given() {
    let what = ": an order is refused (3): there is no plan yet";
    check_wrong(b"", what, 1);
    check_wrong(b"# no plan\nbegin\n", what, 1);
    let what = ": an order is refused (3): 0 of 1 steps are given";
    check_wrong(b"plan steps 1 stations 1 places 0\n", what, 1);
    let lines: Vec<&str> = STEPS.split_inclusive('\n').collect();
    let what = ": an order is refused (3): 3 of 4 steps are given";
    check_wrong(&text(&lines[..4]), what, 1);
    let what = ": an order is refused (3): 0 of 4 steps are given";
    check_wrong(&text(&[STEPS, lines[0]]), what, 1);
}

#[test]
fn refused_7_and_12() {
    let what =
        ": an order is refused (7): 2 steps have 'parent -', and one alone can be the last: 3, 4";
    check_wrong(&text(&[&STEPS.replace("parent 4", "parent 0")]), what, 1);
    let what = ": an order is refused (7): no step has 'parent -', and one has to be the last";
    check_wrong(&text(&[&STEPS.replace("parent -", "parent 4")]), what, 1);
    let what =
        ": an order is refused (12): the chain of parents of step 1 never reaches the last step";
    check_wrong(&text(&[&STEPS.replace("parent 4", "parent 1")]), what, 1);
}

#[test]
fn a_wrong_or_refused_line() {
    // Nothing behind it is read.
    let step = "step parent 1 work 2 out 3\n";
    let what = ":6:1: step refused (3): 'activation' is in turn, 4 more";
    check_wrong(&text(&[STEPS, step, "nonsense\n"]), what, 1);
    let what = ":2:1: step refused (3): 'plan' comes first";
    check_wrong(&text(&["begin\n", step]), what, 1);
    check_wrong(&text(&[STEPS, "end\n"]), ":6:1: 'end' is no command", 2);
    let what = ":6:12: 'activation' wants a step: a number from 1 to 4 or a name, found '5'";
    check_wrong(&text(&[STEPS, "activation 5\n"]), what, 2);
}

#[test]
fn peaks() {
    let platter = example("platter");
    assert_eq!(run(&["peak"], platter.as_bytes()), fine("10 at step 2\n"));
    let named = platter.replace("step 2:", "step 2 meat:");
    assert_eq!(
        run(&["peak"], named.as_bytes()),
        fine("10 at step 2 meat\n")
    );
    assert_eq!(
        run(&["peak", "--json"], named.as_bytes()),
        fine("{\"peak\":10,\"by\":2}\n")
    );
    for (from, to, what) in [
        (
            "activation 1 2 3",
            "activation 1 2",
            "standard input: the peak is refused (4): the activation order has 2 of 3 steps",
        ),
        (
            "activation 1 2 3",
            "activation 3 1 2",
            "standard input: the peak is refused (8): in the activation order step 1 stands behind step 3, which it feeds",
        ),
        (
            "parent 3",
            "parent -",
            "standard input: the peak is refused (7): 3 steps have 'parent -', and one alone can be the last: 1, 2, 3",
        ),
    ] {
        let ended = run(&["peak"], platter.replace(from, to).as_bytes());
        assert_eq!((first_line(&ended.errors), ended.status), (what, 1));
    }
    let ended = run(&["peak"], b"");
    let what = "standard input: the peak is refused (4): there is no plan yet";
    assert_eq!((first_line(&ended.errors), ended.status), (what, 1));
}

#[test]
fn texts_of_steps() {
    let mut numbers = BTreeSet::new();
    for seed in 0..24 {
        let stream = steps_only(&mut Random::new(seed));
        let ended = run(&["order"], to_text(&stream).0.as_bytes());
        let mut plan = Plan::new();
        for command in commands(&stream).0 {
            plan.apply(command).unwrap();
        }
        let mut order = vec![0; Plan::MAX_TASKS];
        numbers.insert(match plan.find_order(&mut order) {
            Ok(count) => {
                let entries = ended.text().lines().flat_map(|line| {
                    let line = line.split('#').next().unwrap_or("");
                    line.split_whitespace()
                        .skip(1)
                        .map(|step| step.parse::<u16>().unwrap())
                });
                assert!(entries.eq(order[..count].iter().copied()));
                assert_eq!((&*ended.errors, ended.status), ("", 0));
                0
            }
            Err(refusal) => {
                let number = refusal.number();
                let told = format!("standard input: an order is refused ({number}): ");
                assert!(ended.errors.starts_with(&told), "{}", ended.errors);
                assert_eq!((ended.output, ended.status), (vec![], 1));
                number
            }
        });
    }
    assert_eq!(numbers, BTreeSet::from([0, 7, 12]));
}
