//! Refusals explain themselves, and a day that ends too early is told.

use crate::menu::{example, file, fine, run};

fn errors(text: &str) -> String {
    let ended = run(&["run"], text.as_bytes());
    assert_eq!(ended.status, 1, "{ended:?}");
    ended.errors
}

#[test]
fn begin_refused_9_with_the_order_that_fits() {
    let platter = example("platter").replace("step 2:", "step 2 meat:");
    let name = file("nine.plan", platter.as_bytes());
    let ended = run(&["run", &name], b"");
    let wanted = format!(
        "{name}:17:1: begin refused (9): needs 10 places at step 2 meat; there are 7
17 | begin
   | ^^^^^
help: 'activation 2 1 3' needs 7 (cephlouk order --write {name})
"
    );
    assert_eq!((ended.errors, ended.status), (wanted, 1));
    let typed = errors(&platter);
    assert!(typed.ends_with("help: 'activation 2 1 3' needs 7 ('activation found')\n"));
    let none = errors(&platter.replace("places 7", "places 6"));
    let help =
        "help: no order that finishes each branch before the next fits: the best needs 7 places\n";
    assert!(none.ends_with(help), "{none}");
}

#[test]
fn a_report_refused_6_with_what_the_step_is_doing() {
    let breakfast = example("breakfast");
    let day = |reports: &str| {
        let (plan, _) = breakfast.split_once("done 3 4").unwrap();
        errors(&format!("{plan}{reports}\n"))
    };
    for (reports, what, help) in [
        (
            "done 1",
            "done 1 refused (6): step 1: booked; all 3 stations are taken",
            "running: 3, 4, 5",
        ),
        (
            "done 3 3",
            "done 3 refused (6): step 3: has ended",
            "running: 4, 5, 6",
        ),
        (
            "done 6",
            "done 6 refused (6): step 6: booked; waits for 3",
            "running: 3, 4, 5",
        ),
    ] {
        let told = day(reports);
        assert!(told.contains(what), "{told}");
        assert!(told.ends_with(&format!("help: {help}\n")), "{told}");
    }
}

#[test]
fn what_is_in_turn() {
    let plan = example("plan-a");
    let at = |line: &str, typed: &str| {
        let text = plan.replacen(&format!("\n{line}"), &format!("\n{typed}\n{line}"), 1);
        errors(&text)
    };
    for (line, typed, what) in [
        (
            "plan steps",
            "begin",
            "begin refused (3): 'plan' comes first",
        ),
        (
            "step 2",
            "activation 1",
            "activation 1 refused (3): 1 of 3 steps are given; 'step' is in turn, 2 more",
        ),
        (
            "activation",
            "begin",
            "begin refused (3): 'activation' is in turn, 3 more",
        ),
        (
            "execution",
            "activation 1",
            "activation 1 refused (3): 'begin' is in turn, or 'execution' of 3 steps",
        ),
        (
            "begin",
            "execution 1",
            "execution 1 refused (3): 'begin' is in turn",
        ),
        (
            "done 2",
            "begin",
            "begin refused (3): 1 of 3 steps have ended; 'done' and 'places' are in turn",
        ),
        (
            "done 2",
            "plan steps 1 stations 1 places 0",
            "plan refused (3): 1 of 3 steps have ended; the day of the last plan is not over",
        ),
        (
            "fetch",
            "places 9",
            "places 9 refused (3): 'fetch' is in turn: the trolley stands in the cold room",
        ),
    ] {
        let told = at(line, typed);
        assert!(told.contains(what), "{told} where {what}");
    }
    let after = errors(&format!("{plan}done 1\n"));
    assert!(
        after.contains("done 1 refused (3): the day is over, and 'plan' is in turn"),
        "{after}"
    );
}

#[test]
fn a_day_that_ends_too_early() {
    let plan = example("plan-a");
    for (line, what) in [
        (
            "# The day",
            "it ends before its day does: the day has not begun",
        ),
        (
            "step 3",
            "it ends before its day does: 2 of 3 steps are given",
        ),
        (
            "done 2",
            "it ends before its day does: 1 of 3 steps have ended\nhelp: running: 2",
        ),
        (
            "fetch",
            "it ends before its day does: the trolley stands, and 'fetch' is missing",
        ),
        ("# Plan A", "there is no plan in it"),
    ] {
        let (ahead, _) = plan.split_once(line).unwrap();
        assert_eq!(errors(ahead), format!("standard input: {what}\n"));
    }
}

#[test]
fn check_tells_the_peak_or_the_fault() {
    let names: Vec<String> = ["plan-a", "breakfast", "platter"]
        .iter()
        .map(|name| file(&format!("checked-{name}.plan"), example(name).as_bytes()))
        .collect();
    let names: Vec<&str> = names.iter().map(|name| &**name).collect();
    let ended = run(&[&["check"], &names[..]].concat(), b"");
    let wanted = format!(
        "{}: ok, peak 7 at 2, 7 places\n{}: ok, peak 14 at 10, 16 places\n",
        names[0], names[1]
    );
    assert_eq!((ended.text(), ended.status), (&*wanted, 1));
    assert!(ended
        .errors
        .starts_with(&format!("{}:17:1: begin refused (9)", names[2])));
    // With no begin it is asked of a copy, with no day to be told of.
    for (name, status, told) in [
        ("plan-a", 0, ": ok, peak 7 at 2, 7 places"),
        (
            "platter",
            1,
            ": begin refused (9): needs 10 places at step 2; there are 7",
        ),
    ] {
        let (plan, _) = example(name)
            .rsplit_once("\nbegin")
            .map(|(plan, day)| (plan.to_string(), day.to_string()))
            .unwrap();
        let ended = run(&["check", "-"], format!("{plan}\n").as_bytes());
        let lines = format!("{}{}", ended.text(), ended.errors);
        assert!(lines.contains(&format!("standard input{told}")), "{lines}");
        assert_eq!(ended.status, status);
    }
    let (half, _) = example("plan-a")
        .split_once("done 2")
        .map(|(half, rest)| (half.to_string(), rest.to_string()))
        .unwrap();
    assert_eq!(
        run(&["check", "-"], half.as_bytes()),
        fine("standard input: ok, peak 7 at 2, 7 places; 1 of 3 steps done\n")
    );
}

#[test]
fn refusals_as_json() {
    let ended = run(&["run", "--json"], example("platter").as_bytes());
    let wanted =
        "{\"file\":\"standard input\",\"line\":17,\"column\":1,\"refused\":9,\"status\":1,\
        \"message\":\"begin refused (9): needs 10 places at step 2; there are 7\",\
        \"help\":\"'activation 2 1 3' needs 7 ('activation found')\"}\n";
    assert_eq!(
        (ended.text(), &*ended.errors, ended.status),
        (wanted, "", 1)
    );
}
