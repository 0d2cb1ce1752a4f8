//! `cephlouk why`, and what may be typed between the lines of a day.

use crate::menu::{fine, first_line, run};

/// Plan A with names, and five more places and one cook where said.
fn salads(places: u32, stations: u32, rest: &str) -> String {
    format!(
        "plan stations {stations} places {places}
step green: parent bowl work 5 out 1
step bean: parent bowl work 5 out 1
step bowl: parent - work 0 out 1
activation green bean bowl
begin
{rest}"
    )
}

#[test]
fn why_after_the_reports() {
    for (text, answers) in [
        (
            salads(7, 2, ""),
            "2 bean: not booked; 2 bean is next and lacks 5 places\n\
             3 bowl: not booked; 2 bean is next and lacks 5 places\n",
        ),
        (
            salads(12, 1, ""),
            "2 bean: booked; the station is taken\n3 bowl: booked; waits for 1 green\n",
        ),
        (salads(12, 2, ""), "3 bowl: booked; waits for 1 green\n"),
        (
            salads(11, 2, "done green\n"),
            "3 bowl: booked; waits for 2 bean\n",
        ),
    ] {
        let file = crate::menu::file("why.plan", text.as_bytes());
        assert_eq!(run(&["why", &file], b""), fine(answers), "{text}");
    }
}

#[test]
fn why_of_one_step() {
    let file = crate::menu::file("why-one.plan", salads(7, 2, "done green\n").as_bytes());
    for (step, answer) in [
        ("green", "1 green: has ended\n"),
        ("1", "1 green: has ended\n"),
        ("bean", "2 bean: is running\n"),
        ("3", "3 bowl: booked; waits for 2 bean\n"),
    ] {
        assert_eq!(run(&["why", &file, step], b""), fine(answer));
    }
    for step in ["0", "4", "salad", "-"] {
        let ended = run(&["why", &file, step], b"");
        assert_eq!(ended.status, 2, "{step}");
        assert!(
            ended.errors.contains(&format!("no step is '{step}'")),
            "{}",
            ended.errors
        );
    }
    let json = "{\"step\":3,\"reason\":\"unfed\",\"child\":2,\"answer\":\"3 bowl: booked; waits for 2 bean\"}\n";
    assert_eq!(run(&["why", "--json", &file, "bowl"], b""), fine(json));
}

#[test]
fn why_outside_running() {
    for (rest, told) in [
        ("done green bean bowl\nfetch\n", "the day is over"),
        (
            "done green bean bowl\n",
            "the last step has ended, and its trolley stands until 'fetch'",
        ),
    ] {
        let ended = run(&["why", "-"], salads(7, 2, rest).as_bytes());
        assert_eq!(first_line(&ended.errors), format!("standard input: {told}"));
        assert_eq!(ended.status, 1);
    }
    let unbegun = salads(7, 2, "").replace("begin\n", "");
    let ended = run(&["why", "-", "bowl"], unbegun.as_bytes());
    assert_eq!(
        first_line(&ended.errors),
        "standard input: the day has not begun"
    );
}

#[test]
fn typed_in_between() {
    let text = salads(
        7,
        2,
        "why bean\nwhy\nstanding\nif done green\nif places 12\nif done bean\nhelp\ndone green\n",
    );
    let ended = run(&["run"], text.as_bytes());
    let lines: Vec<&str> = ended.text().lines().collect();
    let bean = "2 bean: not booked; 2 bean is next and lacks 5 places";
    assert_eq!(
        lines[1..7],
        [
            bean,
            bean,
            "3 bowl: not booked; 2 bean is next and lacks 5 places",
            "0 of 3 steps have ended; 6 in use, 6 booked of 7; of 3 steps 2 wait, 0 are booked, 1 run, 0 have ended",
            "if done 1 green: start 2 bean · 7 in use, 7 booked of 7",
            "if places 12: start 2 bean · 12 in use, 12 booked of 12",
        ]
    );
    let refused = format!("if done 2 bean refused (6): step {bean}");
    assert_eq!(lines[7], refused);
    assert!(lines.contains(&"begin [at HH:MM]") && lines.contains(&"if LINE"));
    // What was supposed has changed nothing.
    assert_eq!(
        lines.last(),
        Some(&"done 1 green: start 2 bean · 7 in use, 7 booked of 7")
    );
}

#[test]
fn questions_hold_no_plan_up() {
    let text = salads(7, 2, "").replace("step bean", "standing\nwhy\nhelp\nstep bean");
    let ended = run(
        &["run", "--plain"],
        text.replace("standing\nwhy\nhelp\n", "").as_bytes(),
    );
    assert_eq!(
        run(&["run", "--plain", "--go-on"], text.as_bytes()).output,
        ended.output
    );
    assert!(run(&["run"], text.as_bytes())
        .text()
        .starts_with("there is no plan yet;"));
}

#[test]
fn asked_where_nothing_answers() {
    let text = salads(7, 2, "why bean\n");
    let ended = run(&["check", "-"], text.as_bytes());
    let told = "standard input:7:1: 'why bean' may be asked in 'cephlouk run' only";
    assert_eq!((first_line(&ended.errors), ended.status), (told, 2));
    let ended = run(&["run", "--plain"], text.as_bytes());
    let told = "standard input:7:1: 'why bean' has no answer with --plain";
    assert_eq!((first_line(&ended.errors), ended.status), (told, 2));
    for (line, what) in [
        ("if", "'if' wants a line of a day next, found nothing"),
        (
            "if activation found",
            "'if' wants commands, and no order to be found",
        ),
        ("if why", "'why' is no command"),
        ("standing now", "'standing' wants nothing more, found 'now'"),
        ("why salad", "no step is named 'salad'"),
        (
            "why 4",
            "'why' wants a step: a number from 1 to 3 or a name, found '4'",
        ),
    ] {
        let ended = run(&["run"], salads(7, 2, line).as_bytes());
        assert!(
            first_line(&ended.errors).ends_with(what),
            "{}",
            ended.errors
        );
        assert_eq!(ended.status, 2);
    }
}
