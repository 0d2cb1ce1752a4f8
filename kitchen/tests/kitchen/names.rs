//! Names, titles, minutes, times, and plans that count their own steps.

use crate::menu::{example, hex, run, to_bytes};
use kitchen::text::stream;

const NUMBERS: &str = "\
plan steps 3 stations 2 places 7
step 1: parent 3 work 5 out 1
step 2: parent 3 work 5 out 1
step 3: parent - work 0 out 1
activation 2 1 3
execution 3 1 2
begin
done 2 1
done 3
fetch
";

const NAMES: &str = "\
plan \"Two # salads\" stations 2 places 7
step 1 green: parent bowl work 5 out 1 minutes 10
step bean: parent bowl work 5 out 1
step 3 bowl: parent - work 0 out 1 minutes 0
activation bean green bowl
execution 3 green bean
begin at 9:05
done bean green at 09:42
done bowl at 09:42
fetch at 23:59
";

#[test]
fn names_mean_the_numbers_of_their_steps() {
    assert_eq!(to_bytes(NAMES), to_bytes(NUMBERS));
}

#[test]
fn a_plan_may_count_its_steps() {
    for text in [
        NUMBERS.replace(" steps 3", ""),
        NUMBERS.replace(" steps 3", " \"\""),
        NAMES.replace(" stations", " steps 3 stations"),
    ] {
        assert_eq!(to_bytes(&text), to_bytes(NUMBERS), "{text}");
    }
    // Each plan has its own names, also behind one whose day is over.
    let twice = format!("{NAMES}{NAMES}");
    let bytes = to_bytes(NUMBERS).unwrap();
    assert_eq!(to_bytes(&twice), Ok([&bytes[..], &bytes].concat()));
    // Steps alone, with the end of the text.
    let open = "plan stations 1 places 0\nstep parent - work 0 out 0";
    assert_eq!(
        to_bytes(open),
        Ok(hex("01 01 00 01 00 00 00 00 02 00 00 00 00 00 00"))
    );
}

/// The fault of the plan with one thing replaced: line, column and words.
fn fault_with(from: &str, to: &str) -> (usize, usize, String, Option<String>) {
    let text = NAMES.replacen(from, to, 1);
    assert_ne!(text, NAMES);
    let fault = stream(&text).1.expect("a fault");
    (
        fault.place.line,
        fault.place.column(),
        fault.what,
        fault.help,
    )
}

#[test]
fn faults_of_names() {
    for (from, to, line, column, what, help) in [
        (
            "bean: parent bowl",
            "bean: parent bowls",
            3,
            19,
            "no step is named 'bowls'",
            Some("is 'bowl' meant?"),
        ),
        (
            "activation bean",
            "activation baen",
            5,
            12,
            "no step is named 'baen'",
            Some("is 'bean' meant?"),
        ),
        (
            "done bowl",
            "done potatoes",
            9,
            6,
            "no step is named 'potatoes'",
            None,
        ),
        (
            "step bean",
            "step green",
            3,
            6,
            "step 1 has the name 'green' already",
            None,
        ),
        (
            "3 bowl:",
            "4 bowl:",
            4,
            6,
            "this is step 3, found '4'",
            None,
        ),
        (
            "at 9:05",
            "at 9:60",
            7,
            10,
            "'at' wants a time like 09:42, found '9:60'",
            None,
        ),
        (
            "at 9:05",
            "at 24:00",
            7,
            10,
            "'at' wants a time like 09:42, found '24:00'",
            None,
        ),
        (
            "at 9:05",
            "at",
            7,
            9,
            "'at' wants a time like 09:42, found nothing",
            None,
        ),
        (
            "at 9:05",
            "at +9:05",
            7,
            10,
            "'at' wants a time like 09:42, found '+9:05'",
            None,
        ),
        (
            "at 9:05",
            "at 9:05 9:06",
            7,
            15,
            "'begin' wants nothing more, found '9:06'",
            None,
        ),
        (
            "at 23:59",
            "at 09:41",
            10,
            10,
            "09:41 is before 09:42, the last time told",
            None,
        ),
        (
            "minutes 10",
            "minutes 65536",
            2,
            48,
            "'minutes' wants a number from 0 to 65535, found '65536'",
            None,
        ),
        (
            "salads\"",
            "salads",
            1,
            6,
            "the title does not end",
            Some("a title stands between two \""),
        ),
        ("Two #", "Two \u{1b}", 1, 6, "a title has no \\u{1b}", None),
        (
            "\"Two # salads\" ",
            "salads ",
            1,
            6,
            "'plan' wants 'stations' next, found 'salads'",
            None,
        ),
    ] {
        let wanted = (line, column, what.to_string(), help.map(str::to_string));
        assert_eq!(fault_with(from, to), wanted, "{to}");
    }
}

#[test]
fn words_that_are_no_names() {
    for name in [
        "found",
        "at",
        "-x",
        "+1",
        "a:b",
        "a\"b",
        "a\u{1b}[2J",
        "a\u{202e}b",
        "\u{feff}",
    ] {
        let text = NAMES.replace("bean:", &format!("{name}:"));
        let fault = stream(&text).1.expect(name);
        assert_eq!(fault.place.line, 3, "{name}");
    }
    for name in ["soup(soft)", "purée", "<b>", "Suppe/2", "粥", "parent", "_"] {
        let text = NAMES
            .replace("bean", name)
            .replace("parent bowl", "parent 3");
        assert_eq!(to_bytes(&text), to_bytes(NUMBERS), "{name}");
    }
}

#[test]
fn faults_of_plans_that_count_their_steps() {
    let fault = |text: &str| to_bytes(text).unwrap_err();
    let plan = "plan stations 1 places 0\n";
    assert_eq!(fault(plan), (1, "the plan has no step".to_string()));
    assert_eq!(
        fault(&format!("{plan}{plan}")),
        (1, "the plan has no step".to_string())
    );
    let text = format!("{plan}step parent 3 work 0 out 0\nstep parent - work 0 out 0\nbegin\n");
    assert_eq!(
        fault(&text),
        (2, "there is no step 3: the plan has 2".to_string())
    );
    let many = plan.to_string() + &"step parent - work 0 out 0\n".repeat(1024);
    assert_eq!(to_bytes(&many).map(|bytes| bytes.len()), Ok(8 + 7 * 1024));
    let many = many + "step parent - work 0 out 0\n";
    assert_eq!(
        fault(&many),
        (1026, "a plan has at most 1024 steps".to_string())
    );
    let self_fed = format!("{plan}step soup: parent soup work 0 out 0\n");
    assert_eq!(
        to_bytes(&self_fed),
        Ok(hex("01 01 00 01 00 00 00 00 02 01 00 00 00 00 00"))
    );
}

#[test]
fn what_is_held_back_comes_ahead_of_a_fault() {
    // The first step is whole, the second waits for its parent.
    let text = "plan steps 3 stations 1 places 0\nstep parent 3 work 0 out 0\n\
                step parent last work 0 out 0\nnonsense\n";
    let (bytes, fault) = stream(text);
    assert_eq!(bytes.len(), 8 + 7);
    // The name is missing before the wrong word is.
    assert_eq!(fault.unwrap().place.line, 3);
}

#[test]
fn found_orders_are_given_as_typed_ones() {
    let platter = example("platter").replace("activation 1 2 3", "activation found");
    let platter = format!("{platter}done 2 1 3\nfetch\n");
    let typed = platter.replace("found", "2 1 3");
    let plain = run(&["run", "--plain"], platter.as_bytes());
    assert_eq!(plain.status, 0, "{}", plain.errors);
    assert_eq!(plain, run(&["run", "--plain"], typed.as_bytes()));
    // The longest way first: the roast, then the bread.
    let timed = platter
        .replace("work 0 out 3", "work 0 out 3 minutes 5")
        .replace("work 6 out 1", "work 6 out 1 minutes 90")
        .replace("work 0 out 1", "work 0 out 1 minutes 3")
        .replace("\nbegin", "\nexecution found\nbegin");
    let written = run(&["write"], timed.as_bytes());
    assert!(
        written
            .text()
            .ends_with("activation 2 1 3\nexecution 2 1 3\n"),
        "{written:?}"
    );
}

#[test]
fn an_order_cannot_be_found() {
    let text = "plan steps 2 stations 1 places 0\nstep parent 2 work 0 out 0\nactivation found\n";
    let ended = run(&["run"], text.as_bytes());
    let wanted = "standard input:3:1: an order is refused (3): 1 of 2 steps are given\n";
    assert!(ended.errors.starts_with(wanted), "{}", ended.errors);
    assert_eq!(ended.status, 1);
    let round =
        "plan stations 1 places 0\nstep a: parent b work 0 out 0\nstep b: parent a work 0 out 0\n\
                 step c: parent - work 0 out 0\nactivation found\n";
    let ended = run(&["run"], round.as_bytes());
    let wanted =
        "standard input:5:1: an order is refused (12): the chain of parents of step 1 a never \
                  reaches the last step\n";
    assert!(ended.errors.starts_with(wanted), "{}", ended.errors);
}
