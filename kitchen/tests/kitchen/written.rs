//! `cephlouk write` and `cephlouk read`: the plan that a text leads to, in its
//! one form.

use crate::menu::{file, fine, hex, run, to_bytes, to_text, Ended};
use cephlouk::Plan;
use kitchen::text::commands;
use peer::generate::cut_stream;

/// Plan A and its steps.
const STEPS: &str = "\
plan steps 3 stations 2 places 7
step 1: parent 3 work 5 out 1
step 2: parent 3 work 5 out 1
step 3: parent - work 0 out 1
";

/// Its orders, which here are two.
const ORDERS: &str = "\
activation 2 1 3
execution 3 1 2
";

/// All of it.
const BYTES: &str = "
    01 03 00 02 07 00 00 00
    02 03 00 05 00 01 00 02 03 00 05 00 01 00 02 00 00 00 00 01 00
    03 02 00 03 01 00 03 03 00
    04 03 00 04 01 00 04 02 00";

/// A day of it.
const DAY: &str = "begin\ndone 2\ndone 1 3\nfetch\n";

/// The same, with its trolley still standing.
const UNFETCHED: &str = "begin\ndone 2 1 3\n";

fn text(parts: &[&str]) -> Vec<u8> {
    parts.concat().into_bytes()
}

#[test]
fn from_a_file_or_standard_input() {
    let (text, bytes) = (text(&[STEPS, ORDERS]), hex(BYTES));
    let name = file("menu.plan", &text);
    assert_eq!(run(&["write", "--bytes", &name], b""), fine(bytes.clone()));
    assert_eq!(run(&["write", "--bytes"], &text), fine(bytes.clone()));
    assert_eq!(run(&["write", "--bytes", "-"], &text), fine(bytes.clone()));
}

#[test]
fn files_of_one_menu_are_written_alike() {
    for orders in [
        "execution 3 1 2\nactivation 2 1 3\n",
        "execution 3\nactivation 2 1\nexecution 1 2\nactivation 3\n",
        "activation 2 # beans\n\nactivation 1\nactivation 3\r\nexecution 3 1 2\n",
    ] {
        for day in ["", "begin\n", "begin\ndone 2 1\n", UNFETCHED, DAY] {
            let text = text(&["# Monday\n", STEPS, orders, day]);
            assert_eq!(run(&["write", "--bytes"], &text), fine(hex(BYTES)));
        }
    }
}

#[test]
fn back_again_it_is_the_tidy_text() {
    let untidy = STEPS.replace(" 1:", "").replace("parent -", "  parent 0 ");
    let untidy = text(&[
        &untidy,
        "execution 3 1\nactivation 2 1 3\nexecution 2\n",
        DAY,
    ]);
    let bytes = run(&["write", "--bytes"], &untidy).output;
    let tidy = text(&[STEPS, ORDERS]);
    assert_eq!(run(&["read"], &bytes), fine(tidy.clone()));
    assert_eq!(run(&["write", "--bytes"], &tidy), fine(bytes.clone()));
}

#[test]
fn the_last_plan_of_a_text() {
    let one_step = "plan steps 1 stations 1 places 0\nstep parent - work 0 out 0\n";
    for ahead in [one_step, "plan steps 9 stations 64 places 1\n"] {
        let text = text(&[ahead, STEPS, ORDERS, DAY]);
        assert_eq!(run(&["write", "--bytes"], &text), fine(hex(BYTES)));
    }
    let text = text(&[STEPS, ORDERS, DAY, one_step, "execution 1\nactivation 1\n"]);
    let wanted = "01 01 00 01 00 00 00 00 02 00 00 00 00 00 00 03 01 00 04 01 00";
    assert_eq!(run(&["write", "--bytes"], &text), fine(hex(wanted)));
}

/// A text is told to be wrong, and nothing is written.
fn check_wrong(text: &[u8], what: &str) {
    for arguments in [&["write"][..], &["write", "--bytes"]] {
        let Ended {
            output,
            errors,
            status,
        } = run(arguments, text);
        let told = format!("standard input{what}");
        assert!(errors.starts_with(&told), "{errors} where {told}");
        assert_eq!((output, status), (vec![], 1));
    }
}

#[test]
fn a_refused_command_is_told_with_its_line() {
    for (orders, what) in [
        ("begin\n", ":5:1: begin refused (3): 'activation' is in turn, 3 more"),
        ("\ndone 1\n", ":6:6: done 1 refused (3): 'activation' is in turn, 3 more"),
        (
            "step parent 1 work 2 out 3\n",
            ":5:1: step refused (3): 'activation' is in turn, 3 more",
        ),
        (
            "execution 1\nactivation 3 1 3 2\n",
            ":6:16: activation 3 refused (5): step 3 stands in that order already, at place 1",
        ),
        (
            "activation 1 2 3 1\nexecution 1 2 3\n",
            ":5:18: activation 1 refused (3): 'begin' is in turn, or 'execution' of 3 steps",
        ),
        (
            "activation 3 1 2\nexecution 1 2 3\nbegin\n",
            ":7:1: begin refused (8): in the activation order step 1 stands behind step 3, which it feeds",
        ),
        (
            "activation 1 2 3\nexecution 1 2 3\nbegin\ndone 1 3 2\n",
            ":8:8: done 3 refused (6): step 3: booked; waits for 2",
        ),
        (
            "activation 1 2 3\nexecution 1 2 3\nbegin\nplan steps 1 stations 2 places 3\n",
            ":8:1: plan refused (3): ",
        ),
        ("fetch\n", ":5:1: fetch refused (3): 'activation' is in turn, 3 more"),
        (
            "activation 1 2 3\nbegin\ndone 1 2\nfetch\n",
            ":8:1: fetch refused (3): 2 of 3 steps have ended; 'done' and 'places' are in turn",
        ),
        (
            "activation 1 2 3\nbegin\ndone 1 2 3 3\n",
            ":7:12: done 3 refused (3): 'fetch' is in turn: the trolley stands in the cold room",
        ),
        (
            "activation 1 2 3\nbegin\ndone 1 2 3\nplan steps 1 stations 2 places 3\n",
            ":8:1: plan refused (3): ",
        ),
        (
            "activation 1 2 3\nbegin\ndone 1 2 3\nfetch\nfetch\n",
            ":9:1: fetch refused (3): the day is over, and 'plan' is in turn",
        ),
    ] {
        // Nothing behind it is read.
        check_wrong(&text(&[STEPS, orders, "nonsense\n"]), what);
    }
    let low = STEPS.replace("places 7", "places 6");
    let what = ":7:1: begin refused (9): needs 7 places at step 1; there are 6";
    check_wrong(&text(&[&low, ORDERS, "begin\n"]), what);
    let two_roots = STEPS.replace("parent 3", "parent -");
    let what =
        ":7:1: begin refused (7): 3 steps have 'parent -', and one alone can be the last: 1, 2, 3";
    check_wrong(&text(&[&two_roots, ORDERS, "begin\n"]), what);
}

#[test]
fn a_plan_that_is_not_complete() {
    let what = ": no plan with both orders complete at the end";
    for orders in [
        "",
        "activation 1 2\n",
        "execution 1 2 3\n",
        "activation 1 2 3\nexecution 1\n",
        "activation 1 2\nexecution 1 2 3\n",
        "activation 1 2 3\nexecution 1 2\n",
    ] {
        check_wrong(&text(&[STEPS, orders]), what);
    }
    check_wrong(b"", what);
    check_wrong(b"# no plan\n", what);
    check_wrong(&text(&[STEPS, ORDERS, DAY, STEPS]), what);
    check_wrong(b"plan steps 1 stations 1 places 0\n", what);
}

/// The activation order alone, and all of that plan once it has begun.
const ONE_ORDER: &str = "activation 2 1 3\n";
const ONE_ORDER_TWICE: &str = "activation 2 1 3\nexecution 2 1 3\n";

#[test]
fn without_execution_lines_the_activation_order_comes_twice() {
    let tidy = text(&[STEPS, ONE_ORDER_TWICE]);
    let bytes = to_bytes(str::from_utf8(&tidy).unwrap()).unwrap();
    for day in ["begin\n", "begin\ndone 2 1\n", UNFETCHED, DAY] {
        for orders in [ONE_ORDER, ONE_ORDER_TWICE] {
            let text = text(&[STEPS, orders, day]);
            assert_eq!(run(&["write", "--bytes"], &text), fine(bytes.clone()));
        }
    }
    assert_eq!(run(&["write", "--bytes"], &tidy), fine(bytes.clone()));
    assert_eq!(run(&["read"], &bytes), fine(tidy.clone()));
}

#[test]
fn without_execution_lines_a_plan_has_to_begin() {
    let what = ": no execution order, and no 'begin' to use the activation order for both";
    check_wrong(&text(&[STEPS, ONE_ORDER]), what);
    check_wrong(&text(&[STEPS, ORDERS, DAY, STEPS, ONE_ORDER]), what);
    check_wrong(&text(&[STEPS, ONE_ORDER, DAY, STEPS, ONE_ORDER]), what);
    let what = ":7:1: begin refused (3): 'execution' is in turn, 1 more";
    check_wrong(&text(&[STEPS, ONE_ORDER, "execution 2 1\nbegin\n"]), what);
    let low = STEPS.replace("places 7", "places 6");
    let what = ":6:1: begin refused (9): needs 7 places at step 1; there are 6";
    check_wrong(&text(&[&low, ONE_ORDER, "begin\n"]), what);
    let what =
        ":7:11: execution 2 refused (3): 0 of 3 steps have ended; 'done' and 'places' are in turn";
    check_wrong(&text(&[STEPS, ONE_ORDER, "begin\nexecution 2 1 3\n"]), what);
}

#[test]
fn a_wrong_line() {
    let ended = run(&["write"], &text(&[STEPS, ORDERS, "end\n"]));
    assert!(ended
        .errors
        .starts_with("standard input:7:1: 'end' is no command\n"));
    assert_eq!((ended.output, ended.status), (vec![], 2));
}

#[test]
fn messages_name_the_file() {
    let name = file("half.plan", &text(&[STEPS, "activation 1\n"]));
    let message = format!("{name}: no plan with both orders complete at the end\n");
    let ended = run(&["write", &name], b"");
    assert_eq!((ended.errors, ended.status), (message, 1));
}

#[test]
fn the_text_form_keeps_names_and_is_its_own_form() {
    let named = "\
plan \"Two <salads>\" stations 2 places 7
step green: parent bowl work 5 out 1 minutes 10
step bean: parent bowl work 5 out 1
step bowl: parent - work 0 out 1
execution bowl green bean
activation bean green bowl
";
    let tidy = "\
plan \"Two <salads>\" steps 3 stations 2 places 7
step 1 green: parent 3 work 5 out 1 minutes 10
step 2 bean: parent 3 work 5 out 1
step 3 bowl: parent - work 0 out 1
activation 2 1 3
execution 3 1 2
";
    assert_eq!(run(&["write"], named.as_bytes()), fine(tidy));
    assert_eq!(run(&["write"], tidy.as_bytes()), fine(tidy));
    assert_eq!(
        run(&["write", "--bytes"], named.as_bytes()),
        fine(hex(BYTES))
    );
}

#[test]
fn into_a_file() {
    let name = file("written.bytes", b"old and longer than what comes\n");
    let plan = text(&[STEPS, ORDERS]);
    assert_eq!(run(&["write", "--bytes", "-o", &name], &plan), fine(""));
    assert_eq!(std::fs::read(&name).unwrap(), hex(BYTES));
    assert_eq!(run(&["read", &name], b""), fine(plan));
}

#[test]
fn bytes_that_are_no_commands() {
    let ended = run(&["read"], &hex("05 09 05"));
    assert_eq!(ended.output, b"begin\n");
    assert_eq!(ended.errors, "standard input: byte 1: 09 is no command\n");
    assert_eq!(ended.status, 2);
    let name = file("cut.bytes", &hex("05 06 01"));
    let ended = run(&["read", &name], b"");
    let told = format!("{name}: byte 1: the command 06 is cut short\n");
    assert_eq!((ended.errors, ended.status), (told, 2));
}

/// What the library writes of the plan that a stream leads to, up to its first
/// refusal.
fn by_the_library(stream: &[u8]) -> Result<Option<Vec<u8>>, u8> {
    let mut plan = Plan::new();
    for command in commands(stream).0 {
        plan.apply(command).map_err(|refusal| refusal.number())?;
    }
    let mut bytes = vec![0; Plan::MOST_BYTES];
    Ok(plan
        .write(&mut bytes)
        .ok()
        .map(|count| bytes[..count].to_vec()))
}

#[test]
fn texts_of_streams() {
    let (mut refused, mut complete) = (0, 0);
    for stream in (6000..6200).map(cut_stream) {
        let (text, _) = to_text(&stream);
        let Ok(stream) = to_bytes(&text) else {
            continue;
        };
        let ended = run(&["write", "--bytes"], text.as_bytes());
        match by_the_library(&stream) {
            Err(number) => {
                let told = format!(" refused ({number}): ");
                assert!(ended.errors.contains(&told), "{}", ended.errors);
                assert_eq!((&ended.output[..], ended.status), (&b""[..], 1));
                refused += 1;
            }
            Ok(Some(bytes)) => {
                assert_eq!(ended, fine(bytes));
                complete += 1;
            }
            Ok(None) => assert_eq!(ended.status, 1),
        }
    }
    assert!(refused > 20 && complete > 60, "{refused} {complete}");
}
