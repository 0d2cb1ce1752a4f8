//! `places` lines.

use crate::menu::{example, fine, first_line, hex, run, to_bytes, to_text};
use cephlouk::Command;
use kitchen::text::commands;

#[test]
fn the_example_s_day() {
    let lines = "\
begin peak=5 by=2 booked=8 used=8 full=1000 start 1 2
places M=11 booked=11 used=11 full=1000 start 3
done 1 offers=1 booked=8 used=8 full=727 start -
done 2 offers=1 booked=5 used=5 full=454 start -
places M=5 booked=5 used=5 full=1000 start -
done 3 offers=1 booked=5 used=5 full=1000 start 4
places M=11 booked=5 used=5 full=454 start -
done 4 offers=0 booked=2 used=2 full=181 start -
fetch booked=0
";
    let cleaning = example("cleaning");
    assert_eq!(run(&["run", "--plain"], cleaning.as_bytes()), fine(lines));
}

/// Each number of a `done` line is a command, and a `places` line has one.
#[test]
fn one_number_a_line() {
    let text = "\
places 11
places 11
done 1 2
places 0
done 3
";
    let bytes = hex("08 0b 00 00 00 08 0b 00 00 00
        06 01 00 06 02 00 08 00 00 00 00 06 03 00");
    assert_eq!(to_bytes(text), Ok(bytes.clone()));
    assert_eq!(to_text(&bytes), (text.to_string(), None));
}

/// The example with another first `places` line.
fn with_first(places: &str) -> Vec<u8> {
    example("cleaning")
        .replacen("places 11 ", places, 1)
        .into_bytes()
}

#[test]
fn the_places_in_force_are_written() {
    // Those of the text ahead of a line.
    let cleaning = example("cleaning");
    let ahead_of = |line: &str| {
        let (ahead, _) = cleaning.split_once(line).unwrap();
        let bytes = run(&["write", "--bytes"], ahead.as_bytes()).output;
        match commands(&bytes).0.first() {
            Some(Command::Plan { places, .. }) => *places,
            other => panic!("{other:?}"),
        }
    };
    for (line, in_force) in [
        ("places 11 ", 8),
        ("done 1 2", 11),
        ("done 3", 5),
        ("done 4", 11),
        ("fetch", 11),
    ] {
        assert_eq!(ahead_of(line), in_force, "{line}");
    }
}

#[test]
fn refused_lines() {
    for (places, what) in [
        (
            "places 4 ",
            "19:1: places 4 refused (9): needs 5 places at step 2; there are 4",
        ),
        (
            "places 5 ",
            "19:1: places 5 refused (13): 8 trays are booked",
        ),
        (
            "places 7 ",
            "19:1: places 7 refused (13): 8 trays are booked",
        ),
    ] {
        let ended = run(&["run"], &with_first(places));
        assert_eq!(first_line(&ended.errors), format!("standard input:{what}"));
        assert_eq!(ended.status, 1);
    }
    let early = example("cleaning").replace("begin ", "places 8\nbegin ");
    let ended = run(&["run"], early.as_bytes());
    let what =
        "standard input:18:1: places 8 refused (3): 'begin' is in turn, or 'execution' of 4 steps";
    assert_eq!((first_line(&ended.errors), ended.status), (what, 1));
}

#[test]
fn an_order_is_found_without_them() {
    let early = format!("{}places 0\n", example("cleaning"));
    let order = "activation 1 2 3 4   # peak 5, was 5\n";
    assert_eq!(run(&["order"], early.as_bytes()), fine(order));
}
