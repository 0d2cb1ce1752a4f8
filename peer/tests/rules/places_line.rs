//! The line of 08.

use crate::menu::{hex, plan_a, plan_a_within, Menu};
use crate::places::star;
use crate::printer::printed;

/// A plan, its BEGIN and what comes behind it.
fn day(menu: &Menu, behind: &str) -> Vec<u8> {
    [menu.commands().concat(), vec![0x05], hex(behind)].concat()
}

/// Plan A with shelves opened, shut again, and opened once more.
const CHANGES: &str = "
    08 0c 00 00 00
    06 01 00
    08 07 00 00 00
    06 02 00
    08 ff ff ff ff
    06 03 00
    07";

const LINES: &str = "\
begin peak=7 by=2 booked=6 used=6 full=857 start 1
places M=12 booked=12 used=12 full=1000 start 2
done 1 offers=1 booked=7 used=7 full=583 start -
places M=7 booked=7 used=7 full=1000 start -
done 2 offers=1 booked=3 used=3 full=428 start 3
places M=4294967295 booked=3 used=3 full=0 start -
done 3 offers=0 booked=1 used=1 full=0 start -
fetch booked=0
";

#[test]
fn a_day_with_changes() {
    assert_eq!(printed(&day(&plan_a(), CHANGES)), LINES);
}

#[test]
fn several_starts_have_single_spaces() {
    let lines = "\
begin peak=1 by=1 booked=1 used=1 full=1000 start 1
places M=3 booked=3 used=3 full=1000 start 2 3
places M=3 booked=3 used=3 full=1000 start -
";
    let twice = "08 03 00 00 00 08 03 00 00 00";
    assert_eq!(printed(&day(&star(9, 64), twice)), lines);
}

#[test]
fn a_bound_of_0() {
    let lines = "\
begin peak=0 by=1 booked=0 used=0 full=0 start 1
places M=0 booked=0 used=0 full=0 start -
";
    let nothing = Menu::new(1, 5, &[(0, 0, 0)]);
    assert_eq!(printed(&day(&nothing, "08 00 00 00 00")), lines);
}

/// Plan A at 12 places, BEGIN, and what comes behind it, is printed like this.
fn check_behind_begin(bytes: &str, lines: &str) {
    let begin = "begin peak=7 by=2 booked=12 used=12 full=1000 start 1 2\n";
    let stream = day(&plan_a_within(12), bytes);
    assert_eq!(printed(&stream), [begin, lines].concat(), "{bytes}");
}

#[test]
fn lines_of_refusals() {
    // BEGIN is at 47.
    check_behind_begin("08 06 00 00 00 06 01 00", "refused 9 at 48\n");
    check_behind_begin("08 0b 00 00 00 06 01 00", "refused 13 at 48\n");
    check_behind_begin("08 0c 00 00", "refused 1 at 48\n");
    check_behind_begin("08", "refused 1 at 48\n");
    let taken = "places M=13 booked=12 used=12 full=923 start -\n";
    let refused = "refused 13 at 53\n";
    let both = "08 0d 00 00 00 08 0b 00 00 00";
    check_behind_begin(both, &[taken, refused].concat());
    assert_eq!(printed(&hex("08 0c 00 00 00")), "refused 3 at 0\n");
    let fetched = [day(&plan_a(), CHANGES), hex("08 07 00 00 00")].concat();
    assert_eq!(printed(&fetched), [LINES, "refused 3 at 73\n"].concat());
}

#[test]
fn the_next_plan_is_printed_as_the_first() {
    let stream = day(&plan_a(), CHANGES).repeat(3);
    assert_eq!(printed(&stream), LINES.repeat(3));
}
