//! Plan A, as its bytes and lines are printed in the paper.

use crate::menu::{hex, plan_a};
use crate::printer::printed;

pub const BYTES: &str = "
    01 03 00 02 07 00 00 00
    02 03 00 05 00 01 00
    02 03 00 05 00 01 00
    02 00 00 00 00 01 00
    03 01 00 03 02 00 03 03 00
    04 01 00 04 02 00 04 03 00
    05 06 01 00 06 02 00 06 03 00 07";

pub const LINES: &str = "\
begin peak=7 by=2 booked=6 used=6 full=857 start 1
done 1 offers=0 booked=7 used=7 full=1000 start 2
done 2 offers=1 booked=3 used=3 full=428 start 3
done 3 offers=0 booked=1 used=1 full=142 start -
fetch booked=0
";

/// The same bytes but for the three commands 04.
pub fn bytes_without_04() -> Vec<u8> {
    hex(&BYTES.replace("04 01 00 04 02 00 04 03 00", ""))
}

#[test]
fn whole_output() {
    for bytes in [hex(BYTES), bytes_without_04()] {
        assert_eq!(printed(&bytes), LINES);
    }
}

#[test]
fn the_menu_is_the_paper_s() {
    let commands = plan_a().commands().concat();
    assert_eq!(commands, hex(BYTES)[..commands.len()]);
}
