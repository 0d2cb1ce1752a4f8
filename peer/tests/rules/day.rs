//! Properties of days, of plans small and large, whatever is asked meanwhile.

use crate::menu::ask;
use crate::watch::{follow, Watch};
use peer::generate::{askings, stream};
use peer::Plan;

#[test]
fn after_each_command_of_a_day() {
    let mut days = 0;
    for seed in 1000..1120 {
        let (mut plan, mut watch) = (Plan::new(), Watch::default());
        for asking in askings(seed) {
            let (answer, starts) = ask(&mut plan, &asking.bytes, asking.place, asking.starts_len);
            if answer.number == 0 {
                watch.accepted(&asking.bytes, asking.place, &answer, &starts);
            }
            watch.check(&plan);
        }
        days += watch.days;
    }
    assert!(days > 150);
}

#[test]
fn after_each_command_of_a_stream() {
    let mut days = 0;
    for seed in 1000..1250 {
        let (watch, ..) = follow(&stream(seed), |watch, plan| watch.check(plan));
        days += watch.days;
    }
    assert!(days > 150);
}
