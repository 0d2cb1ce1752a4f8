//! From 08 on every rule about the cold room's places speaks of the bound in
//! force, until the next PLAN.

use crate::menu::{
    answers, bytes_of, done, fetch, finish, give, places, plan_a, plan_a_within, reading, refused,
    written,
};
use crate::places::{bound_written, figures, star, taken};
use peer::Reason::{Ended, Running, Unfed};
use peer::{Phase, Reason};

#[test]
fn fullness_is_of_the_bound_in_force() {
    let (_, _, mut plan) = plan_a().begun();
    // 6 trays, and 12 where they fit.
    for (bound, full) in [
        (8, 750),
        (11, 545),
        (7, 857),
        (12, 1000),
        (13, 923),
        (12_001, 0),
        (u32::MAX, 0),
        (12_000, 1),
    ] {
        assert_eq!(places(&mut plan, bound).0.number, 0);
        assert_eq!(plan.fullness(), full, "{bound}");
    }
}

#[test]
fn the_lack_is_of_the_bound_in_force() {
    let (_, _, mut plan) = plan_a().begun();
    for (bound, lack) in [(7, 5), (8, 4), (11, 1), (7, 5)] {
        assert_eq!(places(&mut plan, bound).0, taken(0));
        let first_lacks = Reason::NotBooked { first: 2, lack };
        for task in [2, 3] {
            assert_eq!(plan.why(task), first_lacks, "{bound}");
        }
    }
    places(&mut plan, 12);
    assert_eq!(
        [1, 2, 3].map(|task| plan.why(task)),
        [Running, Running, Unfed(1)]
    );
    done(&mut plan, 1);
    assert_eq!(
        [1, 2, 3].map(|task| plan.why(task)),
        [Ended, Running, Unfed(2)]
    );
}

#[test]
fn the_bound_in_force_is_written() {
    for bound in [7, 8, 11, 12, 1 << 20, u32::MAX] {
        let (_, mut starts, mut plan) = plan_a().begun();
        starts.extend(places(&mut plan, bound).1);
        let wanted = plan_a_within(bound).commands().concat();
        assert_eq!(written(&plan, bytes_of(3)), Ok(wanted.clone()));
        assert_eq!(written(&plan, bytes_of(3) - 1), Err(11));
        // So it is until the end, and when it is fetched.
        finish(&mut plan, starts);
        assert_eq!(written(&plan, bytes_of(3)), Ok(wanted.clone()));
        fetch(&mut plan);
        assert_eq!(written(&plan, bytes_of(3)), Ok(wanted.clone()));
        assert_eq!(bound_written(&reading(&wanted)), bound);
    }
}

#[test]
fn reports_go_by_the_bound_in_force() {
    // Back at 7 places, task 2 waits until task 1 has ended.
    let (_, _, mut plan) = plan_a().begun();
    places(&mut plan, 11);
    places(&mut plan, 7);
    let (answer, starts) = done(&mut plan, 1);
    assert_eq!((answer.offers, starts), (0, vec![2]));
    assert_eq!(figures(&plan), (7, 7, 1000, [0, 1, 1, 1]));
    // Four tasks one by one, and from 08 on by three.
    let (_, _, mut plan) = star(4, 4).begun();
    assert_eq!(places(&mut plan, 3).1, [2, 3]);
    assert_eq!(done(&mut plan, 2).1, [4]);
    // And then by two, once no more are booked.
    let (_, _, mut plan) = star(4, 4).begun();
    places(&mut plan, 3);
    assert_eq!(places(&mut plan, 2).0, refused(13));
    done(&mut plan, 1);
    assert_eq!(places(&mut plan, 2).0, refused(13));
    done(&mut plan, 2);
    assert_eq!(places(&mut plan, 2), (taken(0), vec![]));
}

#[test]
fn ready_goes_by_the_bound_in_force() {
    let (_, mut starts, mut plan) = plan_a().begun();
    starts.extend(places(&mut plan, 12).1);
    finish(&mut plan, starts);
    assert_eq!(
        (plan.phase(), figures(&plan)),
        (Phase::Ready, (1, 1, 83, [0, 0, 0, 3]))
    );
}

#[test]
fn the_next_plan_has_its_own_bound() {
    for bound in [7, 12, u32::MAX] {
        let (_, mut starts, mut plan) = plan_a().begun();
        starts.extend(places(&mut plan, bound).1);
        finish(&mut plan, starts);
        fetch(&mut plan);
        for command in plan_a().commands() {
            assert_eq!(give(&mut plan, &command).0.number, 0);
        }
        let (_, _, fresh) = plan_a().begun();
        assert_eq!(give(&mut plan, &[0x05]).1, [1]);
        assert_eq!(answers(&plan), answers(&fresh));
    }
}

#[test]
fn the_next_plan_has_its_own_peak() {
    // 1, and 7 before it.
    let mut plan = plan_a().over();
    for command in star(2, 1).commands() {
        give(&mut plan, &command);
    }
    assert_eq!(give(&mut plan, &[0x05]).0.peak, 1);
    assert_eq!(places(&mut plan, 1).0, taken(0));
    assert_eq!(places(&mut plan, 0).0, refused(9));
}
