//! Where a kitchen goes astray with a new bound: wrong ways to take 08 and to go by
//! the bound in force, each shown by generated askings.

use crate::naive::{refuse, Naive, Reply};
use peer::generate::{askings, Asking};
use peer::{decode, Command, Phase, Plan, Reason};

/// A kitchen by the naive writing, which remembers the bound that PLAN gave.
struct Kitchen {
    naive: Naive,
    opened: usize,
}

/// A way to go astray.
#[derive(Clone, Copy)]
enum Way {
    /// With a new bound, where 08 is in turn.
    Taking(fn(&mut Naive, usize) -> Result<Reply, u8>),
    /// With any command.
    Answering(fn(&mut Kitchen, &Asking) -> Reply),
    /// With what is shown after a command.
    Showing(fn(&Kitchen) -> Shown),
}

use Way::{Answering, Showing, Taking};

/// What a plan shows after a command.
#[derive(PartialEq)]
struct Shown {
    phase: Phase,
    trays: (usize, usize),
    fullness: usize,
    standing: [usize; 4],
    whys: Vec<Reason>,
    written: Result<Vec<u8>, u8>,
}

impl Shown {
    fn of(naive: &Naive) -> Shown {
        Shown {
            phase: naive.phase,
            trays: (naive.booked(), naive.in_use()),
            fullness: naive.fullness(),
            standing: naive.standing(),
            whys: (1..=naive.n).map(|i| naive.why(i)).collect(),
            written: naive.written(Plan::WRITTEN),
        }
    }
}

impl Kitchen {
    fn new() -> Kitchen {
        Kitchen {
            naive: Naive::new(),
            opened: 0,
        }
    }

    /// Answers as it should be.
    fn answer(&mut self, asking: &Asking) -> Reply {
        let Asking {
            bytes,
            place,
            starts_len,
        } = asking;
        let reply = self.naive.command(bytes, *place, *starts_len);
        if let (0, Some(Command::Plan { memory_bound, .. })) = (reply.number, whole(asking)) {
            self.opened = memory_bound as usize;
        }
        reply
    }

    /// Goes astray in some way with an asking; answers whether that is seen in the
    /// answer or in what is shown after it.
    fn goes_astray(&mut self, way: Way, asking: &Asking, right: &(Reply, Shown)) -> bool {
        let reply = match (way, new_bound(asking)) {
            (Taking(take), Some(m)) if self.naive.phase == Phase::Running => {
                take(&mut self.naive, m).unwrap_or_else(refused)
            }
            (Answering(answer), _) => answer(self, asking),
            _ => self.answer(asking),
        };
        // Where too little is booked there is no lack to show.
        if reply != right.0 || self.naive.standing() != right.1.standing {
            return true;
        }
        let shown = match way {
            Showing(show) => show(self),
            _ => Shown::of(&self.naive),
        };
        shown != right.1
    }
}

/// The command that is asked, if it is whole and the start list is long enough.
fn whole(asking: &Asking) -> Option<Command> {
    let (command, _) = decode(&asking.bytes, asking.place).ok()?;
    (asking.starts_len >= Plan::STARTS).then_some(command)
}

/// The bound of a whole 08.
fn new_bound(asking: &Asking) -> Option<usize> {
    match whole(asking)? {
        Command::Places(bound) => Some(bound as usize),
        _ => None,
    }
}

fn refused(number: u8) -> Reply {
    Reply {
        number,
        ..Reply::default()
    }
}

/// An accepted 08 with these starts.
fn accepted(starts: Vec<u16>) -> Reply {
    Reply {
        used: 5,
        starts,
        ..Reply::default()
    }
}

/// Takes a bound without a check.
fn take(naive: &mut Naive, m: usize) -> Reply {
    naive.m = m;
    naive.book_ahead();
    accepted(naive.start())
}

/// Both checks, 9 and then 13.
fn check(naive: &Naive, m: usize) -> Result<(), u8> {
    refuse(9, m < naive.peak().0)?;
    refuse(13, m < naive.booked())
}

/// Both checks and one more, which refuses with some other number.
fn take_unless(naive: &mut Naive, m: usize, ground: bool) -> Result<Reply, u8> {
    check(naive, m)?;
    refuse(4, ground)?;
    Ok(take(naive, m))
}

/// Takes a bound with both checks, and books and starts in some other way.
fn take_by(
    naive: &mut Naive,
    m: usize,
    book_and_start: fn(&mut Naive) -> Vec<u16>,
) -> Result<Reply, u8> {
    check(naive, m)?;
    naive.m = m;
    Ok(accepted(book_and_start(naive)))
}

/// Takes a bound as it should be, with both checks.
fn take_checked(naive: &mut Naive, m: usize) -> Result<Reply, u8> {
    check(naive, m)?;
    Ok(take(naive, m))
}

/// The largest sum of the tasks that have not ended.
fn peak_left(naive: &Naive) -> usize {
    let sums = naive.activation.iter().zip(naive.sums());
    let left = sums.filter(|&(&i, _)| naive.why(i) != Reason::Ended);
    left.map(|(_, sum)| sum).max().unwrap()
}

fn largest_need(naive: &Naive) -> usize {
    let order = naive.activation.iter();
    order.map(|&i| naive.need(i)).max().unwrap()
}

/// Refuses as it should be, but the bound is in force nevertheless.
fn take_when_refused(naive: &mut Naive, m: usize, number: u8) -> Result<Reply, u8> {
    let checked = check(naive, m);
    if checked == Err(number) {
        naive.m = m;
    }
    checked.map(|()| take(naive, m))
}

/// Takes any bound in another phase, too.
fn take_in(kitchen: &mut Kitchen, asking: &Asking, phase: Phase) -> Reply {
    match new_bound(asking) {
        Some(m) if kitchen.naive.phase == phase => {
            kitchen.naive.m = m;
            accepted(vec![])
        }
        _ => kitchen.answer(asking),
    }
}

/// PLAN's bound comes back with an accepted command.
fn put_back(kitchen: &mut Kitchen, asking: &Asking, with: fn(Command) -> bool) -> Reply {
    if whole(asking).is_some_and(with) {
        let naive = &mut kitchen.naive;
        let m = std::mem::replace(&mut naive.m, kitchen.opened);
        let reply = kitchen.answer(asking);
        if reply.number != 0 {
            kitchen.naive.m = m;
        }
        return reply;
    }
    kitchen.answer(asking)
}

/// The plan as if PLAN's bound were in force.
fn by_opened(kitchen: &Kitchen) -> Naive {
    let mut naive = kitchen.naive.clone();
    naive.m = kitchen.opened;
    naive
}

/// Wrong ways, and what is wrong with each.
const ASTRAY: [(&str, Way); 40] = [
    (
        "the peak does not decide",
        Taking(|naive, m| {
            refuse(13, m < naive.booked())?;
            Ok(take(naive, m))
        }),
    ),
    (
        "the booked trays do not decide",
        Taking(|naive, m| {
            refuse(9, m < naive.peak().0)?;
            Ok(take(naive, m))
        }),
    ),
    (
        "13 ahead of 9",
        Taking(|naive, m| {
            refuse(13, m < naive.booked())?;
            take_checked(naive, m)
        }),
    ),
    (
        "9 for both",
        Taking(|naive, m| {
            refuse(9, m < naive.booked())?;
            take_checked(naive, m)
        }),
    ),
    (
        "9 at the peak itself",
        Taking(|naive, m| {
            refuse(9, m <= naive.peak().0)?;
            take_checked(naive, m)
        }),
    ),
    (
        "13 at the booked trays themselves",
        Taking(|naive, m| {
            check(naive, m)?;
            refuse(13, m <= naive.booked())?;
            Ok(take(naive, m))
        }),
    ),
    (
        "the trays in use decide",
        Taking(|naive, m| {
            refuse(9, m < naive.peak().0)?;
            refuse(13, m < naive.in_use())?;
            Ok(take(naive, m))
        }),
    ),
    (
        "the peak of the tasks that have not ended",
        Taking(|naive, m| {
            refuse(9, m < peak_left(naive))?;
            refuse(13, m < naive.booked())?;
            Ok(take(naive, m))
        }),
    ),
    (
        "the largest need for the peak",
        Taking(|naive, m| {
            refuse(9, m < largest_need(naive))?;
            refuse(13, m < naive.booked())?;
            Ok(take(naive, m))
        }),
    ),
    (
        "the same bound refused",
        Taking(|naive, m| take_unless(naive, m, m == naive.m)),
    ),
    (
        "a larger bound refused",
        Taking(|naive, m| take_unless(naive, m, m > naive.m)),
    ),
    (
        "a smaller bound refused",
        Taking(|naive, m| take_unless(naive, m, m < naive.m)),
    ),
    (
        "0 refused",
        Taking(|naive, m| take_unless(naive, m, m == 0)),
    ),
    (
        "the largest bound refused",
        Taking(|naive, m| take_unless(naive, m, m == u32::MAX as usize)),
    ),
    (
        "a smaller bound not taken",
        Taking(|naive, m| {
            check(naive, m)?;
            let larger = m.max(naive.m);
            Ok(take(naive, larger))
        }),
    ),
    (
        "no booking ahead",
        Taking(|naive, m| take_by(naive, m, |_| vec![])),
    ),
    (
        "booking ahead without a start",
        Taking(|naive, m| {
            take_by(naive, m, |naive| {
                naive.book_ahead();
                vec![]
            })
        }),
    ),
    (
        "the first waiting task alone",
        Taking(|naive, m| {
            take_by(naive, m, |naive| {
                if let Some(i) = naive.first_waiting() {
                    naive.book(i);
                }
                naive.start()
            })
        }),
    ),
    (
        "one start at most",
        Taking(|naive, m| {
            take_by(naive, m, |naive| {
                naive.book_ahead();
                let mut starts = naive.start();
                starts.truncate(1);
                starts
            })
        }),
    ),
    (
        "booking ahead by the bound before",
        Taking(|naive, m| {
            check(naive, m)?;
            let before = naive.m;
            let reply = take(naive, before);
            naive.m = m;
            Ok(reply)
        }),
    ),
    (
        "starts in the activation order",
        Taking(|naive, m| {
            check(naive, m)?;
            let execution = naive.execution.clone();
            naive.execution = naive.activation.clone();
            let reply = take(naive, m);
            naive.execution = execution;
            Ok(reply)
        }),
    ),
    (
        "an offer",
        Taking(|naive, m| {
            let reply = take_checked(naive, m)?;
            Ok(Reply { offers: 1, ..reply })
        }),
    ),
    (
        "the peak answered",
        Taking(|naive, m| {
            let (peak, peak_task) = naive.peak();
            let reply = take_checked(naive, m)?;
            Ok(Reply {
                peak,
                peak_task,
                ..reply
            })
        }),
    ),
    (
        "two operand bytes",
        Taking(|naive, m| {
            let reply = take_checked(naive, m & 0xffff)?;
            Ok(Reply { used: 3, ..reply })
        }),
    ),
    (
        "16 bits of four operand bytes",
        Taking(|naive, m| take_checked(naive, m & 0xffff)),
    ),
    (
        "the highest byte first",
        Taking(|naive, m| take_checked(naive, (m as u32).swap_bytes() as usize)),
    ),
    (
        "that many places more",
        Taking(|naive, m| take_checked(naive, naive.m + m)),
    ),
    (
        "in force though refused 9",
        Taking(|naive, m| take_when_refused(naive, m, 9)),
    ),
    (
        "in force though refused 13",
        Taking(|naive, m| take_when_refused(naive, m, 13)),
    ),
    (
        "in turn in orders",
        Answering(|kitchen, asking| take_in(kitchen, asking, Phase::Orders)),
    ),
    (
        "in turn in ready",
        Answering(|kitchen, asking| take_in(kitchen, asking, Phase::Ready)),
    ),
    (
        "unknown",
        Answering(|kitchen, asking| match new_bound(asking) {
            Some(_) => refused(2),
            None => kitchen.answer(asking),
        }),
    ),
    (
        "out of turn ahead of cut short",
        Answering(|kitchen, asking| {
            let reply = kitchen.answer(asking);
            let is_08 = asking.bytes.get(asking.place) == Some(&0x08);
            match (reply.number, kitchen.naive.phase) {
                (1, phase) if is_08 && phase != Phase::Running => refused(3),
                _ => reply,
            }
        }),
    ),
    (
        "a short start list that is long enough",
        Answering(|kitchen, asking| {
            let starts_len = Plan::STARTS;
            let longer = Asking {
                starts_len,
                ..asking.clone()
            };
            match new_bound(&longer) {
                Some(_) => kitchen.answer(&longer),
                None => kitchen.answer(asking),
            }
        }),
    ),
    (
        "PLAN's bound again from the next report on",
        Answering(|kitchen, asking| {
            put_back(kitchen, asking, |command| {
                matches!(command, Command::Done(_))
            })
        }),
    ),
    (
        "PLAN's bound again from FETCH on",
        Answering(|kitchen, asking| put_back(kitchen, asking, |command| command == Command::Fetch)),
    ),
    (
        "in force for the next plan, too",
        Answering(|kitchen, asking| {
            let (bound, opened) = (kitchen.naive.m, kitchen.opened);
            let reply = kitchen.answer(asking);
            let opens = matches!(whole(asking), Some(Command::Plan { .. }));
            if opens && reply.number == 0 && bound != opened {
                kitchen.naive.m = bound;
            }
            reply
        }),
    ),
    (
        "fullness of PLAN's bound",
        Showing(|kitchen| Shown {
            fullness: by_opened(kitchen).fullness(),
            ..Shown::of(&kitchen.naive)
        }),
    ),
    (
        "PLAN's bound written",
        Showing(|kitchen| Shown {
            written: by_opened(kitchen).written(Plan::WRITTEN),
            ..Shown::of(&kitchen.naive)
        }),
    ),
    (
        "the lack of PLAN's bound",
        Showing(|kitchen| {
            let mut shown = Shown::of(&kitchen.naive);
            let larger = (kitchen.naive.m as u32).wrapping_sub(kitchen.opened as u32);
            for why in &mut shown.whys {
                if let Reason::NotBooked { lack, .. } = why {
                    *lack = lack.wrapping_add(larger);
                }
            }
            shown
        }),
    ),
];

/// So small that the naive kitchen is fast.
const LARGEST: u16 = 40;

/// A list of askings, each with what has to be answered and shown.
type Right = Vec<(Asking, (Reply, Shown))>;

/// The lists of some seeds that open small plans only.
fn lists(seeds: std::ops::Range<u64>) -> Vec<Right> {
    let is_small = |asking: &Asking| match whole(asking) {
        Some(Command::Plan { tasks, .. }) => tasks <= LARGEST || tasks > 1024,
        _ => true,
    };
    let lists = seeds.map(askings).filter(|list| list.iter().all(is_small));
    lists.map(right).collect()
}

fn right(list: Vec<Asking>) -> Right {
    let mut kitchen = Kitchen::new();
    let mut answer = |asking: &Asking| {
        let reply = kitchen.answer(asking);
        (reply, Shown::of(&kitchen.naive))
    };
    list.into_iter()
        .map(|asking| {
            let right = answer(&asking);
            (asking, right)
        })
        .collect()
}

/// Whether some list has an asking that a wrong way answers or shows otherwise.
fn is_shown(lists: &[Right], way: Way) -> bool {
    lists.iter().any(|list| {
        let mut kitchen = Kitchen::new();
        list.iter()
            .any(|(asking, right)| kitchen.goes_astray(way, asking, right))
    })
}

#[test]
fn each_wrong_way_is_shown() {
    for seeds in [0..300, 300..600] {
        let lists = lists(seeds);
        for (mistake, way) in ASTRAY {
            assert!(is_shown(&lists, way), "{mistake}");
        }
    }
}

/// A kitchen that does not go astray is not shown to.
#[test]
fn the_right_way_is_not_shown() {
    let lists = lists(0..50);
    let taking = Taking(take_checked);
    let answering = Answering(Kitchen::answer);
    let showing = Showing(|kitchen| Shown::of(&kitchen.naive));
    for way in [taking, answering, showing] {
        assert!(!is_shown(&lists, way));
    }
}
