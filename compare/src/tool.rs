//! A tool beside the peer's: it is asked where the commands of a stream led to
//! a plan, cut at any of them, and with good and bad operands.

use crate::kept::{give, is_whole, Kept};
use peer::generate::{stream, Random};
use peer::{decode, Command, Plan};
use std::collections::BTreeMap;
use std::fmt::Debug;
use std::panic::{catch_unwind, AssertUnwindSafe};

/// A tool, as the peer has it.
pub trait Tool {
    /// Its operands and lists. A list that is lent for writing holds marks.
    type Lent: Clone + Debug + PartialEq;

    /// The commands that lead to the plan of a case.
    fn commands(random: &mut Random, seed: u64) -> Vec<u8> {
        cut_anywhere(random, seed)
    }

    /// What is lent where these commands led to a plan, some of it with flaws.
    fn lend(random: &mut Random, commands: &[u8]) -> Self::Lent;

    /// How many numbers one answer has. The first is that of the refusal, or 0.
    const NUMBERS: usize;

    /// The numbers of all that is answered.
    fn answer(commands: &[u8], lent: &mut Self::Lent) -> Vec<u64>;
}

/// How many moments of a plan are told apart: its six phases, of which orders
/// is three.
const MOMENTS: usize = 8;

/// The least length that 16 bits do not hold.
const PAST_16_BITS: usize = 1 << 16;
/// A list of any length has fewer than so many entries more than needed.
const MORE: usize = 100;

/// How many answers had which first number.
pub type Tally = BTreeMap<u64, u64>;

/// Compares the answers and all that was lent, afterwards. An error tells the
/// first difference, or the first case that panics.
pub fn compare<T: Tool>(
    proved: impl Fn(&[u8], &mut T::Lent) -> Vec<u64>,
    cases: u64,
) -> Result<Tally, String> {
    let mut tally = Tally::new();
    for seed in 0..cases {
        let random = &mut Random::new(!seed);
        let commands = T::commands(random, seed);
        let lent = T::lend(random, &commands);
        let (mut left, mut left_by_peer) = (lent.clone(), lent.clone());
        let case = format!("seed {seed}, after {} bytes of commands", commands.len());
        let got = catch_unwind(AssertUnwindSafe(|| proved(&commands, &mut left)))
            .map_err(|_| format!("{case}: a panic"))?;
        let wanted = T::answer(&commands, &mut left_by_peer);
        if (&got, &left) != (&wanted, &left_by_peer) {
            return Err(format!(
                "{case}, given {lent:?}\n\
                 proved: {got:?}, leaving {left:?}\npeer:   {wanted:?}, leaving {left_by_peer:?}"
            ));
        }
        for answer in wanted.chunks(T::NUMBERS) {
            *tally.entry(answer[0]).or_default() += 1;
        }
    }
    Ok(tally)
}

/// A plan with all of some commands, which it accepts.
pub fn led<P: Kept>(mut plan: P, commands: &[u8]) -> P {
    give(
        &mut plan,
        commands,
        0..commands.len(),
        &mut [0; Plan::STARTS],
    );
    plan
}

/// A list to be written to, with a mark in each place, where so many entries
/// are needed, and `most` by any plan. Mostly it has exactly so many, one fewer or
/// one more; else any number, none, one, the most, or more than 16 bits hold.
pub fn lent_list(random: &mut Random, needed: usize, most: usize) -> Vec<u16> {
    let length = match random.between(0, 9) {
        0..=3 => needed,
        4 | 5 => needed.saturating_sub(1),
        6 | 7 => needed + 1,
        8 => random.below(needed + MORE),
        _ => random.pick(&[0, 1, most, PAST_16_BITS]),
    };
    let mark = |_| random.between(0, u16::MAX.into()) as u16;
    (0..length).map(mark).collect()
}

/// The commands of the last plan, its PLAN the first.
pub fn last_plan(commands: &[u8]) -> Vec<Command> {
    let mut last = Vec::new();
    let mut place = 0;
    while let Ok((command, used)) = decode(commands, place) {
        if let Command::Plan { .. } = command {
            last.clear();
        }
        last.push(command);
        place += used;
    }
    last
}

/// How many tasks the last plan has.
pub fn tasks(commands: &[u8]) -> u16 {
    match last_plan(commands)[..] {
        [Command::Plan { tasks, .. }, ..] => tasks,
        _ => 0,
    }
}

/// The bounds of the last plan: that of PLAN, and those of 08.
pub fn given_bounds(commands: &[u8]) -> Vec<u32> {
    let bound = |command| match command {
        Command::Plan { memory_bound, .. } => Some(memory_bound),
        Command::Places(bound) => Some(bound),
        _ => None,
    };
    last_plan(commands).into_iter().filter_map(bound).collect()
}

/// A stream's commands up to any of those that an empty plan accepts. Each
/// moment that it comes to is as likely as the others.
pub fn cut_anywhere(random: &mut Random, seed: u64) -> Vec<u8> {
    let stream = &stream(seed);
    let mut plan = Plan::new();
    let mut ends = [const { Vec::new() }; MOMENTS];
    let mut place = 0;
    loop {
        ends[moment(&plan)].push(place);
        let answer = plan.command(stream, place, &mut [0; Plan::STARTS]);
        if answer.number != 0 {
            break;
        }
        place += answer.used;
    }
    let reached = ends.iter().filter(|ends| !ends.is_empty());
    let of_moment = random.pick(&reached.collect::<Vec<_>>());
    stream[..random.pick(of_moment)].to_vec()
}

/// The moment of a plan: its phase; and of orders, those by themselves at which
/// BEGIN is in turn, with both orders and with the activation order alone.
fn moment(plan: &Plan) -> usize {
    match (plan.may_begin(), is_whole(plan)) {
        (true, true) => MOMENTS - 2,
        (true, false) => MOMENTS - 1,
        _ => plan.phase() as usize,
    }
}

#[cfg(test)]
mod tests {
    use super::*;
    use crate::lists::Desk;
    use crate::orders::FindOrder;
    use crate::plans::Write;
    use crate::reasons::{kind, Why};
    use peer::generate::encode;
    use peer::Phase;
    use std::cell::RefCell;
    use std::cmp::Ordering;
    use std::collections::BTreeSet;
    use std::ops::BitXorAssign;

    /// What is told of the peer with a fault in its answers or lists.
    fn told<T: Tool>(fault: impl Fn(&mut Vec<u64>, &mut T::Lent)) -> String {
        told_behind::<T>(|_, answer, lent| fault(answer, lent))
    }

    /// The same of a fault that goes by the commands too.
    fn told_behind<T: Tool>(fault: impl Fn(&[u8], &mut Vec<u64>, &mut T::Lent)) -> String {
        let faulty = |commands: &[u8], lent: &mut T::Lent| {
            let mut answer = T::answer(commands, lent);
            fault(commands, &mut answer, lent);
            answer
        };
        let told = compare::<T>(faulty, 1_000);
        told.expect_err("a difference")
    }

    #[test]
    fn the_peer_is_like_itself() {
        let tally = compare::<Desk>(Desk::answer, 1_000).expect("no difference");
        assert_eq!(tally.into_keys().collect::<Vec<_>>(), [0, 4, 5, 7, 8]);
    }

    #[test]
    fn a_wrong_count_is_told() {
        let told = told::<Desk>(|answer, _| answer[1] += u64::from(answer[0] == 0));
        assert!(told.starts_with("seed "), "{told}");
    }

    /// The peak's task stands last.
    #[test]
    fn another_task_is_told() {
        told::<Desk>(|answer, _| answer[2] += u64::from(answer[0] == 0));
        // Told with a refusal; not told with a peak of 0.
        told::<Desk>(|answer, _| answer[2] = answer[2].max(answer[0].min(1)));
        told::<Desk>(|answer, _| answer[2] *= u64::from(answer[1] > 0));
    }

    #[test]
    fn a_wrong_refusal_is_told() {
        told::<Desk>(|answer, _| answer[0] = answer[0].min(7));
    }

    #[test]
    fn a_touched_entry_is_told() {
        told::<Desk>(|_, lent| {
            if let Some(last) = lent.activation.last_mut() {
                *last ^= 1;
            }
        });
    }

    #[test]
    fn commands_are_cut_at_every_moment() {
        let moments = (0..200).map(|seed| {
            let commands = cut_anywhere(&mut Random::new(seed), seed);
            moment(&led(Plan::new(), &commands))
        });
        let moments: BTreeSet<usize> = moments.collect();
        assert_eq!(moments, (0..MOMENTS).collect());
    }

    #[test]
    fn every_answer_of_the_writer_comes() {
        let tally = compare::<Write>(Write::answer, 1_000).expect("no difference");
        assert_eq!(tally.into_keys().collect::<Vec<_>>(), [0, 3, 11]);
    }

    /// A fault in one entry of the lists where answers have one number: in the
    /// entry at the place that is told of the count.
    fn entry_told<T, Entry>(number: u64, place: fn(usize) -> usize) -> String
    where
        T: Tool<Lent = Vec<Entry>>,
        Entry: BitXorAssign + From<u8>,
    {
        told::<T>(|answer, lent| {
            if answer[0] == number {
                if let Some(entry) = lent.get_mut(place(answer[1] as usize)) {
                    *entry ^= 1.into();
                }
            }
        })
    }

    #[test]
    fn another_entry_written_is_told() {
        let middle = |count| count / 2;
        let told = entry_told::<Write, u8>(0, middle);
        assert!(told.starts_with("seed "), "{told}");
        entry_told::<FindOrder, u16>(0, middle);
    }

    /// In each phase in which 08 may have changed it.
    #[test]
    fn the_bound_of_plan_written_is_told() {
        for phase in [Phase::Running, Phase::Ready, Phase::Over] {
            told_behind::<Write>(|commands, answer, lent| {
                if answer[0] == 0 && led(Plan::new(), commands).phase() == phase {
                    let opening = encode(last_plan(commands)[0]);
                    lent[..opening.len()].copy_from_slice(&opening);
                }
            });
        }
    }

    #[test]
    fn an_entry_touched_behind_is_told() {
        entry_told::<Write, u8>(0, |count| count);
        entry_told::<FindOrder, u16>(0, |count| count);
    }

    #[test]
    fn an_entry_touched_by_a_refusal_is_told() {
        for number in [3, 11] {
            entry_told::<Write, u8>(number, |_| 0);
        }
        for number in [3, 7, 11, 12] {
            entry_told::<FindOrder, u16>(number, |_| 0);
        }
    }

    #[test]
    fn another_count_of_entries_is_told() {
        told::<Write>(|answer, _| answer[1] += u64::from(answer[0] == 0));
        told::<FindOrder>(|answer, _| answer[1] += u64::from(answer[0] == 0));
    }

    /// BEGIN's number, its peak and the peak's task stand behind the count.
    #[test]
    fn another_begin_is_told() {
        told::<FindOrder>(|answer, _| answer[3] += u64::from(answer[3] > 0));
        told::<FindOrder>(|answer, _| answer[4] += u64::from(answer[4] > 0));
        told::<FindOrder>(|answer, _| {
            if answer[2] == 9 {
                answer[2] = 0;
            }
        });
    }

    #[test]
    fn a_panic_is_told() {
        let told = told::<FindOrder>(|_, _| panic!("a fault"));
        assert!(told.starts_with("seed "), "{told}");
    }

    #[test]
    fn another_refusal_to_write_is_told() {
        told::<Write>(|answer, _| answer[0] = answer[0].min(3));
        told::<FindOrder>(|answer, _| answer[0] = answer[0].min(11));
    }

    /// A reason is a refusal, which one it is, a task and a lack.
    #[test]
    fn every_reason_is_told() {
        let told = RefCell::new(BTreeSet::new());
        let noting = |commands: &[u8], lent: &mut <Why as Tool>::Lent| {
            let answer = Why::answer(commands, lent);
            told.borrow_mut().extend(
                answer
                    .chunks(Why::NUMBERS)
                    .map(|reason| [reason[0], reason[1]]),
            );
            answer
        };
        compare::<Why>(noting, 1_000).expect("no difference");
        let all = [
            [0, kind::ENDED],
            [0, kind::RUNNING],
            [0, kind::NOT_BOOKED],
            [0, kind::UNFED],
            [0, kind::NO_PROCESSOR],
            [3, kind::REFUSED],
            [4, kind::REFUSED],
        ];
        assert_eq!(told.into_inner(), all.into());
    }

    /// A fault in the reasons of one kind.
    fn reason_told(of_kind: u64, fault: fn(&mut [u64])) -> String {
        told::<Why>(|answer, _| {
            answer
                .chunks_mut(Why::NUMBERS)
                .filter(|reason| reason[1] == of_kind)
                .for_each(fault);
        })
    }

    #[test]
    fn a_wrong_lack_is_told() {
        let told = reason_told(kind::NOT_BOOKED, |reason| reason[3] += 1);
        assert!(told.starts_with("seed "), "{told}");
    }

    /// Where the bound in force is smaller, and where it is larger.
    #[test]
    fn a_lack_by_the_bound_of_plan_is_told() {
        for ordering in [Ordering::Less, Ordering::Greater] {
            told_behind::<Why>(|commands, answer, _| {
                let [of_plan, .., in_force] = given_bounds(commands)[..] else {
                    return;
                };
                if in_force.cmp(&of_plan) == ordering {
                    let [of_plan, in_force] = [of_plan, in_force].map(u64::from);
                    answer
                        .chunks_mut(Why::NUMBERS)
                        .filter(|reason| reason[1] == kind::NOT_BOOKED)
                        .for_each(|reason| {
                            reason[3] = (reason[3] + in_force).saturating_sub(of_plan)
                        });
                }
            });
        }
    }

    #[test]
    fn another_first_task_is_told() {
        reason_told(kind::NOT_BOOKED, |reason| reason[2] ^= 1);
    }

    #[test]
    fn another_child_is_told() {
        reason_told(kind::UNFED, |reason| reason[2] += 1);
    }

    #[test]
    fn refusals_exchanged_are_told() {
        reason_told(kind::REFUSED, |reason| reason[0] = 3 + 4 - reason[0]);
    }

    #[test]
    fn a_later_reason_is_told() {
        reason_told(kind::UNFED, |reason| {
            reason.copy_from_slice(&[0, kind::NO_PROCESSOR, 0, 0]);
        });
    }
}
