//! Many plans beside the peer's, several of them open at once and asked in
//! turn, so that nothing can be shared between them unseen.

use crate::answered::Answered;
use crate::bounds::Bounds;
use crate::fence::{Fence, Side};
use crate::kept::{Kept, Questions};
use crate::tally::Tally;
use cephlouk::{Answer, Plan};
use peer::generate::{many_askings, Asking, Random};
use peer::{decode, Command};
use std::vec::IntoIter;

/// How many plans are open at once.
pub const OPEN: usize = 6;
/// How many askings one plan has before another one's turn, at most.
const ROUND: usize = 12;
/// The longest start list.
const LONGEST_LIST: usize = 70;
/// The most bytes that are put ahead of those of an asking.
const AHEAD: usize = 70_000;
/// Longer than any bytes of an asking of the generator.
const BYTES: usize = 1_000;

/// Compares until so many askings had the same answer by both. An error tells
/// the first difference: the seed, the number of the asking and both answers.
pub fn compare<P: Kept>(
    open: impl Fn(u64) -> P,
    askings: u64,
    first_seed: u64,
) -> Result<Tally, String> {
    let random = &mut Random::new(!first_seed);
    let mut lists = Lists::new();
    let mut tally = Tally::default();
    let mut seeds = first_seed..;
    let mut pairs = Vec::new();
    for seed in seeds.by_ref().take(OPEN) {
        pairs.push(Pair::new(open(seed), seed, random));
        tally.plans += 1;
    }
    while tally.askings < askings {
        let pair = &mut pairs[random.below(OPEN)];
        for _ in 0..=random.below(ROUND) {
            let Some(asking) = pair.askings.next() else {
                let seed = seeds.next().expect("a seed");
                pair.turn_to(&open, seed, random)?;
                tally.plans += 1;
                break;
            };
            let asking = recast(random, asking);
            pair.ask(&asking, random, &mut lists, &mut tally)?;
        }
    }
    Ok(tally)
}

/// A plan, and the peer's beside it.
struct Pair<P> {
    seed: u64,
    askings: IntoIter<Asking>,
    /// How many askings it had.
    asked: usize,
    plan: P,
    /// The words of the plan after its last asking.
    words: Vec<u32>,
    peer: peer::Plan,
    bounds: Bounds,
}

/// What comes of an asking.
#[derive(PartialEq, Eq)]
struct Outcome {
    answer: Answer,
    starts: Vec<u16>,
    questions: Questions,
    /// The number that refuses an order, after a BEGIN that was refused. After
    /// every asking it would take most of the time.
    order: Option<u8>,
    /// M, after an 08 that was taken: no question might show it.
    bound: Option<u32>,
}

/// The lists that an asking lends, between forbidden pages.
struct Lists {
    bytes: Fence<u8>,
    starts: Fence<u16>,
}

impl<P: Kept> Pair<P> {
    fn new(plan: P, seed: u64, random: &mut Random) -> Pair<P> {
        Pair {
            seed,
            askings: askings(seed, random),
            asked: 0,
            words: plan.words().to_vec(),
            plan,
            peer: peer::Plan::new(),
            bounds: Bounds::default(),
        }
    }

    /// Goes on with the askings of another seed: on the same words, which are
    /// emptied, or on a new plan.
    fn turn_to(
        &mut self,
        open: impl Fn(u64) -> P,
        seed: u64,
        random: &mut Random,
    ) -> Result<(), String> {
        if random.chance(50) {
            self.plan.clear();
            if self.plan.words().iter().any(|&word| word != 0) {
                return Err(format!(
                    "seed {}: an emptied plan has words left",
                    self.seed
                ));
            }
        } else {
            self.plan = open(seed);
        }
        self.seed = seed;
        self.askings = askings(seed, random);
        self.asked = 0;
        self.words.copy_from_slice(self.plan.words());
        self.peer.clear();
        self.bounds = Bounds::default();
        Ok(())
    }

    /// Gives one asking to both.
    fn ask(
        &mut self,
        asking: &Asking,
        random: &mut Random,
        lists: &mut Lists,
        tally: &mut Tally,
    ) -> Result<(), String> {
        if self.plan.words() != self.words {
            return Err(self.tell(asking, "words changed while other plans were asked"));
        }
        let before = self.peer.questions();
        let wanted = Outcome::of(&mut self.peer, asking);
        let sides = [Side::Front, Side::Back];
        let bytes = lists.bytes.put(&asking.bytes, random.pick(&sides));
        let starts = lists
            .starts
            .put(&marks(asking.starts_len), random.pick(&sides));
        let got = Outcome::within(&mut self.plan, bytes, asking.place, starts);
        if got != wanted {
            let both = format!("\nproved: {}\npeer:   {}", got.tell(), wanted.tell());
            return Err(self.tell(asking, &both));
        }
        if bytes != asking.bytes {
            return Err(self.tell(asking, "the bytes were written to"));
        }
        if wanted.answer.number == 0 {
            self.words.copy_from_slice(self.plan.words());
        } else if self.plan.words() != self.words {
            return Err(self.tell(asking, "a refusal changed words of the plan"));
        }
        let answered = Answered::new(asking, wanted.answer, before, wanted.questions);
        tally.add(&answered, self.bounds, &self.peer);
        self.bounds.follow(&answered);
        self.asked += 1;
        Ok(())
    }

    fn tell(&self, asking: &Asking, what: &str) -> String {
        let ahead = asking.bytes.get(asking.place..).unwrap_or(&[]);
        format!(
            "seed {}, asking {} counted from 0, {} bytes, place {}: {:02x?}, {} entries: {what}",
            self.seed,
            self.asked,
            asking.bytes.len(),
            asking.place,
            &ahead[..ahead.len().min(8)],
            asking.starts_len
        )
    }
}

impl Lists {
    fn new() -> Lists {
        Lists {
            bytes: Fence::new(AHEAD + BYTES),
            starts: Fence::new(LONGEST_LIST),
        }
    }
}

impl Outcome {
    /// With lists of its own.
    fn of(plan: &mut impl Kept, asking: &Asking) -> Outcome {
        let starts = &mut marks(asking.starts_len);
        Outcome::within(plan, &asking.bytes, asking.place, starts)
    }

    /// With lists that are lent.
    fn within(plan: &mut impl Kept, bytes: &[u8], place: usize, starts: &mut [u16]) -> Outcome {
        let answer = plan.command(bytes, place, starts);
        let is_accepted = answer.number == 0;
        let command = decode(bytes, place);
        let is_refused_begin = matches!(command, Ok((Command::Begin, _))) && !is_accepted;
        let is_taken_bound = matches!(command, Ok((Command::Places(_), _))) && is_accepted;
        Outcome {
            answer,
            starts: starts.to_vec(),
            questions: plan.questions(),
            order: is_refused_begin.then(|| plan.order_refusal()),
            bound: is_taken_bound.then(|| plan.bound()),
        }
    }

    /// Of the start list only what was written.
    fn tell(&self) -> String {
        let mut told = format!("{:?} {:?}", self.answer, self.questions);
        if let Some(number) = self.order {
            told += &format!(", an order refused {number}");
        }
        if let Some(bound) = self.bound {
            told += &format!(", written with M = {bound}");
        }
        told += ", start list";
        let marks = marks(self.starts.len());
        for (place, (entry, mark)) in self.starts.iter().zip(marks).enumerate() {
            if *entry != mark {
                told += &format!(" [{place}] {entry}");
            }
        }
        told
    }
}

/// The askings of a seed, which mostly end with a day, and some anywhere.
fn askings(seed: u64, random: &mut Random) -> IntoIter<Asking> {
    let least = random.between(200, 3000) as usize;
    let mut askings = many_askings(seed, least);
    if random.chance(25) {
        askings.truncate(1 + random.below(askings.len()));
    }
    askings.into_iter()
}

/// A start list of marks, which are no step numbers.
fn marks(entries: usize) -> Vec<u16> {
    (0..entries as u16).map(|place| !place).collect()
}

/// An asking as it comes here: its start list has up to the most entries, where
/// it is too short often one too few, and sometimes there are more bytes ahead
/// of it.
fn recast(random: &mut Random, asking: Asking) -> Asking {
    let least = Plan::LEAST_STARTS;
    let starts_len = if asking.starts_len < least {
        let any = random.below(least);
        random.pick(&[least - 1, any])
    } else {
        random.between(least as u32, LONGEST_LIST as u32) as usize
    };
    let mut ahead = Vec::new();
    if random.chance(2) {
        let most = random.pick(&[10, 1000, AHEAD]);
        ahead = random.bytes(most);
    }
    Asking {
        place: asking.place.saturating_add(ahead.len()),
        bytes: [ahead, asking.bytes].concat(),
        starts_len,
    }
}

#[cfg(test)]
mod tests {
    use super::*;
    use cephlouk::{Phase, Refusal};
    use std::cell::Cell;
    use std::collections::BTreeSet;
    use std::rc::Rc;

    /// Among so many askings there is one of those looked for.
    const MORE: usize = 150;

    /// What goes wrong.
    #[derive(Clone, Copy)]
    enum Fault {
        None,
        Offers,
        By,
        StartList,
        /// The starts are not told.
        Starts,
        /// 13 is told.
        Ground,
        /// The plan stays as it was.
        Untaken,
        Finished,
        Order,
        /// Another bound is written.
        Bound,
        Word,
    }

    /// The peer with a fault in one asking.
    struct Faulty {
        plan: peer::Plan,
        words: Vec<u32>,
        asked: usize,
        at: usize,
        fault: Fault,
    }

    impl Kept for Faulty {
        fn command(&mut self, bytes: &[u8], place: usize, starts: &mut [u16]) -> Answer {
            let before = (self.asked == self.at).then(|| self.plan.clone());
            let mut answer = Kept::command(&mut self.plan, bytes, place, starts);
            if let Some(before) = before {
                match self.fault {
                    Fault::Offers => answer.offers += 1,
                    Fault::By => answer.by += 1,
                    Fault::StartList => starts[63] = 9,
                    Fault::Starts => answer.starts = 0,
                    Fault::Ground => answer.number = Refusal::BoundBelowBooked.number(),
                    Fault::Untaken => self.plan = before,
                    Fault::Word => self.words[1] = 1,
                    Fault::None | Fault::Finished | Fault::Order | Fault::Bound => {}
                }
            }
            self.asked += 1;
            answer
        }

        fn questions(&self) -> Questions {
            let mut questions = self.plan.questions();
            if let (Fault::Finished, true) = (self.fault, self.asked == self.at + 1) {
                questions.standing.finished += 1;
            }
            questions
        }

        fn order_refusal(&self) -> u8 {
            let number = self.plan.order_refusal();
            match (self.fault, self.asked == self.at + 1) {
                (Fault::Order, true) => number + 1,
                _ => number,
            }
        }

        fn bound(&self) -> u32 {
            let bound = self.plan.bound();
            match (self.fault, self.asked == self.at + 1) {
                (Fault::Bound, true) => bound ^ 1,
                _ => bound,
            }
        }

        fn words(&self) -> &[u32] {
            &self.words
        }

        fn clear(&mut self) {
            self.plan.clear();
            self.fault = Fault::None;
        }
    }

    /// What is told of a fault in an asking of a seed.
    fn told(seed: u64, at: usize, fault: Fault) -> String {
        let open = |opened| Faulty {
            plan: peer::Plan::new(),
            words: vec![0; 3],
            asked: 0,
            at,
            fault: if opened == seed { fault } else { Fault::None },
        };
        let told = compare(open, 100_000, seed - 2);
        told.err().expect("a difference")
    }

    /// Whether an asking is one of those looked for.
    type IsSuch = fn(&Answered) -> bool;

    /// The first asking of a seed, from one on, that has a start list of entries
    /// enough and is one of those looked for.
    fn first(seed: u64, from: usize, is_such: IsSuch) -> usize {
        let mut plan = peer::Plan::new();
        let answered = many_askings(seed, from + MORE).into_iter().map(|asking| {
            let before = plan.questions();
            let Outcome {
                answer, questions, ..
            } = Outcome::of(&mut plan, &asking);
            is_such(&Answered::new(&asking, answer, before, questions))
                && asking.starts_len >= Plan::LEAST_STARTS
        });
        let mut places = answered.enumerate().skip(from);
        places
            .find(|&(_, is_such)| is_such)
            .expect("such an asking")
            .0
    }

    fn is_refused(answered: &Answered) -> bool {
        !answered.is_accepted()
    }

    fn is_refused_in_ready(answered: &Answered) -> bool {
        answered.before.phase == Phase::Ready && !answered.is_accepted()
    }

    fn is_fetch(answered: &Answered) -> bool {
        answered.before.phase == Phase::Ready && answered.is_accepted()
    }

    fn is_begin(answered: &Answered) -> bool {
        answered.before.phase == Phase::Orders && answered.after.phase == Phase::Running
    }

    fn is_refused_begin(answered: &Answered) -> bool {
        answered.command == Some(Command::Begin) && !answered.is_accepted()
    }

    /// 08 below the peak and below the trays booked.
    fn is_below_both(answered: &Answered) -> bool {
        let is_below = |bound| bound < answered.before.booked;
        let is_refused = answered.answer.refusal() == Some(Refusal::PeakAboveBound);
        is_refused && matches!(answered.command, Some(Command::Places(bound)) if is_below(bound))
    }

    fn is_below_booked(answered: &Answered) -> bool {
        answered.answer.refusal() == Some(Refusal::BoundBelowBooked)
    }

    fn is_taken_bound(answered: &Answered) -> bool {
        matches!(answered.command, Some(Command::Places(_))) && answered.is_accepted()
    }

    fn is_start_by_bound(answered: &Answered) -> bool {
        is_taken_bound(answered) && answered.answer.starts > 0
    }

    /// 08 of which fullness alone tells.
    fn is_fullness_alone(answered: &Answered) -> bool {
        let Answered { before, after, .. } = *answered;
        let fullness = before.fullness;
        is_taken_bound(answered) && before != after && before == Questions { fullness, ..after }
    }

    #[test]
    fn the_peer_is_like_itself() {
        let tally = compare(|_| peer::Plan::new(), 100_000, 0).expect("no difference");
        assert!(tally.askings >= 100_000);
    }

    #[test]
    fn a_wrong_count_is_told_with_its_seed_and_asking() {
        let told = told(5, 70, Fault::Offers);
        assert!(told.starts_with("seed 5, asking 70 "), "{told}");
    }

    #[test]
    fn another_task_of_the_peak_is_told() {
        for is_such in [is_begin, is_refused, is_refused_begin, is_fetch] {
            let at = first(7, 20, is_such);
            let told = told(7, at, Fault::By);
            assert!(told.starts_with(&format!("seed 7, asking {at} ")), "{told}");
        }
    }

    #[test]
    fn a_touched_entry_is_told_with_its_list() {
        for is_such in [is_refused, is_refused_in_ready, is_fetch] {
            let at = first(49, 30, is_such);
            let told = told(49, at, Fault::StartList);
            assert!(
                told.starts_with(&format!("seed 49, asking {at} ")),
                "{told}"
            );
            assert!(told.contains("start list [63] 9\n"), "{told}");
        }
    }

    #[test]
    fn a_wrong_answer_to_08_is_told() {
        let faults: [(Fault, IsSuch); 5] = [
            (Fault::Starts, is_start_by_bound),
            (Fault::Ground, is_below_both),
            (Fault::Untaken, is_start_by_bound),
            (Fault::Untaken, is_fullness_alone),
            (Fault::Bound, is_taken_bound),
        ];
        for (fault, is_such) in faults {
            let at = first(49, 20, is_such);
            let told = told(49, at, fault);
            assert!(
                told.starts_with(&format!("seed 49, asking {at} ")),
                "{told}"
            );
        }
    }

    #[test]
    fn a_wrong_answer_to_a_question_is_told() {
        for at in [40, first(7, 40, is_fetch)] {
            let told = told(7, at, Fault::Finished);
            assert!(told.starts_with(&format!("seed 7, asking {at} ")), "{told}");
        }
    }

    #[test]
    fn a_wrong_refusal_of_an_order_is_told() {
        let at = first(7, 20, is_refused_begin);
        let told = told(7, at, Fault::Order);
        assert!(told.starts_with(&format!("seed 7, asking {at} ")), "{told}");
    }

    #[test]
    fn every_refusal_of_an_order_comes() {
        let mut plan = peer::Plan::new();
        let numbers: BTreeSet<u8> = many_askings(0, 50_000)
            .iter()
            .filter_map(|asking| Outcome::of(&mut plan, asking).order)
            .collect();
        assert_eq!(numbers, [3, 7, 11, 12].into());
    }

    #[test]
    fn a_word_that_a_refusal_changes_is_told() {
        for is_such in [
            is_refused,
            is_refused_in_ready,
            is_below_both,
            is_below_booked,
        ] {
            let at = first(49, 20, is_such);
            let told = told(49, at, Fault::Word);
            assert!(
                told.starts_with(&format!("seed 49, asking {at} ")),
                "{told}"
            );
            assert!(
                told.ends_with("a refusal changed words of the plan"),
                "{told}"
            );
        }
    }

    /// The peer with a word that the askings of one plan set in all others.
    struct Linked {
        plan: peer::Plan,
        sets: bool,
        word: Rc<Cell<bool>>,
    }

    impl Kept for Linked {
        fn command(&mut self, bytes: &[u8], place: usize, starts: &mut [u16]) -> Answer {
            self.word.set(self.word.get() || self.sets);
            Kept::command(&mut self.plan, bytes, place, starts)
        }

        fn questions(&self) -> Questions {
            self.plan.questions()
        }

        fn order_refusal(&self) -> u8 {
            self.plan.order_refusal()
        }

        fn bound(&self) -> u32 {
            self.plan.bound()
        }

        fn words(&self) -> &[u32] {
            if self.word.get() && !self.sets {
                &[1]
            } else {
                &[0]
            }
        }

        fn clear(&mut self) {
            self.plan.clear();
        }
    }

    #[test]
    fn a_word_that_another_plan_changes_is_told() {
        let word = Rc::new(Cell::new(false));
        let open = |seed| Linked {
            plan: peer::Plan::new(),
            sets: seed == 0,
            word: word.clone(),
        };
        let told = compare(open, 100_000, 0).err().expect("a difference");
        assert!(
            told.ends_with("words changed while other plans were asked"),
            "{told}"
        );
    }
}
