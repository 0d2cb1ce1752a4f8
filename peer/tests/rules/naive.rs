//! The rules written down once more, sentence by sentence and with no care
//! for speed: every sum is taken anew each time it is asked for.

use peer::{Phase, Reason};

#[derive(Clone, Copy, PartialEq)]
enum State {
    Waiting,
    Booked,
    Running,
    Ended,
}

/// The answer to a command, with the starts themselves.
#[derive(Debug, Default, PartialEq)]
pub struct Reply {
    pub number: u8,
    pub used: usize,
    pub starts: Vec<u16>,
    pub peak: usize,
    pub peak_task: usize,
    pub offers: usize,
}

/// A plan. Lists by step have an unused entry 0, so that a step is its index.
#[derive(Clone)]
pub struct Naive {
    pub phase: Phase,
    pub n: usize,
    p: usize,
    /// The bound in force.
    pub m: usize,
    parent: Vec<usize>,
    work: Vec<usize>,
    out: Vec<usize>,
    pub activation: Vec<usize>,
    pub execution: Vec<usize>,
    state: Vec<State>,
    booked: Vec<usize>,
}

impl Naive {
    pub fn new() -> Naive {
        Naive {
            phase: Phase::Empty,
            n: 0,
            p: 0,
            m: 0,
            parent: vec![],
            work: vec![],
            out: vec![],
            activation: vec![],
            execution: vec![],
            state: vec![],
            booked: vec![],
        }
    }

    pub fn command(&mut self, bytes: &[u8], place: usize, starts_len: usize) -> Reply {
        match self.answer(bytes, place, starts_len) {
            Ok(reply) => reply,
            Err(number) => Reply {
                number,
                ..Reply::default()
            },
        }
    }

    fn answer(&mut self, bytes: &[u8], place: usize, starts_len: usize) -> Result<Reply, u8> {
        refuse(10, starts_len < 64)?;
        refuse(1, place >= bytes.len())?;
        let width = match bytes[place] {
            0x01 => 7,
            0x02 => 6,
            0x03 | 0x04 | 0x06 => 2,
            0x05 | 0x07 => 0,
            0x08 => 4,
            _ => return Err(2),
        };
        refuse(1, bytes.len() - place < 1 + width)?;
        refuse(3, !self.in_turn(bytes[place]))?;
        let operand = |at: usize, width: usize| {
            let bytes = &bytes[place + 1 + at..place + 1 + at + width];
            bytes
                .iter()
                .rev()
                .fold(0, |sum, &byte| sum * 256 + usize::from(byte))
        };
        let mut reply = Reply {
            used: 1 + width,
            ..Reply::default()
        };
        match bytes[place] {
            0x01 => self.open(operand(0, 2), operand(2, 1), operand(3, 4))?,
            0x02 => self.step(operand(0, 2), operand(2, 2), operand(4, 2))?,
            0x03 => {
                refuse(4, !(1..=self.n).contains(&operand(0, 2)))?;
                refuse(5, self.activation.contains(&operand(0, 2)))?;
                self.activation.push(operand(0, 2));
            }
            0x04 => {
                refuse(4, !(1..=self.n).contains(&operand(0, 2)))?;
                refuse(5, self.execution.contains(&operand(0, 2)))?;
                self.execution.push(operand(0, 2));
            }
            0x05 => {
                (reply.peak, reply.peak_task) = self.begin()?;
                self.book_ahead();
                reply.starts = self.start();
            }
            0x06 => {
                let j = operand(0, 2);
                refuse(4, !(1..=self.n).contains(&j))?;
                refuse(6, self.state[j] != State::Running)?;
                self.state[j] = State::Ended;
                reply.offers = self.share_out(j);
                self.book_ahead();
                reply.starts = self.start();
                if self.parent[j] == 0 {
                    self.phase = Phase::Ready;
                }
            }
            0x07 => {
                let root = self.root();
                self.booked[root] = 0;
                self.phase = Phase::Over;
            }
            _ => {
                let m = operand(0, 4);
                refuse(9, m < self.peak().0)?;
                refuse(13, m < self.booked())?;
                self.m = m;
                self.book_ahead();
                reply.starts = self.start();
            }
        }
        Ok(reply)
    }

    fn in_turn(&self, byte: u8) -> bool {
        let (activation, execution) = (self.activation.len(), self.execution.len());
        match byte {
            0x01 => self.phase != Phase::Running && self.phase != Phase::Ready,
            0x02 => self.phase == Phase::Steps,
            0x03 => self.phase == Phase::Orders && activation < self.n,
            0x04 => self.phase == Phase::Orders && execution < self.n,
            0x05 => {
                let none_or_all = execution == 0 || execution == self.n;
                self.phase == Phase::Orders && activation == self.n && none_or_all
            }
            0x06 | 0x08 => self.phase == Phase::Running,
            _ => self.phase == Phase::Ready,
        }
    }

    fn open(&mut self, n: usize, p: usize, m: usize) -> Result<(), u8> {
        refuse(4, !(1..=1024).contains(&n) || !(1..=64).contains(&p))?;
        *self = Naive {
            phase: Phase::Steps,
            n,
            p,
            m,
            parent: vec![0],
            work: vec![0],
            out: vec![0],
            ..Naive::new()
        };
        Ok(())
    }

    fn step(&mut self, parent: usize, work: usize, out: usize) -> Result<(), u8> {
        refuse(4, parent > self.n)?;
        self.parent.push(parent);
        self.work.push(work);
        self.out.push(out);
        if self.parent.len() == self.n + 1 {
            self.phase = Phase::Orders;
        }
        Ok(())
    }

    /// Checks 7, 8 and 9; answers the peak and its step.
    fn begin(&mut self) -> Result<(usize, usize), u8> {
        let roots = self.steps().filter(|&i| self.parent[i] == 0).count();
        refuse(7, roots != 1)?;
        let place = |i: usize| self.activation.iter().position(|&entry| entry == i);
        let stands_well = |i: usize| self.parent[i] == 0 || place(i) < place(self.parent[i]);
        refuse(8, !self.steps().all(stands_well))?;
        let (peak, peak_task) = self.peak();
        refuse(9, peak > self.m)?;
        self.phase = Phase::Running;
        self.state = vec![State::Waiting; self.n + 1];
        self.booked = vec![0; self.n + 1];
        Ok((peak, peak_task))
    }

    /// The execution order: of a plan that began without one, the activation
    /// order.
    fn execution_order(&self) -> &[usize] {
        let has_begun = matches!(self.phase, Phase::Running | Phase::Ready | Phase::Over);
        if has_begun && self.execution.is_empty() {
            &self.activation
        } else {
            &self.execution
        }
    }

    fn steps(&self) -> std::ops::RangeInclusive<usize> {
        1..=self.n
    }

    /// The step with parent 0, of which BEGIN found exactly one.
    fn root(&self) -> usize {
        self.steps().find(|&i| self.parent[i] == 0).unwrap()
    }

    fn children(&self, i: usize) -> impl Iterator<Item = usize> + '_ {
        self.steps().filter(move |&child| self.parent[child] == i)
    }

    pub fn need(&self, i: usize) -> usize {
        let outs: usize = self.children(i).map(|child| self.out[child]).sum();
        outs + self.work[i] + self.out[i]
    }

    /// What the cold room holds while each step of the activation order runs.
    pub fn sums(&self) -> Vec<usize> {
        let while_running = |k: usize| {
            let i = self.activation[k];
            let ended = &self.activation[..k];
            let run_or_running = &self.activation[..=k];
            let outs: usize = ended
                .iter()
                .filter(|&&j| !run_or_running.contains(&self.parent[j]))
                .map(|&j| self.out[j])
                .sum();
            self.need(i) + outs
        };
        (0..self.n).map(while_running).collect()
    }

    /// The largest sum, and the first step in the activation order that has it.
    pub fn peak(&self) -> (usize, usize) {
        let sums = self.sums();
        let peak = *sums.iter().max().unwrap();
        let first = sums.iter().position(|&sum| sum == peak).unwrap();
        (peak, self.activation[first])
    }

    /// The subtree figure: the booked trays of a step and of all below it.
    fn subtree_figure(&self, i: usize) -> usize {
        let below: usize = self
            .children(i)
            .map(|child| self.subtree_figure(child))
            .sum();
        self.booked[i] + below
    }

    fn sum_of_booked(&self) -> usize {
        self.booked.iter().sum()
    }

    pub fn first_waiting(&self) -> Option<usize> {
        let mut order = self.activation.iter().copied();
        order.find(|&i| self.state[i] == State::Waiting)
    }

    /// The missing trays of the first waiting step.
    fn missing(&self, i: usize) -> usize {
        let of_children: usize = self
            .children(i)
            .map(|child| self.subtree_figure(child))
            .sum();
        self.need(i).saturating_sub(self.booked[i] + of_children)
    }

    pub fn book_ahead(&mut self) {
        while let Some(i) = self.first_waiting() {
            if !self.book(i) {
                return;
            }
        }
    }

    /// Books a step if B + missing is at most M; answers whether it is.
    pub fn book(&mut self, i: usize) -> bool {
        let missing = self.missing(i);
        let fits = self.sum_of_booked() + missing <= self.m;
        if fits {
            self.booked[i] += missing;
            self.state[i] = State::Booked;
        }
        fits
    }

    pub fn start(&mut self) -> Vec<u16> {
        let mut starts = vec![];
        while self.count(State::Running) < self.p {
            let may_start = |i: usize| {
                self.state[i] == State::Booked
                    && self
                        .children(i)
                        .all(|child| self.state[child] == State::Ended)
            };
            let mut order = self.execution_order().iter().copied();
            let Some(i) = order.find(|&i| may_start(i)) else {
                break;
            };
            self.state[i] = State::Running;
            starts.push(i as u16);
        }
        starts
    }

    fn share_out(&mut self, j: usize) -> usize {
        let mut r = self.booked[j];
        self.booked[j] = 0;
        if self.parent[j] != 0 {
            self.booked[self.parent[j]] += self.out[j];
            r -= self.out[j];
        } else {
            self.booked[j] = self.out[j];
        }
        let mut offers = 0;
        let mut i = self.parent[j];
        while i != 0 && self.state[i] != State::Waiting && r != 0 {
            let gift = self.need(i).saturating_sub(self.subtree_figure(i));
            self.booked[i] += gift;
            r -= gift;
            offers += 1;
            i = self.parent[i];
        }
        offers
    }

    fn count(&self, state: State) -> usize {
        self.steps().filter(|&i| self.state[i] == state).count()
    }

    pub fn booked(&self) -> usize {
        match self.phase {
            Phase::Running | Phase::Ready => self.sum_of_booked(),
            _ => 0,
        }
    }

    pub fn booked_by(&self, i: usize) -> usize {
        match self.phase {
            Phase::Running | Phase::Ready if self.steps().contains(&i) => self.booked[i],
            _ => 0,
        }
    }

    pub fn in_use(&self) -> usize {
        match self.phase {
            Phase::Running => self.in_use_while_running(),
            Phase::Ready => self.out[self.root()],
            _ => 0,
        }
    }

    fn in_use_while_running(&self) -> usize {
        let needs: usize = self
            .steps()
            .filter(|&i| self.state[i] == State::Running)
            .map(|i| self.need(i))
            .sum();
        let outs: usize = self
            .steps()
            .filter(|&i| self.state[i] == State::Ended && self.parent[i] != 0)
            .filter(|&i| matches!(self.state[self.parent[i]], State::Waiting | State::Booked))
            .map(|i| self.out[i])
            .sum();
        needs + outs
    }

    pub fn fullness(&self) -> usize {
        let b = self.booked();
        if self.m == 0 {
            0
        } else if b >= self.m {
            1000
        } else {
            1000 * b / self.m
        }
    }

    pub fn standing(&self) -> [usize; 4] {
        if !matches!(self.phase, Phase::Running | Phase::Ready | Phase::Over) {
            return [0; 4];
        }
        [State::Waiting, State::Booked, State::Running, State::Ended].map(|state| self.count(state))
    }

    /// Why a step isn't starting.
    pub fn why(&self, i: usize) -> Reason {
        if self.phase != Phase::Running {
            return Reason::Refused(3);
        }
        if !self.steps().contains(&i) {
            return Reason::Refused(4);
        }
        match self.state[i] {
            State::Ended => Reason::Ended,
            State::Running => Reason::Running,
            State::Waiting => self.lack_of_first_waiting(),
            State::Booked => self.what_keeps_booked(i),
        }
    }

    fn lack_of_first_waiting(&self) -> Reason {
        let first = self.first_waiting().unwrap();
        let lack = self.sum_of_booked() + self.missing(first) - self.m;
        Reason::NotBooked {
            first: first as u16,
            lack: lack as u32,
        }
    }

    fn what_keeps_booked(&self, i: usize) -> Reason {
        let mut children = self.children(i);
        if let Some(child) = children.find(|&child| self.state[child] != State::Ended) {
            return Reason::Unfed(child as u16);
        }
        assert_eq!(self.count(State::Running), self.p);
        Reason::NoProcessor
    }

    /// The plan written into a list of so many bytes.
    pub fn written(&self, list_len: usize) -> Result<Vec<u8>, u8> {
        let orders = [&self.activation[..], self.execution_order()];
        let are_complete = orders.iter().all(|order| order.len() == self.n);
        refuse(3, self.n == 0 || !are_complete)?;
        refuse(11, list_len < 8 + 13 * self.n)?;
        let mut bytes = vec![];
        say(&mut bytes, 0x01, &[(self.n, 2), (self.p, 1), (self.m, 4)]);
        for i in self.steps() {
            let (parent, work, out) = (self.parent[i], self.work[i], self.out[i]);
            say(&mut bytes, 0x02, &[(parent, 2), (work, 2), (out, 2)]);
        }
        for (byte, order) in [0x03, 0x04].into_iter().zip(orders) {
            for &i in order {
                say(&mut bytes, byte, &[(i, 2)]);
            }
        }
        Ok(bytes)
    }
}

/// Adds a command: its byte and its operands, each with its width in bytes.
fn say(bytes: &mut Vec<u8>, byte: u8, operands: &[(usize, u32)]) {
    bytes.push(byte);
    for &(number, width) in operands {
        bytes.extend((0..width).map(|place| (number / 256usize.pow(place) % 256) as u8));
    }
}

/// Refuses with this number where its ground holds.
pub fn refuse(number: u8, ground: bool) -> Result<(), u8> {
    if ground {
        Err(number)
    } else {
        Ok(())
    }
}
