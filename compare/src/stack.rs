//! How much stack each exported function takes: `stack`. A thread's stack is
//! painted below the caller, and what a call has written over is counted. It
//! fails where that is more than 32 KB.

use cephlouk::{desk_peak_in, fullness, Plan, TaskRecord};
use compare::day::Day;
use compare::kept::give;
use peer::generate::{encode, Shape};
use peer::Command;
use std::collections::BTreeMap;
use std::hint::black_box;
use std::process::ExitCode;

/// The most that a call may take.
const MOST: usize = 32 << 10;
/// So much is painted, four times the most.
const PAINTED: usize = 4 * MOST;
/// Nearer to the caller's own variables nothing is painted: what a call takes
/// is this at least.
const GAP: usize = 512;
/// A stack with room for what is painted and its caller.
const STACK: usize = 16 * MOST;
const PAINT: u64 = 0xa5c3_96e1_0f1e_2d4b;

/// The most stack that a call of each function took, by its name.
#[derive(Default)]
struct Depths(BTreeMap<&'static str, usize>);

impl Depths {
    fn note(&mut self, name: &'static str, mut call: impl FnMut()) {
        let depth = depth(&mut call);
        let most = self.0.entry(name).or_default();
        *most = depth.max(*most);
    }

    /// Every command of a day, every question after it, and the plan written out
    /// and an order found when it is over.
    fn note_day(&mut self, day: &Day, plan: &mut Plan) {
        let mut starts = [0; Plan::LEAST_STARTS];
        let mut place = 0;
        while place < day.bytes.len() {
            let mut used = 0;
            self.note(name(day.bytes[place]), || {
                used = plan.command_with(&day.bytes, place, &mut starts).used;
            });
            place += used;
            self.note_questions(plan);
        }
        self.note("cephlouk_plan_command, refused", || {
            black_box(plan.command_with(&day.bytes, place, &mut starts));
        });
        let mut list = vec![0; Plan::MOST_BYTES];
        self.note("cephlouk_plan_write", || {
            black_box(plan.write(&mut list)).expect("a written plan");
        });
        let mut order = [0; Plan::MAX_TASKS];
        self.note("cephlouk_plan_find_order", || {
            black_box(plan.find_order(&mut order)).expect("an order");
        });
    }

    /// BEGIN of a day where no 04 was given.
    fn note_one_order(&mut self, day: &Day) {
        let mut plan = day.led(Plan::new(), day.activated());
        self.note(name(day.bytes[day.begin().start]), || {
            day.run(day.begin(), &mut plan, &mut [0; Plan::LEAST_STARTS]);
        });
    }

    /// 08 halfway through a day, with places for all tasks that wait.
    fn note_bound(&mut self, day: &Day) {
        let mut plan = day.led(Plan::new(), day.halfway());
        let bytes = encode(Command::Places(u32::MAX));
        let mut starts = [0; Plan::LEAST_STARTS];
        self.note(name(bytes[0]), || {
            give(&mut plan, &bytes, 0..bytes.len(), &mut starts);
        });
    }

    fn note_questions(&mut self, plan: &Plan) {
        self.note("cephlouk_plan_phase", || {
            black_box(plan.phase());
        });
        self.note("cephlouk_plan_booked", || {
            black_box(plan.booked());
        });
        self.note("cephlouk_plan_in_use", || {
            black_box(plan.in_use());
        });
        self.note("cephlouk_plan_fullness", || {
            black_box(plan.fullness());
        });
        self.note("cephlouk_thousandths", || {
            black_box(fullness(black_box(u32::MAX - 1), u32::MAX));
        });
        self.note("cephlouk_plan_standing", || {
            black_box(plan.standing());
        });
        for task in [1, Plan::MAX_TASKS as u16] {
            self.note("cephlouk_plan_why", || {
                let _ = black_box(plan.why(task));
            });
        }
    }

    /// PLAN made bytes of, and read from them: no command has more.
    fn note_bytes(&mut self) {
        let command = black_box(cephlouk::Command::Plan {
            steps: 1,
            stations: 1,
            places: 1,
        });
        self.note("cephlouk_encode", || {
            black_box(command.encode());
        });
        let bytes = command.encode();
        self.note("cephlouk_decode", || {
            black_box(cephlouk::Command::decode(&bytes)).expect("a command");
        });
    }

    /// A star of the most tasks, at the desk.
    fn note_desk(&mut self) {
        let mut records = vec![
            TaskRecord {
                parent: Plan::MAX_TASKS as u16,
                work: 1,
                out: 1,
            };
            Plan::MAX_TASKS
        ];
        records[Plan::MAX_TASKS - 1].parent = 0;
        let activation: Vec<u16> = (1..=Plan::MAX_TASKS as u16).collect();
        let mut room = Box::new([0; Plan::WORDS]);
        self.note("cephlouk_records_peak", || {
            black_box(desk_peak_in(&records, &activation, &mut room)).expect("a peak");
        });
    }
}

fn name(byte: u8) -> &'static str {
    match byte {
        0x01 => "cephlouk_plan_command, PLAN",
        0x02 => "cephlouk_plan_command, STEP",
        0x03 => "cephlouk_plan_command, 03",
        0x04 => "cephlouk_plan_command, 04",
        0x05 => "cephlouk_plan_command, BEGIN",
        0x06 => "cephlouk_plan_command, DONE",
        0x07 => "cephlouk_plan_command, FETCH",
        _ => "cephlouk_plan_command, 08",
    }
}

/// How many bytes of stack a call takes.
#[inline(never)]
fn depth(call: &mut dyn FnMut()) -> usize {
    let here = 0u64;
    let top = (&raw const here).wrapping_byte_sub(GAP).cast_mut();
    // SAFETY: the stack of this thread has room for so many bytes below, and
    // no variable lies there before the call and after it.
    unsafe {
        for word in 1..=PAINTED / 8 {
            top.sub(word).write_volatile(PAINT);
        }
        call();
        let mut word = PAINTED / 8;
        while word > 0 && top.sub(word).read_volatile() == PAINT {
            word -= 1;
        }
        GAP + 8 * word
    }
}

fn depths() -> Depths {
    let mut depths = Depths::default();
    let mut plan = Plan::new();
    for shape in [Shape::Chain, Shape::Star, Shape::Random] {
        let day = Day::new(shape, Plan::MAX_TASKS, 64, 2);
        depths.note_day(&day, &mut plan);
        depths.note_one_order(&day);
        depths.note_bound(&day);
    }
    depths.note("cephlouk_plan_empty", || plan.clear());
    depths.note_bytes();
    depths.note_desk();
    depths
}

fn main() -> ExitCode {
    let thread = std::thread::Builder::new().stack_size(STACK).spawn(depths);
    let depths = thread.expect("a thread").join().expect("all calls done");
    for (name, depth) in &depths.0 {
        println!(
            "stack: {name}: {}{depth} bytes",
            if *depth == GAP { "at most " } else { "" }
        );
    }
    match depths.0.values().max() {
        Some(&most) if most <= MOST => {
            println!("stack: no call takes more than {most} bytes");
            ExitCode::SUCCESS
        }
        _ => {
            println!("stack: more than {MOST} bytes");
            ExitCode::FAILURE
        }
    }
}
