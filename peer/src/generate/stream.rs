//! Streams for the day printer.

use super::draft::Draft;
use super::random::Random;
use super::{day, flaw, nuisance, places};
use crate::command::Command;
use crate::encode::encode;

/// The stream of one seed.
pub fn stream(seed: u64) -> Vec<u8> {
    draw(&mut Random::new(seed))
}

/// Some plans, of which the last may be flawed and is mostly fetched, and then
/// perhaps a flaw among the commands or the bytes.
pub(crate) fn draw(random: &mut Random) -> Vec<u8> {
    let mut commands = Vec::new();
    for _ in 0..random.pick(&[0, 0, 0, 1, 1, 2, 4]) {
        commands.extend(earlier_plan(random));
    }
    let mut draft = Draft::random(random);
    let n = draft.tasks;
    let trouble = random.between(0, 99);
    if (30..60).contains(&trouble) {
        flaw::spoil(random, &mut draft);
    }
    let mut last_day = day::commands(random, &draft);
    if random.chance(20) {
        // Its trolley stands to the end.
        last_day.pop();
    }
    if (60..85).contains(&trouble) {
        disturb(random, &mut last_day, n);
    }
    commands.extend(last_day);
    let mut bytes = commands.concat();
    if trouble >= 85 {
        damage(random, &mut bytes);
    }
    bytes
}

/// A plan that another one follows: run to its FETCH, or dropped half given.
fn earlier_plan(random: &mut Random) -> Vec<Vec<u8>> {
    let draft = Draft::random(random);
    if random.chance(70) {
        return day::commands(random, &draft);
    }
    let mut commands = draft.commands(random);
    let begin = commands.len() - 1;
    commands.truncate(1 + random.below(begin));
    commands
}

/// Puts something among the commands of a day that does not belong there.
fn disturb(random: &mut Random, commands: &mut Vec<Vec<u8>>, n: u16) {
    let begin = commands
        .iter()
        .position(|command| command == &encode(Command::Begin));
    match (random.between(0, 9), begin) {
        (0, _) => {
            commands.remove(random.below(commands.len()));
        }
        (1, _) => {
            let place = random.below(commands.len() + 1);
            commands.insert(place, nuisance::unknown_byte(random));
        }
        // A report of an ended task comes again, or one comes too early.
        (2, Some(begin)) => {
            let report = begin + 1 + random.below(commands.len() - begin - 1);
            let place = begin + 1 + random.below(commands.len() - begin - 1);
            commands.insert(place, commands[report].clone());
        }
        // FETCH comes too early, or once more.
        (3, _) => {
            let (any, end) = (random.below(commands.len()), commands.len());
            commands.insert(random.pick(&[0, any, end]), encode(Command::Fetch));
        }
        (4, _) => disturb_ready(random, commands, n),
        (5..=7, Some(begin)) => disturb_bound(random, commands, begin),
        _ => {
            let place = random.below(commands.len() + 1);
            commands.insert(place, nuisance::any_command(random, n));
        }
    }
}

/// Lets the plan, the last report or anything else come right after that
/// report, where FETCH alone is in turn.
fn disturb_ready(random: &mut Random, commands: &mut Vec<Vec<u8>>, n: u16) {
    let is_fetched = commands.ends_with(&[encode(Command::Fetch)]);
    let place = commands.len() - usize::from(is_fetched);
    let command = match random.between(0, 2) {
        0 => commands[0].clone(),
        1 => commands[place - 1].clone(),
        _ => nuisance::any_command(random, n),
    };
    commands.insert(place, command);
}

/// Lets a bound come, somewhere behind BEGIN, that is refused there.
fn disturb_bound(random: &mut Random, commands: &mut Vec<Vec<u8>>, begin: usize) {
    let place = begin + 1 + random.below(commands.len() - begin);
    let (plan, _) = day::led_by(&commands[..place]);
    let bound = places::refused(random, &plan);
    commands.insert(place, encode(Command::Places(bound)));
}

/// Cuts the stream at any byte, changes a byte, or lets any bytes follow.
fn damage(random: &mut Random, bytes: &mut Vec<u8>) {
    let place = random.below(bytes.len());
    match random.between(0, 3) {
        0 => bytes[place] = random.between(0, 255) as u8,
        1 => bytes.extend(random.bytes(12)),
        _ => bytes.truncate(place),
    }
}
