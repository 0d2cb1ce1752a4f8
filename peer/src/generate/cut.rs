//! Streams cut at some byte, to lead a plan to any moment of its day.

use super::random::Random;
use super::stream;
use crate::command::{decode, Command};

/// The stream of one seed, cut at some byte. Few bytes of a stream have both
/// orders complete ahead of them, so that most cuts go by the last BEGIN: right
/// ahead of it, right behind it, or anywhere in the day; or right ahead of the
/// last FETCH.
pub fn cut_stream(seed: u64) -> Vec<u8> {
    let random = &mut Random::new(seed);
    let mut bytes = stream::draw(random);
    let end = bytes.len();
    let [begin, fetch] = [Command::Begin, Command::Fetch].map(|command| last(&bytes, command));
    let cut = match (random.between(0, 5), begin, fetch) {
        (0, Some(begin), _) => begin,
        (1, Some(begin), _) => begin + 1,
        (2, Some(begin), _) => begin + 1 + random.below(end - begin),
        (3, _, Some(fetch)) => fetch,
        (4, ..) => end,
        _ => random.below(end + 1),
    };
    bytes.truncate(cut);
    bytes
}

/// Where a command is last among the whole commands at the front of a stream.
fn last(stream: &[u8], wanted: Command) -> Option<usize> {
    let mut last = None;
    let mut place = 0;
    while let Ok((command, used)) = decode(stream, place) {
        if command == wanted {
            last = Some(place);
        }
        place += used;
    }
    last
}
