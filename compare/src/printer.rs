//! The day printer beside the peer's: `printer [STREAMS]`, 2,000 unless it says
//! otherwise. Both get the same streams, and must print the same bytes: at once,
//! in pieces, as a file, and with another day fed after a refusal.

use compare::feeding::{expected, from_file, in_pieces, Difference, PRINTER};
use compare::streams::{another_day, streams};
use peer::generate::{stream, Random};
use std::process::ExitCode;

/// Every so many streams one is fed in pieces of a few bytes, where it is not
/// too long.
const PIECES_EVERY: u64 = 5;
const PIECES_MOST: usize = 1_500;
const FEW_BYTES: usize = 9;

/// The sizes of the largest pieces of a long stream: many are whole at once, or
/// fill the printer's room more than once.
const LARGE_PIECES: [usize; 3] = [5_000, 30_000, 100_000];

/// What was compared.
#[derive(Default)]
struct Tally {
    lines: usize,
    fetched: usize,
    places: usize,
    refusals: usize,
    after_refusals: usize,
    in_pieces: usize,
    as_files: usize,
}

impl Tally {
    /// A stream of a seed: at once, perhaps in pieces, and where it is refused
    /// with another day behind.
    fn compare_seed(&mut self, seed: u64) -> Result<(), (String, Difference)> {
        let bytes = stream(seed);
        check(in_pieces(&PRINTER, &[&bytes]), || {
            format!("seed {seed}, at once")
        })?;
        if seed.is_multiple_of(PIECES_EVERY) && bytes.len() <= PIECES_MOST {
            let random = &mut Random::new(seed);
            check(in_pieces(&PRINTER, &cut(&bytes, FEW_BYTES, random)), || {
                format!("seed {seed}, in pieces")
            })?;
            self.in_pieces += 1;
        }
        let output = expected(&bytes);
        let text = String::from_utf8_lossy(&output);
        self.lines += text.lines().count();
        let count = |word| text.lines().filter(|line| line.starts_with(word)).count();
        self.fetched += count("fetch ");
        self.places += count("places ");
        let refused = text
            .lines()
            .last()
            .filter(|line| line.starts_with("refused "));
        if let Some(line) = refused {
            self.refusals += 1;
            // What is cut is refused at the end of the input only.
            if !line.starts_with("refused 1 ") {
                check(in_pieces(&PRINTER, &[&bytes, &another_day()]), || {
                    format!("seed {seed}, another day after the refusal")
                })?;
                self.after_refusals += 1;
            }
        }
        Ok(())
    }

    /// A stream made to measure: at once, as a file and in pieces.
    fn compare_made(&mut self, name: &str, bytes: &[u8]) -> Result<(), (String, Difference)> {
        check(in_pieces(&PRINTER, &[bytes]), || format!("{name}, at once"))?;
        check(from_file(&PRINTER, "printer", bytes), || {
            format!("{name}, as a file")
        })?;
        self.as_files += 1;
        for most in LARGE_PIECES {
            let random = &mut Random::new(most as u64);
            check(in_pieces(&PRINTER, &cut(bytes, most, random)), || {
                format!("{name}, in pieces of up to {most} bytes")
            })?;
            self.in_pieces += 1;
        }
        Ok(())
    }

    fn compare(&mut self, count: u64) -> Result<(), (String, Difference)> {
        for (name, bytes) in streams() {
            self.compare_made(name, &bytes)?;
        }
        (1..=count).try_for_each(|seed| self.compare_seed(seed))
    }
}

/// A difference with where it was found.
fn check(
    difference: Option<Difference>,
    place: impl Fn() -> String,
) -> Result<(), (String, Difference)> {
    difference.map_or(Ok(()), |found| Err((place(), found)))
}

/// Cuts a stream into pieces of any size up to the largest.
fn cut<'a>(stream: &'a [u8], most: usize, random: &mut Random) -> Vec<&'a [u8]> {
    let mut pieces = Vec::new();
    let mut rest = stream;
    while !rest.is_empty() {
        let size = rest.len().min(1 + random.below(most));
        let (piece, behind) = rest.split_at(size);
        pieces.push(piece);
        rest = behind;
    }
    pieces
}

fn main() -> ExitCode {
    let count: u64 = std::env::args()
        .nth(1)
        .map_or(2_000, |count| count.parse().expect("a number of streams"));
    let mut tally = Tally::default();
    if let Err((place, Difference { got, wanted })) = tally.compare(count) {
        println!("{place}: printed");
        print!("{}", String::from_utf8_lossy(&got));
        println!("where the peer prints");
        print!("{}", String::from_utf8_lossy(&wanted));
        return ExitCode::FAILURE;
    }
    println!(
        "printer: {count} streams, the same {} lines, {} of them of FETCH and {} of 08, {} refusals, {} with another day fed behind; \
         {} streams in pieces too; {} long ones as files",
        tally.lines,
        tally.fetched,
        tally.places,
        tally.refusals,
        tally.after_refusals,
        tally.in_pieces,
        tally.as_files
    );
    ExitCode::SUCCESS
}
