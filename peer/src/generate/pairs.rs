//! Pairs to work fullness out of: booked trays b, and the bound M they are in.

use super::random::Random;

/// b and M, any two 32-bit numbers: of every size and at both ends of 32 bits,
/// often around each other, at a step of the reading, or in equal parts.
pub fn booked_and_bound(random: &mut Random) -> (u32, u32) {
    let m = number(random);
    let b = match random.between(0, 9) {
        0 => number(random),
        1 => random.between(0, m),
        2 => random.between(m, u32::MAX),
        3 => around(random, m),
        4..=7 => at_step(random, m),
        _ => return in_parts(random),
    };
    (b, m)
}

/// A number of any size, often at an end of 31 or 32 bits, around a power of two,
/// or so large that its double needs more than 32 bits.
fn number(random: &mut Random) -> u32 {
    const HALF: u32 = 1 << 31;
    match random.between(0, 3) {
        0 => random.pick(&[0, 1, HALF - 1, HALF, HALF + 1, u32::MAX - 1, u32::MAX]),
        1 => {
            let power = 1 << random.between(0, 31);
            around(random, power)
        }
        2 => random.between(HALF, u32::MAX),
        _ => {
            let most = u32::MAX >> random.between(0, 31);
            random.between(0, most)
        }
    }
}

/// A number, one less or one more.
fn around(random: &mut Random, number: u32) -> u32 {
    random.pick(&[number.saturating_sub(1), number, number.saturating_add(1)])
}

/// A number or one less.
fn or_one_less(random: &mut Random, number: u32) -> u32 {
    random.pick(&[number.saturating_sub(1), number])
}

/// The least b whose reading in M is some number of thousandths or more, or that
/// b less one.
fn at_step(random: &mut Random, m: u32) -> u32 {
    let thousandths = random.between(1, 1000);
    let least = (u64::from(thousandths) * u64::from(m)).div_ceil(1000);
    // At most M because the reading of M is 1,000, so it fits.
    or_one_less(random, least as u32)
}

/// M in equal parts of a tray or more, and b some of them or one tray less. There
/// are f parts, or twice f, for f the front bits of 1,000: f times the trays in
/// these parts, divided by M, leaves nothing or half of M.
fn in_parts(random: &mut Random) -> (u32, u32) {
    let parts = (1000 >> random.between(0, 9)) * random.between(1, 2);
    // At most 2,000 parts leave 22 bits for one.
    let most = (u32::MAX / parts) >> random.between(0, 21);
    let part = random.between(1, most);
    let some = part * random.between(0, parts);
    (or_one_less(random, some), part * parts)
}
