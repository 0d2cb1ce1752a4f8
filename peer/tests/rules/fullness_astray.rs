//! Where a door panel goes astray: wrong ways to work fullness out, each shown by
//! a few thousand generated pairs.

use crate::generator_fullness::pairs;
use peer::fullness;

/// 0 if M is 0, 1,000 if b is at least M, else what is worked out.
fn with_both_ends(b: u32, m: u32, worked_out: impl Fn() -> u32) -> u32 {
    match m {
        0 => 0,
        _ if b >= m => 1000,
        _ => worked_out(),
    }
}

/// Works on wide numbers between both ends.
fn on_64_bits(b: u32, m: u32, work_out: fn(u64, u64) -> u64) -> u32 {
    with_both_ends(b, m, || work_out(b.into(), m.into()) as u32)
}

/// How often M goes into the sum of two numbers below it, and what is left.
type Add = fn(u32, u32, u32) -> (u32, u32);

/// Without the sum itself, which can need 33 bits.
fn add(x: u32, y: u32, m: u32) -> (u32, u32) {
    let room = m - y;
    if x >= room {
        (1, x - room)
    } else {
        (0, x + y)
    }
}

/// With the sum cut to 32 bits.
fn add_cut(x: u32, y: u32, m: u32) -> (u32, u32) {
    let sum = x.wrapping_add(y);
    if sum >= m {
        (1, sum - m)
    } else {
        (0, sum)
    }
}

/// "Shifting and subtracting, one bit of the factor 1,000 after another, with no
/// number wider than 32 bits": the remainder is doubled from bit to bit, and b is
/// added to it where the bit is 1.
fn by_shifting(b: u32, m: u32, factor: u32, double: Add, add: Add) -> u32 {
    with_both_ends(b, m, || {
        let (mut thousandths, mut remainder) = (0, 0);
        for bit in (0..10).rev() {
            let (whole, left) = double(remainder, remainder, m);
            (thousandths, remainder) = (2 * thousandths + whole, left);
            if (factor >> bit) & 1 == 1 {
                let (whole, left) = add(remainder, b, m);
                (thousandths, remainder) = (thousandths + whole, left);
            }
        }
        thousandths
    })
}

/// A way to work fullness of b in M out.
type Way = fn(u32, u32) -> u32;

/// Wrong ways, and what is wrong with each.
const ASTRAY: [(&str, Way); 14] = [
    ("rounded up", |b, m| {
        on_64_bits(b, m, |b, m| (1000 * b).div_ceil(m))
    }),
    ("rounded to the nearest", |b, m| {
        on_64_bits(b, m, |b, m| (1000 * b + m / 2) / m)
    }),
    ("one tray early", |b, m| {
        on_64_bits(b, m, |b, m| 1000 * (b + 1) / m)
    }),
    ("one tray late", |b, m| {
        on_64_bits(b, m, |b, m| 1000 * b.saturating_sub(1) / m)
    }),
    ("late where nothing is left", |b, m| {
        on_64_bits(b, m, |b, m| (1000 * b).saturating_sub(1) / m)
    }),
    ("a thousandth of M first", |b, m| {
        on_64_bits(b, m, |b, m| b / m.div_ceil(1000))
    }),
    ("the product cut to 32 bits", |b, m| {
        with_both_ends(b, m, || b.wrapping_mul(1000) / m)
    }),
    ("the double cut to 32 bits", |b, m| {
        by_shifting(b, m, 1000, add_cut, add)
    }),
    ("the double of just 2^31 cut to 32 bits", |b, m| {
        let double: Add = |x, y, m| if x == 1 << 31 { add_cut } else { add }(x, y, m);
        by_shifting(b, m, 1000, double, add)
    }),
    ("the sum with b cut to 32 bits", |b, m| {
        by_shifting(b, m, 1000, add, add_cut)
    }),
    ("doubled to M itself", |b, m| {
        let double: Add = |x, y, m| if m - x == x { (0, m) } else { add(x, y, m) };
        by_shifting(b, m, 1000, double, add)
    }),
    ("b added up to M itself", |b, m| {
        let sum: Add = |x, y, m| if m - y == x { (0, m) } else { add(x, y, m) };
        by_shifting(b, m, 1000, add, sum)
    }),
    ("the last doubling left out", |b, m| {
        by_shifting(b, m, 500, add, add)
    }),
    ("half of an odd M rounded down", |b, m| {
        let double: Add = |x, y, m| {
            if x > 0 && x == m / 2 {
                (1, 0)
            } else {
                add(x, y, m)
            }
        };
        by_shifting(b, m, 1000, double, add)
    }),
];

#[test]
fn shifting_and_subtracting_reads_the_same() {
    for (b, m) in pairs(0, 20_000) {
        let thousandths = by_shifting(b, m, 1000, add, add);
        assert_eq!(thousandths, fullness(b, m), "{b} in {m}");
    }
}

/// Whether the first pairs of each seed have one that a wrong way reads
/// otherwise.
fn is_shown(wrong: impl Fn(u32, u32) -> u32) -> bool {
    let otherwise = |&(b, m): &(u32, u32)| wrong(b, m) != fullness(b, m);
    (0..10).all(|seed| pairs(seed, 5000).iter().any(otherwise))
}

#[test]
fn each_wrong_way_is_shown() {
    for (mistake, wrong) in ASTRAY {
        assert!(is_shown(wrong), "{mistake}");
    }
}

#[test]
fn each_bit_left_out_of_the_factor_is_shown() {
    for bit in [3, 5, 6, 7, 8, 9] {
        let wrong = |b, m| by_shifting(b, m, 1000 - (1 << bit), add, add);
        assert!(is_shown(wrong), "{bit}");
    }
}
