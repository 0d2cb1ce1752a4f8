//! Fullness of any pair.

use crate::generator_fullness::pairs;
use peer::fullness;

#[test]
fn corners() {
    let most = u32::MAX;
    let half = 1 << 31;
    let cases = [
        (0, 0, 0),
        (1, 0, 0),
        (5, 0, 0),
        (most, 0, 0),
        (0, 1, 0),
        (1, 1, 1000),
        (2, 1, 1000),
        (most, 1, 1000),
        (6, 7, 857),
        (3, 7, 428),
        (7, 7, 1000),
        (8, 7, 1000),
        (999, 1000, 999),
        (999, 1001, 998),
        (half / 2, half, 500),
        (half / 2 - 1, half, 499),
        (half - 1, half, 999),
        (half, half, 1000),
        (half, half - 1, 1000),
        (half, half + 1, 999),
        (half, most, 500),
        (half - 1, most, 499),
        (0, most, 0),
        (1, most, 0),
        (most - 1, most, 999),
        (most, most, 1000),
        (most, most - 1, 1000),
        (4_294_967, most, 0),
        (4_294_968, most, 1),
    ];
    for (b, m, thousandths) in cases {
        assert_eq!(fullness(b, m), thousandths, "{b} in {m}");
    }
}

/// "0 if M is 0; 1,000 if b is at least M; else 1,000 times b divided by M,
/// rounded down": the one t with t M <= 1,000 b < (t + 1) M.
fn is_fullness(t: u32, b: u32, m: u32) -> bool {
    let [t, b, m] = [t, b, m].map(u128::from);
    if m == 0 {
        t == 0
    } else if b >= m {
        t == 1000
    } else {
        t * m <= 1000 * b && 1000 * b < (t + 1) * m
    }
}

/// Fullness of b in M, which must be what the paper says.
fn checked(b: u32, m: u32) -> u32 {
    let t = fullness(b, m);
    assert!(is_fullness(t, b, m), "{t} for {b} in {m}");
    t
}

#[test]
fn all_small_pairs() {
    for m in 0..=1200 {
        for b in 0..=1200 {
            checked(b, m);
        }
    }
}

/// The least b whose reading in M is so many thousandths or more.
fn least(thousandths: u32, m: u32) -> u32 {
    let product = u128::from(thousandths) * u128::from(m);
    u32::try_from(product.div_ceil(1000)).unwrap()
}

/// Bounds of every size: around the powers of two and of ten, and at both ends.
fn bounds() -> Vec<u32> {
    let twos = (0..32).map(|bit| 1 << bit);
    let tens = (0..10).map(|zeros| 10u32.pow(zeros));
    let around = twos.chain(tens).flat_map(|m| [m - 1, m, m + 1]);
    around
        .chain([7, 999_983, 3_000_000_000, 4_294_967_000])
        .chain(u32::MAX - 3..=u32::MAX)
        .collect()
}

#[test]
fn each_step_of_the_reading() {
    for m in bounds().into_iter().filter(|&m| m > 0) {
        for thousandths in 1..=1000 {
            let b = least(thousandths, m);
            let (before, at) = (checked(b - 1, m), checked(b, m));
            assert!(before < thousandths && thousandths <= at, "{b} in {m}");
            if m >= 1000 {
                assert_eq!((before, at), (thousandths - 1, thousandths), "{b} in {m}");
            }
        }
    }
}

#[test]
fn generated_pairs() {
    for (b, m) in pairs(0, 200_000) {
        checked(b, m);
    }
}
