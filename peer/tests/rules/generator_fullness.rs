//! The generator of pairs for fullness: the same pairs for the same seed, and
//! every kind of pair.

use crate::generator::Seen;
use peer::generate::{booked_and_bound, Random};
use std::collections::BTreeSet;

/// The first pairs of a seed, b and M.
pub fn pairs(seed: u64, count: usize) -> Vec<(u32, u32)> {
    let mut random = Random::new(seed);
    (0..count).map(|_| booked_and_bound(&mut random)).collect()
}

/// The same, to be multiplied.
fn wide_pairs(seed: u64, count: usize) -> Vec<(u64, u64)> {
    let widened = |(b, m): (u32, u32)| (b.into(), m.into());
    pairs(seed, count).into_iter().map(widened).collect()
}

#[test]
fn the_same_seed_gives_the_same_pairs() {
    for seed in 0..20 {
        assert_eq!(pairs(seed, 500), pairs(seed, 500));
    }
    assert_ne!(pairs(1, 500), pairs(2, 500));
}

/// The least number whose double needs more than 32 bits.
const HALF: u64 = 1 << 31;

#[test]
fn each_end_of_b_comes_with_each_end_of_m() {
    let most = u64::from(u32::MAX);
    let ends = [0, 1, HALF - 1, HALF, HALF + 1, most - 1, most];
    let pairs: BTreeSet<_> = wide_pairs(1, 100_000).into_iter().collect();
    for b in ends {
        for m in ends {
            assert!(pairs.contains(&(b, m)), "{b} in {m}");
        }
    }
}

#[test]
fn powers_of_two_and_their_neighbours() {
    let (bs, ms): (BTreeSet<_>, BTreeSet<_>) = pairs(2, 20_000).into_iter().unzip();
    for power in (0..32).map(|bit| 1 << bit) {
        for number in [power - 1, power, power + 1] {
            assert!(bs.contains(&number), "b = {number}");
            assert!(ms.contains(&number), "M = {number}");
        }
    }
}

/// How many bits a number needs.
fn bits(number: u64) -> usize {
    (u64::BITS - number.leading_zeros()) as usize
}

#[test]
fn numbers_of_every_size() {
    let (mut bs, mut ms) = ([0; 33], [0; 33]);
    for (b, m) in wide_pairs(3, 5000) {
        bs[bits(b)] += 1;
        ms[bits(m)] += 1;
    }
    assert!(bs.iter().chain(&ms).all(|&seen| seen > 30), "{bs:?} {ms:?}");
}

/// So few places that many numbers of trays are at a step.
const FEW: u64 = 100_000;

/// Whether b is the least whose reading is what it is, in M that isn't few
/// places.
fn is_at_step(b: u64, m: u64) -> bool {
    m > FEW && (1..=m).contains(&b) && 1000 * b / m > 1000 * (b - 1) / m
}

/// The least b of a reading comes, and that b less one: for each of the 1,000
/// readings, and in M of every size.
#[test]
fn steps_of_every_reading_and_size() {
    let pairs = wide_pairs(4, 100_000);
    for less in [0, 1] {
        let (mut readings, mut sizes) = ([0; 1001], [0; 33]);
        for &(b, m) in &pairs {
            let least = b + less;
            if is_at_step(least, m) {
                readings[(1000 * least / m) as usize] += 1;
                sizes[bits(m)] += 1;
            }
        }
        assert!(readings[1..].iter().all(|&seen| seen > 0), "{readings:?}");
        assert!(
            sizes[bits(FEW)..].iter().all(|&seen| seen > 100),
            "{sizes:?}"
        );
    }
}

/// Of how many pairs something holds.
fn count(pairs: &[(u64, u64)], holds: impl Fn(u64, u64) -> bool) -> usize {
    pairs.iter().filter(|&&(b, m)| holds(b, m)).count()
}

/// Front bits of 1,000 times b, divided by M, often leave what is hard to double
/// and keep below M: 2^31 or more, half of M, or nothing, also with b one less.
#[test]
fn hard_remainders_after_each_bit() {
    let mut pairs = wide_pairs(5, 10_000);
    pairs.retain(|&(b, m)| m > FEW && 0 < b && b + 1 < m);
    for front in (0..10).rev().map(|bits| 1000 >> bits) {
        let large = count(&pairs, |b, m| front * b % m >= HALF);
        let half = count(&pairs, |b, m| 2 * (front * b % m) == m);
        assert!(large > 400 && half > 5, "{front}: {large}, {half}");
        let none = count(&pairs, |b, m| front * b % m == 0);
        let less = count(&pairs, |b, m| front * (b + 1) % m == 0);
        let is_first = front == 1; // It leaves b itself.
        assert!(
            is_first || none > 20 && less > 20,
            "{front}: {none}, {less}"
        );
    }
}

/// What b is to M.
fn relation(b: u64, m: u64) -> &'static str {
    match (b, m) {
        (0, 0) => "no tray in no place",
        (_, 0) => "trays in no place",
        (0, _) => "no tray",
        _ if b == m => "b = M",
        _ if b + 1 == m => "b = M - 1",
        _ if b == m + 1 => "b = M + 1",
        _ if b > m => "b above M",
        (_, ..=FEW) => "b below few places",
        _ if is_at_step(b, m) => "b at a step",
        _ if is_at_step(b + 1, m) => "b one less than at a step",
        _ => "b elsewhere below M",
    }
}

#[test]
fn every_relation() {
    let mut seen = Seen::default();
    for (b, m) in wide_pairs(6, 5000) {
        seen.note(relation(b, m));
    }
    seen.check(&[
        ("no tray in no place", 50),
        ("trays in no place", 30),
        ("no tray", 100),
        ("b = M", 200),
        ("b = M - 1", 150),
        ("b = M + 1", 100),
        ("b above M", 400),
        ("b below few places", 500),
        ("b at a step", 500),
        ("b one less than at a step", 500),
        ("b elsewhere below M", 600),
    ]);
}
