//! Fullness, timed by how many bits the places have.

use crate::clock::{medians, Calls};
use peer::generate::Random;
use std::hint::black_box;

/// How many bits M has.
const BITS: [u32; 4] = [4, 12, 22, 32];
/// So many pairs are read together.
pub const TOGETHER: usize = 1024;

/// Prints a table with a row for each number of bits: the nanoseconds of a
/// reading by the proved function and by the peer, and their ratio. Answers the
/// least and the highest ratio.
pub fn print_readings() -> [f64; 2] {
    println!("\n## Fullness of b in M, b below M\n");
    println!("| bits of M | proved | peer | ratio |\n|---:|---:|---:|---:|");
    let ratios = BITS.map(|bits| {
        let [proved, peer] = times(bits);
        let ratio = proved / peer;
        println!("| {bits} | {proved:.1} | {peer:.1} | {ratio:.2} |");
        ratio
    });
    [
        ratios.into_iter().fold(f64::INFINITY, f64::min),
        ratios.into_iter().fold(0.0, f64::max),
    ]
}

/// The nanoseconds of a reading, by both.
fn times(bits: u32) -> [f64; 2] {
    let pairs = of_bits(bits);
    let times = medians([
        &mut Calls(|| read(&pairs, cephlouk::fullness)),
        &mut Calls(|| read(&pairs, peer::fullness)),
    ]);
    times.map(|time| time / TOGETHER as f64)
}

/// Any M of so many bits, and any b below it.
fn of_bits(bits: u32) -> Vec<(u32, u32)> {
    let random = &mut Random::new(u64::from(bits));
    let highest = 1 << (bits - 1);
    let pair = |_| {
        let bound = random.between(highest, highest + (highest - 1));
        (random.between(0, bound - 1), bound)
    };
    (0..TOGETHER).map(pair).collect()
}

fn read(pairs: &[(u32, u32)], fullness: impl Fn(u32, u32) -> u32) {
    for &(booked, bound) in pairs {
        black_box(fullness(black_box(booked), black_box(bound)));
    }
}
