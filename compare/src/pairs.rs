//! Fullness beside the peer's, of pairs of numbers.

use peer::fullness;
use peer::generate::{booked_and_bound, Random};

/// Compares the readings of so many pairs. An error tells the first difference.
pub fn compare_readings(read: impl Fn(u32, u32) -> u32, pairs: u64) -> Result<(), String> {
    let random = &mut Random::new(0);
    for _ in 0..pairs {
        let (booked, bound) = booked_and_bound(random);
        let (got, wanted) = (read(booked, bound), fullness(booked, bound));
        if got != wanted {
            return Err(format!("{booked} in {bound}: proved {got}, peer {wanted}"));
        }
    }
    Ok(())
}

#[cfg(test)]
mod tests {
    use super::*;

    /// At both ends, and next to them.
    #[test]
    fn another_reading_is_told() {
        for wrong in [0, 1, 999, 1000] {
            let read = |booked, bound| match fullness(booked, bound) {
                reading if reading == wrong => reading + 1,
                reading => reading,
            };
            compare_readings(read, 10_000).expect_err("a difference");
        }
    }
}
