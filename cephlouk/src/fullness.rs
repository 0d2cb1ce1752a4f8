//! Fullness of any two numbers.

use crate::exported;

/// Fullness of `booked` trays in so many places, in thousandths, rounded down: 0
/// where there is no place, and 1,000 where there are at least as many trays. It
/// takes no plan, and no number in it is wider than 32 bits, for panels that
/// admit no wider one.
///
/// ```
/// use cephlouk::fullness;
///
/// assert_eq!(fullness(6, 7), 857);
/// assert_eq!(fullness(8, 7), 1000);
/// assert_eq!(fullness(8, 0), 0);
/// assert_eq!(fullness(u32::MAX - 1, u32::MAX), 999);
/// ```
///
/// # Panics
///
/// Where the library that was linked is of another version.
#[must_use]
pub fn fullness(booked: u32, places: u32) -> u32 {
    exported::test_number();
    // SAFETY: the function takes and answers plain numbers.
    unsafe { exported::cephlouk_thousandths(booked, places) }
}
