//! Fullness, in thousandths: by the definition itself, with a product that can
//! need 42 bits. Request 05 asks the tool for another way on 32 bits, and every
//! reading stays the same.

/// Fullness of b in M: 0 if M is 0, 1,000 if b is at least M, else
/// 1,000 times b divided by M, rounded down.
pub fn fullness(b: u32, m: u32) -> u32 {
    if m == 0 {
        return 0;
    }
    if b >= m {
        return 1000;
    }
    // Below 1,000 because b < m, so the quotient fits.
    (1000 * u64::from(b) / u64::from(m)) as u32
}
