//! Stand-in for p3-util: the one function that the original imports.

/// Returns the least e with 2^e at least n; 0 for n = 0 and n = 1.
#[must_use]
pub const fn log2_ceil_usize(n: usize) -> usize {
    (usize::BITS - n.saturating_sub(1).leading_zeros()) as usize
}
