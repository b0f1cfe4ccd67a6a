//! Stand-in for p3-field: the two traits that the original imports, and the kinds that stand in for its fields.
//!
//! Words and pairs over them are rings and no fields; the original's routines divide by nothing.

mod pair;
mod residue;
mod word;

use core::fmt::Debug;
use core::iter::{Product, Sum};
use core::ops::{Add, AddAssign, Mul, Sub, SubAssign};

pub use pair::Pair;
pub use residue::{MODULUS, Residue};
pub use word::Word;

/// The most cells that a vector of zeros may have.
pub const MOST_CELLS: usize = 1 << 26;

/// What the original asks of a field.
pub trait Field:
    Copy
    + Debug
    + PartialEq
    + Eq
    + Send
    + Sync
    + 'static
    + Add<Output = Self>
    + Sub<Output = Self>
    + Mul<Output = Self>
    + AddAssign
    + SubAssign
    + Sum
    + Product
{
    const ZERO: Self;
    const ONE: Self;

    /// Returns eleven times this element.
    fn times_eleven(self) -> Self;

    /// Returns a·c + b·e.
    #[inline]
    fn dot(a: Self, b: Self, c: Self, e: Self) -> Self {
        a * c + b * e
    }

    #[inline]
    fn from_bool(set: bool) -> Self {
        if set { Self::ONE } else { Self::ZERO }
    }

    /// Returns a vector of zeros, in memory that the system hands out zeroed.
    #[must_use]
    fn zero_vec(len: usize) -> Vec<Self> {
        assert!(
            len <= MOST_CELLS,
            "zero_vec: {len} cells are more than this stand-in hands out"
        );
        zeroed(len)
    }
}

/// What the original asks of an extension field.
pub trait ExtensionField<Base: Field>: Field + From<Base> + Mul<Base, Output = Self> {
    /// Returns the coefficients over the base field.
    fn as_basis_coefficients_slice(&self) -> &[Base];
}

/// Allocates zeroed memory for elements of a kind whose zero is all zero bits.
fn zeroed<F: Field>(len: usize) -> Vec<F> {
    if len == 0 {
        return Vec::new();
    }
    let layout = std::alloc::Layout::array::<F>(len).expect("a vector of zeros");
    // SAFETY: the size is not zero; all zero bits are the zero of each kind in this crate; the vector takes over
    // the memory with the layout that it was allocated with.
    unsafe {
        let start = std::alloc::alloc_zeroed(layout);
        if start.is_null() {
            std::alloc::handle_alloc_error(layout);
        }
        Vec::from_raw_parts(start.cast::<F>(), len, len)
    }
}

/// Assigning operators, sums and products from the three operators of a kind.
macro_rules! folded {
    ([$($parameters:tt)*] $kind:ty) => {
        impl<$($parameters)*> core::ops::AddAssign for $kind {
            #[inline]
            fn add_assign(&mut self, other: Self) {
                *self = *self + other;
            }
        }
        impl<$($parameters)*> core::ops::SubAssign for $kind {
            #[inline]
            fn sub_assign(&mut self, other: Self) {
                *self = *self - other;
            }
        }
        impl<$($parameters)*> core::iter::Sum for $kind {
            fn sum<I: Iterator<Item = Self>>(terms: I) -> Self {
                terms.fold(<Self as $crate::Field>::ZERO, |sum, term| sum + term)
            }
        }
        impl<$($parameters)*> core::iter::Product for $kind {
            fn product<I: Iterator<Item = Self>>(factors: I) -> Self {
                factors.fold(<Self as $crate::Field>::ONE, |product, factor| product * factor)
            }
        }
    };
}
pub(crate) use folded;

#[cfg(test)]
mod tests {
    use super::*;

    /// Numbers around which a reduction may go wrong.
    const EDGES: [u64; 9] = [
        0,
        1,
        2,
        11,
        0x3c00_0000,
        0x77ff_ffff,
        0x7800_0000,
        0x7800_0001,
        u64::MAX,
    ];

    #[test]
    fn residues_are_numbers_modulo_the_modulus() {
        let modulus = u128::from(MODULUS);
        for a in EDGES {
            for b in EDGES {
                let (x, y) = (Residue::new(a), Residue::new(b));
                let (a, b) = (u128::from(a) % modulus, u128::from(b) % modulus);
                assert_eq!(u128::from((x + y).number()), (a + b) % modulus);
                assert_eq!(u128::from((x - y).number()), (modulus + a - b) % modulus);
                assert_eq!(u128::from((x * y).number()), a * b % modulus);
                assert_eq!(Residue::dot(x, y, y, x), x * y + y * x);
                assert_eq!(u128::from(x.times_eleven().number()), 11 * a % modulus);
            }
        }
    }

    #[test]
    fn u_times_u_is_eleven() {
        let u = Pair::new(Word::ZERO, Word::ONE);
        assert_eq!(u * u, Pair::new(Word::new(11), Word::ZERO));
        let outer = Pair::new(Pair::<Residue>::ZERO, Pair::ONE);
        assert_eq!(
            (outer * outer)
                .as_basis_coefficients_slice()
                .iter()
                .map(|c| c.number())
                .collect::<Vec<_>>(),
            [11, 0, 0, 0]
        );
    }

    #[test]
    fn zeros_are_zero() {
        assert!(Pair::<Residue>::zero_vec(5).into_iter().all(|cell| cell == Pair::ZERO));
        assert!(Word::zero_vec(0).is_empty());
    }
}
