//! Pairs a + b·u over any kind, with u·u = 11.

use core::ops::{Add, Mul, Sub};

use crate::{ExtensionField, Field, Residue, Word, folded};

/// The pair a + b·u.
#[derive(Clone, Copy, Debug, PartialEq, Eq)]
#[repr(C)]
pub struct Pair<R> {
    pub a: R,
    pub b: R,
}

impl<R> Pair<R> {
    #[inline]
    #[must_use]
    pub const fn new(a: R, b: R) -> Self {
        Self { a, b }
    }
}

impl<R: Field> Field for Pair<R> {
    const ZERO: Self = Self::new(R::ZERO, R::ZERO);
    const ONE: Self = Self::new(R::ONE, R::ZERO);

    #[inline]
    fn times_eleven(self) -> Self {
        Self::new(self.a.times_eleven(), self.b.times_eleven())
    }
}

impl<R: Field> Add for Pair<R> {
    type Output = Self;

    #[inline]
    fn add(self, other: Self) -> Self {
        Self::new(self.a + other.a, self.b + other.b)
    }
}

impl<R: Field> Sub for Pair<R> {
    type Output = Self;

    #[inline]
    fn sub(self, other: Self) -> Self {
        Self::new(self.a - other.a, self.b - other.b)
    }
}

impl<R: Field> Mul for Pair<R> {
    type Output = Self;

    // (a + b·u)(c + e·u) = (a·c + b·11·e) + (a·e + b·c)·u
    #[inline]
    fn mul(self, other: Self) -> Self {
        Self::new(
            R::dot(self.a, self.b, other.a, other.b.times_eleven()),
            R::dot(self.a, self.b, other.b, other.a),
        )
    }
}

folded!([R: Field] Pair<R>);

/// Makes pairs, and pairs of pairs, extensions of a base kind: the coefficients are a's, then b's.
macro_rules! extends {
    ($base:ty, $kind:ty, $zero:expr, $count:expr) => {
        impl From<$base> for $kind {
            #[inline]
            fn from(element: $base) -> Self {
                Self::new(element.into(), $zero)
            }
        }

        impl Mul<$base> for $kind {
            type Output = Self;

            #[inline]
            fn mul(self, scale: $base) -> Self {
                Self::new(self.a * scale, self.b * scale)
            }
        }

        impl ExtensionField<$base> for $kind {
            #[inline]
            fn as_basis_coefficients_slice(&self) -> &[$base] {
                // SAFETY: a pair is a, then b, without padding, down to elements of the base.
                unsafe { core::slice::from_raw_parts((&raw const *self).cast(), $count) }
            }
        }
    };
}

extends!(Residue, Pair<Residue>, Residue::ZERO, 2);
extends!(Residue, Pair<Pair<Residue>>, Pair::ZERO, 4);
extends!(Word, Pair<Word>, Word::ZERO, 2);
extends!(Word, Pair<Pair<Word>>, Pair::ZERO, 4);
