//! 64-bit words, whose operations wrap.

use core::ops::{Add, Mul, Sub};

use crate::{ExtensionField, Field, folded};

/// A word: it holds its value.
#[derive(Clone, Copy, Debug, PartialEq, Eq)]
#[repr(transparent)]
pub struct Word(u64);

impl Word {
    #[inline]
    #[must_use]
    pub const fn new(number: u64) -> Self {
        Self(number)
    }

    #[inline]
    #[must_use]
    pub const fn number(self) -> u64 {
        self.0
    }
}

impl Field for Word {
    const ZERO: Self = Self(0);
    const ONE: Self = Self(1);

    #[inline]
    fn times_eleven(self) -> Self {
        Self(self.0.wrapping_mul(11))
    }
}

impl Add for Word {
    type Output = Self;

    #[inline]
    fn add(self, other: Self) -> Self {
        Self(self.0.wrapping_add(other.0))
    }
}

impl Sub for Word {
    type Output = Self;

    #[inline]
    fn sub(self, other: Self) -> Self {
        Self(self.0.wrapping_sub(other.0))
    }
}

impl Mul for Word {
    type Output = Self;

    #[inline]
    fn mul(self, other: Self) -> Self {
        Self(self.0.wrapping_mul(other.0))
    }
}

folded!([] Word);

impl ExtensionField<Self> for Word {
    #[inline]
    fn as_basis_coefficients_slice(&self) -> &[Self] {
        core::slice::from_ref(self)
    }
}
