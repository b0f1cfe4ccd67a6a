//! Residues modulo 2013265921 in Montgomery form: the element x is held as x·2^32 modulo the modulus.

use core::ops::{Add, Mul, Sub};

use crate::{ExtensionField, Field, folded};

/// The modulus, 15·2^27 + 1.
pub const MODULUS: u32 = 0x7800_0001;

/// The inverse of the modulus modulo 2^32.
const INVERSE: u32 = 0x8800_0001;

/// 2^64 modulo the modulus, which brings a number into Montgomery form.
const SQUARE: u64 = ((1u128 << 64) % MODULUS as u128) as u64;

/// A residue; what it holds is below the modulus.
#[derive(Clone, Copy, Debug, PartialEq, Eq)]
#[repr(transparent)]
pub struct Residue(u32);

/// Divides by 2^32 modulo the modulus, for x below 2^32 times the modulus.
#[inline]
const fn reduced(x: u64) -> u32 {
    let t = (x as u32).wrapping_mul(INVERSE);
    let u = t as u64 * MODULUS as u64;
    let (difference, borrow) = x.overflowing_sub(u);
    let high = (difference >> 32) as u32;
    high.wrapping_add(if borrow { MODULUS } else { 0 })
}

impl Residue {
    /// Returns the residue of any number.
    #[inline]
    #[must_use]
    pub const fn new(number: u64) -> Self {
        Self(reduced((number % MODULUS as u64) * SQUARE))
    }

    /// Returns the canonical number, below the modulus.
    #[inline]
    #[must_use]
    pub const fn number(self) -> u64 {
        reduced(self.0 as u64) as u64
    }
}

impl Field for Residue {
    const ZERO: Self = Self(0);
    const ONE: Self = Self::new(1);

    #[inline]
    fn times_eleven(self) -> Self {
        const ELEVEN: Residue = Residue::new(11);
        self * ELEVEN
    }

    // Two products are below 2^32 times the modulus, so one reduction serves both.
    #[inline]
    fn dot(a: Self, b: Self, c: Self, e: Self) -> Self {
        Self(reduced(a.0 as u64 * c.0 as u64 + b.0 as u64 * e.0 as u64))
    }
}

impl Add for Residue {
    type Output = Self;

    #[inline]
    fn add(self, other: Self) -> Self {
        // The lower of sum and sum - modulus, the latter wrapped where the sum is below the modulus.
        let sum = self.0.wrapping_add(other.0);
        Self(sum.min(sum.wrapping_sub(MODULUS)))
    }
}

impl Sub for Residue {
    type Output = Self;

    #[inline]
    fn sub(self, other: Self) -> Self {
        let difference = self.0.wrapping_sub(other.0);
        Self(difference.min(difference.wrapping_add(MODULUS)))
    }
}

impl Mul for Residue {
    type Output = Self;

    #[inline]
    fn mul(self, other: Self) -> Self {
        Self(reduced(self.0 as u64 * other.0 as u64))
    }
}

folded!([] Residue);

impl ExtensionField<Self> for Residue {
    #[inline]
    fn as_basis_coefficients_slice(&self) -> &[Self] {
        core::slice::from_ref(self)
    }
}
