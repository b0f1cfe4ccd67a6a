//! The ring kinds of a script, as the stand-ins have them.

use core::iter::{Product, Sum};
use core::ops::{Add, AddAssign, Mul, Sub, SubAssign};

use p3_challenger::fs::TranscriptField;
use p3_field::{ExtensionField, Field, MODULUS, Pair, Residue, Word};

/// A kind that a script can write: so many numbers an element, and bytes by the coefficients of a base kind.
pub trait Kind: ExtensionField<Self::Base> {
    type Base: Number;
    const NUMBERS: usize;

    /// Returns the element of these numbers, of which there are as many as the kind has.
    fn of(numbers: &[u64]) -> Self;

    /// Returns the canonical numbers of an element.
    fn numbers(&self) -> Vec<u64> {
        self.as_basis_coefficients_slice().iter().map(Number::number).collect()
    }

    /// Returns the bytes of an element.
    fn bytes(&self) -> Vec<u8> {
        let mut bytes = Vec::new();
        for coefficient in self.as_basis_coefficients_slice() {
            Self::Base::encode(coefficient, &mut bytes);
        }
        bytes
    }

    /// Reads the bytes of an element back; none where no element has them.
    fn read(bytes: &[u8]) -> Option<Self> {
        if bytes.len() != 8 * Self::NUMBERS {
            return None;
        }
        let numbers: Option<Vec<u64>> = bytes
            .chunks(8)
            .map(|eight| Self::Base::canonical(u64::from_be_bytes(eight.try_into().expect("eight bytes"))))
            .collect();
        Some(Self::of(&numbers?))
    }
}

/// A base kind, whose elements are numbers.
pub trait Number: TranscriptField {
    fn number(&self) -> u64;

    /// Returns a number that is the canonical one of an element.
    fn canonical(number: u64) -> Option<u64>;
}

impl Number for Residue {
    fn number(&self) -> u64 {
        Residue::number(*self)
    }

    fn canonical(number: u64) -> Option<u64> {
        (number < u64::from(MODULUS)).then_some(number)
    }
}

impl Number for Word {
    fn number(&self) -> u64 {
        Word::number(*self)
    }

    fn canonical(number: u64) -> Option<u64> {
        Some(number)
    }
}

macro_rules! based {
    ($base:ty) => {
        impl Kind for $base {
            type Base = $base;
            const NUMBERS: usize = 1;

            fn of(numbers: &[u64]) -> Self {
                Self::new(numbers[0])
            }
        }

        impl Kind for Pair<$base> {
            type Base = $base;
            const NUMBERS: usize = 2;

            fn of(numbers: &[u64]) -> Self {
                Self::new(Kind::of(&numbers[..1]), Kind::of(&numbers[1..]))
            }
        }

        impl Kind for Pair<Pair<$base>> {
            type Base = $base;
            const NUMBERS: usize = 4;

            fn of(numbers: &[u64]) -> Self {
                Self::new(Kind::of(&numbers[..2]), Kind::of(&numbers[2..]))
            }
        }
    };
}

based!(Residue);
based!(Word);

/// A kind with a single element that takes no memory, for calls that look at no cell: a slice of it may have any
/// length that a number can tell.
#[derive(Clone, Copy, Debug, PartialEq, Eq)]
pub struct Nothing;

impl Field for Nothing {
    const ZERO: Self = Self;
    const ONE: Self = Self;

    fn times_eleven(self) -> Self {
        self
    }

    fn zero_vec(len: usize) -> Vec<Self> {
        vec![Self; len]
    }
}

macro_rules! nothing {
    ($($operator:ident $function:ident),*) => {
        $(impl $operator for Nothing {
            type Output = Self;

            fn $function(self, _: Self) -> Self {
                self
            }
        })*
    };
}

nothing!(Add add, Sub sub, Mul mul);

impl AddAssign for Nothing {
    fn add_assign(&mut self, _: Self) {}
}

impl SubAssign for Nothing {
    fn sub_assign(&mut self, _: Self) {}
}

impl Sum for Nothing {
    fn sum<I: Iterator<Item = Self>>(_: I) -> Self {
        Self
    }
}

impl Product for Nothing {
    fn product<I: Iterator<Item = Self>>(_: I) -> Self {
        Self
    }
}
