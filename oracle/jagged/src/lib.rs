//! The original's `jagged` module, over stand-ins for what it imports.
//!
//! The module itself is compiled from copies of the unchanged files; see the build script. Around it stand shells for
//! the sumcheck, which is never run.

#![allow(dead_code, unused_variables, clippy::all)]

extern crate alloc;

include!(concat!(env!("OUT_DIR"), "/root.rs"));

/// Why a shell is never run.
const SHELL: &str = "the sumcheck is a shell here";

/// Shell: what a round may find wrong.
#[derive(Debug, PartialEq, Eq)]
pub struct SumcheckError;

// The stand-in for the derive of errors writes nothing, this conversion either.
impl From<SumcheckError> for jagged::JaggedError {
    fn from(error: SumcheckError) -> Self {
        Self::Sumcheck(error)
    }
}

/// Shell: the rounds of a sumcheck.
#[derive(Clone, Debug)]
pub struct SumcheckData<F, EF>(core::marker::PhantomData<(F, EF)>);

impl<F, EF> Default for SumcheckData<F, EF> {
    fn default() -> Self {
        Self(core::marker::PhantomData)
    }
}

impl<F, EF> SumcheckData<F, EF> {
    pub fn verify_rounds<C>(
        &self,
        _challenger: &mut C,
        _claim: &mut EF,
        _rounds: usize,
        _bits: usize,
        _basis: strategy::Basis,
    ) -> Result<p3_multilinear_util::point::Point<EF>, SumcheckError> {
        unimplemented!("{SHELL}")
    }
}

/// Shell: the product of two polynomials.
pub mod product_polynomial {
    use p3_multilinear_util::poly::Poly;

    use crate::strategy::VariableOrder;

    pub struct ProductPolynomial<F, EF>(core::marker::PhantomData<(F, EF)>);

    impl<F, EF> ProductPolynomial<F, EF> {
        pub fn new_unpacked(_: VariableOrder, _: Poly<EF>, _: Poly<EF>) -> Self {
            unimplemented!("{}", crate::SHELL)
        }
    }
}

/// Shell: how a sumcheck runs.
pub mod strategy {
    use p3_multilinear_util::point::Point;
    use p3_multilinear_util::poly::Poly;

    use crate::SumcheckData;
    use crate::product_polynomial::ProductPolynomial;

    pub enum Basis {
        Evaluation,
    }

    pub enum VariableOrder {
        Prefix,
    }

    pub struct SumcheckProver<F, EF>(core::marker::PhantomData<(F, EF)>);

    impl<F, EF> SumcheckProver<F, EF> {
        pub fn new(_: ProductPolynomial<F, EF>, _: EF) -> Self {
            unimplemented!("{}", crate::SHELL)
        }

        pub fn compute_sumcheck_polynomials<C>(
            &mut self,
            _: &mut SumcheckData<F, EF>,
            _: &mut C,
            _: usize,
            _: usize,
            _: Option<Poly<EF>>,
        ) -> Point<EF> {
            unimplemented!("{}", crate::SHELL)
        }

        pub fn evals(&self) -> Poly<EF> {
            unimplemented!("{}", crate::SHELL)
        }
    }
}
