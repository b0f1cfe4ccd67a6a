//! The bytes of coefficients, and shells of the typed transcript.

use core::marker::PhantomData;

use p3_field::{Field, Residue, Word};

/// A base kind whose elements have bytes in a transcript.
pub trait TranscriptField: Field {
    /// Appends the canonical bytes of an element.
    fn encode(element: &Self, bytes: &mut Vec<u8>);
}

impl TranscriptField for Residue {
    fn encode(element: &Self, bytes: &mut Vec<u8>) {
        bytes.extend_from_slice(&element.number().to_be_bytes());
    }
}

impl TranscriptField for Word {
    fn encode(element: &Self, bytes: &mut Vec<u8>) {
        bytes.extend_from_slice(&element.number().to_be_bytes());
    }
}

/// Why a shell is never run.
const SHELL: &str = "the transcript is a shell here";

/// Shell: the alphabet of a sponge over a field.
pub struct FieldUnit<F>(PhantomData<F>);

/// Shell: how field elements reach a sponge over a field.
pub struct FieldToFieldCodec<F>(PhantomData<F>);

/// Shell: where a step stands in its bracket.
pub enum Hierarchy {
    Begin,
    End,
    Atomic,
}

/// Shell: what a step is.
pub enum Kind {
    Protocol,
    Message,
}

/// Shell: how long a step's message is.
pub enum Length {
    Scalar,
}

/// Shell: one described step.
pub struct Interaction;

impl Interaction {
    pub fn marker<T>(_: Hierarchy, _: Kind, _: &'static str) -> Self {
        unimplemented!("{SHELL}")
    }

    pub fn algebra<F, EF>(_: Hierarchy, _: Kind, _: &'static str, _: Length) -> Self {
        unimplemented!("{SHELL}")
    }
}

/// Shell: all described steps.
pub struct InteractionPattern;

impl InteractionPattern {
    pub fn new(_: Vec<Interaction>) -> Result<Self, &'static str> {
        Err(SHELL)
    }
}

/// Shell: the seed of a transcript.
pub struct DomainSeparator<U>(PhantomData<U>);

impl<U> DomainSeparator<U> {
    pub fn new(_: u8, _: &[u8], _: InteractionPattern) -> Self {
        unimplemented!("{SHELL}")
    }

    pub fn instance(&mut self, _: &[u8]) {
        unimplemented!("{SHELL}")
    }
}

/// Shell: the prover's side of a transcript.
pub struct ProverState<C, U>(C, PhantomData<U>);

impl<C, U> ProverState<C, U> {
    pub fn new(_: C, _: &DomainSeparator<U>) -> Self {
        unimplemented!("{SHELL}")
    }

    pub fn begin_protocol<T>(&mut self, _: &'static str) {}

    pub fn end_protocol<T>(&mut self, _: &'static str) {}

    pub fn challenger_mut(&mut self) -> &mut C {
        &mut self.0
    }

    pub fn observe_extension<F, EF, Codec>(&mut self, _: &'static str, _: &EF) {}

    pub fn finalize(self) -> Vec<u8> {
        unimplemented!("{SHELL}")
    }
}

/// Shell: the verifier's side of a transcript.
pub struct VerifierState<'a, C, U>(C, PhantomData<(&'a [u8], U)>);

impl<'a, C, U> VerifierState<'a, C, U> {
    pub fn new(_: C, _: &DomainSeparator<U>, _: &'a [u8]) -> Self {
        unimplemented!("{SHELL}")
    }

    pub fn begin_protocol<T>(&mut self, _: &'static str) {}

    pub fn end_protocol<T>(&mut self, _: &'static str) {}

    pub fn challenger_mut(&mut self) -> &mut C {
        &mut self.0
    }

    pub fn observe_extension<F, EF, Codec>(&mut self, _: &'static str, _: &EF) {}

    pub fn abort(&mut self) {}

    pub fn finalize(self) -> Result<(), &'static str> {
        Err(SHELL)
    }
}
