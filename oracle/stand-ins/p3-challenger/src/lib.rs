//! Stand-in for p3-challenger: the bytes of coefficients, and shells without content for everything of the transcript.

pub mod fs;

/// Shell: a sponge that takes elements.
pub trait CanObserve<T> {}

/// Shell: a sponge that gives elements.
pub trait CanSample<T> {}

/// Shell: a challenger over a field.
pub trait FieldChallenger<F>: CanObserve<F> + CanSample<F> {}

/// Shell: a challenger that grinds.
pub trait GrindingChallenger {
    type Witness;
}
