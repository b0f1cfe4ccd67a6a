//! Stand-in for p3-multilinear-util: points, and tables of values over the Boolean cube.

pub mod point {
    use core::ops::Index;

    /// Coordinates, the most significant first.
    #[derive(Clone, Debug, PartialEq, Eq)]
    pub struct Point<F>(Vec<F>);

    impl<F> Point<F> {
        #[must_use]
        pub const fn new(coordinates: Vec<F>) -> Self {
            Self(coordinates)
        }

        #[must_use]
        pub const fn num_variables(&self) -> usize {
            self.0.len()
        }

        #[must_use]
        pub const fn as_slice(&self) -> &[F] {
            self.0.as_slice()
        }

        pub fn iter(&self) -> core::slice::Iter<'_, F> {
            self.0.iter()
        }
    }

    impl<F> Index<usize> for Point<F> {
        type Output = F;

        fn index(&self, coordinate: usize) -> &F {
            &self.0[coordinate]
        }
    }
}

pub mod poly {
    use p3_field::Field;

    /// Values over the Boolean cube, in the order of the indexes.
    #[derive(Clone, Debug, PartialEq, Eq)]
    pub struct Poly<F>(Vec<F>);

    impl<F> Poly<F> {
        #[must_use]
        pub const fn new(evaluations: Vec<F>) -> Self {
            Self(evaluations)
        }

        #[must_use]
        pub const fn as_slice(&self) -> &[F] {
            self.0.as_slice()
        }

        #[must_use]
        pub fn into_evals(self) -> Vec<F> {
            self.0
        }
    }

    impl<F: Field> Poly<F> {
        /// Returns scale times the equality weight of the point at each index; coordinate 0 is the most significant.
        #[must_use]
        pub fn new_from_point(point: &[F], scale: F) -> Self {
            let cells = u32::try_from(point.len())
                .ok()
                .and_then(|bits| 1usize.checked_shl(bits));
            let mut weights = F::zero_vec(cells.expect("zero_vec: a cube of more cells than numbers"));
            weights[0] = scale;
            // Each coordinate, from the last to the first, doubles what is written: the upper half has its bit set.
            let mut written = 1;
            for &coordinate in point.iter().rev() {
                let (lower, upper) = weights[..2 * written].split_at_mut(written);
                for (low, high) in lower.iter_mut().zip(upper) {
                    *high = *low * coordinate;
                    *low -= *high;
                }
                written *= 2;
            }
            Self(weights)
        }
    }
}
