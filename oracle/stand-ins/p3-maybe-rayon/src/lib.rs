//! Stand-in for p3-maybe-rayon: its iterators run in sequence here.

pub mod prelude {
    /// `into_par_iter` of everything that can be iterated over.
    pub trait IntoParallelIterator: IntoIterator + Sized {
        fn into_par_iter(self) -> Self::IntoIter {
            self.into_iter()
        }
    }

    impl<I: IntoIterator> IntoParallelIterator for I {}

    /// `par_iter` of slices.
    pub trait IntoParallelRefIterator<T> {
        fn par_iter(&self) -> core::slice::Iter<'_, T>;
    }

    impl<T> IntoParallelRefIterator<T> for [T] {
        fn par_iter(&self) -> core::slice::Iter<'_, T> {
            self.iter()
        }
    }
}
