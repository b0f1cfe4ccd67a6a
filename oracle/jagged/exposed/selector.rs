
// ---- appended by the oracle's build: not the original ----

pub(super) fn exposed_equality_prefix<F: Field>(point: &[F], length: usize) -> Vec<F> {
    equality_prefix(point, length)
}
