
// ---- appended by the oracle's build: not the original ----

/// The private functions that the oracle asks.
pub mod exposed {
    use alloc::vec::Vec;

    use p3_challenger::fs::TranscriptField;
    use p3_field::{ExtensionField, Field};
    use p3_multilinear_util::point::Point;

    use super::selector::{self, JaggedSelector};
    use super::{ColumnSource, JaggedError, JaggedIngestError, JaggedLayout, JaggedPoint, ingest, transcript};

    pub fn validate<F: Field>(source: &ColumnSource<'_, F>, column: usize) -> Result<(), JaggedIngestError> {
        ingest::exposed_validate(source, column)
    }

    pub fn write_into<F: Field>(source: &ColumnSource<'_, F>, out: &mut [F]) {
        ingest::exposed_write_into(source, out);
    }

    pub fn validate_point<F: Field>(layout: &JaggedLayout, point: &JaggedPoint<F>) -> Result<(), JaggedError> {
        JaggedSelector::new(layout).validate_point(point)
    }

    pub fn table<F: Field>(layout: &JaggedLayout, point: &JaggedPoint<F>) -> Vec<F> {
        JaggedSelector::new(layout).table(point)
    }

    pub fn evaluate<F: Field>(layout: &JaggedLayout, point: &JaggedPoint<F>, dense: &Point<F>) -> F {
        JaggedSelector::new(layout).evaluate(point, dense)
    }

    pub fn equality_prefix<F: Field>(point: &[F], length: usize) -> Vec<F> {
        selector::exposed_equality_prefix(point, length)
    }

    pub fn encode_layout(layout: &JaggedLayout) -> Vec<u8> {
        transcript::encode_layout(layout)
    }

    pub fn encode_statement<F, EF>(layout: &JaggedLayout, point: &JaggedPoint<EF>, value: EF) -> Vec<u8>
    where
        F: TranscriptField,
        EF: ExtensionField<F>,
    {
        transcript::exposed_encode_statement::<F, EF>(layout, point, value)
    }
}
