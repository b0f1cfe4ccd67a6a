
// ---- appended by the oracle's build: not the original ----

pub(super) fn exposed_validate<F: Field>(
    source: &ColumnSource<'_, F>,
    column: usize,
) -> Result<(), JaggedIngestError> {
    source.validate(column)
}

pub(super) fn exposed_write_into<F: Field>(source: &ColumnSource<'_, F>, out: &mut [F]) {
    source.write_into(out);
}
