
// ---- appended by the oracle's build: not the original ----

pub(super) fn exposed_encode_statement<F, EF>(
    layout: &JaggedLayout,
    point: &JaggedPoint<EF>,
    claimed_value: EF,
) -> Vec<u8>
where
    F: TranscriptField,
    EF: ExtensionField<F>,
{
    encode_statement::<F, EF>(layout, point, claimed_value)
}
