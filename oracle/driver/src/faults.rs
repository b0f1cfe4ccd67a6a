//! The original's errors by the numbers, names and fields of the library's faults.

use jagged::jagged::{JaggedError, JaggedIngestError, JaggedLayoutError};

pub fn of_layout(error: &JaggedLayoutError) -> String {
    use JaggedLayoutError as E;
    match error {
        E::NoColumns => "fault 1 NoColumns".into(),
        E::ColumnCountNotPowerOfTwo { columns } => format!("fault 2 ColumnCountNotPowerOfTwo columns={columns}"),
        E::RowVariablesOverflow { variables } => format!("fault 4 RowVariablesOverflow variables={variables}"),
        E::HeightExceedsRowBound {
            column,
            height,
            maximum,
        } => {
            format!("fault 5 HeightExceedsRowBound column={column} height={height} maximum={maximum}")
        }
        E::AreaOverflow { column } => format!("fault 6 AreaOverflow column={column}"),
        E::DenseAreaOverflow { area } => format!("fault 7 DenseAreaOverflow area={area}"),
        E::DenseVariablesOverflow { variables } => format!("fault 8 DenseVariablesOverflow variables={variables}"),
    }
}

pub fn of_ingest(error: &JaggedIngestError) -> String {
    use JaggedIngestError as E;
    match error {
        E::CommittedVectorTooShort { required, available } => {
            format!("fault 9 CommittedVectorTooShort required={required} available={available}")
        }
        E::ColumnCountMismatch { expected, actual } => {
            format!("fault 10 ColumnCountMismatch expected={expected} actual={actual}")
        }
        E::ColumnHeightMismatch {
            column,
            expected,
            actual,
        } => {
            format!("fault 11 ColumnHeightMismatch column={column} expected={expected} actual={actual}")
        }
        E::ZeroStride { column } => format!("fault 12 ZeroStride column={column}"),
        E::StrideOutOfRange {
            column,
            required,
            available,
        } => {
            format!("fault 13 StrideOutOfRange column={column} required={required} available={available}")
        }
        E::PackedWordsTooShort {
            column,
            required,
            available,
        } => {
            format!("fault 14 PackedWordsTooShort column={column} required={required} available={available}")
        }
    }
}

pub fn of_point(error: &JaggedError) -> String {
    use JaggedError as E;
    match error {
        E::RowPointWidthMismatch { expected, actual } => {
            format!("fault 24 RowPointWidthMismatch expected={expected} actual={actual}")
        }
        E::ColumnPointWidthMismatch { expected, actual } => {
            format!("fault 25 ColumnPointWidthMismatch expected={expected} actual={actual}")
        }
        other => format!("another error: {other:?}"),
    }
}
