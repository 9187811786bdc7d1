//! Stands in for doradb's errors: the two that the original names.

use error_stack::Report;

#[derive(Debug)]
pub(crate) enum DataIntegrityError {
    InvalidPayload,
}

#[derive(Debug)]
pub(crate) enum ResourceError {
    ColumnBlockEntryCapacityExceeded,
}

pub(crate) type DataIntegrityResult<T> = Result<T, Report<DataIntegrityError>>;
pub(crate) type ResourceResult<T> = Result<T, Report<ResourceError>>;
