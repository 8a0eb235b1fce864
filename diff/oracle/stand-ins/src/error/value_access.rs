// Stand-in for the errors of lookups: the three ways in which get_with of document.rs refuses.
use super::{Error, ErrorKind};
use crate::spec::ElementType;

#[derive(Clone, Debug, thiserror::Error)]
pub enum ValueAccessErrorKind {
    #[error("not present")]
    NotPresent,
    #[error("unexpected type")]
    UnexpectedType,
    #[error("invalid BSON")]
    InvalidBson,
}

impl Error {
    pub(crate) fn value_access_not_present() -> Self {
        let kind = ValueAccessErrorKind::NotPresent;
        ErrorKind::ValueAccess { kind }.into()
    }

    pub(crate) fn value_access_unexpected_type(actual: ElementType, expected: ElementType) -> Self {
        let kind = ValueAccessErrorKind::UnexpectedType;
        let message = format!("{actual:?} where {expected:?} was asked");
        Self::from(ErrorKind::ValueAccess { kind }).with_message(message)
    }

    pub(crate) fn value_access_invalid_bson(message: String) -> Self {
        let kind = ValueAccessErrorKind::InvalidBson;
        Self::from(ErrorKind::ValueAccess { kind }).with_message(message)
    }
}
