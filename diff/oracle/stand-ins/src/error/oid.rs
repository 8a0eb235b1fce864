// Stand-in for the errors of ObjectIds: oid.rs gives them for texts, which the oracle never asks about.
use super::{Error, ErrorKind};

#[derive(Clone, Debug, thiserror::Error)]
#[error("not an ObjectId")]
pub struct ObjectIdErrorKind;

impl Error {
    pub(crate) fn from_hex_error(error: hex::FromHexError, _length: usize) -> Self {
        let kind = ObjectIdErrorKind;
        Self::from(ErrorKind::ObjectId { kind }).with_message(error)
    }

    pub(crate) fn oid_invalid_length(length: usize) -> Self {
        let kind = ObjectIdErrorKind;
        Self::from(ErrorKind::ObjectId { kind }).with_message(length)
    }
}
