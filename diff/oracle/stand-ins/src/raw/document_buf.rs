// Stand-in for owned raw documents: bytes that were admitted.
use super::{RawDocument, Result};

pub struct RawDocumentBuf(Vec<u8>);

pub enum BindRawBsonRef {}

pub enum BindValue {}

impl RawDocumentBuf {
    pub fn from_bytes(bytes: Vec<u8>) -> Result<Self> {
        RawDocument::from_bytes(&bytes)?;
        Ok(Self(bytes))
    }
}

impl std::ops::Deref for RawDocumentBuf {
    type Target = RawDocument;

    fn deref(&self) -> &RawDocument {
        RawDocument::new_unchecked(&self.0)
    }
}

impl AsRef<RawDocument> for RawDocumentBuf {
    fn as_ref(&self) -> &RawDocument {
        self
    }
}

impl std::borrow::Borrow<RawDocument> for RawDocumentBuf {
    fn borrow(&self) -> &RawDocument {
        self
    }
}
