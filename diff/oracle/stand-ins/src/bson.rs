// Stand-in for owned values: what deep_utf8_lossy builds, and the parts that raw values share with them.
pub use crate::document::Document;

use crate::{
    error::{Error, Result},
    oid::ObjectId,
    raw::{CString, RawBson, RawBsonRef},
};

pub type Array = Vec<Bson>;

pub enum Bson {
    Array(Array),
    Document(Document),
    JavaScriptCodeWithScope(JavaScriptCodeWithScope),
    /// Every value that holds no document stays as it was read.
    Leaf(RawBson),
}

impl TryFrom<RawBson> for Bson {
    type Error = Error;

    fn try_from(value: RawBson) -> Result<Self> {
        Ok(Self::Leaf(value))
    }
}

impl TryFrom<RawBsonRef<'_>> for Bson {
    type Error = Error;

    fn try_from(value: RawBsonRef<'_>) -> Result<Self> {
        value.try_into_parsed(0)
    }
}

pub struct DbPointer {
    pub namespace: String,
    pub id: ObjectId,
}

pub struct JavaScriptCodeWithScope {
    pub code: String,
    pub scope: Document,
}

pub struct Regex {
    pub pattern: CString,
    pub options: CString,
}

#[derive(Clone, Copy)]
pub struct Timestamp {
    pub time: u32,
    pub increment: u32,
}

impl Timestamp {
    pub(crate) fn parse(bytes: &[u8]) -> Result<Self> {
        let both = u64::from_le_bytes(bytes.try_into().map_err(Error::malformed_bytes)?);
        Ok(Self {
            time: (both >> 32) as u32,
            increment: both as u32,
        })
    }
}
