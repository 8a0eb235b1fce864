// Stand-in for decimal128: the sixteen bytes of a value.
use crate::error::{Error, Result};

#[derive(Clone, Copy)]
pub struct Decimal128 {
    bytes: [u8; 16],
}

impl Decimal128 {
    pub const fn bytes(&self) -> [u8; 16] {
        self.bytes
    }

    pub(crate) fn parse(bytes: &[u8]) -> Result<Self> {
        let bytes = bytes.try_into().map_err(Error::malformed_bytes)?;
        Ok(Self { bytes })
    }
}
