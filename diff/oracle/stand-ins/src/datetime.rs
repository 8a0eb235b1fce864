// Stand-in for datetimes: the milliseconds of a value, as they are stored.
use crate::error::{Error, Result};

#[derive(Clone, Copy)]
pub struct DateTime(i64);

impl DateTime {
    pub const fn from_millis(millis: i64) -> Self {
        Self(millis)
    }

    pub const fn timestamp_millis(self) -> i64 {
        self.0
    }

    pub(crate) fn parse(bytes: &[u8]) -> Result<Self> {
        let bytes = bytes.try_into().map_err(Error::malformed_bytes)?;
        Ok(Self(i64::from_le_bytes(bytes)))
    }
}
